# Completes the words of pddl3c in fish: commands, and behind them names of files.
set -l commands compile lift embed evaluate generate compile-flat explain watch
set -l first "not __fish_seen_subcommand_from $commands"
complete -c pddl3c -n "$first" -f
complete -c pddl3c -n "$first" -a compile -d 'write a plain task'
complete -c pddl3c -n "$first" -a lift -d 'bring a plan of the written task home'
complete -c pddl3c -n "$first" -a embed -d 'write a plain task, and a plan as one of it'
complete -c pddl3c -n "$first" -a evaluate -d 'judge a plan'
complete -c pddl3c -n "$first" -a generate -d 'write a sample'
complete -c pddl3c -n "$first" -a compile-flat -d 'write a plain task without conditional effects'
complete -c pddl3c -n "$first" -a explain -d 'say where a plan is decided'
complete -c pddl3c -n "$first" -a watch -d 'judge a plan line by line'
complete -c pddl3c -n "$first; and not __fish_seen_subcommand_from help" -a help -d 'say what the commands are'
complete -c pddl3c -n "$first" -l version -d 'say which version and which program this is'
complete -c pddl3c -n "$first" -l force -d 'let an output be an input'
