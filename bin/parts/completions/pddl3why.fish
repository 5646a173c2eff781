# Completes the words of pddl3why in fish: commands, and behind them names of files.
set -l first 'not __fish_seen_subcommand_from plan names'
complete -c pddl3why -n "$first" -f
complete -c pddl3why -n "$first" -a plan -d 'say why a plan is not valid, and what its metric is made of'
complete -c pddl3why -n "$first" -a names -d 'say what the names of a written task stand for'
complete -c pddl3why -n "$first" -a help -d 'say what the commands are'
