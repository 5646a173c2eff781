# Completes the words of pddl3why in bash: commands, and behind them names of files.
# shellcheck shell=bash
_pddl3why() {
    COMPREPLY=()
    if [ "$COMP_CWORD" = 1 ]; then
        mapfile -t COMPREPLY < <(compgen -W 'plan names help --help' -- "${COMP_WORDS[1]}")
    fi
}
complete -o default -F _pddl3why pddl3why
