# Completes the words of pddl3c in bash: commands, and behind them names of files.
# shellcheck shell=bash
_pddl3c() {
    local word=${COMP_WORDS[COMP_CWORD]} at=1
    local commands='compile lift embed evaluate generate compile-flat explain watch'
    [ "${COMP_WORDS[1]}" != --force ] || [ "$COMP_CWORD" = 1 ] || at=2
    COMPREPLY=()
    if [ "$COMP_CWORD" = 1 ]; then
        mapfile -t COMPREPLY < <(compgen -W "$commands help --help --version --force" -- "$word")
    elif [ "$COMP_CWORD" = "$at" ] || { [ "${COMP_WORDS[1]}" = help ] && [ "$COMP_CWORD" = 2 ]; }; then
        mapfile -t COMPREPLY < <(compgen -W "$commands" -- "$word")
    fi
}
complete -o default -F _pddl3c pddl3c
