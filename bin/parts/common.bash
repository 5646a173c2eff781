# What the commands share: where the program is, whether it is older than its sources, and what words it
# takes. An installed folder has the program itself, and no sources.
# shellcheck shell=bash disable=SC2034
top=$(cd "${BASH_SOURCE[0]%/*}/../.." && pwd -P)
out=$top/crates/pddl3c/out
proved=$out/pddl3c
unproved=$out/pddl3c-unproved
installed=$top/program

say() {
    echo "pddl3c: $*" >&2
}

# Whether a program is there that is not older than its sources.
is_fresh() {
    [ -x "$1" ] && [ -z "$(find "$top"/crates/*/src -name '*.rt' -newer "$1" -print -quit)" ]
}

# Sets `program` to the one that bin/pddl3c runs: the proved one, where it is not older than its sources;
# else the one that was compiled from them without a proof, which is made where it is missing or older;
# else bin/parts/interpret. With the name of another program it is that one, and the status is 1 where
# there is none.
find_program() {
    [ "${1:-pddl3c}" = pddl3c ] || {
        find_other "$1"
        return
    }
    if [ -x "$installed" ]; then
        program=$installed
    elif is_fresh "$proved"; then
        program=$proved
    elif is_fresh "$unproved" || "$top/bin/parts/compile"; then
        program=$unproved
    else
        program=$top/bin/parts/interpret
    fi
}

# Sets `program` to another one, which stands beside pddl3c where that is installed.
find_other() {
    local made=$top/crates/$1/out/$1
    if [ ! -d "$top/crates" ]; then
        program=$top/programs/$1
        [ -x "$program" ]
    elif is_fresh "$made"; then
        program=$made
    else
        program=$made-unproved
        [ -d "$top/crates/$1" ] && { is_fresh "$program" || "$top/bin/parts/compile" "$1"; }
    fi
}

# Sets `reads` and `writes` to what stands behind a command, by the names that the program has for its
# files, and `letters` to what MANUAL calls them. The number of a sample counts as read.
shape_of() {
    reads=(domain problem) writes=(written-domain written-problem)
    case $1 in
        compile | compile-flat) letters=(D P OD OP) ;;
        lift) letters=(D P OD OP PLAN OUT) reads+=("${writes[@]}" plan) writes=(plan) ;;
        embed) letters=(D P PLAN OD OP OUT) reads+=(plan) writes+=(plan) ;;
        evaluate | explain | watch) letters=(D P PLAN) reads+=(plan) writes=() ;;
        generate) letters=(N D P PLAN) reads=(number) writes=(domain problem plan) ;;
        *) return 1 ;;
    esac
}
