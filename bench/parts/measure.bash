# shellcheck shell=bash
# What bench/compile and bench/plans share: the program, the peer, and how a run is measured.

# The program to measure, `--flat`, `--peer` and `--instructions` among the words; what is left of them
# is `rest`.
top=$(cd "$(dirname "${BASH_SOURCE[0]}")/../.." && pwd)
program=${PROGRAM:-$("$top/bin/parts/program")}
command=compile
peer=
unit=seconds
rest=()
while [ $# -gt 0 ]; do
    case $1 in
        --peer) peer=$2 && shift ;;
        --flat) command=compile-flat ;;
        --instructions) unit=millions ;;
        *) rest+=("$1") ;;
    esac
    shift
done
if [ "$unit" = millions ] && ! command -v valgrind >/dev/null; then
    echo "there is no valgrind, which counts instructions" >&2
    exit 70
fi
work=$(mktemp -d)
trap 'rm -rf "$work"' EXIT
cd "$work" || exit 70

# Runs a command; gives its seconds of user and system time and its memory in kB, and leaves in
# `printed` what it printed.
timed() {
    /usr/bin/time -o usage -f '%U %S %M' "$@" >printed 2>&1 || true
    tail -n 1 usage | awk '{ printf "%.2f %d", $1 + $2, $3 }'
}

# Gives the millions of instructions of a command.
instructions() {
    valgrind --tool=callgrind --callgrind-out-file=/dev/null "$@" 2>&1 >/dev/null |
        awk '/Collected/ { printf "%.1f", $NF / 1e6 }'
}

# Runs a command, and gives seconds, or millions of instructions, and its memory in kB.
measured() {
    local spent memory
    read -r spent memory <<<"$(timed "$@")"
    [ "$unit" = seconds ] || spent=$(instructions "$@")
    echo "$spent $memory"
}

# Prints what a command of the peer takes, and the ratio of what the program took to that.
beside_peer() {
    local spent=$1 peer_spent peer_memory
    shift
    [ -n "$peer" ] || return 0
    read -r peer_spent peer_memory <<<"$(measured "$peer" "$@")"
    awk -v s="$spent" -v p="$peer_spent" -v m="$peer_memory" \
        'BEGIN { printf " %9s %9.1f %7s", p, m / 1000, (p > 0 ? sprintf("%.1f", s / p) : "-") }'
}
