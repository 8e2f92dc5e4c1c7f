#!/bin/sh
# What a person waits for a call: milliseconds on the clock, the least and the median of 200 calls, of `ioconf` of the examples' kernel
# for amd64 and of its boot on the server; and the instructions that a call spends before it opens the first file. Beside another program,
# if one is given, call by call in turns. Usage: bench/felt.sh [OTHER]; OTHER is one with the words of devconf.
set -e
top=$(cd "$(dirname "$0")/.." && pwd)
. "$top/bench/measure.sh"
other=${1:+$(realpath "$1")}
cd "$top/examples/amd64"

# The microseconds of one call with these words.
micros() {
    began=$(date +%s%N)
    "$@" >"$folder/written"
    ended=$(date +%s%N)
    echo $(((ended - began) / 1000))
}

# The least and the median of the numbers in a file, in milliseconds.
least_and_median() {
    sort -n "$1" | awk '{ t[NR] = $1 / 1000 } END { printf "%.2f, %.2f", t[1], t[int((NR + 1) / 2)] }'
}

row() {
    : >"$folder/ours"
    : >"$folder/theirs"
    left=200
    while [ "$left" -gt 0 ]; do
        micros "$program" "$@" >>"$folder/ours"
        [ -z "$other" ] || micros "$other" "$@" >>"$folder/theirs"
        left=$((left - 1))
    done
    printf '%-8s devconf %s ms' "$1" "$(least_and_median "$folder/ours")"
    [ -z "$other" ] || printf '; the other %s ms' "$(least_and_median "$folder/theirs")"
    echo
}

row ioconf GENERIC
row boot GENERIC ../machines/server

if command -v valgrind >/dev/null; then
    valgrind --tool=callgrind --callgrind-out-file=/dev/null "$program" ioconf "$folder/absent" 2>&1 |
        awk '/refs:/ { print "before the first file: " $NF " instructions" }'
fi
