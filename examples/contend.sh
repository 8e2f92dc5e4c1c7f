#!/bin/sh
# Runs scripts side by side that contend for the same devices, again and again: first two for one disk, then sixteen on a small
# PC, and then pairs, triples and sixteen that may stand still. Any order of their events is right, so nothing is stored:
# `devconf replay` has to take each history, and to give the tree that was written with it. A run of scripts that may stand
# still has to end within a second; if they stood still, tools/summary has to name the same callers, devices and holders, and a ring
# of them. A line for each of the five, and status 1 at the first run that is refused.
# Usage: examples/contend.sh [RUNS [DRVRUN DEVCONF]], 1,000 runs where none are said
here=$(cd "$(dirname "$0")" && pwd)
runs=${1:-1000}
drvrun=$(readlink -f "${2:-$here/../drvrun}") && devconf=$(readlink -f "${3:-$here/../devconf}") || exit 1
work=$(mktemp -d) || exit 1
trap 'rm -rf "$work"' EXIT
cd "$here" || exit 1

fail() {
    cp "$work/run" "${TMPDIR:-/tmp}/refused.run"
    echo "$1: ${TMPDIR:-/tmp}/refused.run is not as it should be"
    exit 1
}

# Runs these scripts with that configuration and machine.
contend() {
    name=$1
    files=$2
    shift 2
    : >"$work/sums"
    n=0
    while [ "$n" -lt "$runs" ]; do
        "$drvrun" "$files.conf" "$files.machine" "$@" >"$work/run" || fail "$name"
        "$devconf" replay "$files.conf" "$files.machine" "$work/run" "$@" >"$work/tree" || fail "$name"
        sed -n '/^tree$/,$p' "$work/run" | cmp -s - "$work/tree" || fail "$name"
        cksum <"$work/run" >>"$work/sums"
        n=$((n + 1))
    done
    echo "$name: $runs runs, $(sort -u "$work/sums" | wc -l | tr -d ' ') histories, each taken by devconf replay"
}

# The lines `stuck: ..` of the callers that wait by the summary $1.
who_waits() {
    awk '
    / is to free .*, and waits: callers? .* holds? it$/ {
        caller = $2
        device = $6; sub(/,$/, "", device)
        sub(/^.* and waits: callers? /, ""); sub(/ holds? it$/, ""); gsub(/,/, "")
        print "stuck: " caller " waits for " device ", held by " $0
    }' "$1"
}

# Whether the summary $1 names a ring, in which by the lines $2 each caller waits for what the next one holds.
names_ring() {
    awk '
    NR == FNR { for (n = 8; n <= NF; n++) waits[$2, $n] = 1; next }
    / a ring: caller / {
        rings++
        sub(/^.* a ring: caller /, ""); sub(/;.*/, "")
        count = split($0, step, ", ")
        for (n = 1; n <= count; n++) { split(step[n], word, " "); if (!((word[1], word[4]) in waits)) wrong = 1 }
    }
    END { exit !rings || wrong }' "$2" "$1"
}

# Whether tools/summary says the same of the run $1 as these lines. It names the callers in the order in which they came.
says_the_same() {
    "$here/../tools/summary" -a "$1" >"$work/told"
    who_waits "$work/told" | sort >"$work/named"
    sort "$2" | cmp -s - "$work/named" && names_ring "$work/told" "$2"
}

# Runs these scripts, which may stand still, with that configuration and machine.
stand() {
    name=$1
    files=$2
    shift 2
    : >"$work/sums"
    n=0
    stuck=0
    while [ "$n" -lt "$runs" ]; do
        timeout 1 "$drvrun" "$files.conf" "$files.machine" "$@" >"$work/run" 2>"$work/waits"
        case $? in
        0) [ ! -s "$work/waits" ] || fail "$name" ;;
        11) stuck=$((stuck + 1)) && says_the_same "$work/run" "$work/waits" || fail "$name" ;;
        *) fail "$name" ;;
        esac
        "$devconf" replay "$files.conf" "$files.machine" "$work/run" "$@" >"$work/tree" || fail "$name"
        sed -n '/^tree$/,$p' "$work/run" | cmp -s - "$work/tree" || fail "$name"
        cksum <"$work/run" >>"$work/sums"
        n=$((n + 1))
    done
    echo "$name: $runs runs, $stuck stood still, $(sort -u "$work/sums" | wc -l | tr -d ' ') histories, each taken by devconf replay"
}

contend 'two scripts, one disk' disk copy.script eject.script
set --
while [ $# -lt 16 ]; do set -- "$@" greedy.script; done
contend 'sixteen scripts' small "$@"

# A script that opens a device, uses it for a while, and then takes another one away.
taker() {
    awk -v own="$1" -v other="$2" 'BEGIN {
        print "open " own
        for (n = 0; n < 20; n++) print "io " own " 1"
        print "detach " other
    }'
}

taker com0 com1 >"$work/first"
taker com1 com0 >"$work/second"
stand 'a pair' small "$work/first" "$work/second"
cat >"$work/three.conf" <<'END'
device bus {[at = -1]}
attach bus at root
device port
attach port at bus
bus0 at root
port* at bus?
END
printf 'spot b root root\nspot p0 b bus at=0\nspot p1 b bus at=1\nspot p2 b bus at=2\nmatch bus b 1\nmatch port * 1\n' >"$work/three.machine"
for n in 0 1 2; do taker port$n port$(((n + 1) % 3)) >"$work/third$n"; done
stand 'a triple' "$work/three" "$work/third0" "$work/third1" "$work/third2"
set --
while [ $# -lt 16 ]; do set -- "$@" "$work/first" "$work/second"; done
stand 'sixteen that may stand still' small "$@"
