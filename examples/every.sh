#!/bin/sh
# Goes through every order of scripts by `drvall`, and compares what it says with runs: each order that it tells, played by `devconf play`,
# has to lead to the tree of the end under which it is told, or to callers of whom nobody can go on; and each of many runs of `drvrun`
# has to end in one of these trees, or to stand still with one of these lists of who waits. A line for each case, and status 1 at the
# first that differs. Usage: examples/every.sh [RUNS [DRVALL DRVRUN DEVCONF]], 1,000 runs where none are said
here=$(cd "$(dirname "$0")" && pwd)
runs=${1:-1000}
drvall=$(readlink -f "${2:-$here/../drvall}") && drvrun=$(readlink -f "${3:-$here/../drvrun}") && devconf=$(readlink -f "${4:-$here/../devconf}") || exit 1
work=$(mktemp -d) || exit 1
trap 'rm -rf "$work"' EXIT
cd "$here" || exit 1

fail() {
    rm -rf "${TMPDIR:-/tmp}/refused.every"
    cp -R "$work" "${TMPDIR:-/tmp}/refused.every"
    echo "$1: $2: see ${TMPDIR:-/tmp}/refused.every"
    exit 1
}

# Cuts what drvall wrote into its ways: for each a file with the order and one with the text.
cut_ways() {
    rm -f "$work"/*.order "$work"/*.text
    awk -v work="$work" '
    /^(end|stuck) [0-9]+$/ { way = work "/" $1 "." $2; next }
    way && sub(/^order/, "") { print >(way ".order"); close(way ".order"); printf "" >(way ".text"); next }
    way { print >(way ".text") }' "$work/said"
}

# The sums of the texts of the ways of this kind.
sums_of() {
    for text in "$work/$1".*.text; do
        [ ! -e "$text" ] || cksum <"$text"
    done
}

# Plays the orders that are told: to their tree, or to where the turns of all callers change nothing any more.
play_ways() {
    name=$1
    shift
    for order in "$work"/*.order; do
        way=${order%.order}
        "$devconf" play "$1" "$2" "$order" $scripts >"$work/played" || fail "$name" "the order of ${way##*/}"
        case ${way##*/} in
        end.*) sed -n '/^tree$/,$p' "$work/played" | cmp -s - "$way.text" || fail "$name" "the tree of ${way##*/}" ;;
        stuck.*)
            awk '{ print; for (turn = 1; turn <= 16; turn++) for (caller = 1; caller <= callers; caller++) printf "%d ", caller; print "" }' \
                callers="$callers" "$order" >"$work/longer"
            "$devconf" play "$1" "$2" "$work/longer" $scripts | cmp -s - "$work/played" || fail "$name" "${way##*/} goes on"
            ;;
        esac
    done
}

# Runs the scripts side by side again and again.
run_all() {
    name=$1
    shift
    sums_of end | sort -u >"$work/ends"
    sums_of stuck | sort -u >"$work/stucks"
    : >"$work/met"
    n=0
    while [ "$n" -lt "$runs" ]; do
        "$drvrun" "$1" "$2" $scripts >"$work/run" 2>"$work/waits"
        case $? in
        0) sum=$(sed -n '/^tree$/,$p' "$work/run" | cksum) && grep -qxF "$sum" "$work/ends" || fail "$name" 'a tree that is no end' ;;
        11) sum=$(sed 's/^stuck: //' "$work/waits" | cksum) && grep -qxF "$sum" "$work/stucks" || fail "$name" 'callers that are not told to stand still' ;;
        *) fail "$name" 'drvrun' ;;
        esac
        echo "$sum" >>"$work/met"
        n=$((n + 1))
    done
}

# The case of this name has so many ends, and scripts stand still in so many ways.
every() {
    name=$1
    ends=$2
    stuck=$3
    config=$4
    machine=$5
    shift 5
    scripts=$*
    callers=$#
    "$drvall" "$config" "$machine" "$@" >"$work/said"
    case $?:$stuck in
    0:0) ;;
    11:0 | 0:*) fail "$name" 'the status' ;;
    11:*) ;;
    *) fail "$name" 'drvall' ;;
    esac
    cut_ways
    [ "$(ls "$work" | grep -c '^end\..*\.text$'):$(ls "$work" | grep -c '^stuck\..*\.text$')" = "$ends:$stuck" ] || fail "$name" 'how many ways there are'
    play_ways "$name" "$config" "$machine"
    run_all "$name" "$config" "$machine"
    echo "$name: $(sed -n 's/^worlds //p' "$work/said") worlds, $ends ends, $stuck standstills; $runs runs met $(sort -u "$work/met" | wc -l | tr -d ' ') of them"
}

# A script that opens a device, uses it for a while, and then takes another one away.
taker() {
    awk -v own="$2" -v other="$3" 'BEGIN {
        print "open " own
        for (n = 0; n < 20; n++) print "io " own " 1"
        print "detach " other
    }' >"$work/$1.script"
}

# A script of these lines.
script() {
    file=$work/$1.script
    shift
    printf '%s\n' "$@" >"$file"
}

script searches 'list isa0' 'rescan isa0' 'suspend com1'
script takes 'detach com1' 'rescan isa0' 'resume com1'
every 'no script that holds' 2 0 small.conf small.machine "$work/searches.script" "$work/takes.script"
taker one com0 com1
taker two com1 com0
every 'a ring of two' 1 1 small.conf small.machine "$work/one.script" "$work/two.script"
every 'a disk, in use and taken' 1 0 disk.conf disk.machine copy.script eject.script
script sleeps 'suspend com0' 'resume isa0'
every 'power turns' 2 0 small.conf small.machine power.script "$work/sleeps.script"
cd pc || exit 1
every 'a disk, in use while its controller is detached' 1 0 GENERIC ../machines/pc ../hold.script ../detach.script
script looks 'rescan atabus0' 'list atabus0'
every 'plug and rescan' 1 0 GENERIC ../machines/pc ../plug.script "$work/looks.script"
every 'a single script' 1 0 GENERIC ../machines/pc ../plug.script
"$devconf" play GENERIC ../machines/pc ../plug.order ../plug.script | sed -n '/^tree$/,$p' | cmp -s - "$work/end.1.text" || fail 'a single script' 'the tree of play'
