#!/bin/sh
# Times `devconf replay` of histories of 256 KiB, 512 KiB and 1 MiB, the most that a file may have, and prints by how much the
# time grows where the history is twice as long. The machine has 1,024 spots, as many as one may have: a bus, a hub below it,
# and 1,022 leaves below the hub. In the histories `none` no driver takes a leaf, and each search of the hub tells a line for
# each; in those `all` the leaves come with each search of the bus, and go with the hub.
# Usage: bench/replay.sh
set -e
top=$(cd "$(dirname "$0")/.." && pwd)
. "$top/bench/measure.sh"

make_machine() {
    printf '%s\n' 'device bus {}' 'attach bus at root' 'device hub {}' 'attach hub at bus' 'device leaf' 'attach leaf at hub' \
        'bus0 at root' 'hub* at bus?' 'leaf* at hub?' >"$folder/conf"
    awk 'BEGIN {
        print "spot b root root"
        print "spot h b bus"
        for (i = 0; i < 1022; i++) print "spot l" i " h hub"
        print "match bus * 1"
        print "match hub * 1"
    }' >"$folder/bare"
    { cat "$folder/bare"; echo 'match leaf * 1'; } >"$folder/full"
}

# Plays this script on this machine with so many turns, and keeps its history.
play() {
    awk -v turns="$3" 'BEGIN { for (turn = 0; turn < turns; turn++) printf "1%s", turn % 100 == 99 ? "\n" : " "; print "" }' >"$folder/order"
    (cd "$folder" && "$program" play conf "$1" order "$2" | sed '1,/^history 2$/d; /^tree$/,$d' >events)
}

# The first so many KiB of this history, cut behind a line, with its head and its end.
cut_history() {
    awk -v bytes="$(($1 * 1024 - 15))" '
    BEGIN { print "history 2" }
    { bytes -= length($0) + 1; if (bytes < 0) exit; print }
    END { print "tree" }' "$folder/events" >"$folder/history"
}

measure() {
    last=-
    for size in 256 512 1024; do
        cut_history "$size"
        took=$(seconds_of 1 replay conf "$1" history "$2")
        printf '%9s %13s %8d   %s\n' "$size-$3" "$took" "$(($(wc -l <"$folder/history") - 2))" "$(ratio "$last" "$took")"
        last=$took
    done
}

make_machine
echo '      KiB   processor s   events   ratio'
awk 'BEGIN { for (i = 0; i < 40; i++) print "rescan hub0" }' >"$folder/search"
play bare search 41000
measure bare search none
awk 'BEGIN { for (i = 0; i < 20; i++) print "detach hub0\nrescan bus0" }' >"$folder/cycle"
play full cycle 45000
measure full cycle all
