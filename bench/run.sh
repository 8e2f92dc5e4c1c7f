#!/bin/sh
# Builds the program where that is needed, runs all benches, and prints one table: what one call takes, in processor
# seconds, and the ratio to the row before. Usage: bench/run.sh
set -e
top=$(cd "$(dirname "$0")/.." && pwd)
. "$top/bench/measure.sh"

row() {
    printf '%-30s %11s   %s\n' "$1" "$2" "$3"
}

# The rows of a bench, each named by its size between these two words; where it says one line alone, that line.
rows_of() {
    "$top/bench/$1" >"$folder/table"
    if [ "$(wc -l <"$folder/table")" -eq 1 ]; then
        cat "$folder/table"
    else
        sed 1d "$folder/table" | while read -r size took rest; do row "$2 $size $3" "$took" "${rest##* }"; done
    fi
}

row benchmark 'processor s' ratio
rows_of text.sh 'ioconf, a text of' KiB
rows_of ioconf.sh ioconf, statements
rows_of files.sh files, statements
rows_of load.sh 'load, a bus with' disks
rows_of search.sh 'boot, 4,000 rows,' spots
rows_of indirect.sh 'boot, an indirect bus with' spots
rows_of rescan.sh 'play, 1,024 spots,' rescans
rows_of tree.sh 'play, trees of' disks
rows_of power.sh 'play, a bus that sleeps with' disks
rows_of replay.sh 'replay, 1,024 spots,' KiB
rows_of tables.sh 'tables, a plan of' lines
