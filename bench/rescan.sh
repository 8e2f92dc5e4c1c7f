#!/bin/sh
# Times `devconf play` of a script that searches one bus again 125, 250 and 500 times, as the mean of three calls each, and
# prints by how much the time grows where it searches twice as often. The machine has 1,024 spots, as many as one may have:
# the bus, and 1,023 below it that no driver takes, so that each search looks at all of them and tells a line for each.
# Usage: bench/rescan.sh
set -e
top=$(cd "$(dirname "$0")/.." && pwd)
. "$top/bench/measure.sh"

make_machine
make_script 1
status=0
(cd "$folder" && "$program" play conf mach order script >written 2>&1) || status=$?
if [ "$status" = 2 ]; then
    echo "play is left out: this program does not have it"
    exit
fi
echo "rescans   processor s   ratio"
last=-
for rescans in 125 250 500; do
    make_script "$rescans"
    took=$(seconds_of 3 play conf mach order script)
    printf '%7d %13s   %s\n' "$rescans" "$took" "$(ratio "$last" "$took")"
    last=$took
done
