#!/bin/sh
# Times `devconf play` of a script that suspends a bus with 250, 500 and 1,000 disks and resumes it, 20 times, as the mean of
# three calls each, and prints by how much the time grows where there are twice as many disks.
# Usage: bench/power.sh
set -e
top=$(cd "$(dirname "$0")/.." && pwd)
. "$top/bench/measure.sh"

echo "disks   processor s   ratio"
last=-
for disks in 250 500 1000; do
    make_disks "$disks" 20 'suspend bus0,resumetree bus0' $((2 * (disks + 3)))
    took=$(seconds_of 3 play conf mach order script)
    printf '%5d %13s   %s\n' "$disks" "$took" "$(ratio "$last" "$took")"
    last=$took
done
