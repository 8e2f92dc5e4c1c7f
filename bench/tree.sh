#!/bin/sh
# Times `devconf play` of a script that lists a tree of 250, 500 and 1,000 disks below one bus 50 times, as the mean of three
# calls each, and prints by how much the time grows where there are twice as many disks.
# Usage: bench/tree.sh
set -e
top=$(cd "$(dirname "$0")/.." && pwd)
. "$top/bench/measure.sh"

echo "disks   processor s   ratio"
last=-
for disks in 250 500 1000; do
    make_disks "$disks" 50 tree 1
    took=$(seconds_of 3 play conf mach order script)
    printf '%5d %13s   %s\n' "$disks" "$took" "$(ratio "$last" "$took")"
    last=$took
done
