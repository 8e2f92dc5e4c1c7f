#!/bin/sh
# Times `devconf load N`, the boot of a machine with N disks that the program makes for itself, for 125, 250, 500 and 1,000
# of them, as the mean of 200 calls each, and prints by how much the time grows where the machine is twice as large.
# Usage: bench/load.sh
set -e
top=$(cd "$(dirname "$0")/.." && pwd)
. "$top/bench/measure.sh"

status=0
"$program" load 1 >/dev/null 2>&1 || status=$?
if [ "$status" = 2 ]; then
    echo "load is left out: this program does not have it"
    exit
fi
echo "  disks   processor s   ratio"
last=-
for disks in 125 250 500 1000; do
    took=$(seconds_of 200 load "$disks")
    printf '%7d %13s   %s\n' "$disks" "$took" "$(ratio "$last" "$took")"
    last=$took
done
