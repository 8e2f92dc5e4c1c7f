#!/bin/sh
# Times `devconf boot` of a bus with 250, 500 and 1,000 spots under 4,000 starred rows, on a machine with 15,000 match lines
# for one of the spots, as the mean of three calls each, and prints by how much the time grows where there are twice as many
# spots.
# Usage: bench/search.sh
set -e
top=$(cd "$(dirname "$0")/.." && pwd)
. "$top/bench/measure.sh"

# A bus with so many spots.
make_bus() {
    awk -v spots="$1" 'BEGIN {
        print "spot b root root"
        print "match bus * 1"
        for (i = 0; i < spots; i++) print "spot s" i " b bus slot=" i
        for (i = 0; i < 15000; i++) print "match disk s5 1"
    }' >"$folder/mach"
}

{
    printf '%s\n' 'device bus {[slot = -1]}' 'attach bus at root' 'device disk' 'attach disk at bus' 'bus0 at root'
    awk 'BEGIN { for (i = 0; i < 4000; i++) print "disk* at bus?" }'
} >"$folder/conf"
echo "spots   processor s   ratio"
last=-
for spots in 250 500 1000; do
    make_bus "$spots"
    took=$(seconds_of 3 boot conf mach)
    printf '%5d %13s   %s\n' "$spots" "$took" "$(ratio "$last" "$took")"
    last=$took
done
