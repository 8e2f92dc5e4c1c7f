#!/bin/sh
# Times `devconf boot` of an indirect bus with 125, 250 and 500 spots under eight times as many rows, as the mean of three
# calls each, and prints by how much the time grows where there are twice as many spots and rows. A search goes through the
# spots for each device that comes, so four times is what the work grows by.
# Usage: bench/indirect.sh
set -e
top=$(cd "$(dirname "$0")/.." && pwd)
. "$top/bench/measure.sh"

# An indirect bus with so many spots, and eight rows for each of them, of which one suits it.
make_rows() {
    {
        printf '%s\n' 'device bus {[slot = -1]}' 'attach bus at root' 'device x' 'attach x at bus' 'bus0 at root'
        awk -v rows=$((8 * $1)) 'BEGIN { for (i = 0; i < rows; i++) print "x" i " at bus? slot " i }'
    } >"$folder/conf"
    awk -v spots="$1" 'BEGIN {
        print "spot b root root"
        print "match bus b 1"
        print "match x * 1"
        for (i = 0; i < spots; i++) print "spot s" i " b bus slot=" 8 * i
        print "style bus bus indirect"
    }' >"$folder/mach"
}

echo "spots   processor s   ratio"
last=-
for spots in 125 250 500; do
    make_rows "$spots"
    took=$(seconds_of 3 boot conf mach)
    printf '%5d %13s   %s\n' "$spots" "$took" "$(ratio "$last" "$took")"
    last=$took
done
