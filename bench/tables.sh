#!/bin/sh
# Times `devconf tables` of plans of 125, 250 and 500 lines, the most that a plan may have, over 8,192 rows and 1,024 spots, and
# prints by how much the time grows where there are twice as many lines. The machine has a bus, 31 hubs below it, and 32 leaves
# below each hub; the leaves have eight drivers, each in a group of its own, with 31 or 32 rows for each kind of leaf. In the plans
# `come` each group is added and removed in turn, so that each command attaches or frees all 992 leaves. In those `scan` all
# groups are off, so that each search goes over all rows of each leaf, and none takes it.
# Usage: bench/tables.sh
set -e
top=$(cd "$(dirname "$0")/.." && pwd)
. "$top/bench/measure.sh"

make_tables() {
    awk 'BEGIN {
        print "device bus {}\nattach bus at root\ndevice hub {[slot = -1]}\nattach hub at bus"
        for (d = 0; d < 8; d++) { name = "leaf" substr("abcdefgh", d + 1, 1); print "device " name "\nattach " name " at hub" }
        print "bus0 at root\nhub* at bus?"
        for (i = 0; i < 8190; i++) printf "leaf%s%d at hub? slot %d\n", substr("abcdefgh", i % 8 + 1, 1), i / 8, int(i / 8) % 32
    }' >"$folder/conf"
    awk 'BEGIN {
        print "spot b root root"
        for (h = 0; h < 31; h++) {
            print "spot h" h " b bus"
            for (s = 0; s < 32; s++) print "spot l" h "-" s " h" h " hub slot=" s
        }
        print "match bus * 1\nmatch hub * 1"
        for (d = 0; d < 8; d++) print "match leaf" substr("abcdefgh", d + 1, 1) " * 1"
    }' >"$folder/mach"
}

# A plan of so many lines: the eight groups, a scan, and then commands of this kind.
make_plan() {
    awk -v lines="$1" -v kind="$2" 'BEGIN {
        for (n = 1; n <= 8; n++) print "group g" n " leaf" substr("abcdefgh", n, 1)
        print "scan"
        for (n = 0; n < lines - 9; n++)
            print kind == "scan" ? "scan" : (n % 2 ? "remove" : "add") " g" int(n / 2) % 8 + 1
    }' >"$folder/plan"
}

measure() {
    last=-
    for lines in 125 250 500; do
        make_plan "$lines" "$1"
        took=$(seconds_of 1 tables conf mach plan)
        printf '%9s %13s %8d   %s\n' "$lines-$1" "$took" "$(grep -cE '^(attach [^ ]+ at [^ ]+ row|free) ' "$folder/written")" "$(ratio "$last" "$took")"
        last=$took
    done
}

make_tables
echo '    lines   processor s  devices   ratio'
measure come
measure scan
