#!/bin/sh
# Counts the instructions of boots, plays, a replay and an upgrade of the examples' kernels on real machines, then of boots, plays and a
# replay at the limits of a machine. They do not depend on what else the machine does. Usage: bench/runs.sh [PROGRAM]; PROGRAM is another one with the words of devconf. It needs valgrind.
set -e
top=$(cd "$(dirname "$0")/.." && pwd)
command -v valgrind >/dev/null || { echo "bench/runs.sh: valgrind is needed" >&2; exit 1; }
if [ $# -gt 0 ]; then
    program=$(realpath "$1")
    folder=$(mktemp -d)
    trap 'rm -rf "$folder"' EXIT
else
    . "$top/bench/measure.sh"
fi
cd "$folder"

# 8,191 rows for the 1,023 spots of one bus, which is searched spot by spot or row by row.
make_rows() {
    awk 'BEGIN {
        print "device bus {[slot = -1]}\nattach bus at root\ndevice x\nattach x at bus\nbus0 at root"
        for (n = 0; n < 8191; n++) print "x" n " at bus? slot " n
    }' >rows
    awk 'BEGIN {
        print "spot b root root\nmatch bus b 1\nmatch x * 1"
        for (n = 0; n < 1023; n++) print "spot s" n " b bus slot=" 8 * n
    }' >direct
    { cat direct; echo "style bus bus indirect"; } >indirect
}

# One bus with 1,023 spots, on which no disk stands, or one on each.
make_bus() {
    printf '%s\n' 'device bus {[slot = -1]}' 'attach bus at root' 'device disk' 'attach disk at bus' 'bus0 at root' \
        'disk* at bus?' >bus
    awk 'BEGIN {
        print "spot b root root\nmatch bus b 1"
        for (n = 0; n < 1023; n++) print "spot s" n " b bus slot=" n
    }' >none
    { cat none; echo "match disk * 1"; } >full
}

# Sixteen hubs with 62 spots each, of which two have a device; a script for each hub that searches it 500 times, and an order by
# which the scripts take turns.
make_hubs() {
    printf '%s\n' 'device bus {}' 'attach bus at root' 'device hub {[port = -1]}' 'attach hub at bus' 'device leaf' \
        'attach leaf at hub' 'bus0 at root' 'hub* at bus?' 'leaf* at hub? port 0' 'leaf* at hub? port 1' >hubs
    awk 'BEGIN {
        print "spot b root root\nmatch bus b 1\nmatch hub * 1\nmatch leaf * 1"
        for (h = 0; h < 16; h++) {
            print "spot h" h " b bus"
            for (n = 0; n < 62; n++) print "spot h" h "-" n " h" h " hub port=" n
        }
        for (h = 0; h < 16; h++) for (n = 0; n < 500; n++) print "rescan hub" h > ("own" h)
        for (line = 0; line < 26886; line++) print "1 2 3 4 5 6 7 8 9 10 11 12 13 14 15 16" > "turns"
    }' >hubs.machine
    own=$(for hub in 0 1 2 3 4 5 6 7 8 9 10 11 12 13 14 15; do echo "own$hub"; done)
}

# A script that does some commands so often, with `,` between them and `N` for the number of the time, and an order file with
# so many turns.
make_play() {
    awk -v times="$1" -v commands="$2" -v turns="$3" 'BEGIN {
        parts = split(commands, part, ",")
        for (n = 0; n < times; n++) for (k = 1; k <= parts; k++) { said = part[k]; sub("N", n, said); print said > "script" }
        for (turn = 1; turn <= turns; turn++) printf "1%s", turn % 16 && turn < turns ? " " : "\n" > "order"
    }'
}

# The millions of instructions of a call with these words.
row() {
    label=$1
    shift
    if valgrind --tool=callgrind --callgrind-out-file=/dev/null "$program" "$@" 2>"$folder/counted" >"$folder/written"; then
        awk -v label="$label" '/refs:/ { gsub(",", "", $NF); printf "%-17s %8.2f million instructions\n", label, $NF / 1000000 }' "$folder/counted"
    else
        printf '%-17s %8s\n' "$label" -
    fi
}

# What the server's disk driver is tried with: a script that opens a disk, reads, and lets it go, and one that searches its bus.
make_scripts() {
    printf '%s\n' 'open sd0' 'io sd0 1' 'close sd0' >uses
    printf '%s\n' 'rescan pci0' 'list scsibus0' 'tree' >looks
    printf '%s\n' '1 2 1 2 1 1 2 2 1 2 2 2 2 2 2 2' >uses.order
}

# A boot, a play, and a replay and an upgrade of what it printed, of this kernel of the examples on this machine.
real() {
    run=$1
    kernel=$top/examples/$2
    machine=$top/examples/machines/$3
    order=$4
    shift 4
    cd "$kernel"
    row "$run, boot" boot GENERIC "$machine"
    row "$run, play" play GENERIC "$machine" "$order" "$@"
    cp "$folder/written" "$folder/history"
    row "$run, replay" replay GENERIC "$machine" "$folder/history" "$@"
    row "$run, upgrade" upgrade GENERIC "$machine" "$folder/history" "$@"
    cd "$folder"
}

make_scripts
real server amd64 server "$folder/uses.order" "$folder/uses" "$folder/looks"
real "small PC" pc pc "$top/examples/detach.order" "$top/examples/hold.script" "$top/examples/detach.script"
make_rows
row "boot, direct" boot rows direct
row "boot, indirect" boot rows indirect
make_bus
row "boot, disks" boot bus full
row "load" load 1000
make_hubs
row "play, hubs" play hubs hubs.machine turns $own
"$program" play hubs hubs.machine turns $own >history.all
{ head -c 1048500 history.all | sed '$d'; echo tree; } >history
row "replay, hubs" replay hubs hubs.machine history $own
make_play 50 'rescan bus0' 51251
row "play, rescans" play bus none order script
make_play 25 'suspend bus0,resumetree bus0' 51301
row "play, power" play bus full order script
make_play 50 'tree' 51
row "play, trees" play bus full order script
make_play 12 'unplug s0,tree,rescan bus0,list bus0' 62
row "play, unplug" play bus full order script
make_play 25 'detach diskN,rescan bus0' 126
row "play, again" play bus full order script
