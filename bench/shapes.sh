#!/bin/sh
# Times the programs on inputs of a shape, each of n, 2n and 4n, where 4n is as far as the limits allow. It prints the processor
# seconds of each, by how much the last step grew, and the megabytes at 4n. `SLOW` marks what takes above one second at 4n, or two if
# a gigabyte is read or 100 MB are written; `LARGE` what takes above 300 MB beside its output. It needs time(1) of GNU.
# Usage: bench/shapes.sh [-p DEVCONF DRVRUN] [SHAPE..]
set -e
top=$(cd "$(dirname "$0")/.." && pwd)
clock=/usr/bin/time
[ -x "$clock" ] || { echo "bench/shapes.sh: $clock is needed" >&2; exit 1; }
if [ "$1" = -p ]; then
    devconf=$(realpath "$2")
    drvrun=$(realpath "$3")
    shift 3
    folder=$(mktemp -d)
    trap 'rm -rf "$folder"' EXIT
else
    . "$top/bench/measure.sh"
    devconf=$program
    drvrun=$top/crates/drvrun/out/drvrun
    (cd "$top/examples/pc" && "$top/drvrun" GENERIC ../machines/pc ../detach.script >/dev/null)
fi
export LC_ALL=C
cd "$folder"

# ---- what the shapes share

# So many lines, in each of which N stands for its number, from 0.
each() {
    awk -v n="$1" -v line="$2" 'BEGIN { for (i = 0; i < n; i++) { said = line; gsub("N", i, said); print said } }'
}

# A configuration with a bus of slots on which disks stand, and these further lines.
bus() {
    printf '%s\n' 'device bus {[slot = -1]}' 'attach bus at root' 'bus0 at root' 'device disk' 'attach disk at bus' "$@"
}

# The lines of a machine with that bus and so many disks on it, or late ones.
slots() {
    printf '%s\n' 'spot b root root' 'match bus * 1' 'match disk * 1'
    each "$1" "spot sN b bus slot=N $2"
}

# So many turns, of the first caller, and of sixteen: all of one behind all of the other, or by turns.
turns() {
    awk -v n="$1" 'BEGIN { for (i = 1; i <= n; i++) printf "1%s", i % 16 && i < n ? " " : "\n" }' >order
}

turns_of_each() {
    awk -v n="$1" 'BEGIN { for (c = 1; c <= 16; c++) for (i = 1; i <= n / 16; i++) printf "%d%s", c, i % 16 && i < int(n / 16) ? " " : "\n" }' >order
}

turns_by_turns() {
    awk -v n="$1" 'BEGIN { for (i = 0; i < n / 16; i++) print "1 2 3 4 5 6 7 8 9 10 11 12 13 14 15 16" }' >order
}

# ---- the compiler: one long line, files that are left out, lists that are kept

one_line() {
    awk -v n="$1" -v first="$2" -v each="$3" 'BEGIN { printf "%s", first; for (i = 0; i < n; i++) printf "%s", each; print "" }'
}

strings() { one_line "$1" 'file a' '""' >conf; }
values() { one_line "$1" 'options a=""' ',a=""' >conf; }
appends() { one_line "$1" 'makeoptions A+=a' ',A+=a' >conf; }

left_out() {
    { echo 'ifdef nothing'; each 20000 'device dN {[slot = -1], [unit = N]}: a, b, c, d'; } | head -c 1048000 | sed '$d' >part
    echo endif >>part
    each "$1" 'include "part"' >conf
}

left_out_comments() {
    { echo 'ifdef nothing'; each 20000 '# what is left out, N, may be of comments alone'; } | head -c 1048000 | sed '$d' >part
    echo endif >>part
    each "$1" 'include "part"' >conf
}

left_out_words() {
    { echo 'ifdef nothing'; each 60000 'endpoint0 at isa?'; } | head -c 1048000 | sed '$d' >part
    echo endif >>part
    each "$1" 'include "part"' >conf
}

long_free() {
    one_line 520000 'file a x' '|x' >part
    each "$1" 'include "part"' >conf
}

short_free() {
    one_line 8100 'file a x' '|x' >part
    each "$1" 'include "part"' >conf
}

same_options() {
    one_line 524000 'options a' ',a' >part
    each "$1" 'include "part"' >conf
}

needed() {
    { echo 'define a'; one_line "$1" 'device d: a' ',a'; echo 'attach d at root'; each 8192 'dN at root'; } >conf
}

# ---- the compiler: many of a kind

# So many prefixes, each below the one before.
prefixes() {
    awk -v n="$1" 'BEGIN { for (i = 0; i < n; i++) print "prefix a" }' >conf
}

# So many negations over 8,192 instances in one place, most of which take back nothing.
negations() {
    awk -v n="$1" 'BEGIN {
        print "device p {[s = -1]}\nattach p at root\ndevice q\nattach q at p\np* at root"
        for (i = 0; i < 8191; i++) print "q" i " at p" i % 90
        for (i = 0; i < n; i++) print i % 2 ? "no q" i * 7919 % 20000 : "no device at p" 200 + i % 50
    }' >conf
}

# So many statements of one name, of which every eighth takes back those before it.
one_name() {
    awk -v n="$1" 'BEGIN { for (i = 0; i < n; i++) print i % 8 ? "options SAME=" i : "no options SAME" }' >conf
}

# So many includes of one file of 16 KiB, which adds nothing.
includes() {
    awk 'BEGIN { for (i = 0; i < 512; i++) print "# a comment of one file, read again" }' >part
    awk -v n="$1" 'BEGIN { for (i = 0; i < n; i++) print "include \"part\"" }' >conf
}

# A chain of so many instances, of which the first hangs below nothing.
orphans() {
    awk -v n="$1" 'BEGIN {
        print "define top {}\ndevice d0_ {}\nattach d0_ at top"
        for (i = 1; i <= n; i++) print "device d" i "_ {}\nattach d" i "_ at d" i - 1 "_"
        for (i = n; i > 0; i--) print "d" i "_* at d" i - 1 "_?"
    }' >conf
}

# One device with so many attachments, of which the last suits each of as many instances.
last_suits() {
    awk -v n="$1" 'BEGIN {
        print "device bus {}\nattach bus at root\nbus0 at root\ndevice disk"
        for (i = 1; i < n; i++) print "attach disk at root with e" i
        print "attach disk at bus"
        for (i = 0; i < n; i++) print "disk" i " at bus0"
    }' >conf
}

# ---- boots and plays

# A bus that offers itself, with a finalizer, and n late spots below the first one.
self_late() {
    bus 'attach bus at bus with bus_bus' 'bus* at bus?' >conf
    awk -v n="$1" 'BEGIN {
        print "spot b root root\nmatch bus * 1\nmatch bus_bus * 1\ndriver bus final\ndriver bus_bus final"
        for (i = 0; i < n; i++) print "spot s" i " b bus late"
    }' >mach
}

# n/2 devices with finalizers on present spots, and n/2 late spots, all below one bus.
finals_and_late() {
    bus 'device fin' 'attach fin at bus' 'fin* at bus? slot 1' 'disk* at bus? slot 0' >conf
    awk -v n="$1" 'BEGIN {
        print "spot b root root\nmatch bus * 1\nmatch fin * 1\nmatch disk * 1\ndriver bus final\ndriver fin final"
        for (i = 0; i < n / 2; i++) print "spot f" i " b bus slot=1"
        for (i = 0; i < n / 2; i++) print "spot s" i " b bus slot=0 late"
    }' >mach
}

# n/2 hubs with finalizers, and n/2 late spots below one of them.
hubs_and_late() {
    printf '%s\n' 'device bus {}' 'attach bus at root' 'device hub {}' 'attach hub at bus' 'device leaf' 'attach leaf at hub' \
        'bus0 at root' 'hub* at bus?' 'leaf* at hub?' >conf
    awk -v n="$1" 'BEGIN {
        print "spot b root root\nmatch bus * 1\nmatch hub * 1\nmatch leaf * 1\ndriver hub final"
        for (i = 0; i < n / 2; i++) print "spot h" i " b bus"
        for (i = 0; i < n / 2; i++) print "spot s" i " h0 hub late"
    }' >mach
}

# 500 hubs with finalizers, of which one after the other is detached and comes again, n turns.
hubs_again() {
    printf '%s\n' 'device bus {}' 'attach bus at root' 'device hub {}' 'attach hub at bus' 'device leaf' 'attach leaf at hub' \
        'bus0 at root' 'hub* at bus?' 'leaf* at hub?' >conf
    awk -v n="$1" 'BEGIN {
        print "spot b root root\nmatch bus * 1\nmatch hub * 1\nmatch leaf * 1\ndriver hub final" >"mach"
        for (i = 0; i < 500; i++) print "spot h" i " b bus" >"mach"
        for (i = 0; i < 500; i++) print "spot s" i " h" i " hub late absent" >"mach"
        for (c = 1; c <= 16; c++) for (i = 0; i < 250; i++) print "detach hub" (c * 31 + i) % 500 "\nrescan bus0" >("script" c)
    }'
    turns_of_each "$1"
}

# 16 buses with 63 interfaces each, n style lines, and scripts that search the buses.
bus_styles() {
    awk 'BEGIN {
        list = ""
        for (a = 0; a < 63; a++) { print "define i" a " {}"; list = list (a ? ", " : "") "i" a }
        print "device bus: " list "\nattach bus at root\ndevice disk\nattach disk at i62\nbus* at root\ndisk* at i62?"
    }' >conf
    awk -v n="$1" 'BEGIN {
        print "match bus * 1" >"mach"
        for (b = 0; b < 16; b++) print "spot b" b " root root" >"mach"
        for (b = 0; b < 16; b++) for (s = 0; s < 60; s++) print "spot b" b "s" s " b" b " i62" >"mach"
        for (i = 0; i < n; i++) print "style bus i" i % 62 (i % 2 ? " direct" : " indirect") >"mach"
        for (b = 0; b < 16; b++) for (i = 0; i < 500; i++) print "rescan bus" b >("script" b + 1)
    }'
    turns_by_turns 128000
}

# An indirect bus under 8,188 equal fixed rows, 500 spots, and searches of it, n turns.
equal_indirect() {
    equal_rows
    echo 'style bus bus indirect' >>mach
    turns_of_each "$1"
}

# The same on a direct bus.
equal_direct() {
    equal_rows
    turns_of_each "$1"
}

# What both share: the rows, the spots and the scripts.
equal_rows() {
    { bus; awk 'BEGIN { for (i = 0; i < 8188; i++) print "disk0 at bus?" }'; } >conf
    awk 'BEGIN {
        print "spot b root root\nmatch bus * 1\nmatch disk * 1" >"mach"
        for (i = 0; i < 500; i++) print "spot s" i " b bus" >"mach"
        for (c = 1; c <= 16; c++) for (i = 0; i < 500; i++) print "rescan bus0" >("script" c)
    }'
}

# Sixteen chains of buses, 62 deep, that are put to sleep and woken together, n turns.
deep_power() {
    bus 'attach bus at bus with bus_bus' 'bus* at bus?' >conf
    awk -v n="$1" 'BEGIN {
        print "spot a root root\nmatch bus * 1\nmatch bus_bus * 1" >"mach"
        for (c = 0; c < 16; c++) for (i = 1; i < 63; i++) print "spot s" c "x" i " " (i == 1 ? "a" : "s" c "x" i - 1) " bus" >"mach"
        for (c = 1; c <= 16; c++) for (i = 0; i < 250; i++) print "suspend bus0\nresumetree bus0" >("script" c)
    }'
    turns_of_each "$1"
}

# A bus of 400 disks that is put to sleep and woken, and ten chains of 60 buses that came later and stay awake, n turns.
awake_chains() {
    bus 'attach bus at bus with bus_bus' 'bus1 at root' 'bus* at bus? slot 1' 'disk* at bus0 slot 0' >conf
    awk -v n="$1" 'BEGIN {
        print "spot a root root\nspot b root root\nmatch bus * 1\nmatch bus_bus * 1\nmatch disk * 1" >"mach"
        for (i = 0; i < 400; i++) print "spot d" i " a bus slot=0" >"mach"
        for (c = 0; c < 10; c++) for (i = 1; i <= 60; i++) print "spot s" c "x" i " " (i == 1 ? "b" : "s" c "x" i - 1) " bus slot=1" >"mach"
        for (i = 0; i < 250; i++) print "suspend bus0\nresumetree bus0" >"script1"
    }'
    turns "$1"
}

# Sixteen scripts attach chains of 60 buses by turns; then one after the other puts a bus of 60 disks to sleep and wakes it, n turns.
awake_chains_by_turns() {
    bus 'attach bus at bus with bus_bus' 'bus1 at root' 'bus* at bus? slot 1' 'disk* at bus0 slot 0' >conf
    awk -v n="$1" 'BEGIN {
        print "spot a root root\nspot b root root\nmatch bus * 1\nmatch bus_bus * 1\nmatch disk * 1" >"mach"
        for (i = 0; i < 60; i++) print "spot d" i " a bus slot=0" >"mach"
        for (c = 1; c <= 16; c++) for (i = 1; i <= 60; i++)
            print "spot s" c "x" i " " (i == 1 ? "b" : "s" c "x" i - 1) " bus slot=1" (i == 2 ? " absent" : "") >"mach"
        for (c = 1; c <= 16; c++) print "plug s" c "x2\nrescan bus" c + 1 >("script" c)
        for (c = 1; c <= 16; c++) for (i = 0; i < 249; i++) print "suspend bus0\nresumetree bus0" >("script" c)
        for (i = 0; i < 123; i++) print "1 2 3 4 5 6 7 8 9 10 11 12 13 14 15 16" >"order"
        for (i = 0; i < n; i++) print int(i / 32000) + 1 >"order"
    }'
}

# A chain of 60 buses below a bus with 900 disks that stay asleep; one script after the other wakes and suspends its lower half, n turns.
sleeping_disks() {
    bus 'attach bus at bus with bus_bus' 'bus* at bus? slot 1' 'disk* at bus0 slot 0' >conf
    awk -v n="$1" 'BEGIN {
        print "spot a root root\nmatch bus * 1\nmatch bus_bus * 1\nmatch disk * 1" >"mach"
        for (i = 0; i < 900; i++) print "spot d" i " a bus slot=0" >"mach"
        for (i = 1; i <= 60; i++) print "spot s" i " " (i == 1 ? "a" : "s" i - 1) " bus slot=1" >"mach"
        for (c = 1; c <= 16; c++) print "suspend bus0" >("script" c)
        for (c = 1; c <= 16; c++) for (i = 0; i < 249; i++) print "resumetree bus31\nsuspend bus31" >("script" c)
        for (i = 0; i < n; i++) print int(i / 18000) + 1 >"order"
    }'
}

# 490 scans that are put off pin their devices, while another bus with 400 disks, of which the last one may not go, is detached
# again and again, n turns.
pins() {
    printf '%s\n' 'device bus {[slot = -1]}' 'attach bus at root' 'device hub {}' 'attach hub at bus' 'device leaf' 'attach leaf at hub' \
        'device disk' 'attach disk at bus' 'device last' 'attach last at bus' \
        'bus0 at root' 'bus1 at root' 'hub* at bus0' 'disk* at bus1 slot 0' 'last* at bus1 slot 1' >conf
    awk 'BEGIN {
        print "spot a root root\nspot b root root\nmatch bus * 1\nmatch hub * 1\nmatch disk * 1\nmatch last * 1\ndriver hub defer\ndriver last nodetach" >"mach"
        for (i = 0; i < 490; i++) print "spot h" i " a bus" >"mach"
        for (i = 0; i < 400; i++) print "spot d" i " b bus slot=0" >"mach"
        print "spot z b bus slot=1" >"mach"
        for (i = 0; i < 490; i++) print "detach hub" i > "script1"
        print "rescan bus0" > "script1"
        for (c = 2; c <= 16; c++) for (i = 0; i < 500; i++) print "detach bus1" > ("script" c)
    }'
    awk -v n="$1" 'BEGIN { for (i = 0; i < 1470; i++) print "1"; for (c = 2; c <= 16; c++) for (i = 0; i < n / 15; i++) print c }' >order
}

# ---- histories that are read: `write_history` plays what the shape makes

# Equal rows of one unit on an indirect bus that is searched a hundred times.
rescans() {
    bus >conf
    each "$1" 'disk0 at bus?' >>conf
    { slots 1022; echo 'style bus bus indirect'; } >mach
    each 100 'rescan bus0' >script1
}

# Lines that say how well a driver matches, most of them of the same spots again.
matches() {
    bus >conf
    each 500 'diskN at bus?' >>conf
    { slots 62; echo 'style bus bus indirect'; awk -v n="$1" 'BEGIN { for (i = 0; i < n; i++) print "match disk s" i % 62, i % 60000 + 1 }'; } >mach
    echo 'list bus0' >script1
}

# A row for each slot, on an indirect bus with a spot in every eighth.
indirect() {
    bus >conf
    each "$1" 'diskN at bus? slot N' >>conf
    { slots 0; awk -v n=$(($1 / 8)) 'BEGIN { for (i = 0; i < n && i < 1022; i++) print "spot s" i " b bus slot=" 8 * i }'; echo 'style bus bus indirect'; } >mach
    echo 'list bus0' >script1
}

# A row of a unit of its own for each spot, with two lines that say how well each matches.
direct() {
    bus >conf
    each "$1" 'diskN at bus?' >>conf
    { slots 1022; awk -v n=$((2 * $1)) 'BEGIN { for (i = 0; i < n; i++) print "match disk s" i % 1022, i % 60000 + 1 }'; } >mach
    echo 'list bus0' >script1
}

# Rows of one unit each that suit every spot; disks go, and the bus is searched.
fixed() {
    bus >conf
    each "$1" 'diskN at bus?' >>conf
    slots 1022 >mach
    awk 'BEGIN { for (i = 0; i < 100; i++) print "detach disk" i * 10 "\nrescan bus0" }' >script1
}

# Sixteen callers that open disks, and ask for a bus to go that all of them hold.
busy() {
    bus 'disk* at bus?' >conf
    slots 1022 >mach
    awk -v n=$(($1 / 32)) 'BEGIN {
        for (k = 1; k <= 16; k++) {
            for (i = 0; i < n; i++) print "open disk" (16 * i + k) % 1022 > ("script" k)
            for (i = 0; i < n; i++) print "detach bus0" > ("script" k)
        }
    }'
}

# Sixteen callers that open the last of many disks.
last_name() {
    bus 'disk* at bus?' >conf
    slots 1022 >mach
    awk -v n=$(($1 / 32)) 'BEGIN { for (k = 1; k <= 16; k++) for (i = 0; i < n; i++) print "open disk1021\nclose disk1021" > ("script" k) }'
}

# One finalizer, and as many spots that it shows.
shown() {
    bus 'disk* at bus?' >conf
    { slots "$1" late; echo 'driver bus final'; } >mach
    echo 'list bus0' >script1
}

# A bus of 63 attributes, and lines that say how each of them is searched.
styles() {
    {
        each 63 'define aN_ {}'
        awk 'BEGIN { printf "device bus: a0_"; for (i = 1; i < 63; i++) printf ", a%d_", i; print "" }'
        printf '%s\n' 'attach bus at root' 'bus* at root' 'device disk' 'attach disk at a1_' 'disk* at bus?'
    } >conf
    {
        printf '%s\n' 'spot b root root' 'spot s b a1_' 'match bus * 1'
        awk -v n="$1" 'BEGIN { for (i = 0; i < n; i++) print "style bus a" i % 63 "_ " (i % 2 ? "direct" : "indirect") }'
    } >mach
    each 200 'rescan bus0' >script1
}

# ---- side by side

# Sixteen scripts of so many commands that put a bus of 1,023 disks to sleep and wake it.
side_by_side() {
    bus 'disk* at bus?' >conf
    slots 1022 >mach
    awk -v n="$1" 'BEGIN { for (k = 1; k <= 16; k++) for (i = 0; i < n / 2; i++) print "suspend bus0\nresumetree bus0" > ("script" k) }'
}

# ---- the measure

scripts() {
    for number in 1 2 3 4 5 6 7 8 9 10 11 12 13 14 15 16; do
        [ ! -f "script$number" ] || echo "script$number"
    done
}

# Notes what a call with these words takes: its processor seconds, its megabytes, and those that it writes.
timed() {
    "$clock" -f '%U %S %M' -o took timeout 600 "$@" >written 2>said || [ $? = 124 ] || { echo "$*: $(head -n 1 said)" >&2; exit 1; }
    tail -n 1 took | awk -v written="$(wc -c <written)" '{ printf "%.2f %.0f %.0f\n", $1 + $2, $3 / 1024, written / 1048576 }'
}

# A history of at most 1 MiB: what a play of the scripts writes, without its last lines if there are more.
write_history() {
    "$devconf" play conf mach order $(scripts) >played
    { head -c 1048500 played | sed '$d'; } >history
    grep -qx tree history || echo tree >>history
}

# One call on the shape's files. What is read again may take three times what the play of the same took.
call() {
    case $1 in
    ioconf | files) timed "$devconf" "$1" conf ;;
    boot) timed "$devconf" boot conf mach ;;
    play) timed "$devconf" play conf mach order $(scripts) ;;
    replay) timed "$devconf" replay conf mach history $(scripts) ;;
    drvrun) timed "$drvrun" conf mach $(scripts) ;;
    esac
}

# A shape with its call, the greatest n, and the seconds that are allowed there.
row() {
    [ -z "$wanted" ] || case " $wanted " in *" $1 "*) ;; *) return 0 ;; esac
    shape=$1
    verb=$2
    limit=$4
    times=
    for n in $(($3 / 4)) $(($3 / 2)) "$3"; do
        rm -f ./*
        "$shape" "$n"
        case $verb in
        replay)
            [ -f script1 ] || echo 'list bus0' >script1
            [ -f order ] || turns_by_turns 120000
            [ -f script2 ] || turns 60000
            write_history
            ;;
        esac
        took=$(call "$verb")
        times="$times ${took%% *}"
    done
    echo "$shape $verb $3 $limit $times $took" | awk '{
        growth = "-"
        if ($6 > 0.04) growth = sprintf("%.1f", $7 / $6)
        mark = ""
        if ($7 > $4) mark = " SLOW"
        if ($9 - $10 > 300) mark = mark " LARGE"
        printf "%-21s %-7s %7d %6.2f %6.2f %6.2f %6s %5d %5d%s\n", $1, $2, $3, $5, $6, $7, growth, $9, $10, mark
    }'
}

wanted=$*
echo "shape                 call          n    n/4    n/2      n growth    MB   out"
row strings ioconf 500000 1
row values ioconf 200000 1
row appends ioconf 200000 1
row left_out ioconf 1000 2
row left_out_comments ioconf 1000 2
row left_out_words ioconf 1000 2
row long_free ioconf 100 1
row long_free files 40 1
row short_free files 2000 1
row same_options ioconf 20 2
row needed files 400000 1
row prefixes ioconf 60000 1
row negations ioconf 56000 1
row one_name ioconf 48000 1
row includes ioconf 2000 1
row orphans ioconf 8000 1
row last_suits ioconf 4000 1
row self_late boot 1000 1
row finals_and_late boot 1000 1
row hubs_and_late boot 1000 1
row hubs_again play 400000 1
row bus_styles play 44000 1
row equal_indirect play 100000 1
row equal_direct play 400000 1
row deep_power play 400000 1
row awake_chains play 200000 1
row awake_chains_by_turns play 200000 1
row sleeping_disks play 200000 1
row pins play 8000 1
row rescans replay 8000 1
row matches replay 50000 1
row indirect replay 8000 1
row direct replay 8000 1
row fixed replay 8000 1
row busy replay 8000 1
row last_name replay 8000 1
row shown replay 1000 1
row styles replay 40000 1
row self_late replay 1000 1
row finals_and_late replay 1000 1
row hubs_and_late replay 1000 1
row equal_indirect replay 100000 1
row equal_direct replay 100000 1
row deep_power replay 100000 1
row awake_chains replay 100000 1
row awake_chains_by_turns replay 100000 1
row sleeping_disks replay 100000 1
row pins replay 8000 1
row side_by_side drvrun 500 2
