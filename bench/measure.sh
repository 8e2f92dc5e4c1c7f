# What the benches share; they read this file, with `top` set to the top of the repository. It gives them `program`, which
# is built where it is missing or older than a source, and `folder`, which goes away at the end.
export LC_ALL=C
"$top/devconf" ioconf "$top/examples/first.conf" >/dev/null
program=$top/crates/devconf/out/devconf
folder=$(mktemp -d)
trap 'rm -rf "$folder"' EXIT

# The processor seconds of one call with these words, as the mean of so many calls. What it writes stands in `written`.
seconds_of() {
    calls=$1
    shift
    (
        cd "$folder"
        left=$calls
        while [ "$left" -gt 0 ]; do
            "$program" "$@" >written || exit
            left=$((left - 1))
        done
        times
    ) | awk -v calls="$calls" '
    { cpu = 0; for (k = 1; k <= 2; k++) { split($k, part, "[ms]"); cpu += part[1] * 60 + part[2] } }
    END { if (NR < 2) exit 1; printf "%.4f\n", cpu / calls }'
}

# By how much the second time is greater than the first, which is `-` where there is none.
ratio() {
    awk -v last="$1" -v now="$2" 'BEGIN { if (last + 0 > 0) printf "%.1f\n", now / last; else print "-" }'
}

# A configuration and a machine of 1,024 spots: a bus, and 1,023 below it that no driver takes.
make_machine() {
    printf '%s\n' 'device bus {[slot = -1]}' 'attach bus at root' 'device disk' 'attach disk at bus' \
        'bus0 at root' 'disk* at bus?' >"$folder/conf"
    awk 'BEGIN {
        print "spot b root root"
        for (i = 0; i < 1023; i++) print "spot s" i " b bus slot=" i
        print "match bus * 10"
    }' >"$folder/mach"
}

# A script of so many rescans, and an order file with all its turns: of each rescan one for its reply, one for each spot
# below the bus, and one for its end.
make_script() {
    awk -v rescans="$1" -v folder="$folder" 'BEGIN {
        for (turn = 0; turn < 1025; turn++) turns = turns "1 "
        for (i = 0; i < rescans; i++) {
            print "rescan bus0" > (folder "/script")
            print turns > (folder "/order")
        }
    }'
}

# A bus with so many disks, a script that does some commands so often, with `,` between them, and an order file with so many
# turns for each time.
make_disks() {
    printf '%s\n' 'device bus {[slot = -1]}' 'attach bus at root' 'device disk' 'attach disk at bus' \
        'bus0 at root' 'disk* at bus?' >"$folder/conf"
    awk -v disks="$1" -v times="$2" -v commands="$3" -v turns="$4" -v folder="$folder" 'BEGIN {
        print "spot b root root" > (folder "/mach")
        for (i = 0; i < disks; i++) print "spot s" i " b bus slot=" i > (folder "/mach")
        print "match bus * 10" > (folder "/mach")
        print "match disk * 10" > (folder "/mach")
        for (turn = 0; turn < turns; turn++) line = line "1 "
        gsub(",", "\n", commands)
        for (i = 0; i < times; i++) {
            print commands > (folder "/script")
            print line > (folder "/order")
        }
    }'
}
