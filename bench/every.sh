#!/bin/sh
# Goes through every order of scripts on the small PC by `drvall`: two scripts of so many commands, which hold, detach, search again, suspend and
# resume the same devices, and three scripts of ten. Prints how many worlds and turns there were, how many ends, the processor
# seconds, the most memory, and by how much worlds, seconds and memory grew from the row before. Usage: bench/every.sh [DRVALL]
set -e
export LC_ALL=C
top=$(cd "$(dirname "$0")/.." && pwd)
drvall=$(readlink -f "${1:-$top/crates/drvall/out/drvall}")
[ $# -ge 1 ] || (cd "$top/crates/drvall/data" && "$top/drvall" conf mach s1 s2 >/dev/null) || [ $? = 11 ]
room=$(mktemp -d)
trap 'rm -rf "$room"' EXIT
cd "$top/examples/pc"

# The script number K of so many commands: the same ones, from another place on for each script.
write_script() {
    awk -v k="$1" -v n="$2" 'BEGIN {
        count = split("open wd0,io wd0 1,close wd0,rescan atabus0,open com0,suspend isa0,resumetree isa0,close com0,detach com0,rescan isa0", command, ",")
        for (i = 0; i < n; i++) print command[(i + 5 * k) % count + 1]
    }' >"$room/s$1"
}

# The most memory that a process has had, in KiB, once it is gone.
watched() {
    most=0
    while :; do
        now=
        while read -r key value _; do [ "$key" != VmHWM: ] || now=$value; done 2>/dev/null <"/proc/$1/status" || break
        [ -n "$now" ] || break
        most=$now
        sleep 0.02
    done
}

# So many scripts of so many commands.
row() {
    scripts=$1
    commands=$2
    set --
    while [ $# -lt "$scripts" ]; do
        write_script $# "$commands"
        set -- "$@" "$room/s$#"
    done
    (
        "$drvall" -w 100000000 GENERIC ../machines/pc "$@" >"$room/written" &
        watched $!
        wait $! || [ $? = 11 ] || echo refused
        echo "memory $most"
        times
    ) >"$room/took"
    echo "ends $(grep -c '^end ' "$room/written" || :)" | cat - "$room/written" "$room/took" | awk -v scripts="$scripts" -v commands="$commands" -v last="$room/last" '
    function seconds(time, part) { split(time, part, "[ms]"); return part[1] * 60 + part[2] }
    function grew(now, then) { return then > 0 ? sprintf("%.1f", now / then) : "-" }
    BEGIN { getline line <last; split(line, before, " ") }
    /^refused/ { print "refused"; exit 1 }
    /^worlds / { worlds = $2 }
    /^turns / { turns = $2 }
    /^ends / { ends = $2 }
    /^memory / { memory = $2 / 1024 }
    /^[0-9]+m[0-9.]+s / { cpu = seconds($1) + seconds($2) }
    END {
        # A run that ends at once is gone before anybody has seen its memory.
        if (cpu < 0.02) memory = 0
        printf "%2d of %2d: %8d worlds %8d turns %4d ends %7.2f s %6s MB   grew %s %s %s\n", scripts, commands, worlds, turns, ends, cpu, \
            memory ? sprintf("%.0f", memory) : "-", grew(worlds, before[1]), grew(cpu, before[2]), grew(memory, before[3])
        print worlds, cpu, memory >last
    }'
}

: >"$room/last"
row 2 5
row 2 10
row 2 20
row 2 40
row 2 80
: >"$room/last"
row 3 5
row 3 10
row 3 20
