#!/bin/sh
# Runs scripts of so many commands (500 where none are named, the most that a script may have) side by side by `drvrun`, on
# machines of 1,024 spots. Prints how many events there were, the seconds on the clock and of the processors, and the most memory.
# `one script`: a script alone searches a bus of 1,022 spots. `sixteen buses`: sixteen scripts search a bus of 62 spots each.
# `fifteen wait`: sixteen scripts put one bus with 1,022 devices to sleep and wake it again; one has the turn, the others wait.
# Usage: bench/workers.sh [COMMANDS [DRVRUN]]
set -e
export LC_ALL=C
top=$(cd "$(dirname "$0")/.." && pwd)
commands=${1:-500}
drvrun=$(readlink -f "${2:-$top/crates/drvrun/out/drvrun}")
[ $# -ge 2 ] || (cd "$top/crates/drvrun/data" && "$top/drvrun" conf mach s1 >/dev/null)
room=$(mktemp -d)
trap 'rm -rf "$room"' EXIT
callers='1 2 3 4 5 6 7 8 9 10 11 12 13 14 15 16'
all='s1 s2 s3 s4 s5 s6 s7 s8 s9 s10 s11 s12 s13 s14 s15 s16'

printf '%s\n' 'device mainbus {}' 'attach mainbus at root' 'device bus {[slot = -1]}' 'attach bus at mainbus' \
    'device disk' 'attach disk at bus' 'device nobody' 'attach nobody at mainbus' 'mainbus0 at root' 'bus* at mainbus?' \
    'disk* at bus?' >"$room/conf"

# A bus of 1,022 spots; this driver takes them.
one_bus() {
    awk -v driver="$1" 'BEGIN {
        print "spot mb root root\nspot b mb mainbus"
        for (i = 0; i < 1022; i++) print "spot s" i " b bus slot=" i
        print "match mainbus mb 10\nmatch bus b 20\nmatch " driver " * 10"
    }' >"$room/machine"
}

# Sixteen buses of 62 spots that no driver takes.
sixteen_buses() {
    awk 'BEGIN {
        print "spot mb root root"
        for (k = 0; k < 16; k++) print "spot b" k " mb mainbus"
        for (k = 0; k < 16; k++) for (i = 0; i < 62; i++) print "spot s" k "x" i " b" k " bus slot=" i
        print "match mainbus mb 10\nmatch bus * 20"
    }' >"$room/machine"
}

# Script k, from 1 to 16, has these two commands by turns, with k - 1 behind the name where that is to be one of many.
write_scripts() {
    for k in $callers; do
        awk -v first="$1" -v second="$2" -v k="$k" -v n="$commands" 'BEGIN {
            sub(/bus$/, "bus" k - 1, first)
            sub(/bus$/, "bus" k - 1, second)
            for (i = 0; i < n; i++) print i % 2 ? second : first
        }' >"$room/s$k"
    done
}

# The most memory that a process has had, in KiB, once it is gone.
watched() {
    most=0
    while :; do
        now=
        while read -r key value _; do [ "$key" != VmHWM: ] || now=$value; done 2>/dev/null <"/proc/$1/status" || break
        [ -n "$now" ] || break
        most=$now
        sleep 0.2
    done
}

# Runs these scripts, and says what they took.
run() {
    printf '%s: ' "$1"
    shift
    (
        cd "$room"
        begun=$(date +%s)
        "$drvrun" conf machine "$@" >written &
        watched $!
        wait $! || echo refused
        echo "clock $(($(date +%s) - begun)) memory $most"
        times
    ) >"$room/took"
    echo "events $(sed '1,/^history/d; /^tree$/,$d' "$room/written" | wc -l)" | cat - "$room/took" | awk '
    function seconds(time, part) { split(time, part, "[ms]"); return part[1] * 60 + part[2] }
    /^refused/ { print "refused"; exit 1 }
    /^events/ { events = $2; next }
    /^clock/ { clock = $2; memory = $4; next }
    { user = seconds($1); kernel = seconds($2) }
    END { printf "%d events, %d s on the clock, %.1f s of the processors (%.1f of them in the kernel), %d MiB\n",
        events, clock, user + kernel, kernel, memory / 1024 }'
    rm -f "$room/written"
}

one_bus nobody
write_scripts 'rescan bus0' 'rescan bus0'
run 'one script' s1
one_bus disk
write_scripts 'suspend bus0' 'resumetree bus0'
run 'fifteen wait' $all
sixteen_buses
write_scripts 'rescan bus' 'rescan bus'
run 'sixteen buses' $all
