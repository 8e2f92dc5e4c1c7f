#!/bin/sh
# Times `devconf ioconf` on made configurations of n, 2n and 4n statements of all kinds, and prints by how much the time
# grows. Usage: bench/ioconf.sh [N]; N is at most 16384, which is also what is taken without it.
set -e
top=$(cd "$(dirname "$0")/.." && pwd)
first=${1:-16384}
. "$top/bench/measure.sh"

# A configuration of so many statements, in files of at most 16 each: `conf` includes the others. With 65,536 statements it
# stands at the limits of the language: statements, instances and, within a few, files.
make_input() {
    rm -f "$folder"/*
    awk -v n="$1" -v folder="$folder" '
    function say(line) {
        if (count % 16 == 0) {
            if (part != "") close(part)
            name = "part" (count / 16)
            part = folder "/" name
            print "include \"" name "\"" > (folder "/conf")
        }
        print line > part
        count++
    }
    function parent(j) { return "d" int((j - 1) / 2) "x" }
    BEGIN {
        n -= int(n / 17) + 1                    # the includes are statements too
        defines = int(n * 0.458); devices = int(n * 0.1526); instances = int(n * 0.125)
        say("define a0")
        for (i = 1; i < defines; i++) {
            braces = i % int(defines / 20 + 1) == 0 ? " {[x" i " = -1], y = 2}" : ""
            say("define a" i braces ": a" i - 1 ", a" int(i / 2) ", a" (i * 7919) % i)
        }
        say("device d0x {}: a" int(defines / 2))
        say("attach d0x at root")
        for (j = 1; j < devices; j++) {
            say("device d" j "x {[port = -1]}: a" j % 100)
            say("attach d" j "x at " parent(j) ", root with e" j)
        }
        say("d0x0 at root")
        for (j = 1; j < instances; j++)
            say("d" j "x" (j % 2 ? "0" : "*") " at " parent(j) "?" (j > 2 ? " port " j : ""))
        for (k = 0; count < n; k++) say("options O" k " = " k)
    }'
}

# The processor seconds, the seconds on the clock and the peak of memory of one call, as three words; where GNU time is
# missing the last two are not told.
measure() {
    if command time -v true 2>/dev/null; then
        (cd "$folder" && command time -v -o time "$program" ioconf conf >written)
        awk -F': ' '
        /User time|System time/ { cpu += $2 }
        /Elapsed/ { k = split($NF, part, ":"); for (i = 1; i <= k; i++) wall = wall * 60 + part[i] }
        /Maximum resident/ { peak = $2 }
        END { printf "%.2f %.2f %d\n", cpu, wall, peak }' "$folder/time"
    else
        echo "$(seconds_of 1 ioconf conf) - -"
    fi
}

echo "statements   processor s   clock s   peak KiB   lines   ratio"
last=-
for n in "$first" $((2 * first)) $((4 * first)); do
    make_input "$n"
    result=$(measure)
    took=${result%% *}
    echo "$n $result $(wc -l <"$folder/written") $(ratio "$last" "$took")" |
        awk '{ printf "%10d %13s %9s %10s %7d   %s\n", $1, $2, $3, $4, $5, $6 }'
    last=$took
done
