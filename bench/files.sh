#!/bin/sh
# Times `devconf files` on made configurations of n, 2n and 4n statements, as the mean of three calls each, and prints by how
# much the time grows. An eighth of the statements are options, which conditions name; nearly all others are `file` statements.
# Usage: bench/files.sh [N]; N is at most 16384, which is also what is taken without it.
set -e
top=$(cd "$(dirname "$0")/.." && pwd)
first=${1:-16384}
. "$top/bench/measure.sh"

# A configuration of so many statements, in files of at most 8,192 each: `conf` includes the others. With 65,536 statements it
# has as many as there may be.
make_input() {
    rm -f "$folder"/*
    awk -v n="$1" -v folder="$folder" '
    function say(line) {
        if (count % 8192 == 0) {
            if (part != "") close(part)
            name = "part" (count / 8192)
            part = folder "/" name
            print "include \"" name "\"" > (folder "/conf")
        }
        print line > part
        count++
    }
    BEGIN {
        n -= int(n / 8192) + 1                  # the includes are statements too
        say("device bus {}"); say("attach bus at root"); say("bus0 at root")
        options = int(n / 8)
        for (i = 0; i < options; i++) say("options OPTION_" i)
        for (i = 0; count < n; i++) {
            option = "option_" (i * 7919) % (2 * options)
            if (i % 4 == 0) say("file dev/ic/source" i ".c " option " & bus needs-flag")
            else if (i % 4 == 1) say("file dev/ic/source" i ".c !" option " | (bus & !unknown" i ")")
            else if (i % 4 == 2) say("file dev/ic/source" i ".c")
            else say("file dev/ic/source" int(i / 2) ".c " option)
        }
    }'
}

echo "statements   processor s   sources   ratio"
last=-
for n in "$first" $((2 * first)) $((4 * first)); do
    make_input "$n"
    took=$(seconds_of 3 files conf)
    printf '%10d %13s %9d   %s\n' "$n" "$took" "$(wc -l <"$folder/written")" "$(ratio "$last" "$took")"
    last=$took
done
