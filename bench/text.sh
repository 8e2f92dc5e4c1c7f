#!/bin/sh
# Times `devconf ioconf` on one file of 64, 128, .. 1,024 KiB, as the mean of twenty calls each, and prints by how much the
# time grows where the text is twice as long. Usage: bench/text.sh
set -e
top=$(cd "$(dirname "$0")/.." && pwd)
. "$top/bench/measure.sh"

# A file of so many KiB: statements with comments, strings and continued lines.
make_input() {
    awk -v bytes="$(($1 * 1024 - 64))" 'BEGIN {
        while (size < bytes) {
            line = "options NAME_" n++ " = \"a text\", OTHER=0x10 # why\n\t, THIRD\n"
            size += length(line)
            printf "%s", line
        }
    }' >"$folder/conf"
}

echo "    KiB   processor s   ratio"
last=-
for size in 64 128 256 512 1024; do
    make_input "$size"
    took=$(seconds_of 20 ioconf conf)
    printf '%7d %13s   %s\n' "$size" "$took" "$(ratio "$last" "$took")"
    last=$took
done
