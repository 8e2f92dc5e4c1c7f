#!/bin/sh
# Counts the instructions of one call of `ioconf` and `files` on the kernels of the examples, and of `ioconf` on each of five made
# configurations. They do not depend on what else the machine does. Usage: bench/instructions.sh [PROGRAM]; PROGRAM is another one with the words of devconf. It needs valgrind.
set -e
top=$(cd "$(dirname "$0")/.." && pwd)
command -v valgrind >/dev/null || { echo "bench/instructions.sh: valgrind is needed" >&2; exit 1; }
if [ $# -gt 0 ]; then
    program=$(realpath "$1")
    folder=$(mktemp -d)
    trap 'rm -rf "$folder"' EXIT
else
    . "$top/bench/measure.sh"
fi

# The lines of the input, in files of at most a megabyte, which `conf` includes.
in_parts() {
    awk -v folder="$folder" '
    part == "" || size + length($0) + 1 > 1048576 {
        if (part != "") close(part)
        name = "part" (parts++ + 0)
        part = folder "/" name; size = 0
        print "include \"" name "\"" > (folder "/conf")
    }
    { print > part; size += length($0) + 1 }'
}

# 65,000 statements of all kinds; instances hang together as a chain, and half of them are taken back.
all_kinds() {
    awk 'BEGIN {
        for (n = 0; n < 4000; n++) print "define a" n "_ {[l = -1]}" (n % 60 ? ": a" n - 1 "_" : "")
        for (n = 0; n < 10000; n++) print "device d" n "_ {[x = -1], [y = 0]}: a" n % 4000 "_"
        print "attach d0_ at root"
        for (n = 1; n < 10000; n++) print "attach d" n "_ at d" n - 1 "_, a" n % 4000 "_"
        for (n = 4095; n > 0; n--) print "d" n "_* at d" n - 1 "_? x " n
        print "d0_* at root"
        for (n = 1; n <= 4096; n++) print "d" n "_" n % 7 " at d" n - 1 "_? y " n
        for (n = 0; n < 8000; n++) print "options O" n ", Q" n "=\"value of " n "\""
        for (n = 0; n < 3000; n++) print "makeoptions M" n % 50 "+=\"-D" n "\""
        for (n = 0; n < 1000; n++) print "file-system F" n ", G" n
        for (n = 0; n < 8558; n++) print "file some/path/x" n ".c o" n " & (a | !b) needs-flag"
        for (n = 1; n <= 4096; n += 2) print "no d" n "_" n % 7
        for (n = 1; n <= 4096; n++) print "no d" n "_3 at d" n "_?"
        for (n = 0; n < 4096; n++) print "no device at d" n "_2"
        for (n = 0; n < 8000; n += 4) print "no options O" n ", P" n
    }'
}

# 8,192 instances in one place, and 56,000 negations, most of which take back nothing.
negations() {
    awk 'BEGIN {
        print "device p {[s = -1]}\nattach p at root\ndevice q\nattach q at p\np* at root"
        for (n = 0; n < 8191; n++) print n % 3 ? "q" n " at p" n % 90 : "q" n % 200 " at p?"
        for (m = 0; m < 56000; m++) {
            n = m * 7919 % 20000
            if (m % 4 == 0) print "no q" n
            if (m % 4 == 1) print "no q" n " at p" n % 97
            if (m % 4 == 2) print "no q" n % 200 " at p?"
            if (m % 4 == 3) print "no device at p" 200 + n % 50
        }
    }'
}

# One statement of half a million tokens.
tokens() {
    awk 'BEGIN { printf "file a"; for (n = 0; n < 524280; n++) printf " ,"; print "" }'
}

# One statement of 144,900 names.
names() {
    awk 'BEGIN { printf "options o0"; for (n = 1; n < 144900; n++) printf ",o%d", n; print "" }'
}

# 8,191 instances with a locator each.
rows() {
    awk 'BEGIN {
        print "device bus {[slot = -1]}\nattach bus at root\ndevice x\nattach x at bus\nbus0 at root"
        for (n = 0; n < 8191; n++) print "x" n " at bus? slot " n
    }'
}

# The millions of instructions of a call with these words in this folder of the examples, or `-` if the program has no such words.
real() {
    label=$1
    cd "$top/examples/$2"
    shift 2
    if valgrind --tool=callgrind --callgrind-out-file=/dev/null "$program" "$@" 2>"$folder/counted" >"$folder/written"; then
        awk -v label="$label" '/refs:/ { gsub(",", "", $NF); printf "%-16s %6.2f million instructions\n", label, $NF / 1000000 }' "$folder/counted"
    else
        printf '%-16s %6s\n' "$label" -
    fi
}

real "amd64, ioconf" amd64 ioconf GENERIC
real "amd64, files" amd64 files GENERIC
real "small PC, ioconf" pc ioconf GENERIC
real "board, ioconf" arm ioconf BOARD
for shape in all_kinds negations tokens names rows; do
    rm -f "$folder"/*
    "$shape" | in_parts
    (cd "$folder" && valgrind --tool=callgrind --callgrind-out-file=/dev/null "$program" ioconf conf 2>counted >written)
    awk -v shape="$shape" '/refs:/ { gsub(",", "", $NF); printf "%-16s %6.0f million instructions\n", shape, $NF / 1000000 }' "$folder/counted"
done
