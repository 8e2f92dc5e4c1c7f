#!/bin/sh
# Tries each fault of docs/FAULTS.md against the program: the wrong lines have to give the fault line and nothing else, and
# the right lines have to be accepted. Without a word it runs ./devconf. Usage: examples/faults.sh [PROGRAM]
set -e
top=$(cd "$(dirname "$0")/.." && pwd)
program=$(readlink -f "${1:-$top/devconf}")
folder=$(mktemp -d)
trap 'rm -rf "$folder"' EXIT
tried=0
wrong=0
tab=$(printf '\t')

# The rows of the tables with five cells whose fault line begins so: the fault line, the wrong lines and the right lines,
# parted by tabs and newline marks.
rows() {
    awk -F'|' -v kind="$1" '
    function lines(cell, k, n, part, text) {
        n = split(cell, part, "`"); text = ""
        for (k = 2; k <= n; k += 2) text = text part[k] "\001"
        return text
    }
    NF == 7 && index($5, "`" kind) { said = $5; gsub(/^ *`|` *$/, "", said); print said "\t" lines($4) "\t" lines($6) }
    ' "$top/docs/FAULTS.md"
}

# Calls the program with these words; its status and its fault line have to be these, and with a fault it writes nothing.
expect() {
    status=$1
    said=$2
    shift 2
    got=0
    (cd "$folder" && "$program" "$@" >out 2>err) || got=$?
    tried=$((tried + 1))
    if [ "$got" != "$status" ] || [ "$(cat "$folder/err")" != "$said" ] || { [ "$status" != 0 ] && [ -s "$folder/out" ]; }; then
        wrong=$((wrong + 1))
        echo "devconf $*: status $got, '$(cat "$folder/err")', where status $status, '$said' is wanted"
    fi
}

write() {
    printf '%s' "$2" | tr '\001' '\n' >"$folder/$1"
}

# The codes from 26 on are those of `files`, and no other command has them.
try_config() {
    command=ioconf
    [ "${1##* }" -lt 26 ] || command=files
    write conf "$2"
    expect 1 "$1" "$command" conf
    [ "$command" = ioconf ] || expect 0 '' ioconf conf
    write conf "$3"
    expect 0 '' "$command" conf
}

try_machine() {
    write mach "$2"
    expect 3 "$1" boot conf mach
    write mach "$3"
    expect 0 '' boot conf mach
}

try_script() {
    write s "$2"
    expect 4 "$1" play conf mach o s
    write s "$3"
    expect 0 '' play conf mach o s
}

# Two scripts are one file named twice.
try_order() {
    write o "$2"
    expect 4 "$1" play conf mach o s s
    write o "$3"
    expect 0 '' play conf mach o s s
}

try_watch() {
    write w "$2"
    expect 4 "$1" watch conf mach w s s
    write w "$3"
    expect 0 '' watch conf mach w s s
}

try_plan() {
    write p "$2"
    expect 4 "$1" tables conf mach p
    write p "$3"
    expect 0 '' tables conf mach p
}

# So many lines of this text, in which # stands for the number of the line, counted from 0.
count() {
    awk -v n="$1" -v text="$2" 'BEGIN {
        parts = split(text, part, "#")
        for (i = 0; i < n; i++) {
            line = part[1]
            for (k = 2; k <= parts; k++) line = line i part[k]
            print line
        }
    }'
}

by_number() {
    expect 1 'config nofile:0: code 1' ioconf nofile
    expect 8 'read fault' ioconf .
    head -c 1048577 /dev/zero | tr '\0' '\n' >"$folder/conf"
    expect 1 'config conf:0: code 2' ioconf conf
    echo 'include conf' >"$folder/conf"
    expect 1 'config conf:1: code 20' ioconf conf
    count 65537 'machine a' >"$folder/conf"
    expect 1 'config conf:65537: code 23' ioconf conf
    { printf 'device a\nattach a at root\n'; count 8193 'a0 at root'; } >"$folder/conf"
    expect 1 'config conf:8195: code 24' ioconf conf
    { count 65 'define i# {}'; printf 'device a: i0'; count 64 ', i#' | tr -d '\n'; printf ', i64\n'; } >"$folder/conf"
    expect 1 'config conf:66: code 25' ioconf conf
    { printf 'file a.c '; count 64 '!' | tr -d '\n'; echo com; } >"$folder/conf"
    expect 0 '' files conf
    { printf 'file a.c '; count 65 '!' | tr -d '\n'; echo com; } >"$folder/conf"
    expect 1 'config conf:1: code 28' files conf
}

machines_by_number() {
    expect 6 'nofile: absent' boot conf nofile
    head -c 1048577 /dev/zero | tr '\0' '\n' >"$folder/mach"
    expect 7 'mach: too long' boot conf mach
    count 1025 'spot s# root root' >"$folder/mach"
    expect 3 'machine mach:1025: code 8' boot conf mach
    { echo 'spot s0 root root'; awk 'BEGIN { for (i = 1; i < 65; i++) print "spot s" i " s" i - 1 " mainbus" }'; } >"$folder/mach"
    expect 3 'machine mach:65: code 9' boot conf mach
}

scripts_by_number() {
    expect 6 'nofile: absent' play conf mach o s nofile
    expect 6 'nofile: absent' play conf mach nofile s
    printf 'open com0\001\n' >"$folder/s"
    expect 4 'script s:1: code 2' play conf mach o s
    { printf 'open '; count 81 a | tr -d '\n'; } >"$folder/s"
    expect 4 'script s:1: code 2' play conf mach o s
    { printf 'rescan isa0 isa'; count 17 ' port 1' | tr -d '\n'; } >"$folder/s"
    expect 4 'script s:1: code 2' play conf mach o s
    count 501 list >"$folder/s"
    expect 4 'script s:501: code 4' play conf mach o s
    head -c 1048577 /dev/zero | tr '\0' '\n' >"$folder/s"
    expect 7 's: too long' play conf mach o s
    expect 7 's: too long' play conf mach s o
}

watches_by_number() {
    expect 6 'nofile: absent' watch conf mach nofile o
    { echo '# a comment'; count 10001 'turn 1'; } >"$folder/w"
    expect 4 'script w:10002: code 4' watch conf mach w o
    printf 'boot \001\n' >"$folder/w"
    expect 4 'script w:1: code 2' watch conf mach w o
    head -c 1048577 /dev/zero | tr '\0' '\n' >"$folder/w"
    expect 7 'w: too long' watch conf mach w o
}

plans_by_number() {
    expect 6 'nofile: absent' tables conf mach nofile
    printf 'scan \001\n' >"$folder/p"
    expect 4 'script p:1: code 2' tables conf mach p
    printf 'fly \001\n' >"$folder/p"
    expect 4 'script p:1: code 1' tables conf mach p
    { printf 'group '; count 64 a | tr -d '\n'; echo ' com'; } >"$folder/p"
    expect 4 'script p:1: code 2' tables conf mach p
    { echo 'group ports com'; count 499 'remove ports'; echo '# not counted'; } >"$folder/p"
    expect 0 '' tables conf mach p
    { echo 'group ports com'; count 500 'remove ports'; } >"$folder/p"
    expect 4 'script p:501: code 4' tables conf mach p
    head -c 1048577 /dev/zero | tr '\0' '\n' >"$folder/p"
    expect 7 'p: too long' tables conf mach p
}

# A history of the empty script `o`, with these lines in place of its boot's.
history() {
    { printf 'history 2\n'; printf "$1"; } >"$folder/h"
}

histories() {
    expect 6 'nofile: absent' replay conf mach nofile o
    head -c 1048577 /dev/zero | tr '\0' '\n' >"$folder/h"
    expect 7 'h: too long' replay conf mach h o
    echo 'tables' >"$folder/h"
    expect 5 'history h:0: refused' replay conf mach h o
    history '0.0 found root on mb: mainbus0 row 1\ntree\n'
    expect 5 'history h:2: refused' replay conf mach h o
    expect 5 'history h:2: refused' upgrade conf mach h o
    history '0.0 found root on mb: mainbus0 row 0\n'
    expect 5 'history h:3: refused' replay conf mach h o
    history '0.0 found root on mb: mainbus0 row 0\ntree\n'
    expect 0 '' replay conf mach h o
    expect 0 '' upgrade conf mach h o
}

# A name of the program that is not UTF-8 spoils no words; a word that is not is in no form.
odd_bytes() {
    odd=$(printf '\377')
    usage=$("$program" 2>&1) || true
    expect 2 "$usage" ioconf "$odd"
    plain=$program
    program=$folder/$odd
    ln -s "$plain" "$program"
    expect 0 '' load 5
    program=$plain
}

# A device that takes no byte is a fault of writing.
full_output() {
    [ -w /dev/full ] || return 0
    got=0
    said=$("$program" load 5 2>&1 >/dev/full) || got=$?
    tried=$((tried + 1))
    [ "$got $said" = '9 write fault' ] && return 0
    wrong=$((wrong + 1))
    echo "devconf load 5 to a full device: status $got, '$said', where status 9, 'write fault' is wanted"
}

odd_bytes
full_output
rows 'config ' >"$folder/rows"
while IFS=$tab read -r said wrongly rightly; do try_config "$said" "$wrongly" "$rightly"; done <"$folder/rows"
by_number
cp "$top/examples/small.conf" "$folder/conf"
rows 'machine ' >"$folder/rows"
while IFS=$tab read -r said wrongly rightly; do try_machine "$said" "$wrongly" "$rightly"; done <"$folder/rows"
machines_by_number
cp "$top/examples/small.machine" "$folder/mach"
echo 1 >"$folder/o"
rows 'script s:' >"$folder/rows"
while IFS=$tab read -r said wrongly rightly; do try_script "$said" "$wrongly" "$rightly"; done <"$folder/rows"
echo list >"$folder/s"
rows 'script o:' >"$folder/rows"
while IFS=$tab read -r said wrongly rightly; do try_order "$said" "$wrongly" "$rightly"; done <"$folder/rows"
rows 'script w:' >"$folder/rows"
while IFS=$tab read -r said wrongly rightly; do try_watch "$said" "$wrongly" "$rightly"; done <"$folder/rows"
rows 'script p:' >"$folder/rows"
while IFS=$tab read -r said wrongly rightly; do try_plan "$said" "$wrongly" "$rightly"; done <"$folder/rows"
plans_by_number
echo '# no turns, and no commands' >"$folder/o"
scripts_by_number
watches_by_number
histories
echo "$tried calls tried, $wrong of them wrong"
[ "$wrong" = 0 ]
