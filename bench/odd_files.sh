#!/bin/sh
# Tries closed, full and broken streams with every form of the programs, and as each of their files a folder, a device, a FIFO, a
# file that cannot be read, and names that are too long; files that change between two loads, words that are no text, small
# stacks, few open files. A line for each, which begins with `wrong` where the status, the fault line or the output is not as
# wanted; status 1 then. Usage: bench/odd_files.sh [DEVCONF [DRVRUN]]
LC_ALL=C
export LC_ALL
top=$(cd "$(dirname "$0")/.." && pwd)
devconf=$(readlink -f "${1:-$top/crates/devconf/out/devconf}")
drvrun=$(readlink -f "${2:-$top/crates/drvrun/out/drvrun}")
for program in "$devconf" "$drvrun"; do
    [ -x "$program" ] || { echo "bench/odd_files.sh: $program is not built" >&2; exit 1; }
done
work=$(mktemp -d) || exit 1
trap 'chmod -R u+rwx "$work"; rm -rf "$work"' EXIT
trap 'exit 130' INT TERM HUP
cd "$work" || exit 1
count=0
wrong=0

# A line: what was tried, the status and the first fault line, and whether both are as wanted. The output is to be the file $4, or
# nothing where there is none; "any" takes each.
judge() {
    what=$1 wanted=$2 line=$3 output=$4
    said=$(head -n 1 errors)
    count=$((count + 1))
    verdict=ok
    [ "$got" = "$wanted" ] || verdict=wrong
    case $line in
    any) ;;
    *) [ "$said" = "$line" ] || verdict=wrong ;;
    esac
    case $output in
    any) ;;
    '') [ ! -s out ] || verdict=wrong ;;
    *) cmp -s "$output" out || verdict=wrong ;;
    esac
    [ "$verdict" = ok ] || wrong=$((wrong + 1))
    printf '%-5s %s: status %s%s\n' "$verdict" "$what" "$got" "${said:+, $said}"
}

# The program with these words, for at most 20 seconds.
call() {
    case $1 in
    drvrun) shift && timeout "${limit:-20}" "$drvrun" "$@" ;;
    *) timeout "${limit:-20}" "$devconf" "$@" ;;
    esac
}

try() {
    what=$1 wanted=$2 line=$3 output=$4
    shift 4
    call "$@" >out 2>errors </dev/null
    got=$?
    judge "$what" "$wanted" "$line" "$output"
}

# ---- the files

cat >conf <<'EOF'
device mainbus {}
attach mainbus at root
device isa {[port = -1], [irq = -1]}
attach isa at mainbus
device com
attach com at isa with com_isa
file dev/com.c com
mainbus0 at root
isa0 at mainbus0
com0 at isa? port 0x3f8 irq 4
com* at isa?
EOF
cat >mach <<'EOF'
spot mb root root
spot isa mb mainbus
spot u0 isa isa port=0x3f8 irq=4
spot u1 isa isa port=0x2f8 irq=3
match mainbus mb 10
match isa isa 10
match com_isa * 10
EOF
echo '1 2 2 1 2 1 2' >ord
printf 'open com0\nclose com0\n' >s1
echo 'detach com0' >s2
echo 'list isa0' >s3
printf 'group ports com\nscan\nadd ports\nremove ports\n' >plan
printf 'sub 1 2\nboot\nturn 1\nturn 2\nturn 1\nread 1 1\nturn 2\nread 1 9\n' >mon
"$devconf" play conf mach ord s1 s2 >hist || { echo "bench/odd_files.sh: the first play does not end well" >&2; exit 1; }
sed 's/^history 2$/history 1/; s/^\(0.0 found [^ ]*\) on [^ ]*: \(.*\) row [0-9]*$/\1: \2/' hist >former

# Each form with its words, and what it writes.
forms='ioconf files boot play replay upgrade tables watch load drvrun'
words_of() {
    case $1 in
    ioconf | files) echo "$1 conf" ;;
    boot) echo boot conf mach ;;
    play) echo play conf mach ord s1 s2 ;;
    replay) echo replay conf mach hist s1 s2 ;;
    upgrade) echo upgrade conf mach former s1 s2 ;;
    tables) echo tables conf mach plan ;;
    watch) echo watch conf mach mon s1 s2 ;;
    load) echo load 5 ;;
    drvrun) echo drvrun conf mach s3 ;;
    esac
}
for form in $forms; do
    call $(words_of "$form") >"wanted.$form" 2>errors || { echo "wrong $form ends with status $?"; exit 1; }
done
cmp -s wanted.upgrade - <<EOF || { echo "wrong upgrade gives another history than the play"; exit 1; }
$(sed -n '/^history 2$/,$p' hist)
EOF

# ---- streams

mkfifo pipe
# Descriptor 5 is a pipe that nobody reads any more.
(exec 4<pipe) &
exec 5>pipe
wait
for form in $forms; do
    words=$(words_of "$form")
    : >out
    call $words >&- 2>errors </dev/null
    got=$?
    judge "$form, standard output closed" 9 'write fault' ''
    call $words >/dev/full 2>errors </dev/null
    got=$?
    judge "$form, standard output full" 9 'write fault' ''
    call $words >&5 2>errors </dev/null
    got=$?
    judge "$form, standard output a pipe that nobody reads" 9 'write fault' ''
    call $words >out 2>errors <&-
    got=$?
    judge "$form, standard input closed" 0 '' "wanted.$form"
    : >errors
    call $words >out 2>&- </dev/null
    got=$?
    judge "$form, standard error closed" 0 '' "wanted.$form"
    call $words >out 2>/dev/full </dev/null
    got=$?
    judge "$form, standard error full" 0 '' "wanted.$form"
    : >out
    call $words >&- 2>&- <&-
    got=$?
    judge "$form, all three closed" 9 '' ''
    call $words >/dev/full 2>/dev/full </dev/null
    got=$?
    judge "$form, both outputs full" 9 '' ''
    call $words >&5 2>&5 </dev/null
    got=$?
    judge "$form, both outputs a pipe that nobody reads" 9 '' ''
done
exec 5>&-

# What is refused keeps its status, whatever becomes of the fault line.
echo 'com0 at nowhere' >bad
for form in $forms; do
    words=$(words_of "$form" | sed 's/ conf/ bad/; s/load 5/load x/')
    case $form in load) refused=2 ;; *) refused=1 ;; esac
    for to in '&-' /dev/full; do
        : >errors
        eval "call $words >out 2>$to </dev/null"
        got=$?
        judge "$form, refused, standard error $([ "$to" = '&-' ] && echo closed || echo full)" "$refused" '' ''
    done
done

# ---- each file of each form

mkdir folder
ln -s loop loop
: >empty
long=$(awk 'BEGIN { while (n++ < 2048) printf "./" }')
name=$(awk 'BEGIN { while (n++ < 256) printf "n" }')

# Writes this file into the FIFO, if it is read within two seconds.
written() { timeout 2 sh -c 'cat "$1" >pipe' - "$1" 2>/dev/null; }

# The words of a form with this file in the place of its word number $2.
with() { words_of "$1" | awk -v at="$2" -v name="$3" '{ $at = name; print }'; }

for form in ioconf files boot play replay upgrade tables watch drvrun; do
    at=1
    for word in $(words_of "$form"); do
        case $word in
        "$form") ;;
        conf | mach | ord | hist | former | plan | mon | s1 | s2 | s3)
            is_conf=
            [ "$word" != conf ] || is_conf=1
            try "$form, $word a folder" 8 'read fault' '' $(with "$form" $at folder)
            try "$form, $word a link to itself" 8 'read fault' '' $(with "$form" $at loop)
            try "$form, $word below a file" 8 'read fault' '' $(with "$form" $at conf/x)
            try "$form, $word that cannot be read" 8 'read fault' '' $(with "$form" $at /proc/self/mem)
            try "$form, $word of a name of 256 bytes" 8 'read fault' '' $(with "$form" $at "$name")
            try "$form, $word of a name of 4,096 bytes and more" 8 'read fault' '' $(with "$form" $at "$long$word")
            try "$form, $word of a name of fewer" 0 '' any $(with "$form" $at "${long#./././././././././}$word")
            if [ -n "$is_conf" ]; then
                try "$form, no $word" 1 'config none:0: code 1' '' $(with "$form" $at none)
                try "$form, $word without an end" 1 'config /dev/zero:0: code 2' '' $(with "$form" $at /dev/zero)
            else
                try "$form, no $word" 6 'none: absent' '' $(with "$form" $at none)
                try "$form, $word without an end" 7 '/dev/zero: too long' '' $(with "$form" $at /dev/zero)
            fi
            written "$word" &
            [ "$form" != files ] || { sleep 0.1; written "$word"; } &
            try "$form, $word a FIFO that is written" 0 '' "wanted.$form" $(with "$form" $at pipe)
            wait
            limit=0.2
            try "$form, $word a FIFO that nobody writes: waits" 124 '' '' $(with "$form" $at pipe)
            limit=
            ;;
        esac
        at=$((at + 1))
    done
done
try 'ioconf, conf is /dev/null' 0 '' any ioconf /dev/null
try 'files, conf is /dev/null' 0 '' '' files /dev/null
try 'boot, mach is /dev/null' 0 '' any boot conf /dev/null
try 'play, ord is /dev/null' 0 '' any play conf mach /dev/null s1 s2
try 'play, scripts are /dev/null' 0 '' any play conf mach ord /dev/null /dev/null
try 'replay, hist is /dev/null' 5 'history /dev/null:0: refused' '' replay conf mach /dev/null s1 s2
try 'upgrade, hist is /dev/null' 5 'history /dev/null:0: refused' '' upgrade conf mach /dev/null s1 s2
try 'tables, plan is /dev/null' 0 '' any tables conf mach /dev/null
try 'watch, mon is /dev/null' 0 '' any watch conf mach /dev/null s1 s2
try 'drvrun, scripts are /dev/null' 0 '' any drvrun conf mach /dev/null /dev/null

# An included file is as odd.
for each in folder loop conf/x /proc/self/mem "$name"; do
    echo "include \"$each\"" >includes
    try "ioconf, includes $(echo "$each" | cut -c 1-20)" 8 'read fault' '' ioconf includes
    echo "cinclude \"$each\"" >includes
    try "ioconf, includes $(echo "$each" | cut -c 1-20) where it is there" 8 'read fault' '' ioconf includes
done
echo 'include "/dev/zero"' >includes
try 'ioconf, includes what has no end' 1 'config includes:1: code 2' '' ioconf includes

# `files` loads the configuration twice: what it finds in the second place counts, and no change harms it.
change() {
    { written conf; sleep 0.1; written "$1"; } &
    call files pipe >out 2>errors </dev/null
    got=$?
    wait
}
for each in empty bad ord; do
    change "$each"
    case $each in empty) judge 'files, a configuration that is empty at the second load' 0 '' any ;;
    *) judge "files, a configuration that is $([ $each = bad ] && echo wrong || echo 'no text of one') at the second load" "$([ "$got" = 0 ] && echo 0 || echo 1)" any any ;;
    esac
done

# ---- words

try 'no words' 2 any '' ''
byte=$(printf 'conf\377')
cp conf "$byte"
try 'a word that is no text' 2 any '' ioconf "$byte"
try 'a word that is no text, of drvrun' 2 any '' drvrun conf mach "$byte"
try 'a word of 4,096 bytes for a command' 2 any '' "$(echo "$long" | cut -c 1-4096)" conf
try 'a word of 100,000 bytes for a number' 2 any '' load "$(awk 'BEGIN { while (n++ < 100000) printf "9" }')"
line='new
line'
cp conf "$line"
try 'a name with a newline' 0 '' wanted.ioconf ioconf "$line"
cp conf 'a b	c'
try 'a name with blanks' 0 '' wanted.ioconf ioconf 'a b	c'
try '20 scripts' 2 any '' play conf mach ord s1 s1 s1 s1 s1 s1 s1 s1 s1 s1 s1 s1 s1 s1 s1 s1 s1 s1 s1 s1
try '17 scripts of drvrun' 2 any '' drvrun conf mach s1 s1 s1 s1 s1 s1 s1 s1 s1 s1 s1 s1 s1 s1 s1 s1 s1

# ---- small stacks, few open files

within() {
    what=$1 limits=$2 wanted=$3 line=$4 form=$5
    (ulimit $limits && call $(words_of "$form")) >out 2>errors </dev/null
    got=$?
    if [ "$wanted" = 0 ]; then judge "$form, $what" 0 "$line" "wanted.$form"; else judge "$form, $what" "$wanted" "$line" ''; fi
}
for form in $forms; do
    for size in 256 128; do within "a stack of $size KiB" "-s $size" 0 '' "$form"; done
    within 'six open files' '-n 6' 0 '' "$form"
done
echo "$count tried, $wrong wrong"
[ "$wrong" = 0 ]
