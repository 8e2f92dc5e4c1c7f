#!/bin/sh
# Refuses each allocation of a call once, and each thread, in a run of its own: of a listing, a boot, a play, a reading of
# its history and one that is refused, of `files`, `upgrade`, `watch`, a plan, two pairs of scripts side by side, every order of two
# scripts, and three questions why. The answer has to be that of a call
# which is refused nothing, or `out of memory`, status 10, with a prefix of its output. A thread that cannot be started changes
# no answer, nor does a signal that interrupts every second reading and writing. A line for each call, and one for each answer that is wrong; status 1 then. It takes a C compiler.
# Usage: bench/refused.sh [DEVCONF [DRVRUN [DRVALL [DEVWHY]]]]
LC_ALL=C
export LC_ALL
top=$(cd "$(dirname "$0")/.." && pwd)
devconf=$(readlink -f "${1:-$top/crates/devconf/out/devconf}")
drvrun=$(readlink -f "${2:-$top/crates/drvrun/out/drvrun}")
drvall=$(readlink -f "${3:-$top/crates/drvall/out/drvall}")
devwhy=$(readlink -f "${4:-$top/crates/devwhy/out/devwhy}")
for program in "$devconf" "$drvrun" "$drvall" "$devwhy"; do
    [ -x "$program" ] || { echo "bench/refused.sh: $program is not built" >&2; exit 1; }
done
compiler=$(command -v "${CC:-cc}") || { echo "bench/refused.sh: not tried: there is no C compiler"; exit; }
work=$(mktemp -d) || exit 1
trap 'rm -rf "$work"' EXIT
trap 'exit 130' INT TERM HUP
"$compiler" -O2 -shared -fPIC -o "$work/refused.so" "$top/bench/refused.c" || exit 1
wrong=0

# ---- the files

cat >"$work/conf" <<'EOF'
device mainbus {}
attach mainbus at root
device isa {[port = -1], [irq = -1]}
attach isa at mainbus
device com
attach com at isa with com_isa
mainbus0 at root
isa0 at mainbus0
com0 at isa? port 0x3f8 irq 4
com* at isa?
EOF
cat >"$work/mach" <<'EOF'
spot mb root root
spot isa mb mainbus
spot u0 isa isa port=0x3f8 irq=4
spot u1 isa isa port=0x2f8 irq=3
match mainbus mb 10
match isa isa 10
match com_isa * 10
EOF
cat >"$work/hubs" <<'EOF'
device bus {}
attach bus at root
device hub {}
attach hub at bus
device leaf
attach leaf at hub
bus0 at root
hub* at bus?
leaf* at hub?
EOF
cat >"$work/late" <<'EOF'
spot b root root
spot h b bus
spot l0 h hub late
spot l1 h hub late
match bus b 1
match hub * 1
match leaf * 1
driver hub final
EOF
echo '1 2 2 1 2 1 2' >"$work/ord"
printf 'open com0\nclose com0\n' >"$work/open"
echo 'detach com0' >"$work/detach"
printf 'sub 1 2\nboot\nturn 1\nturn 2\nturn 1\nread 1 1\nturn 2\nread 1 9\n' >"$work/mon"
printf 'open com0\nio com0 5\nclose com0\n' >"$work/s1"
printf 'open com1\nio com1 5\nclose com1\n' >"$work/s2"
cd "$work" || exit 1
"$devconf" play conf mach ord open detach >hist || { echo "bench/refused.sh: the play does not end well" >&2; exit 1; }
sed 's/^history 2$/history 1/; s/^\(0.0 found [^ ]*\) on [^ ]*: \(.*\) row [0-9]*$/\1: \2/' hist >former
sed 's/^1.2 close com0: ok$/1.2 close com0: not held/' hist >odd

# ---- one call

# Runs the call with this refused; says whether the program came to it.
run_refusing() {
    rm -f "$work/reached"
    (cd "$folder" && timeout 20 env "$1=$2" LD_PRELOAD="$work/refused.so" REFUSED="$work/reached" "$program" $words) \
        >"$work/out" 2>"$work/errors" </dev/null
    got=$?
    [ -e "$work/reached" ]
}

# Is the first file a prefix of the second?
is_prefix() { head -c "$(wc -c <"$1")" "$2" | cmp -s - "$1"; }

# May these lines stand in the output of a run whose order nobody sets? They are those of the listing, or a history that `replay`
# takes, as far as they go; the last line may be cut.
may_be_printed() {
    if ! grep -q '^0.0 end$' "$work/out"; then is_prefix "$work/out" "$work/wanted"; return; fi
    [ "$(tail -c 1 "$work/out" | od -An -c | tr -d ' ')" = '\n' ] && cat "$work/out" >"$work/lines" || sed '$d' "$work/out" >"$work/lines"
    grep -qx tree "$work/lines" || echo tree >>"$work/lines"
    (cd "$folder" && "$devconf" replay $config "$work/lines" $scripts) >"$work/tree" 2>&1 || return 1
    sed -n '/^tree$/,$p' "$work/lines" >"$work/printed"
    if [ "$got" = 0 ]; then cmp -s "$work/printed" "$work/tree"; else is_prefix "$work/printed" "$work/tree" || ! grep -qx tree "$work/out"; fi
}

# Is what a run came to as wanted: the answer of the row, or out of memory?
is_right() {
    if [ "$got" = 10 ] && [ "$status" != 10 ]; then
        answer=memory
        [ "$(cat "$work/errors")" = 'out of memory' ] || [ ! -s "$work/errors" ] || return 1
    else
        answer=row
        [ "$got" = "$status" ] && cmp -s "$work/errors" "$work/said" || return 1
    fi
    if [ -n "$scripts" ]; then may_be_printed; return; fi
    if [ "$answer" = memory ]; then is_prefix "$work/out" "$work/wanted"; else cmp -s "$work/out" "$work/wanted"; fi
}

tell_wrong() {
    wrong=$((wrong + 1))
    echo "wrong $what, $1: status $got, $(head -n 1 "$work/errors")$(head -c 60 "$work/out" | head -n 1)"
}

# Refuses each allocation of this call, and each thread, once. For scripts side by side the number of allocations varies from run to run: it
# ends where five numbers in a row are not reached.
try() {
    what=$1 program=$2 folder=$3
    shift 3
    words=$*
    (cd "$folder" && "$program" $words) >"$work/wanted" 2>"$work/said" </dev/null
    status=$?
    [ "$status" = "$due" ] || { echo "wrong $what: status $status"; wrong=$((wrong + 1)); return; }
    number=0 as_row=0 memory=0 missed=0 before=$wrong
    while [ "$missed" -lt "$([ -n "$scripts" ] && echo 5 || echo 1)" ]; do
        number=$((number + 1))
        if run_refusing REFUSE_ALLOCATION "$number"; then missed=0; else missed=$((missed + 1)); fi
        if ! is_right; then tell_wrong "allocation $number"
        elif [ "$answer" = memory ]; then memory=$((memory + 1))
        elif [ "$missed" = 0 ]; then as_row=$((as_row + 1)); fi
    done
    thread=0
    while run_refusing REFUSE_THREAD "$((thread + 1))"; do
        thread=$((thread + 1))
        is_right && [ "$answer" = row ] || tell_wrong "thread $thread"
    done
    (cd "$folder" && INTERRUPT=1 LD_PRELOAD="$work/refused.so" "$program" $words) >"$work/out" 2>"$work/errors" </dev/null
    got=$?
    is_right && [ "$answer" = row ] || tell_wrong 'interrupted'
    line="$what: $((number - missed)) allocations refused, $memory out of memory, $as_row as if nothing was refused"
    [ "$thread" = 0 ] || line="$line; $thread threads refused"
    echo "$line; $((wrong - before)) wrong"
}

due=0 scripts=
try 'ioconf of a small PC' "$devconf" "$top/examples/pc" ioconf GENERIC
try 'files of the same' "$devconf" "$top/examples/pc" files GENERIC
try 'boot with late spots and a finalizer' "$devconf" "$work" boot hubs late
try 'play of a detach that waits' "$devconf" "$work" play conf mach ord open detach
try 'replay of it' "$devconf" "$work" replay conf mach hist open detach
try 'upgrade of it' "$devconf" "$work" upgrade conf mach former open detach
try 'watch of it' "$devconf" "$work" watch conf mach mon open detach
printf 'group ports com\ngroup bus isa\nscan\nadd ports\nadd bus\nremove ports\nadd ports\nremove bus\n' >"$work/plan"
try 'tables of ports that come and go' "$devconf" "$work" tables conf mach plan
try 'drvall of a detach that waits' "$drvall" "$work" conf mach open detach
try 'devwhy of a device' "$devwhy" "$work" conf mach com1
try 'devwhy of a spot that is late' "$devwhy" "$work" hubs late l1
try 'devwhy of a driver' "$devwhy" "$work" conf com
due=5
try 'replay of a wrong line' "$devconf" "$work" replay conf mach odd open detach
due=0 config='conf mach' scripts='s1 s2'
try 'drvrun of two that use ports' "$drvrun" "$work" conf mach s1 s2
config='disk.conf disk.machine' scripts='copy.script eject.script'
try 'drvrun of two that want one disk' "$drvrun" "$top/examples" disk.conf disk.machine copy.script eject.script
[ "$wrong" = 0 ]
