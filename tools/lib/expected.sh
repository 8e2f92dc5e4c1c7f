# Says what should have stood at one line of a history that is refused, for tools/explain: the words of `devconf replay` or
# `devconf upgrade` are $WORD_1, $WORD_2 .., and the line is $1. The lines before it are those of a run, so their callers are an order
# of turns; `devconf play` takes it, with one turn more for the caller of the refused line, and writes the line that comes then.
# Nothing is written where there is no program, or where the history has no head.
lib=$(dirname "$0")
. "$lib/program.sh"
find_devconf
[ -n "$program" ] || exit 0
refused=$1
words=$WORDS
set --
while [ "$words" -gt 4 ]; do eval "set -- \"\$WORD_$words\" \"\$@\""; words=$((words - 1)); done
conf=$WORD_2 machine=$WORD_3 history=$WORD_4
work=$(mktemp -d) || exit 0
trap 'rm -rf "$work"' EXIT

# The format of the history, the callers of its lines before the refused one, and that of the refused one.
awk -v refused="$refused" -v work="$work" '
    !head && /^history [12]$/ { head = NR; print $2 >(work "/format"); next }
    !head { next }
    NR < refused { sub(/\..*/, ""); print >(work "/callers"); count++ }
    NR == refused { if (match($0, /^[0-9]+\./)) print substr($0, 1, RLENGTH - 1) >(work "/caller"); exit }
    END { print count + 0 >(work "/count") }' "$history"
[ -s "$work/format" ] || exit 0
count=$(cat "$work/count")
caller=$(cat "$work/caller" 2>/dev/null)

# The lines of the history that the turns of these callers give, without its head, in the format that is asked for.
play() {
    : >"$work/order"
    [ ! -f "$work/callers" ] || grep -v '^0$' "$work/callers" >"$work/order"
    [ -z "$1" ] || echo "$1" >>"$work/order"
    "$program" play "$conf" "$machine" "$work/order" $scripts >"$work/played" 2>/dev/null || return
    sed -n '/^history 2$/,/^tree$/p' "$work/played" | sed '1d;$d' >"$work/lines"
    [ "$(cat "$work/format")" = 1 ] || return 0
    sed 's/^\([0-9.]* found [^ ]*\) on [^ ]*: \(.*[0-9]\) row [0-9]*$/\1: \2/
        s/^\([0-9.]* found [^ ]*\) on [^ ]*: not configured$/\1: not configured/
        s/^\([0-9.]* final [^ ]*\) 1 on [^ ]*: \(.*[0-9]\) row [0-9]*$/\1 1 \2/
        s/^\([0-9.]* final [^ ]*\) 1 on [^ ]*: not configured$/\1 1 not configured/' "$work/lines" >"$work/former"
    mv "$work/former" "$work/lines"
}

# The line behind those before, of this caller; nothing where it waits or has ended.
line_of_turn() { play "$1" && sed -n "$((count + 1))p" "$work/lines"; }

# The scripts as words: names with blanks are kept by links of other names.
scripts=
number=0
for script; do
    number=$((number + 1))
    ln -s "$(readlink -f "$script")" "$work/s$number" || exit 0
    scripts="$scripts $work/s$number"
done

play '' || exit 0
if [ "$count" -lt "$(grep -c '^0\.' "$work/lines")" ]; then
    echo "  Here should be: $(sed -n "$((count + 1))p" "$work/lines")"
    [ "${caller:-0}" = 0 ] || echo "  (Caller $caller waits until the boot has ended.)"
    exit 0
fi
case $caller in
'') ;;
0) echo "  The boot has ended already, so caller 0 has no more lines." ;;
*)
    if [ "$caller" -gt "$number" ]; then
        echo "  There is no caller $caller: $([ "$number" = 1 ] && echo '1 script was' || echo "$number scripts were") named."
    else
        line=$(line_of_turn "$caller")
        if [ -n "$line" ]; then echo "  Here should be: $line" && exit 0; fi
        if grep -q "^$caller\.[0-9]* end$" "$work/lines"; then echo "  Caller $caller has ended already."
        else echo "  Caller $caller waits here, so it has no line."; fi
    fi
    ;;
esac
other=0
told=
while [ "$other" -lt "$number" ]; do
    other=$((other + 1))
    [ "$other" != "$caller" ] || continue
    line=$(line_of_turn "$other")
    [ -n "$line" ] || continue
    [ -n "$told" ] || echo "  What may be here:"
    told=1
    echo "    $line"
done
[ -n "$told" ] || echo "  No caller has a line here: only \`tree\` may come."
