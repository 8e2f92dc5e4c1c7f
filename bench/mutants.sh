#!/bin/sh
# Plants the mistakes of bench/mutants, each on a copy of the repository, and says what refused it: a line each, and status 1
# where one was not refused. They are edits as those of crates/*/must-fail, at most three of which lie in each crate, so that
# the gate stays short; these are the others. An edit that a contract can't refuse has a line `shown by: CRATE`: then the
# tests of that crate, or what its program writes, have to be wrong with it.
# With -n nothing is proved nor run: it only says which edits no longer fit their files.
# Usage: bench/mutants.sh [-n] [CRATE | CRATE/NAME]..
LC_ALL=C
export LC_ALL
top=$(cd "$(dirname "$0")/.." && pwd)
work=$(mktemp -d) || exit 1
trap 'rm -rf "$work"' EXIT
trap 'exit 130' INT TERM HUP
only_fit=
[ "${1-}" != -n ] || { only_fit=1 && shift; }
[ -n "$only_fit" ] || command -v rt >/dev/null || { echo "bench/mutants.sh: the command rt of the Rattle kit is needed" >&2; exit 1; }
wrong=0

# The edits that are asked for, as CRATE/NAME; all of them where none is.
cd "$top/bench/mutants" || exit 1
for each in "${@:-*}"; do
    case $each in
    */*) ls "${each%.edit}.edit" ;;
    *) ls $each/*.edit ;;
    esac || exit 1
done | sed 's/\.edit$//' | sort -u >"$work/edits"
[ -s "$work/edits" ] || exit 1

# Makes each pair of an edit in its file below this folder, or only sees whether it can.
plant() {
    awk -v folder="$2/crates/$1" -v only_fit="$only_fit" '
    function whole(path,   text, line) {
        while ((getline line < path) > 0) text = text line "\n"
        close(path)
        return text
    }
    /^file: / { path = folder "/" substr($0, 7); if (!(path in text)) text[path] = whole(path); next }
    /^old: / { old = substr($0, 6); next }
    /^new: / {
        at = index(text[path], old)
        if (!at || index(substr(text[path], at + 1), old)) {
            print "an old text is not once in " substr(path, length(folder) + 2)
            failed = 1
            exit 1
        }
        text[path] = substr(text[path], 1, at - 1) substr($0, 6) substr(text[path], at + length(old))
    }
    END { if (!failed && !only_fit) for (path in text) { printf "%s", text[path] >path; close(path) } }' "$3"
}

if [ -n "$only_fit" ]; then
    while read -r edit; do
        said=$(plant "${edit%%/*}" "$top" "$edit.edit") || { wrong=1; echo "$edit: BAD EDIT: $said"; }
    done <"$work/edits"
    [ "$wrong" = 0 ] && echo "$(wc -l <"$work/edits" | tr -d ' ') edits fit their files"
    exit "$wrong"
fi

mkdir "$work/copy"
(cd "$top" && tar --exclude=./.git --exclude=out -cf - .) | (cd "$work/copy" && tar -xf -)
cd "$work/copy" || exit 1

# The edits of this crate by the prover: `rt must-fail` tries them in the place of those of the gate.
by_the_prover() {
    rm -rf "crates/$1/must-fail"
    mkdir "crates/$1/must-fail"
    planted=0
    for edit in $(grep "^$1/" "$work/edits"); do
        ! grep -q '^shown by: ' "bench/mutants/$edit.edit" || continue
        cp "bench/mutants/$edit.edit" "crates/$1/must-fail/"
        planted=$((planted + 1))
    done
    [ "$planted" != 0 ] || return 0
    rt must-fail "$1" >"$work/said" 2>&1 || wrong=1
    sed -n 's/^rt: must-fail //; s/^\([a-z_]*\/[a-z0-9_]*\)\.edit: refused, as it must be/\1: refused/p
        s/^\([a-z_]*\/[a-z0-9_]*\)\.edit: \([A-Z].*\)/\1: \2/p' "$work/said" | tee "$work/told"
    [ "$(wc -l <"$work/told")" -ge "$planted" ] || { wrong=1; tail -n 5 "$work/said"; }
}

# Runs what shows an edit: the tests of a crate without a program, or the program, for its stored output. The status is 0 where
# all is as without the edit, 1 where it is not, 2 where nothing ran; the file `first` has what differs first.
show() {
    : >"$work/first"
    cd "crates/$1" || return 2
    if [ -f stdout ]; then
        set --
        while read -r word; do
            [ ! -f "data/$word" ] || word=data/$word
            set -- "$@" "$word"
        done <args
        timeout 1800 rt try -- "$@" >"$work/said" 2>"$work/errors" </dev/null
        shown=$?
        diff stdout "$work/said" | sed -n 's/^> //p' | head -n 1 >"$work/first"
        grep -q '^run=ended' "$work/errors" || [ "$shown" = 124 ] || shown=2
        [ "$shown" != 0 ] || cmp -s stdout "$work/said" || shown=1
    else
        timeout 1800 rt try --test >"$work/said" 2>"$work/errors" </dev/null
        shown=$?
        sed -n 's/^test \(.*\) \.\.\. FAILED$/the test \1/p' "$work/said" | head -n 1 >"$work/first"
        case $shown:$(grep '^test result: ' "$work/said") in
        0:*' ok. 0 passed'*) shown=2 ;;
        0:* | 124:*) ;;
        *:*FAILED*) shown=1 ;;
        *) shown=2 ;;
        esac
    fi
    cd "$work/copy" || exit 1
    return "$shown"
}

by_a_run() {
    crate=${1%%/*}
    by=$(sed -n 's/^shown by: //p' "bench/mutants/$1.edit")
    cp -R "crates/$crate" "$work/kept"
    if said=$(plant "$crate" . "bench/mutants/$1.edit"); then
        show "$by"
        case $? in
        0) said="NOT REFUSED: $by is as before" && wrong=1 ;;
        1) said="refused by a run of $by: $(cut -c 1-160 "$work/first")" ;;
        124) said="refused: $by does not end within 30 minutes" ;;
        *) said="NOT TRIED: $by did not run: $(tail -n 1 "$work/errors" | cut -c 1-160)" && wrong=1 ;;
        esac
    else
        wrong=1
        said="BAD EDIT: $said"
    fi
    echo "$1: $said"
    rm -rf "crates/$crate"
    mv "$work/kept" "crates/$crate"
}

for crate in $(cut -d / -f 1 "$work/edits" | sort -u); do
    by_the_prover "$crate"
    for edit in $(grep "^$crate/" "$work/edits"); do
        ! grep -q '^shown by: ' "bench/mutants/$edit.edit" || by_a_run "$edit"
    done
done
exit "$wrong"
