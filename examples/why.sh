#!/bin/sh
# Asks `devwhy` about every spot of the examples' machines, and compares each answer with the history of the boot: the row that is
# said to take the spot is the row that took it, and where none did, no row is said to. Then it asks the questions of
# examples/outputs/why.answers, which have each reason, and compares the answers. A line for each machine, and status 1 where an
# answer differs. Usage: examples/why.sh [DEVCONF DEVWHY]
here=$(cd "$(dirname "$0")" && pwd)
devconf=$(readlink -f "${1:-$here/../devconf}") && devwhy=$(readlink -f "${2:-$here/../devwhy}") || exit 1
work=$(mktemp -d) || exit 1
trap 'rm -rf "$work"' EXIT

# What the history says of each spot: what came there, or that nothing did.
found() {
    awk '
    function note(parent, spot, what) { print spot "\t" parent "\t" what }
    /^0\.0 found / && match($0, / on [^ :]*: /) {
        note($3, substr($0, RSTART + 4, RLENGTH - 6), substr($0, RSTART + RLENGTH))
    }
    /^0\.0 final / && match($0, / on [^ :]*: /) {
        parent = $3
        sub(/:$/, "", parent)
        note(parent, substr($0, RSTART + 4, RLENGTH - 6), substr($0, RSTART + RLENGTH))
    }' "$1"
}

# Compares the answer for a spot with the line that the history has for it, if it has one.
judge() {
    awk -v spot="$1" -v known="$work/found" '
    BEGIN {
        while ((getline line < known) > 0) {
            split(line, part, "\t")
            if (part[1] == spot) { parent = part[2]; what = part[3] }
        }
        wanted = what == "" ? "" : "spot " spot " below " parent ": " what
        row = what ~ / row [0-9]+$/ ? what : ""
        sub(/.* /, "", row)
    }
    NR == 1 {
        first = $0
        if (wanted != "" && $0 != wanted) fault("the history says: " wanted)
        if (wanted == "" && $0 !~ /: never searched: / && $0 !~ /, row by row: not configured$/) fault("the history does not have the spot")
    }
    NR > 1 && /  takes it$/ { takers++; taker = $2 }
    NR > 1 && /  would take it, / && first !~ /, row by row: / { fault("a row would take it, and the search was spot by spot") }
    function fault(why) { print "spot " spot ": " why; print "  devwhy says: " $0; faults++ }
    END {
        if (!NR) { print "spot " spot ": no answer"; exit 1 }
        if (row != "" && !(takers == 1 && taker == row)) { print "spot " spot ": row " row " took it, and devwhy names " takers + 0 " rows"; exit 1 }
        if (row == "" && takers) { print "spot " spot ": row " taker " is said to take it, and nothing did"; exit 1 }
        exit faults > 0
    }' "$work/answer"
}

# All spots of a machine.
ask() {
    folder=$1
    conf=$2
    machine=$3
    cd "$here/$folder" || exit 1
    "$devconf" boot "$conf" "$machine" >"$work/boot" || exit 1
    found "$work/boot" >"$work/found"
    asked=0
    driverless=0
    for spot in $(awk '$1 == "spot" { print $2 }' "$machine"); do
        "$devwhy" "$conf" "$machine" "$spot" >"$work/answer" || { echo "$machine: devwhy $spot: status $?"; exit 1; }
        judge "$spot" || exit 1
        asked=$((asked + 1))
        ! head -n 1 "$work/answer" | grep -q ': not configured$' || driverless=$((driverless + 1))
    done
    echo "$machine: $asked spots as in the history, $driverless of them searched and without a driver"
}

ask . small.conf small.machine
ask . hub.conf hub.machine
ask . disk.conf disk.machine
ask . why.conf why.machine
ask . bus.conf bus.machine
ask . gone.conf gone.machine
ask pc GENERIC ../machines/pc
ask arm BOARD ../machines/board
ask amd64 GENERIC ../machines/server
ask amd64 GENERIC ../machines/laptop
ask amd64 GENERIC ../machines/virtual
ask amd64 GENERIC ../machines/box

# The questions with stored answers: each behind `$ devwhy`, with its answer below it.
cd "$here" || exit 1
questions=0
while read -r _ _ words; do
    echo "\$ devwhy $words"
    # shellcheck disable=SC2086
    "$devwhy" $words 2>/dev/null || echo "status $?"
    questions=$((questions + 1))
done >"$work/answers" <<END
$(grep '^\$ ' outputs/why.answers)
END
if ! cmp -s outputs/why.answers "$work/answers"; then
    echo "why.answers: not as stored in examples/outputs"
    diff outputs/why.answers "$work/answers" | head -n 10
    exit 1
fi
echo "why.answers: $questions answers as stored"
