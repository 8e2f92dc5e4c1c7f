#!/bin/sh
# Refuses the program one of its first allocations, with which it reads its words: each time it has to end with status 10
# and say `out of memory`. It runs the code with `rt try`, without proving it, and takes a minute or more for each
# allocation, so no gate runs it. Usage: examples/memory.sh [NUMBER..]
top=$(cd "$(dirname "$0")/.." && pwd) || exit 1
command -v rt >/dev/null || { echo "examples/memory.sh: the command rt of the Rattle kit is needed" >&2; exit 1; }
said=$(mktemp) || exit 1
trap 'rm -f "$said"' EXIT
[ $# -gt 0 ] || set -- 1 2 3 4
cd "$top/crates/devconf" || exit 1
for number; do
    rt try --fail-alloc "$number" -- load 6 >"$said" 2>&1
    status=$?
    if [ "$status" != 10 ] || ! grep -qx 'out of memory' "$said"; then
        echo "allocation $number refused: status $status, where 10 and 'out of memory' are wanted"
        tail -n 5 "$said"
        exit 1
    fi
    echo "allocation $number refused: status 10, out of memory"
done
