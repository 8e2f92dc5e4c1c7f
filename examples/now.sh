#!/bin/sh
# Shows the first example within two minutes of a clone: runs the code by `rt try`, without proving it. `./devconf` is the
# proved program. Usage: examples/now.sh [boot CONFIGURATION MACHINE], with files of this folder.
cd "$(dirname "$0")/../crates/devconf" || exit 1
command -v rt >/dev/null || { echo "examples/now.sh: the command rt of the Rattle kit is needed" >&2; exit 1; }
[ $# -gt 0 ] || set -- boot small.conf small.machine
given=
for word; do
    [ ! -f "../../examples/$word" ] || given="$given --data $word=../../examples/$word"
done
echo "examples/now.sh: this runs code that was not proved here; its output comes in a minute or two" >&2
said=$(mktemp) || exit 1
trap 'rm -f "$said"' EXIT
rt try $given -- "$@" 2>"$said"
status=$?
grep -vE '^(checked|interpreter|run=|allocations|races)' "$said" >&2
echo "examples/now.sh: that was written by code that was not proved here; ./devconf $* proves it first" >&2
exit "$status"
