#!/bin/sh
# Runs all examples and compares what they write with the stored outputs: a line for each, and status 1 at the first that
# differs. Without words it runs ./devconf, ./drvrun and ./drvall, which take the programs where `rt ci` leaves them too, in
# crates/devconf/out/ and so on, and build them only where they are missing or older than a source.
# Usage: examples/run.sh [DEVCONF DRVRUN DRVALL]
here=$(cd "$(dirname "$0")" && pwd)
devconf=$(readlink -f "${1:-$here/../devconf}") && drvrun=$(readlink -f "${2:-$here/../drvrun}") && drvall=$(readlink -f "${3:-$here/../drvall}") || exit 1
written=$(mktemp) || exit 1
trap 'rm -f "$written"' EXIT

# In this folder, the program with these words has to end well and to write the stored output.
same() {
    stored=$1
    folder=$2
    name=$3
    shift 3
    case $name in devconf) program=$devconf ;; drvrun) program=$drvrun ;; drvall) program=$drvall ;; esac
    if ! (cd "$here/$folder" && "$program" "$@") >"$written" || ! cmp -s "$written" "$here/outputs/$stored"; then
        echo "$stored: $name $*: not as stored in examples/outputs"
        diff "$here/outputs/$stored" "$written" | head -n 10
        exit 1
    fi
    echo "$stored: $name $*: as stored"
}

same first.listing . devconf ioconf first.conf
same small.boot . devconf boot small.conf small.machine
same hub.boot . devconf boot hub.conf hub.machine
same pc.listing pc devconf ioconf GENERIC
same amd64.listing amd64 devconf ioconf GENERIC
same amd64.sources amd64 devconf files GENERIC
same board.listing arm devconf ioconf BOARD
same server.boot amd64 devconf boot GENERIC ../machines/server
same detach.play pc devconf play GENERIC ../machines/pc ../detach.order ../hold.script ../detach.script
same plug.play pc devconf play GENERIC ../machines/pc ../plug.order ../plug.script
same late.watched pc devconf watch GENERIC ../machines/pc ../late.watch ../plug.script
same power.play pc devconf play GENERIC ../machines/pc ../power.order ../power.script
same check.play pc devconf play GENERIC ../machines/pc ../check.order ../mount.script ../check.script
same detach.tree pc devconf replay GENERIC ../machines/pc ../outputs/detach.play ../hold.script ../detach.script
same detach.upgraded pc devconf upgrade GENERIC ../machines/pc ../detach.history ../hold.script ../detach.script
same serial.tables . devconf tables small.conf small.machine serial.plan
same modules.tables amd64 devconf tables GENERIC ../machines/server ../modules.plan
same plug.play pc drvrun GENERIC ../machines/pc ../plug.script
same power.play pc drvrun GENERIC ../machines/pc ../power.script
same detach.every pc drvall GENERIC ../machines/pc ../hold.script ../detach.script
