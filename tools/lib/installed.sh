#!/bin/sh
# Runs an installed program, the one of this script's own name, and tells a fault in words where a person sees it.
self=$(readlink -f "$0") || exit 125
tools=$(dirname "$self")
explain=$tools/explain
. "$tools/lib/terminal.sh"
help_if_asked "$(basename "$self")" "$@"
run_program "$tools/../../../libexec/devconf/$(basename "$self")" "$@"
