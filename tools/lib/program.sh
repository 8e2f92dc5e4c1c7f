# Finds the program `devconf` for a tool that asks it: $DEVCONF, else the one that is built in this repository, installed beside
# the tools, or found by its name. `program` is left empty where there is none; nothing is built for a tool.
find_devconf() {
    program=
    for found in "${DEVCONF-}" "$lib/../../crates/devconf/out/devconf" "$lib/../../../../libexec/devconf/devconf"; do
        [ -n "$found" ] && [ -x "$found" ] && program=$(readlink -f "$found") && return
    done
    program=$(command -v devconf 2>/dev/null) || program=
    # A launcher of this repository would build it.
    case $program in '' | "$(readlink -f "$lib/../..")"/*) program= ;; esac
}

# Runs the program for a tool. If it refuses, the tool ends with status 2, after the fault line and, on a terminal, what explains it.
run_devconf() {
    {
        said=$("$program" "$@" 2>&1 >&3 3>&-) || {
            printf '%s\n' "$said" >&2
            [ ! -t 2 ] || [ -n "${CI+set}${NO_EXPLAIN+set}" ] || printf '%s\n' "$said" | "$(dirname "$script")/explain" -b -- "$@" >&2
            exit 2
        }
    } 3>&1
}

# Finds the program for a tool that can do nothing without it.
need_devconf() {
    find_devconf
    [ -z "$program" ] || return 0
    echo "$(basename "$script"): the program devconf is not built here; make builds it, or DEVCONF=PATH names one" >&2
    exit 2
}
