# How the launchers run a program for a person: `run_program PROGRAM WORD..` does not come back, and its status is the
# program's. Where standard error is a terminal, a fault line is told in words below it by tools/explain, which stands at
# $explain; so are warnings and callers that have not ended, by tools/summary, what tools/lint finds, and how to end `drvrun` while its
# scripts run. In a pipe, with CI or with NO_EXPLAIN in the environment, the program simply takes the place of the launcher.

wants_words() {
    [ -t 2 ] && [ -z "${CI+set}${NO_EXPLAIN+set}" ] && [ -x "$explain" ]
}

# Where the first word asks for help, writes the forms of this program, and ends with status 0.
help_if_asked() {
    case ${2-} in -h | --help) ;; *) return 0 ;; esac
    awk -v program="$1" -F '\t' 'BEGIN { print "usage:" } index($0, program " ") == 1 { printf "    %-44s %s\n", $1, $2 }' \
        "${explain%/*}/forms"
    exit 0
}

run_program() {
    program=$1
    shift
    # Standard output has to be open to be handed on.
    wants_words && { true 3>&1; } 2>/dev/null || exec "$program" "$@"
    # The words of drvrun, drvall and devwhy begin with the configuration; tools/explain takes it from the second one.
    case ${program##*/} in
    drvrun)
        begin_watch "$@"
        { said=$("$program" "$@" 2>&1 >&3 3>&-) && status=0 || status=$?; } 3>&1
        end_watch
        set -- drvrun "$@"
        ;;
    drvall)
        { said=$("$program" "$@" 2>&1 >&3 3>&-) && status=0 || status=$?; } 3>&1
        [ "${1-}" != -w ] || [ $# -lt 2 ] || shift 2
        set -- drvall "$@"
        ;;
    devwhy)
        { said=$("$program" "$@" 2>&1 >&3 3>&-) && status=0 || status=$?; } 3>&1
        set -- devwhy "$@"
        ;;
    *) { said=$("$program" "$@" 2>&1 >&3 3>&-) && status=0 || status=$?; } 3>&1 ;;
    esac
    [ "$status" != 0 ] || tell_what_is_left "$@"
    tell_in_words "$status" "$said" "$@"
}

# Says once how to end the program, if it has not ended after some seconds.
begin_watch() {
    (
        trap 'kill "$sleeper" 2>/dev/null; exit 0' TERM
        sleep "${STILL_AFTER:-5}" &
        sleeper=$!
        wait "$sleeper"
        cat >&2 <<END
drvrun: no end after ${STILL_AFTER:-5} seconds: the scripts still run, and ^C ends them; then nothing is written.
END
    ) &
    watch=$!
    for signal in INT TERM HUP; do trap "end_watch; trap - $signal; kill -$signal $$" "$signal"; done
}

end_watch() {
    kill "$watch" 2>/dev/null
    wait "$watch" 2>/dev/null
}

# The command for a tool: its path in the repository, or its installed name.
beside() {
    if [ -e "${explain%/*}/../crates.txt" ]; then echo "tools/$1"; else echo "devconf-$1"; fi
}

# Below an output, tells its warnings, the callers that have not ended, and what tools/lint finds. The program is asked again for
# that, since its output goes where it goes; so each file has to be one that can be read twice.
tell_what_is_left() {
    case $1 in ioconf | boot | play | files | tables) ;; *) return 0 ;; esac
    tools=${explain%/*}
    number=0
    for file; do
        number=$((number + 1))
        [ "$number" = 1 ] || [ -f "$file" ] || return 0
    done
    case $1 in
    play) "$program" "$@" 2>/dev/null </dev/null | tell_summary "$@" >&2 2>/dev/null ;;
    *)
        [ "$1" = files ] || "$program" "$@" 2>/dev/null </dev/null | "$tools/summary" -b >&2 2>/dev/null
        # A plan is nothing to lint.
        [ "$1" != tables ] || set -- "$1" "$2" "$3"
        shift
        found=$("$tools/lint" "$@" 2>/dev/null)
        case $(printf '%s\n' "$found" | grep -c .) in
        0) ;;
        [1-4]) printf '%s\n' "$found" >&2 ;;
        *) echo "$(printf '%s\n' "$found" | grep -c .) things may be meant otherwise: $(beside lint) $* shows them" >&2 ;;
        esac
        ;;
    esac
    return 0
}

# The summary of a play, with its scripts.
tell_summary() {
    shift 4
    for file; do
        shift
        set -- "$@" -s "$file"
    done
    "$tools/summary" -b "$@"
}

# Writes the fault line, and on a terminal its words below it, and ends with this status.
tell_in_words() {
    ended=$1
    said=$2
    shift 2
    [ -z "$said" ] || printf '%s\n' "$said" >&2
    [ "$ended" = 0 ] || ! wants_words || printf '%s\n' "$said" | "$explain" -b -- "$@" >&2 2>/dev/null
    exit "$ended"
}
