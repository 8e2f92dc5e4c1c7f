# What the tools share that read an output; each of them is a script that reads this file first.
LC_ALL=C
export LC_ALL
script=$(readlink -f "$0")
lib=$(dirname "$script")/lib

# Where a tool is asked for help, it writes its first lines: the usage, and then what it does.
case ${1-} in
-h | --help)
    sed -n '/^# Usage: /{s//usage: /;s/tools\///g;p;}' "$script"
    awk 'NR > 1 && !/^#/ { exit } NR > 1 && !/^# Usage: / { sub(/^# ?/, ""); print }' "$script"
    exit 0
    ;;
esac

# The usage of a tool stands in its first lines.
usage() {
    sed -n '/^# Usage: /{s//usage: /;s/tools\///g;p;}' "$script" >&2
    exit 2
}

# Ends the tool where this file cannot be read. `-` is standard input, which nobody wants to type.
readable() {
    [ "$1" != - ] || { [ ! -t 0 ] && return || usage; }
    [ -r "$1" ] && [ ! -d "$1" ] || { echo "$(basename "$script"): $1: it cannot be read" >&2; exit 2; }
}
