#!/bin/sh
# Runs the cases of the tools, those of tools/cases and some of its own: a line for each tool, and status 1 where one differs
# from what is wanted. What needs a command that is not here is passed over and told; so is what needs the program devconf,
# where `$DEVCONF` does not name it and crates/devconf/out has none.
# Usage: tools/test.sh [AWK [SHELL]], the commands with which the tools are to run, as "busybox awk" dash
LC_ALL=C
export LC_ALL
unset CI NO_EXPLAIN
tools=$(cd "$(dirname "$0")" && pwd) || exit 1
top=$(dirname "$tools")
work=$(mktemp -d) || exit 1
trap 'rm -rf "$work"' EXIT
set -- "${1:-awk}" "${2:-sh}"
shell=$2
mkdir "$work/bin"
found=$(command -v "${1%% *}") || { echo "tools/test.sh: there is no ${1%% *}" >&2; exit 1; }
printf '#!/bin/sh\nexec %s "$@"\n' "$found${1#"${1%% *}"}" >"$work/bin/awk"
chmod +x "$work/bin/awk"
PATH=$work/bin:$PATH
DEVCONF=$(readlink -f "${DEVCONF:-$top/crates/devconf/out/devconf}") && [ -x "$DEVCONF" ] || DEVCONF=
export DEVCONF
wrong=0

# Makes a folder for each case of the file: what it runs, its files, its input and what is wanted. A line that begins with
# "=== case" begins a case, one with "--- " says something about it, and every other line belongs to what was named last.
#   --- run WORD ..     the words of the tool, as a shell reads them
#   --- file NAME, --- input, --- output, --- errors    what follows is that; with "= PATH" behind it, the file of that path
#                       in the repository comes first
#   --- return TEXT     a line of this text with a carriage return at its end
#   --- status N        the wanted status, 0 where it is not said
#   --- needs devconf   the case asks the program, and is passed over where there is none
cut_cases() {
    awk -v work="$2" -v top="$top" '
    function to(name, path,   line) {
        if (into != "") close(into)
        into = folder "/" name
        printf "" >into
        if (path == "") return
        while ((getline line < (top "/" path)) > 0) print line >into
        close(top "/" path)
    }
    /^=== case / {
        folder = sprintf("%s/%03d", work, ++cases)
        system("mkdir -p " folder "/files")
        print substr($0, 10) >(folder "/name"); close(folder "/name")
        into = ""
        next
    }
    /^--- run/ { print substr($0, 9) >(folder "/run"); close(folder "/run"); next }
    /^--- return / { print substr($0, 12) "\r" >into; next }
    /^--- needs / { print $3 >(folder "/needs"); close(folder "/needs"); next }
    /^--- status / { print $3 >(folder "/status"); close(folder "/status"); next }
    /^--- file / {
        if (index($3, "/")) { parts = $3; sub(/\/[^\/]*$/, "", parts); system("mkdir -p " folder "/files/" parts) }
        to("files/" $3, $4 == "=" ? $5 : "")
        next
    }
    /^--- (input|output|errors)( |$)/ { to($2, $3 == "=" ? $4 : ""); next }
    /^(---|===) / { print "tools/test.sh: " FILENAME ":" FNR ": no line of a case" | "cat 1>&2"; exit }
    into != "" { print >into }' "$1"
}

# Tells where a case differs.
differ() {
    wrong=$((wrong + 1))
    echo "$tool: $1: $2"
    [ -z "$3" ] || diff "$3" "$4" | head -n 10
}

run_case() {
    case=$1
    name=$(cat "$case/name")
    [ -e "$case/input" ] || : >"$case/input"
    [ -e "$case/output" ] || : >"$case/output"
    [ -e "$case/errors" ] || : >"$case/errors"
    eval "set -- $(cat "$case/run")"
    (cd "$case/files" && $shell "$tools/$tool" "$@" <../input >../got_output 2>../got_errors)
    got=$?
    cmp -s "$case/output" "$case/got_output" || differ "$name" "the output" "$case/output" "$case/got_output"
    cmp -s "$case/errors" "$case/got_errors" || differ "$name" "standard error" "$case/errors" "$case/got_errors"
    [ "$got" = "$(cat "$case/status" 2>/dev/null || echo 0)" ] || differ "$name" "the status is $got" ''
}

try_tool() {
    tool=$1
    before=$wrong
    cut_cases "$tools/cases/$tool" "$work/$tool"
    count=0
    passed=0
    for case in "$work/$tool"/*/; do
        [ -d "$case" ] || break
        if [ -e "${case}needs" ] && [ -z "$DEVCONF" ]; then passed=$((passed + 1)) && continue; fi
        run_case "${case%/}"
        count=$((count + 1))
    done
    ended "$count cases$([ "$passed" = 0 ] || echo " ($passed more need the program devconf, which is not built)")"
}

ended() { [ "$wrong" != "$before" ] || echo "$tool: $1 as wanted"; }

# Of the text of each kernel in examples/dmesg: the machine file that is made of it attaches all devices under their names,
# and what a trimmed configuration attaches is the same.
try_kernels() {
    tool=examples/dmesg
    before=$wrong
    for each in box:amd64/GENERIC virtual:amd64/GENERIC laptop:amd64/GENERIC board:arm/BOARD; do
        name=${each%%:*}
        folder=${each#*:}
        conf=${folder#*/}
        folder=$top/examples/${folder%/*}
        (cd "$folder" && $shell "$tools/machine" -c "$conf" ../dmesg/"$name") >"$work/made" 2>"$work/said" \
            || differ "$name" "machine: $(cat "$work/said")" ''
        cmp -s "$top/examples/machines/$name" "$work/made" \
            || differ "$name" 'the machine file' "$top/examples/machines/$name" "$work/made"
        said=$(tail -n 1 "$work/said")
        devices=$(grep -c '^match' "$work/made")
        devices=$((devices - $(grep -c 'absent' "$work/made")))
        case $said in
        "machine: $devices of $devices devices attach under their names; "*) ;;
        *) differ "$name" "machine: $said" '' ;;
        esac
        (cd "$folder" && $shell "$tools/trim" "$conf" ../machines/"$name") >"$work/trimmed" 2>"$work/said" \
            || differ "$name" "trim: $(cat "$work/said")" ''
        (cd "$folder" && "$DEVCONF" boot "$work/trimmed" ../machines/"$name") >"$work/trimmed.boot" 2>"$work/said" \
            || differ "$name" "the trimmed configuration: $(cat "$work/said")" ''
        [ "$(sed '1,/^tree$/d' "$work/trimmed.boot" | grep -c .)" = "$devices" ] || differ "$name" 'the trimmed boot' ''
    done
    ended '4 kernels'
}

# Every stored output of the examples: the tools take it, and the graph has each device of the tree and is one of DOT.
try_examples() {
    tool=examples/outputs
    before=$wrong
    count=0
    for output in "$top"/examples/outputs/*.boot "$top"/examples/outputs/*.play "$top"/examples/outputs/*.tables; do
        name=$(basename "$output")
        count=$((count + 1))
        $shell "$tools/summary" "$output" >"$work/said" 2>&1 && status=0 || status=$?
        [ "$status" -le 1 ] || differ "$name" "summary: $(cat "$work/said")" ''
        $shell "$tools/draw" "$output" >"$work/graph" 2>&1 || differ "$name" "draw: $(cat "$work/graph")" ''
        drawn=$(grep -c '\[label=' "$work/graph")
        [ "$drawn" = "$(sed '1,/^tree$/d' "$output" | grep -c .)" ] || differ "$name" "$drawn devices are drawn" ''
        if command -v dot >/dev/null; then
            dot -Tsvg "$work/graph" >/dev/null 2>"$work/said" || differ "$name" "dot: $(cat "$work/said")" ''
        fi
        said=$($shell "$tools/compare" "$output" "$output" 2>&1) && [ -z "$said" ] \
            || differ "$name" "compare with itself: $said" ''
    done
    ended "$count outputs"
}

# Each code of the cases of docs/FAULTS.md has its words, and the codes of each kind of file are all there.
try_words() {
    tool=docs/FAULTS.md
    before=$wrong
    said=$(awk -F '|' '
    /^## / { heading = $0; kinds[++kind_count] = heading; column = "" }
    NF == 5 && $3 ~ /in words/ { column = "words"; next }
    NF == 7 && $2 ~ /code/ { column = "cases"; next }
    NF < 5 { column = "" }
    column == "" || $2 !~ /[0-9]/ { next }
    column == "words" {
        if ((heading, $2 + 0) in words) print heading ": code " $2 + 0 " twice"
        words[heading, $2 + 0] = 1
        if ($2 + 0 > last[heading]) last[heading] = $2 + 0
        count++
    }
    column == "cases" && !((heading, $2 + 0) in words) { print heading ": no words for code " $2 + 0 }
    END {
        for (k = 1; k <= kind_count; k++)
            for (n = kinds[k] ~ /order/ ? 2 : 1; n <= last[kinds[k]]; n++)
                if (!((kinds[k], n) in words) && !(kinds[k] ~ /plan/ && n == 3) && !(kinds[k] ~ /watch/ && n >= 5 && n <= 8))
                    print kinds[k] ": no words for code " n
        print "codes " count
    }' "$top/docs/FAULTS.md")
    case $said in "codes "*) ;; *) differ words "$said" '' ;; esac
    for family in configuration machine script; do
        codes=$(sed -n "/^pub mod $family {/,/^}/s/^.*: u8 = \([0-9]*\);.*/\1/p" "$top/crates/cf_types/src/code.rt")
        [ -n "$codes" ] || differ "$family" 'no codes in crates/cf_types/src/code.rt' ''
        kind=$([ "$family" = configuration ] && echo config || echo "$family")
        for code in $codes; do
            # The codes behind 25 are those of `files`.
            [ "$kind" != config ] || [ "$code" -le 25 ] || grep -q '^devconf files' "$tools/forms" || continue
            "$tools/explain" "$kind" "$code" >/dev/null 2>&1 \
                || differ "$kind $code" 'no words for a code of crates/cf_types/src/code.rt' ''
        done
    done
    # Those of a plan go on behind those of scripts.
    for code in 1 2 4 $(sed -n 's/^.*: u8 = \([0-9]*\);.*/\1/p' "$top/crates/live_rules/src/code.rt" 2>/dev/null); do
        "$tools/explain" plan "$code" >/dev/null 2>&1 || differ "plan $code" 'no words for a code of a plan' ''
    done
    ended "the words of ${said#codes } codes"
}

# Each form of a program in tools/forms stands in the usage line that the program writes, and explain shows it below it.
try_forms() {
    tool=tools/forms
    before=$wrong
    grep -E '^(devconf|drvrun|drvall|devwhy) ' "$tools/forms" | cut -f 1 >"$work/forms"
    while read -r program form; do
        usage=$(grep -h "usage: $program " "$top"/crates/*/src/*.rt | sed 's/.*usage: /usage: /; s/\\n.*//')
        echo "${usage#*"$program "}" | tr '|' '\n' | sed 's/^ *//; s/ *$//' >"$work/known"
        grep -qxF "$(echo "$form" | sed 's/NUMBER/N/')" "$work/known" || differ "$program $form" 'not in the usage line' ''
        echo "$usage" | $shell "$tools/explain" -b >"$work/said" 2>&1
        grep -qF "    $program $form " "$work/said" || differ "$program $form" 'explain does not show it' ''
        said=$(head -n 1 "$work/said")
        [ "$said" = '  The words have none of the forms.' ] || differ "$program" "explain: $said" ''
    done <"$work/forms"
    # And each statement of the examples fits a form of tools/forms.
    for conf in small.conf hub.conf disk.conf pc/GENERIC amd64/GENERIC; do
        said=$(cd "$top/examples/$(dirname "$conf")" && awk -v top="$(basename "$conf")" -v forms="$tools/forms" -f "$tools/lib/common.awk" \
            -f "$tools/lib/numbers.awk" -f "$tools/lib/config.awk" -f "$tools/lib/grammar.awk" -f "$tools/lib/fits.awk")
        [ -z "$said" ] || differ "$conf" "$said" ''
    done
    ended "$(wc -l <"$work/forms" | tr -d ' ') forms, and the statements of the examples"
}

# Each tool that is installed has its paragraph in devconf-tools(1), and its options are in the synopsis there.
try_manual() {
    tool=man/devconf-tools.1
    before=$wrong
    for each in $(sed -n 's/^TOOLS = //p' "$top/Makefile"); do
        grep -q "^\.It Nm devconf-$each\$" "$top/man/$(basename "$tool")" || differ "$each" 'it has no paragraph' ''
        awk -v name="devconf-$each" '
        /^\.Sh / { in_synopsis = $2 == "SYNOPSIS" }
        /^\.Nm / { is_it = $2 == name }
        in_synopsis && is_it { for (n = 1; n < NF; n++) if ($n == "Fl" || $n == ".Fl") print $(n + 1) }' "$top/$tool" | grep -o '[a-z]' | sort -u >"$work/got"
        sed -n '/^# Usage: /{s///;s/tools\///g;p;}' "$tools/$each" | tr ' []' '\n\n\n' | sed -n 's/^-\([a-z]*\)$/\1/p' | grep -o '[a-z]' | sort -u >"$work/wanted"
        cmp -s "$work/wanted" "$work/got" || differ "$each" 'its options' "$work/wanted" "$work/got"
    done
    ended 'the tools and their options'
}

# On a terminal the launchers add words to a fault line, and nowhere else; the status is the program's.
try_terminal() {
    tool=tools/lib/terminal.sh
    before=$wrong
    printf '#!/bin/sh\necho output\n[ $# = 0 ] || { echo "config conf:1: code 4" >&2; exit 1; }\n' >"$work/program"
    printf '#!/bin/sh\nexplain=%s/explain\n. %s/lib/terminal.sh\nrun_program "%s/program" "$@"\n' "$tools" "$tools" "$work" \
        >"$work/launcher"
    chmod +x "$work/program" "$work/launcher"
    printf 'ident "abc\n' >"$work/conf"
    said=$(cd "$work" && $shell ./launcher word 2>&1) && status=0 || status=$?
    [ "$status $said" = "$(printf '1 output\nconfig conf:1: code 4')" ] || differ 'in a pipe' "status $status, $said" ''
    if ! script -qec true /dev/null >/dev/null 2>&1; then
        ended 'in a pipe (there is no script(1) of util-linux to try it on a terminal)'
        return
    fi
    bare=$(printf 'output\nconfig conf:1: code 4')
    on_terminal '' word "$(printf '%s\n     1 | ident "abc\n       |       ^^^^ column 7\n  A string is open at the end of its line.' "$bare")" 1
    on_terminal '' '' output 0
    on_terminal NO_EXPLAIN=1 word "$bare" 1
    on_terminal CI=true word "$bare" 1
    tell_warnings_on_terminal
    tell_standstill
    ended 'a pipe, a terminal, NO_EXPLAIN and CI, warnings, callers that have not ended, scripts that stand still'
}

# A program of this name that writes this file, after so many seconds, and a launcher for it.
make_program() {
    printf '#!/bin/sh\nsleep %s\ncat %s\n' "$3" "$2" >"$work/$1"
    printf '#!/bin/sh\nexplain=%s/explain\n. %s/lib/terminal.sh\nhelp_if_asked %s "$@"\nrun_program "%s/%s" "$@"\n' \
        "$tools" "$tools" "$1" "$work" "$1" >"$work/launcher"
    chmod +x "$work/$1"
}

# Below an output that is written to a file, a terminal shows its warnings and who has not ended; in a pipe nothing comes.
tell_warnings_on_terminal() {
    printf 'history 2\n0.0 found root on a: com0 row 0\n0.0 end\n1.1 open com0: ok\ntree\ncom0 at root row 0 held 1\n' >"$work/played"
    make_program devconf "$work/played" 0
    : >"$work/ord"
    echo 'open com0' >"$work/s1"
    said=$(cd "$work" && $shell ./launcher play conf conf ord s1 2>&1 >out)
    [ -z "$said" ] || differ 'play in a pipe' "$said" ''
    on_terminal '' 'play conf conf ord s1 >out' "$(printf '1 caller has not ended\n    caller 1 can go on: it has only to end')" 0 2
    cmp -s "$work/out" "$work/played" || differ 'play on a terminal' 'the output' "$work/played" "$work/out"
    printf 'tables\nwarning conf:1 orphan\n' >"$work/played"
    on_terminal '' 'ioconf conf >out' "$(printf '1 warning\n    conf:1: nothing that is attached can carry it: ident "abc')" 0 2
    on_terminal CI=1 'ioconf conf >out' '' 0 2
    printf 'options A=1\noptions A=2\n' >"$work/twice"
    echo tables >"$work/played"
    on_terminal '' 'ioconf twice >out' 'twice:2: `A=2` is a second value: at twice:1 it is `A=1`' 0 2
    printf 'file a.c b\nfile a.c c\nfile a.c d\nfile a.c e\nfile a.c f\n' >"$work/many"
    on_terminal '' 'ioconf many >out' '5 things may be meant otherwise: tools/lint many shows them' 0 2
    said=$(cd "$work" && $shell ./launcher --help) && status=0 || status=$?
    [ "$status $(echo "$said" | head -n 1)" = '0 usage:' ] || differ '--help' "status $status, $said" ''
}

# drvrun that does not end says so once on a terminal, and nothing in a pipe or where it ends before.
tell_standstill() {
    echo tree >"$work/played"
    make_program drvrun "$work/played" 2
    on_terminal STILL_AFTER=1 'conf conf s1' 'drvrun: no end after 1 seconds: the scripts still run, and ^C ends them; then nothing is written.' 0 1
    on_terminal STILL_AFTER=9 'conf conf s1' tree 0 1
    said=$(cd "$work" && STILL_AFTER=1 $shell ./launcher conf conf s1 2>&1)
    [ "$said" = tree ] || differ 'drvrun in a pipe' "$said" ''
}


# The launcher on a terminal, with this in the environment and these words: its first lines, five or so many, and its status.
on_terminal() {
    (cd "$work" && TERM=dumb script -qec "env $1 $shell ./launcher $2" /dev/null </dev/null >"$work/said") \
        && status=0 || status=$?
    tr -d '\r' <"$work/said" | head -n "${5:-5}" >"$work/got"
    printf '%s' "$3${3:+
}" >"$work/wanted"
    cmp -s "$work/wanted" "$work/got" || differ "on a terminal $1 $2" 'what is written' "$work/wanted" "$work/got"
    [ "$status" = "$4" ] || differ "on a terminal $1 $2" "the status is $status" ''
}

try_completion() {
    tool=tools/completion
    before=$wrong
    first=$(sed -n 's/^devconf \([a-z]*\).*/\1/p' "$tools/forms" | sort | tr '\n' ' ')
    first=${first% }
    for known in bash zsh; do
        command -v "$known" >/dev/null || { missing="$missing $known"; continue; }
        next "$known" '' "$first" devconf ''
        next "$known" '' boot devconf b
        next "$known" '' FILE ./devconf boot ''
        next "$known" '' FILE devconf play a b c d ''
        next "$known" '' FILE devconf tables a b ''
        next "$known" '' '' devconf tables a b c ''
        next "$known" '' '' devconf load ''
        next "$known" '' '' devconf boot a b ''
        next "$known" '' '' devconf fly ''
        next "$known" '' '-a -c -m -n -s -t FILE' devconf-summary ''
        next "$known" '' FILE devconf-summary -m ''
        next "$known" '' 'config history machine order plan script status watch' devconf-explain ''
        next "$known" '' FILE devconf-check a ''
        next "$known" '' '' devconf-check a b ''
    done
    ended "bash and zsh${missing:+, but these are not here:$missing;}"
}

# What this shell completes behind these words, the last of them being the one that is typed.
next() {
    known=$1
    wanted=$3
    shift 3
    got=$("$known" "$work/next.$known" "$tools" "$@" 2>&1 | tr ' ' '\n' | grep . | sort | tr '\n' ' ')
    [ "${got% }" = "$wanted" ] || differ "$known: $*" "'${got% }', where '$wanted' is wanted" ''
}

make_completers() {
    cat >"$work/next.bash" <<'END'
compopt() { plain=1; }
. "$1/completion/devconf.bash"
shift
COMP_WORDS=("$@") COMP_CWORD=$(($# - 1)) plain=
_devconf "$1"
echo "${COMPREPLY[*]}"
[ -n "$plain" ] || echo FILE
END
    cat >"$work/next.zsh" <<'END'
compdef() { }
compadd() { shift; for word in "$@"; do [[ $word = $words[CURRENT]* ]] && print -r -- $word; done }
_files() { print FILE }
. "$1/completion/devconf.zsh"
shift
words=("$@") CURRENT=$#
_devconf
END
}

# The example, the vim settings, the makefile and the commands of docs/CI.md.
try_ci() {
    tool=docs/CI.md
    before=$wrong
    mkdir "$work/ci" "$work/ci/stored"
    fill_ci "$top/examples/outputs/small.boot"
    ci_makefile 0 'the first time'
    fill_ci "$top/examples/outputs/small.boot" 'warning GENERIC:2 orphan'
    ci_makefile 1 'with a warning'
    sed 's/on u1: com1 row 3/on u1: not configured/; /com1/d' "$top/examples/outputs/small.boot" >"$work/lacking"
    fill_ci "$work/lacking"
    ci_makefile 1 'with a spot without a driver'
    cp "$top/examples/outputs/small.boot" "$work/ci/stored/GENERIC.boot"
    sed -n '/^```sh/,/^```/p' "$top/docs/CI.md" | grep -v '^```' \
        | sed "s#devconf-#$shell $tools/#; s#^devconf #$shell ./devconf #" >"$work/ci/job"
    said=$(cd "$work/ci" && $shell ./job 2>&1) && status=0 || status=$?
    [ "$status $(echo "$said" | tail -n 1)" = '1 u1: com1 went, which was below isa0; no driver takes the spot now' ] \
        || differ job "status $status, $said" ''
    try_vim
    ended "the makefile and the job${vim:+, and the settings of vim}"
}

# A folder with a program that writes this output, with this line before the history.
fill_ci() {
    if [ -n "${2-}" ]; then sed "s#^history 2#$2\\
history 2#" "$1" >"$work/ci/output"; else cp "$1" "$work/ci/output"; fi
    printf '#!/bin/sh\ncat %s/ci/output\n' "$work" >"$work/ci/devconf"
    chmod +x "$work/ci/devconf"
    cp "$top/examples/small.conf" "$work/ci/GENERIC"
    cp "$top/examples/small.machine" "$work/ci/machine"
    sed -n '/^```make/,/^```/p' "$top/docs/CI.md" | grep -v '^```' >"$work/ci/Makefile"
    rm -f "$work/ci/GENERIC.boot"
}

ci_makefile() {
    command -v make >/dev/null || return 0
    (cd "$work/ci" && make DEVCONF=./devconf SUMMARY="$shell $tools/summary") >"$work/said" 2>&1 && status=0 || status=1
    [ "$status" = "$1" ] || differ "the makefile $2" "$(cat "$work/said")" ''
}

try_vim() {
    vim=$(command -v vim) || return 0
    sed -n 's/^    :set /set /p' "$top/docs/CI.md" >"$work/ci/settings"
    printf '#!/bin/sh\necho "config sub/conf:7: code 13" >&2\nexit 1\n' >"$work/ci/devconf"
    mkdir -p "$work/ci/sub" && : >"$work/ci/sub/conf"
    (cd "$work/ci" && PATH=.:$PATH "$vim" -es -u NONE -c 'source settings' -c 'silent make!' -c 'let to = getqflist()[0]' \
        -c 'call writefile([bufname(to.bufnr) . ":" . to.lnum . ":" . to.text], "place")' -c 'qa!' </dev/null >/dev/null 2>&1)
    said=$(cat "$work/ci/place" 2>/dev/null)
    [ "$said" = 'sub/conf:7:code 13' ] || differ vim "it goes to '$said'" ''
}

# The pages: they load nothing, and in a browser they show the tree of the output, the tree at each moment that `replay`
# leads to, and what the keys are for.
try_pages() {
    tool=tools/page
    before=$wrong
    for output in small.boot hub.boot server.boot detach.play plug.play power.play check.play detach.tree; do
        $shell "$tools/page" "$top/examples/outputs/$output" >"$work/$output.html" 2>"$work/said" \
            || differ "$output" "page: $(cat "$work/said")" ''
        ! grep -E '(src|href)="?(https?:)?//|@import|url\(|fetch\(|XMLHttp|import\(' "$work/$output.html" >"$work/said" \
            || differ "$output" "the page loads something: $(cat "$work/said")" ''
    done
    browser=
    for each in chromium chromium-browser google-chrome; do
        browser=$(command -v "$each") && break
    done
    [ -n "$browser" ] || { ended '8 pages (there is no browser to look at them)'; return; }
    for output in small.boot hub.boot server.boot detach.play plug.play power.play check.play detach.tree; do
        awk 'begun { print } /^tree$/ { begun = 1 }' "$top/examples/outputs/$output" >"$work/wanted"
        page_tree "$output.html" || { ended "8 pages (the browser does not start: $(tail -n 1 "$work/said"))"; return; }
        cmp -s "$work/wanted" "$work/got" || differ "$output" 'the tree in the browser' "$work/wanted" "$work/got"
    done
    [ -z "$DEVCONF" ] || for event in 3 18 20 21 23 27; do
        awk -v last="$event" '{ print } /^history/ { begun = NR } begun && NR == begun + last { exit }' \
            "$top/examples/outputs/detach.play" >"$work/prefix"
        echo tree >>"$work/prefix"
        (cd "$top/examples/pc" && "$DEVCONF" replay GENERIC ../machines/pc "$work/prefix" ../hold.script ../detach.script) \
            2>"$work/said" | sed 1d >"$work/wanted"
        page_tree "detach.play.html#event=$event"
        cmp -s "$work/wanted" "$work/got" || differ "event $event" 'the tree in the browser' "$work/wanted" "$work/got"
    done
    { echo '<script>'; cat "$tools/cases/page.keys.js"; echo '</script>'; } >>"$work/detach.play.html"
    in_browser detach.play.html --virtual-time-budget=20000
    said=$(sed -n 's/.*<title>\([^<]*\).*/\1/p' "$work/dom")
    [ "$said" = 'all keys as wanted' ] || differ keys "$said" ''
    ended "8 pages, their trees and keys in ${browser##*/}"
}

# The page as the browser has it, in the file dom.
in_browser() {
    page=$1
    shift
    "$browser" --headless --no-sandbox --disable-gpu --user-data-dir="$work/browser" "$@" --dump-dom "file://$work/$page" \
        >"$work/dom" 2>"$work/said"
    grep -q '<html' "$work/dom"
}

# The lines of the tree that the browser shows.
page_tree() {
    in_browser "$1" || return 1
    tr '\n' ' ' <"$work/dom" | awk '{
        count = split($0, item, /<li role="treeitem"/)
        for (n = 2; n <= count; n++) {
            match(item[n], /title="[^"]*"/)
            line = substr(item[n], RSTART + 7, RLENGTH - 8)
            match(item[n], /aria-level="[0-9]+"/)
            for (level = substr(item[n], RSTART + 12, RLENGTH - 13) - 1; level; level--) line = "  " line
            print line
        }
    }' >"$work/got"
}

# The syntax files of editors are those that tools/forms gives, and the editors that are here take them.
try_editors() {
    tool=tools/editors
    before=$wrong
    $shell "$tools/editors/make.sh" "$work/editors" || differ make.sh 'it ends with a fault' ''
    said=$(cd "$tools/editors" && diff -r . "$work/editors" | grep -v '^Only in \.: make.sh$')
    [ -z "$said" ] || differ make.sh "run it again: $said" ''
    printf 'com0 at isa? port 0x3f8 # "a"\nident "x"\n' >"$work/conf"
    printf ' spot a root root late # b\n' >"$work/mach"
    seen=
    if vim=$(command -v vim); then
        # The groups that vim gives to these columns of the first line.
        groups devconf conf '1 6 19 25' 'devconfUnit devconfWord devconfNumber devconfComment'
        groups devconfmachine mach '2 9 19 25' 'devconfStatement devconfWord devconfWord devconfComment'
        seen="$seen, vim"
    fi
    if command -v emacs >/dev/null; then
        faces devconf-mode conf '1 6 19 27' 'font-lock-variable-name-face font-lock-builtin-face font-lock-constant-face font-lock-comment-face'
        faces devconf-machine-mode mach '2 9 19 26' 'font-lock-keyword-face font-lock-builtin-face font-lock-builtin-face font-lock-comment-face'
        seen="$seen, emacs"
    fi
    ended "the syntax files${seen:+, tried in ${seen#, }}"
}

groups() {
    said=$("$vim" -es -u NONE -c "set rtp^=$tools/editors/vim" -c 'syntax on' -c "edit $work/$2" -c "set filetype=$1" \
        -c "call writefile([join(map(split('$3'), 'synIDattr(synID(1, v:val, 1), \"name\")'))], '$work/groups')" -c 'qa!' </dev/null 2>&1)
    [ "$(cat "$work/groups" 2>/dev/null)" = "$4" ] || differ "vim, $1" "$(cat "$work/groups") where $4 is wanted $said" ''
}

faces() {
    said=$(emacs --batch -l "$tools/editors/emacs/devconf-mode.el" --visit "$work/$2" --eval "(progn ($1) (font-lock-ensure)
        (princ (mapconcat (lambda (at) (format \"%s\" (get-text-property at 'face))) '($3) \" \")))" 2>"$work/said")
    [ "$said" = "$4" ] || differ "emacs, $1" "$said where $4 is wanted $(cat "$work/said")" ''
}

# The commands of docs/TOUR.md that stand with their output, "$ .." at the beginning: they print what stands there.
try_tour() {
    tool=docs/TOUR.md
    before=$wrong
    devwhy=$top/crates/devwhy/out/devwhy
    awk -v work="$work" '
    /^    \$ / { print substr($0, 7) >(work "/tour." ++count); printf "" >(work "/told." count); begun = 1; next }
    /^    / { if (begun) print substr($0, 5) >(work "/told." count); next }
    { begun = 0 }
    END { print count + 0 }' "$top/docs/TOUR.md" >"$work/count"
    count=$(cat "$work/count")
    [ "$count" -ge 8 ] || differ commands "there are $count" ''
    n=1
    while [ "$n" -le "$count" ]; do
        command=$(sed "s#/tmp/#$work/#g; s#\.\./\.\./devconf#$DEVCONF#g; s#\.\./\.\./devwhy#$devwhy#g; s#\.\./\.\./tools/#$shell $tools/#g" "$work/tour.$n")
        case $command in
        "$devwhy "*) [ -x "$devwhy" ] || { n=$((n + 1)); continue; } ;;
        esac
        (cd "$top/examples/amd64" && eval "$command") 2>&1 | sed "s#$work/#/tmp/#g" >"$work/got"
        cmp -s "$work/told.$n" "$work/got" || differ "$(cat "$work/tour.$n")" 'what it prints' "$work/told.$n" "$work/got"
        n=$((n + 1))
    done
    ended "$count commands"
}

# A small fleet, shared out among calls: one summary, whatever the shares.
try_fleet() {
    tool=tools/fleet
    before=$wrong
    "$top/examples/fleet.sh" "$work/m" 40 || differ fleet.sh 'it ends with a fault' ''
    (cd "$top/examples/amd64" && $shell "$tools/fleet" GENERIC "$work"/m/*) >"$work/lines" 2>"$work/said" && status=0 || status=$?
    [ "$status" = 1 ] || differ fleet "status $status, $(cat "$work/said")" ''
    for share in 0 1 2; do
        (cd "$top/examples/amd64" && ls "$work"/m/* | awk "NR % 3 == $share" | xargs $shell "$tools/fleet" GENERIC) >"$work/lines.$share"
    done
    $shell "$tools/fleet" -s -a "$work/lines" >"$work/wanted"
    sort "$work"/lines.? | $shell "$tools/fleet" -s -a >"$work/got"
    [ "$(head -n 1 "$work/got")" = "$(head -n 1 "$work/wanted")" ] || differ shares "$(head -n 1 "$work/got")" ''
    sort "$work/wanted" >"$work/wanted.sorted"
    sort "$work/got" | cmp -s - "$work/wanted.sorted" || differ shares 'the summaries' "$work/wanted" "$work/got"
    # Each spot without a driver is told as often as the histories have it.
    told=$(grep -c '^lacks' "$work/lines")
    said=$(for machine in "$work"/m/*; do (cd "$top/examples/amd64" && "$DEVCONF" boot GENERIC "$machine"); done | grep -c ': not configured$')
    [ "$told" = "$said" ] || differ lines "$told spots without a driver, where the histories have $said" ''
    ended '40 machines'
}

# Each device of the stored outputs stands in its picture.
try_pictures() {
    tool=docs
    before=$wrong
    for pair in pc:power.play server:server.boot; do
        output=examples/outputs/${pair#*:}
        picture=${pair%:*}.svg
        "$tools/draw" "$top/$output" | sed -n 's/^    "\([^"]*\)" \[label.*/\1/p' | sort >"$work/drawn"
        sed -n 's/^<title>\([A-Za-z_][A-Za-z0-9_-]*[0-9]\)<\/title>$/\1/p' "$top/docs/$picture" | sort >"$work/pictured"
        cmp -s "$work/drawn" "$work/pictured" \
            || differ "$picture" "draw it again: tools/draw -s $output" "$work/drawn" "$work/pictured"
    done
    ended 'the pictures of the small PC and of the server'
}

# What is installed runs from any folder, and nothing of it is left behind.
try_install() {
    tool='make install'
    before=$wrong
    command -v make >/dev/null || { echo "$tool: not tried: there is no make"; return; }
    for program in devconf drvrun drvall devwhy; do
        [ -x "$top/crates/$program/out/$program" ] || { echo "$tool: not tried: $program is not built"; return; }
    done
    prefix=$work/usr
    (cd "$top" && make -s install PREFIX="$prefix") || differ install 'make ends with a fault' ''
    (cd "$work" && "$prefix/bin/devconf" load 5) >"$work/said" 2>&1 || differ devconf "$(cat "$work/said")" ''
    (cd "$work" && "$prefix/bin/devconf-explain" 13) >"$work/said" 2>&1 || differ devconf-explain "$(cat "$work/said")" ''
    "$prefix/bin/devconf" boot "$top/examples/small.conf" "$top/examples/small.machine" 2>&1 \
        | "$prefix/bin/devconf-draw" >"$work/said" 2>&1 || differ devconf-draw "$(cat "$work/said")" ''
    (cd "$top/crates/drvrun/data" && "$prefix/bin/drvrun" conf mach s1) 2>&1 | cmp -s - "$top/crates/drvrun/stdout" || differ drvrun 'the output' ''
    (cd "$top/crates/drvall/data" && "$prefix/bin/drvall" conf mach s1 s2) 2>&1 | cmp -s - "$top/crates/drvall/stdout" || differ drvall 'the output' ''
    (cd "$top/crates/devwhy/data" && "$prefix/bin/devwhy" conf mach com1) 2>&1 | cmp -s - "$top/crates/devwhy/stdout" || differ devwhy 'the output' ''
    [ -f "$prefix/share/man/man1/devconf.1" ] || differ man 'no manual page' ''
    (cd "$top" && make -s uninstall PREFIX="$prefix") || differ uninstall 'make ends with a fault' ''
    left=$(find "$prefix" -type f -o -type l)
    [ -z "$left" ] || differ uninstall "it leaves $left" ''
    ended 'what it puts there runs, and make uninstall takes it away'
}

# The Debian package of the programs, installed into an empty root.
try_package() {
    tool='make deb'
    before=$wrong
    command -v dpkg-deb >/dev/null || { echo "$tool: not tried: there is no dpkg-deb"; return; }
    for program in devconf drvrun drvall devwhy; do
        [ -x "$top/crates/$program/out/$program" ] || { echo "$tool: not tried: $program is not built"; return; }
    done
    "$top/packaging/deb.sh" >"$work/said" 2>&1 || differ package "$(cat "$work/said")" ''
    "$top/packaging/try-deb.sh" >"$work/said" 2>&1 || differ package "$(cat "$work/said")" ''
    ended 'the package installs into an empty root, runs there, and is removed again'
}

for each in explain check lint summary draw compare machine json page; do try_tool "$each"; done
if [ -n "${DEVCONF-}" ]; then
    try_tool trim
    try_kernels
    try_tool fleet
    try_fleet
    try_tour
else
    echo 'trim, fleet, examples/dmesg, docs/TOUR.md: not tried: devconf is not built'
fi
try_examples
try_words
try_forms
try_manual
try_terminal
make_completers
try_completion
try_ci
try_editors
try_pictures
try_pages
try_install
try_package
[ "$wrong" = 0 ]
