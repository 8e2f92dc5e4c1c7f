# What the launchers of this repository share; each of them is a script that reads this file. `launch NAME WORD..` runs the
# proved program NAME on these words. Where it is not built yet, or a source is newer, it is proved and built first: as many
# crates at once as there are processors and memory for, those first on which the longest chain of work stands. The first time,
# the libraries of `devconf` and `drvrun` are proved beside. Ctrl-C ends that, and what was proved until then stays.
# tools/lib/terminal.sh says how the program is run.
programs="devconf drvrun"
explain=$top/tools/explain
. "$top/tools/lib/terminal.sh"

# May each of these words stand in a form?
are_operands() {
    for word; do
        case $word in '' | -*) return 1 ;; esac
    done
}

# Ends with the usage line of the program $1, where the words behind it certainly have no form: that needs no program.
refuse_words() {
    usage=$(sed -n "s/^.*b\"\(usage: $1 .*\)\\\\n\";\$/\1/p" "$top"/crates/*/src/*.rt)
    shift
    [ -z "$usage" ] || tell_in_words 2 "$usage" "$@"
}

# Is the program there, and no source newer?
is_current() {
    [ -x "$program" ] && [ -z "$(find "$top/crates" "$top/crates.txt" -name out -prune -o -type f \
        \( -name '*.rt' -o -name '*.antt' -o -name crates.txt \) -newer "$program" -print -quit)" ]
}

# Was the crate $1 proved after the last change of its sources, and over the crates below it as they are now? Those were asked before.
is_proved() {
    stamp=$top/crates/$1/out/rlib/stamp
    [ -f "$stamp" ] || return 1
    [ -z "$(find "$top/crates/$1" "$top/crates.txt" -name out -prune -o -type f -newer "$stamp" -print -quit)" ] || return 1
    for lower in $(named_by "$1"); do
        [ -d "$top/crates/$lower" ] || continue
        grep -qx "$lower" "$work/done" || return 1
        [ -z "$(find "$top/crates/$lower/out/rlib/stamp" -newer "$stamp")" ] || return 1
    done
}

# The crates of this repository that the crate $1 stands on, and itself, lowest first.
crates_of() {
    awk -v top="$1" '
    function visit(crate, part, parts, i) {
        if (crate in seen) return
        seen[crate] = 1
        parts = split(below[crate], part, " ")
        for (i = 1; i <= parts; i++) if (part[i] in below) visit(part[i])
        print crate
    }
    { sub(/#.*/, "") }
    /:/ { crate = $1; sub(/:$/, "", crate); sub(/^[^:]*:/, ""); below[crate] = $0 }
    END { visit(top) }' "$top/crates.txt"
}

# The crates that are wanted, lowest first: those of the program; and behind them, where it is built for the first time, what the
# other one needs besides, so that its own first call has one crate left.
wanted() {
    crates_of "$name"
    [ -n "$is_first" ] || return 0
    for other in $programs; do
        [ "$other" = "$name" ] || crates_of "$other" | sed '$d'
    done
}

# Each of these crates with its size, and 1 where the program itself does not need it. To begin a crate at all costs as much as 350
# lines of code; proofs cost next to nothing beside the code that they are of.
measured() {
    crates_of "$name" >"$work/own"
    while read -r crate; do
        lines=$(find "$top/crates/$crate/src" -name '*.rt' -exec cat {} + | wc -l)
        grep -qx "$crate" "$work/own" && beside=0 || beside=1
        echo "$crate $((lines + 350)) $beside"
    done
}

# These crates, the program's own ones first, and of them those on which the longest chain stands. The input has them lowest first,
# each with its size.
longest_first() {
    awk '
    NR == FNR { lines[$1] = $2; beside[$1] = $3; order[++count] = $1; next }
    { sub(/#.*/, "") }
    /:/ { crate = $1; sub(/:$/, "", crate); sub(/^[^:]*:/, ""); below[crate] = $0 }
    END {
        for (n = count; n; n--) {
            chain[order[n]] += lines[order[n]]
            parts = split(below[order[n]], part, " ")
            for (i = 1; i <= parts; i++)
                if (chain[part[i]] < chain[order[n]]) chain[part[i]] = chain[order[n]]
        }
        for (n = 1; n <= count; n++) print beside[order[n]], chain[order[n]], order[n]
    }' - "$top/crates.txt" | sort -k 1,1n -k 2,2rn | cut -d ' ' -f 3
}

# How many minutes are left, by what the crates took that ended in this call: all that is left, shared out among the places, or the
# longest chain, whichever takes longer. Nothing is written before the first of them has ended.
minutes_left() {
    grep '' "$work"/*.began /dev/null 2>/dev/null | sed 's/.*\/\([^/]*\)\.began:/\1 /' >"$work/begun"
    awk -v now="$(date +%s)" -v places="$places" '
    FILENAME == ARGV[1] { seconds += $1; lines += $2; next }
    FILENAME == ARGV[2] { is_done[$1] = 1; next }
    FILENAME == ARGV[3] { began[$1] = $2; next }
    FILENAME == ARGV[4] { size[$1] = $2; order[++count] = $1; next }
    { sub(/#.*/, "") }
    /:/ { crate = $1; sub(/:$/, "", crate); sub(/^[^:]*:/, ""); below[crate] = $0 }
    END {
        if (!lines) exit
        for (n = count; n; n--) {
            crate = order[n]
            own = crate in is_done ? 0 : size[crate] * seconds / lines
            if (crate in began && !(crate in is_done)) own = own > now - began[crate] + 5 ? own - now + began[crate] : 5
            sum += own
            chain[crate] += own
            if (chain[crate] > longest) longest = chain[crate]
            parts = split(below[crate], part, " ")
            for (i = 1; i <= parts; i++) if (chain[part[i]] < chain[crate]) chain[part[i]] = chain[crate]
        }
        if (longest < sum / places) longest = sum / places
        print int(longest / 60) + 1
    }' "$work/took" "$work/done" "$work/begun" "$work/sizes" "$top/crates.txt"
}

# How many crates are proved at once: one a processor, and no more than have 2.5 GB of memory each.
places() {
    processors=$(getconf _NPROCESSORS_ONLN 2>/dev/null || echo 1)
    free=$(awk '/^MemAvailable:/ { print int($2 / 2500000) }' /proc/meminfo 2>/dev/null)
    [ "${free:-1}" -ge 1 ] || free=1
    if [ "${free:-1}" -lt "$processors" ]; then echo "${free:-1}"; else echo "$processors"; fi
}

# The libraries that the crate $1 names.
named_by() {
    awk -v named="$1" '
    { sub(/#.*/, "") }
    /:/ { crate = $1; sub(/:$/, "", crate); sub(/^[^:]*:/, ""); if (crate == named) print }' "$top/crates.txt"
}

# Checks the crate $1 with so many jobs, and makes a library's statements or a program's object. It calls rattle as `rt ci` does:
# what stands above a library then reads its statements alone. `rt lib` keeps each part of each proof for the next check of a crate
# that is changed, and what stands above reads them all.
check() {
    crate=$1 jobs=$2
    cd "$top/crates/$crate" || exit
    mkdir -p out/rlib
    root=src/lib.rt
    [ "$crate" != "$name" ] || root=src/main.rt
    set -- --crate-name "$crate" "$root" --extern "std=$kit/rlibs/std.rlib" -L "dependency=$kit/rlibs"
    for library in $(named_by "$crate"); do
        if [ -d "$top/crates/$library" ]; then
            set -- "$@" --extern "$library=$top/crates/$library/out/rlib/$library.rlib"
        else
            set -- "$@" --extern "$library=$kit/rlibs/$library.rlib"
        fi
    done
    for lower in $(crates_of "$crate"); do
        [ "$lower" = "$crate" ] || set -- "$@" -L "dependency=$top/crates/$lower/out/rlib"
    done
    set -- "$@" --antt-project "$kit/rattle/logic/antt-project.json" --logic-built "$kit/logic_built" --links "$crate=" --jobs "$jobs"
    if [ "$crate" = "$name" ]; then
        exec "$kit/bin/rattle" build "$@" --toolchain "$kit/toolchain" --backend llvm -o "out/$crate.o"
    fi
    exec "$kit/bin/rattle" build "$@" --statements -o "out/rlib/$crate.rlib"
}

# Makes the program of its object.
link() {
    "$kit/bin/rattle-link" --target x86_64-unknown-linux-gnu --toolchain "$kit/toolchain" -o "$program" "$program.o" \
        "$kit/c/libos_c.a" "$kit/c/liblibc_c.a"
}

# Proves the crate $1 with so many jobs. The text of its stamp is not that of `rt`, which makes libraries of its own.
prove() {
    rm -f "$top/crates/$1/out/rlib/stamp"
    date +%s >"$work/$1.began"
    check "$1" "$2" >"$work/$1.log" 2>&1 </dev/null &
    echo $! >"$work/$1.at"
    wait $!
    status=$?
    if [ "$status" = 0 ] && [ "$1" = "$name" ]; then
        link >>"$work/$1.log" 2>&1
        status=$?
    elif [ "$status" = 0 ]; then
        echo "statements" >"$top/crates/$1/out/rlib/stamp"
    fi
    echo "$status" >"$work/$1.status"
    mv "$work/$1.status" "$work/$1.ended"
}

# How far it is: on a terminal one line that is written anew, else a line a minute; and once, as soon as it is known how long it
# takes, what can be had at once.
tell() {
    minutes=$((($(date +%s) - began) / 60))
    [ -t 2 ] || [ "$minutes" != "$told" ] || [ -z "$is_offered" ] || return 0
    left=$(minutes_left)
    if [ -z "$is_offered" ] && [ -n "$left" ]; then
        is_offered=1
        [ "$left" -lt 3 ] || offer "about $left minutes are left"
    fi
    line="$name: $(wc -l <"$work/done") of $all crates proved, $minutes min${left:+, about $left min left}; at work:$(ls "$work" | sed -n 's/\.at$//p' | tr '\n' ' ' | sed 's/^/ /')"
    if [ -t 2 ]; then
        printf '\r\033[K%.*s' "$(($(tput cols 2>/dev/null || echo 80) - 1))" "$line" >&2
    elif [ "$minutes" != "$told" ]; then
        echo "$line" >&2
        told=$minutes
    fi
}

# What can be had without waiting.
offer() {
    [ ! -t 2 ] || printf '\r\033[K' >&2
    echo "$name: $1; examples/now.sh shows an example at once, by code that is not proved" >&2
}

# Takes note of the crates that ended. Where one was refused, its last lines are shown.
collect() {
    for ended in "$work"/*.ended; do
        [ -e "$ended" ] || continue
        crate=$(basename "$ended" .ended)
        if [ "$(cat "$ended")" != 0 ]; then
            [ ! -t 2 ] || echo >&2
            echo "$name: the crate $crate was not proved:" >&2
            tail -n 20 "$work/$crate.log" >&2
            leave 125
        fi
        echo "$(($(date +%s) - $(cat "$work/$crate.began"))) $(awk -v crate="$crate" '$1 == crate { print $2 }' "$work/sizes")" >>"$work/took"
        rm "$work/$crate.ended" "$work/$crate.at" "$work/$crate.began"
        # What is changed while this call goes on is newer than what it makes.
        if [ "$crate" = "$name" ]; then made=$program; else made=$top/crates/$crate/out/rlib/stamp; fi
        touch -c -r "$work/launcher" "$made"
        echo "$crate" >>"$work/done"
    done
}

# How many crates are at work?
at_work() {
    ls "$work" | grep -c '\.at$'
}

# The crates that can begin: those whose lower ones are all proved.
ready() {
    while read -r crate; do
        ! grep -qx "$crate" "$work/done" && [ ! -e "$work/$crate.at" ] || continue
        for lower in $(crates_of "$crate"); do
            [ "$lower" = "$crate" ] || grep -qx "$lower" "$work/done" || continue 2
        done
        echo "$crate"
    done <"$work/todo"
}

# Begins the next crates. Each has one job where there is a crate for each place: one job after the other costs less than two
# at once, since each reads what the crate stands on. Where there are fewer crates, they share the places.
begin() {
    [ "$(at_work)" -lt "$places" ] || return 0
    ready >"$work/ready"
    [ -s "$work/ready" ] || return 0
    share=$((places / ($(at_work) + $(wc -l <"$work/ready"))))
    [ "$share" -ge 1 ] || share=1
    while read -r crate; do
        [ "$(at_work)" -lt "$places" ] || return 0
        : >"$work/$crate.at"
        prove "$crate" "$share" &
    done <"$work/ready"
}

# Ends what is at work, and leaves what was proved.
leave() {
    trap '' INT TERM HUP
    for at in "$work"/*.at; do
        [ ! -s "$at" ] || kill "$(cat "$at")" 2>/dev/null
    done
    wait
    rm -rf "$work"
    exit "$1"
}

build() {
    command -v rt >/dev/null || { echo "$name: the command rt of the Rattle kit is needed to build the program" >&2; exit 125; }
    kit=$(dirname "$(dirname "$(readlink -f "$(command -v rt)")")")
    work=$top/out/building
    mkdir -p "$top/out"
    until mkdir "$work" 2>/dev/null; do
        if kill -0 "$(cat "$work/launcher" 2>/dev/null)" 2>/dev/null; then
            echo "$name: waiting for another call that builds the programs" >&2
            while kill -0 "$(cat "$work/launcher" 2>/dev/null)" 2>/dev/null; do sleep 1; done
        else
            # The call that made it was killed.
            rm -rf "$work"
        fi
    done
    echo $$ >"$work/launcher"
    trap '[ ! -t 2 ] || echo >&2; offer "the next call goes on from here"; leave 130' INT TERM HUP
    is_current && { rm -rf "$work"; trap - INT TERM HUP; return; }
    places=$(places)
    began=$(date +%s)
    told=
    is_offered=
    is_first=
    [ -x "$program" ] || is_first=1
    : >"$work/done"
    : >"$work/took"
    wanted | awk '!seen[$0]++' | measured >"$work/sizes"
    longest_first <"$work/sizes" >"$work/todo"
    while read -r crate _; do
        ! is_proved "$crate" || echo "$crate" >>"$work/done"
    done <"$work/sizes"
    all=$(wc -l <"$work/todo")
    echo "$name: proving and building the program, $places crates at a time; README.md says how long the first time takes" >&2
    offer "$all crates, of which $(wc -l <"$work/done") are proved"
    rm -f "$program"
    while [ "$(wc -l <"$work/done")" -lt "$all" ]; do
        collect
        begin
        tell
        sleep 1
    done
    [ ! -t 2 ] || echo >&2
    rm -rf "$work"
    trap - INT TERM HUP
}

launch() {
    name=$1
    shift
    program=$top/crates/$name/out/$name
    is_current || build
    run_program "$program" "$@"
}
