#!/bin/sh
# Checks what the documents name: each link with its heading, each file, each line of a file, each function of a crate. A line
# for each that is not there, and status 1 then. Usage: docs/check.sh [--lines], which first corrects the numbers of lines and edits
#
# What is looked at, in the pages of this repository:
#   [text](page#heading)         the page is there, and has this heading
#   `crate/src/file.rt`          a file or folder below crates/, for .antt and .rt also without its ending; so too `docs/..`,
#                                `tools/..` and the other folders of the repository, and `specs/X` beside a crate of its table row
#   `crate/specs/X.antt:7` `Name`   this line of this file has this word
#   a table's column "function"  `crate`: `name`, `Type::name`, where the crate may be in the row's first column instead
#   Pa tools/explain             in a manual page
#   tries 7 edits, these 7 edits    in docs/PROOFS.md: so many lie in crates/*/must-fail and in bench/mutants
LC_ALL=C
export LC_ALL
cd "$(dirname "$(readlink -f "$0")")/.." || exit 1
work=$(mktemp -d) || exit 1
trap 'rm -rf "$work"' EXIT
find . \( -name .git -o -name out \) -prune -o -print | sed 's#^\./##' >"$work/files"
find crates -name out -prune -o -path '*/src/*.rt' -print | sort | xargs awk '
    FNR == 1 { split(FILENAME, part, "/"); crate = part[2] }
    {
        line = $0
        while (match(line, /(fn|struct|enum|trait|const|type|mod) +[A-Za-z_][A-Za-z_0-9]*/)) {
            word = substr(line, RSTART, RLENGTH); sub(/^[a-z]+ +/, "", word)
            print crate "\t" word
            line = substr(line, RSTART + RLENGTH)
        }
    }
    /^ *pub use / { for (n = split($0, part, /[^A-Za-z_0-9]+/); n; n--) print crate "\t" part[n]; more = $0 !~ /;/ }
    more { for (n = split($0, part, /[^A-Za-z_0-9]+/); n; n--) print crate "\t" part[n]; more = $0 !~ /;/ }' >"$work/items"
pages=$(find . -maxdepth 1 -name '*.md' | sed 's#^\./##'; find docs -maxdepth 1 -name '*.md'; find man -name '*.[1-9]')

# Corrects `file:7` `Name` to the line that defines the name.
mend_lines() {
    awk '
    function line_of(path, name,   line, n, found) {
        for (n = 1; (getline line < path) > 0; n++)
            if (!found && line ~ ("(^|[^A-Za-z_0-9])" name "([^A-Za-z_0-9]|$)") && \
                line ~ ("^(pub )?(record|data|relation|inductive|abbrev|unfoldable)?( ?pub)? ?" name "( |$)|fn " name "[(<]|(record|data|struct|enum|trait) " name "( |$|<|\\{)")) found = n
        close(path)
        return found
    }
    {
        rest = $0; out = ""
        while (match(rest, /`[a-z_]+\/[A-Za-z_\/]+\.(rt|antt):[0-9]+` `[A-Za-z_0-9]+`/)) {
            hit = substr(rest, RSTART, RLENGTH)
            split(hit, part, /[`:]/)
            found = line_of("crates/" part[2], part[5])
            out = out substr(rest, 1, RSTART - 1) (found ? "`" part[2] ":" found "` `" part[5] "`" : hit)
            rest = substr(rest, RSTART + RLENGTH)
        }
        print out rest
    }' "$1" >"$work/mended" && { cmp -s "$1" "$work/mended" || cat "$work/mended" >"$1"; }
}
# The edits that each gate tries, and those beside it.
tried=$(grep -c '^crates/[^/]*/must-fail/[^/]*\.edit$' "$work/files")
beside=$(grep -c '^bench/mutants/[^/]*/[^/]*\.edit$' "$work/files")
if [ "${1-}" = --lines ]; then
    for page in $pages; do mend_lines "$page"; done
    sed "s/tries [0-9]* edits/tries $tried edits/; s/these [0-9]* edits/these $beside edits/" docs/PROOFS.md >"$work/counted" \
        && { cmp -s docs/PROOFS.md "$work/counted" || cat "$work/counted" >docs/PROOFS.md; }
fi

# shellcheck disable=SC2086
awk -v files="$work/files" -v items="$work/items" -v tried="$tried" -v beside="$beside" '
function fault(what) { print FILENAME ":" FNR ": " what; faults++ }
function slug(text) {
    text = tolower(text); gsub(/`/, "", text); gsub(/[^a-z0-9 _-]/, "", text); gsub(/ /, "-", text)
    return text
}
function headings(path,   line) {
    if (path in read) return
    read[path] = 1
    while ((getline line < path) > 0) if (line ~ /^#+ /) { sub(/^#+ /, "", line); heading[path, slug(line)] = 1 }
    close(path)
}
function link(to,   path, at) {
    if (to ~ /^[a-z]+:/) return
    at = index(to, "#") ? substr(to, index(to, "#") + 1) : ""
    path = to; sub(/#.*/, "", path)
    path = path == "" ? FILENAME : folder path
    while (path ~ /(^|\/)[^\/.]+\/\.\.\//) sub(/[^\/.]+\/\.\.\//, "", path)
    links++
    if (!(path in is_file)) { fault("there is no " path); return }
    if (at == "") return
    headings(path)
    if (!((path, at) in heading)) fault(path " has no heading #" at)
}
function is_there(path,   k, pattern) {
    sub(/\/$/, "", path)
    if (path in is_file || (path ".rt") in is_file || (path ".antt") in is_file) return 1
    if (path !~ /\*/) return 0
    pattern = path; gsub(/[.+]/, "\\\\&", pattern); gsub(/\*/, "[^/]*", pattern)
    for (k in is_file) if (k ~ ("^" pattern "(\\.rt|\\.antt)?$")) return 1
    return 0
}
function has_line(path, number, name,   line, n) {
    for (n = 1; (getline line < path) > 0; n++) if (n == number) break
    close(path)
    return n == number && line ~ ("(^|[^A-Za-z_0-9])" name "([^A-Za-z_0-9]|$)")
}
# A code span that names a file; next_span is the one behind it.
function span(text, next_span,   word, first, number, k, ok) {
    word = text; sub(/[ (].*/, "", word); sub(/[,;]$/, "", word)
    if (word ~ /^\.\.?\/|^\/|[$<>|=]|\.\.$/) return
    number = ""
    if (word ~ /:[0-9]+$/) { number = word; sub(/.*:/, "", number); sub(/:[0-9]+$/, "", word) }
    if (word !~ /\// || word ~ /::/) return
    first = word; sub(/\/.*/, "", first)
    if (first in is_crate && word !~ /^devconf\/?$/) {
        paths++
        if (!is_there("crates/" word)) { fault("there is no crates/" word); return }
        if (number == "") return
        lines++
        if (next_span !~ /^[A-Za-z_0-9]+$/) fault("no name follows " text)
        else if (!has_line("crates/" word, number, next_span)) fault("line " number " of " word " does not have " next_span)
    } else if (first ~ /^(docs|man|tools|examples|bench|crates|packaging|\.ci)$/) {
        if (word ~ /(^|\/)(out|NAME|CRATE|WHAT_IS_WRONG\.edit)(\/|$)/) return
        paths++
        if (!is_there(word)) fault("there is no " word)
    } else if (first ~ /^(src|specs|proofs)$/ && row_crates != "") {
        ok = 0
        for (k = split(row_crates, part, " "); k; k--) if (is_there("crates/" part[k] "/" word)) ok = 1
        paths++
        if (!ok) fault("there is no " word " in " row_crates)
    }
}
# The cell of a column "function".
function functions(cell, n, k, part, names, m, among, ok, name) {
    among = row_crates
    n = split(cell, part, "`")
    for (k = 2; k <= n; k += 2) {
        if (part[k] in is_crate && part[k + 1] ~ /^:/) { among = part[k]; continue }
        if (part[k] ~ /[\/ ]/) continue
        name = part[k]; sub(/\(.*/, "", name)
        for (m = split(name, names, "::"); m; m--) {
            ok = 0
            for (ok = split(among, crate_list, " "); ok; ok--) if ((crate_list[ok], names[m]) in item) break
            named++
            if (!ok) fault("no item " names[m] " in " (among == "" ? "a crate that the row names" : among))
        }
    }
}
BEGIN {
    while ((getline line < files) > 0) { is_file[line] = 1; if (split(line, part, "/") == 2 && part[1] == "crates") is_crate[part[2]] = 1 }
    while ((getline line < items) > 0) { split(line, part, "\t"); item[part[1], part[2]] = 1 }
}
FNR == 1 { folder = FILENAME; if (!sub(/[^\/]*$/, "", folder)) folder = ""; split("", column); row_crates = ""; fenced = 0; pages++ }
FILENAME ~ /^man\// {
    count = split($0, part, " ")
    for (k = 2; k <= count; k++) if (part[k - 1] ~ /^\.?Pa$/) span(part[k], "")
    next
}
/^```/ { fenced = !fenced; next }
fenced || /^    / { next }
!/^\|/ { split("", column); row_crates = "" }
/^\|/ {
    cells = split($0, cell, /[^\\]?\|/)
    if (!(2 in column)) for (k = 2; k < cells; k++) { column[k] = cell[k]; gsub(/^ +| +$/, "", column[k]) }
    else if ($0 !~ /^\|[-| ]+$/) {
        count = split(cell[2], part, /[^a-z_0-9]+/); known = ""
        for (k = 1; k <= count; k++) if (part[k] in is_crate) known = known (known == "" ? "" : " ") part[k]
        if (known != "" || cell[2] !~ /^ *$/) row_crates = known
        for (k = 2; k < cells; k++) if (column[k] ~ /^function/) functions(cell[k])
    }
}
FILENAME == "docs/PROOFS.md" && match($0, /(tries|these) [0-9]+ edits/) {
    split(substr($0, RSTART, RLENGTH), part, " ")
    count = part[1] == "tries" ? tried : beside
    if (part[2] != count) fault("it says " part[2] " edits where there are " count ": docs/check.sh --lines corrects that")
}
{
    rest = $0
    while (match(rest, /\]\([^) ]+\)/)) { link(substr(rest, RSTART + 2, RLENGTH - 3)); rest = substr(rest, RSTART + RLENGTH) }
    count = split($0, part, "`"); for (k = 2; k < count; k += 2) spans[k] = part[k]
    for (k = 2; k < count; k += 2) span(spans[k], k + 2 < count ? spans[k + 2] : "")
    split("", spans)
}
END {
    print pages " pages: " links " links, " paths " files, " lines + 0 " lines and " named + 0 " functions named" (faults ? ", " faults " of them not there" : ", all there")
    exit faults > 0
}' $pages
