# Compares words with the forms of tools/forms, to tell at which word they stop fitting. `read_forms(file)` reads the forms;
# `fit_forms(kind, first)` compares the words `piece[1]`.. `piece[piece_count]` with those of this kind that begin with the
# word `first`, or with the ones that begin with a capital where `first` is "", and leaves
#
#   best_form             the form that fits furthest
#   stop_at               the number of the word at which it stops fitting, one more than there are where something is missing,
#                         or 0 where it fits
#   wanted                what might stand there, as "a comma, or the end"
#
# In a form, [ ] is a part that may be left out, ( ) one part, | parts choices, ".." stands behind what may come again, and
# ", .." behind what may come again behind a comma.

function read_forms(file,   line, got, cell, n, kind) {
    while ((got = (getline line < file)) > 0) {
        if (line !~ /^[a-z]+: /) continue
        split(line, cell, "\t")
        n = index(cell[1], ": ")
        kind = substr(cell[1], 1, n - 1)
        form[++form_count] = substr(cell[1], n + 2)
        form_kind[form_count] = kind
        form_says[form_count] = cell[2]
        split(form[form_count], cell, " ")
        form_word[form_count] = cell[1] ~ /^[a-z]/ ? cell[1] : ""
        if (form_word[form_count] != "") begins_form[kind, cell[1]] = 1
    }
    close(file)
    if (got < 0) complain(file ": it cannot be read")
}

# The first words of the forms of this kind, as indexes of the list.
function words_of_forms(kind, list,   n) {
    split("", list)
    for (n = 1; n <= form_count; n++) if (form_kind[n] == kind && form_word[n] != "") list[form_word[n]] = 1
}

function fit_forms(kind, first,   n, end) {
    stop_at = -1
    best_form = wanted = ""
    fitting_kind = kind
    for (n = 1; n <= form_count; n++) {
        if (form_kind[n] != kind || form_word[n] != first) continue
        furthest = 0
        hopes = ""
        cut_form(form[n])
        end = fit(1, symbol_count + 1, 1)
        if (end == piece_count + 1) { stop_at = 0; best_form = form[n]; return }
        if (end) hope(end, "the end")
        if (furthest == stop_at) {
            if (!index(", " wanted ", ", ", " hopes ", ")) wanted = wanted ", " hopes
        } else if (furthest > stop_at) { stop_at = furthest; best_form = form[n]; wanted = hopes }
    }
    sub(/, [^,]*$/, " or&", wanted)
    sub(/ or, /, " or ", wanted)
}

function cut_form(text) {
    gsub(/[][()]/, " & ", text)
    gsub(/\.\./, " .. ", text)
    gsub(/,/, " , ", text)
    symbol_count = split(text, symbol, " ")
}

# At this word something was wanted that is not there.
function hope(at, what) {
    if (at < furthest) return
    if (at > furthest) { furthest = at; hopes = "" }
    if (!index(", " hopes ", ", ", " what ", ")) hopes = hopes == "" ? what : hopes ", " what
}

# Fits the symbols from `from` up to before `to` to the words from `at` on; answers the next word, or 0.
function fit(from, to, at,   last, after, again, next_at) {
    while (from < to) {
        last = last_symbol(from)
        again = symbol[last + 1] == ".." ? " " : symbol[last + 1] == "," && symbol[last + 2] == ".." ? "," : ""
        after = last + 1 + length(again) + (again == ",")
        if (last + 1 >= to) { again = ""; after = to }
        if (symbol[from] == "[") {
            while (next_at = fit(from + 1, last, at)) { at = next_at; if (again == "") break }
        } else {
            next_at = fit_part(from, last, at)
            if (!next_at) return 0
            at = next_at
            if (again == ",") {
                while (piece_of(at) == ",") { if (!(next_at = fit_part(from, last, at + 1))) return 0; at = next_at }
                hope(at, "a comma")
            }
            if (again == " ") while (next_at = fit_part(from, last, at)) at = next_at
        }
        from = after
    }
    return at
}

# The last symbol of the part that begins here.
function last_symbol(from,   depth) {
    if (symbol[from] !~ /^[[(]$/) return from
    do {
        if (symbol[from] ~ /^[[(]$/) depth++
        else if (symbol[from] ~ /^[])]$/) depth--
        from++
    } while (depth)
    return from - 1
}

function fit_part(from, last, at) { return from == last ? fit_word(symbol[from], at) : fit(from + 1, last, at) }

function fit_word(class, at,   choice, n, count) {
    if (class ~ /^[A-Z]/) return fit_class(class, at)
    count = split(class, choice, "|")
    for (n = 1; n <= count; n++) {
        if (piece_of(at) == choice[n]) return at + 1
        hope(at, "`" choice[n] "`")
    }
    return 0
}

# The word at this place, or "" behind the last one. (Some awks do not bear an element that is not there as an argument.)
function piece_of(at) { return at <= piece_count ? piece[at] "" : "" }

function fit_class(class, at,   text) {
    text = piece_of(at)
    if (class == "LOCATOR") return fit_locator(at, text)
    if (class == "CONDITION") return fit_either(at)
    if (fits_class(class, text)) return at + 1
    hope(at, class_in_words(class))
    return 0
}

function is_name(text) { return text ~ /^[A-Za-z_][A-Za-z0-9_-]*$/ }

function is_chunk(text) { return text ~ /^[A-Za-z0-9_.\/*?$-]+$/ }

function fits_class(class, text) {
    if (text == "") return 0
    if (class == "NAME" || class == "GROUP" || class == "DRIVER") return is_name(text) && length(text) <= 63
    if (class == "D" || class == "A" || class == "S") return is_name(text) && length(text) <= 80
    if (class == "LOC") return is_name(text) && length(text) <= 80 && text != "flags"
    if (class == "DEVICE") return is_name(text) && text !~ /[0-9]$/ && length(text) <= 63
    if (class == "UNIT") return is_unit(text) && text !~ /\?$/
    if (class == "PARENT" && fitting_kind == "config") return text == "root" || is_unit(text) && text !~ /\*$/
    if (class == "NUMBER" || class == "V" || class == "COUNT" || class ~ /^(CALLER|SUBSCRIBER|NOTES)$/) return is_number(text)
    if (class == "VALUE") return is_number(text) || text == "?"
    if (class == "CHUNK") return is_chunk(text)
    if (class == "TEXT") return is_chunk(text) || text ~ /^"/
    if (class == "PATH") return is_chunk(text) || text ~ /^"./ && text != "\"\""
    if (class == "LOC=VALUE") return text ~ /^[^=]+=/ && is_number(substr(text, index(text, "=") + 1))
    return 1
}

# A name whose base does not end with a digit and a number without leading zeros, or any name and `*` or `?`.
function is_unit(text,   base) {
    if (text ~ /[*?]$/) { base = substr(text, 1, length(text) - 1); return is_name(base) && length(base) <= 63 }
    if (!match(text, /[0-9]+$/) || RSTART == 1) return 0
    base = substr(text, 1, RSTART - 1)
    return is_name(base) && length(base) <= 63 && substr(text, RSTART) ~ /^(0|[1-9][0-9]*)$/
}

function class_in_words(class) {
    if (class == "NAME") return "a name"
    if (class == "DEVICE") return "a name that does not end with a digit"
    if (class == "LOC") return "a locator's name"
    if (class == "UNIT") return "a device with its unit (as com0 or com*)"
    if (class == "PARENT") return fitting_kind == "config" ? "a parent (as isa? or isa0 or root)" : "the spot above, or root"
    if (class == "VALUE") return "a number or `?`"
    if (class ~ /^(NUMBER|V|COUNT)$/) return "a number"
    if (class == "CALLER") return "the number of a caller"
    if (class == "SUBSCRIBER") return "the number of a subscriber"
    if (class == "NOTES") return "a number of notes"
    if (class == "PATH") return "a path"
    if (class == "TEXT") return "a word or a string"
    if (class == "LOC=VALUE") return "a locator with its value (as port=0x3f8)"
    if (class == "D") return "the name of a device (as com0)"
    if (class == "DRIVER") return "the name of a device without a unit (as com)"
    if (class == "GROUP") return "the name of a group"
    if (class ~ /^(S|SPOT\|\*)$/) return "the name of a spot" (class == "S" ? "" : ", or `*`")
    if (class == "ATTACHMENT") return "the name of an attachment"
    if (class == "A" || class == "ATTR") return "the name of an attribute"
    return "a word"
}

# NAME, NAME = NUMBER or [NAME = NUMBER]
function fit_locator(at, text) {
    if (text == "[") {
        if (!fits_class("LOC", piece_of(at + 1))) { hope(at + 1, "a locator's name"); return 0 }
        if (piece_of(at + 2) != "=") { hope(at + 2, "`=`"); return 0 }
        if (!is_number(piece_of(at + 3))) { hope(at + 3, "a number"); return 0 }
        if (piece_of(at + 4) != "]") { hope(at + 4, "`]`"); return 0 }
        return at + 5
    }
    if (!fits_class("LOC", text)) { hope(at, "a locator (as port or port = 0 or [port = -1])"); return 0 }
    if (piece_of(at + 1) != "=") { hope(at + 1, "`=`"); return at + 1 }
    if (!is_number(piece_of(at + 2))) { hope(at + 2, "a number"); return 0 }
    return at + 3
}

# Names with `&`, `|`, `!` and parentheses, as far as they go.
function fit_either(at) {
    for (;;) {
        while (piece_of(at) == "!") at++
        if (piece_of(at) == "(") {
            at = fit_either(at + 1)
            if (!at) return 0
            if (piece_of(at) != ")") { hope(at, "`&`, `|`, `)`"); return 0 }
            at++
        } else if (is_name(piece_of(at)) && piece_of(at) !~ /^(needs-flag|needs-count|compile-with)$/) at++
        else { hope(at, "a name, `!`, `(`"); return 0 }
        if (piece_of(at) != "&" && piece_of(at) != "|") { hope(at, "`&`, `|`"); return at }
        at++
    }
}
