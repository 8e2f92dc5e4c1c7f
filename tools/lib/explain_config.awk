# Finds the word of a configuration that a fault is about, marks it, and says what is known of it: `find_in_config(FILE, LINE,
# CODE)`, which answers whether the statement as it stands has this fault. The statements are read as config.awk reads them, whole, so that it can also tell what stands further down.

function find_in_config(file, line, code,   s, top) {
    if (code == 3 || code == 4) { find_byte(line_of(file, line), line, code); return 1 }
    top = configuration(file)
    if (config_read != top) {
        read_configuration(top)
        if (!(top in is_absent)) config_read = top
    }
    for (s = 1; s <= statement_count; s++)
        if (s_file[s] == file && s_line[s] == line && find_word(s, code)) return 1
    return 0
}

# Finds the word of the statement that has this fault. Answers whether there is one: a file may stand twice.
function find_word(s, code) {
    if (code == 1 || code == 2) return find_path(s)
    if (code == 5) return find_number(s)
    if (code == 6) return find_misfit(s)
    if (code == 7) return find_left_out(s)
    if (code == 8) return find_unknown(s)
    if (code == 9) return find_no_interface(s)
    if (code == 10) return find_no_device(s)
    if (code == 11) return find_unattached(s)
    if (code == 12) return find_unfit_parent(s)
    if (code == 13 || code == 14 || code == 16) return find_locator(s, code)
    if (code == 15) return find_twice(s)
    if (code == 17) return find_unit(s)
    if (code == 18) return find_defined(s)
    if (code == 19) return find_classes(s)
    if (code == 20) return find_deep(s)
    if (code == 21) return find_condition(s)
    if (code >= 26 && code <= 28) return find_misfit(s)
    return 1
}

# The same word at this place of the statement, marked.
function mark_word(s, place) { mark_token(s_first[s] + place - 1) }

function stands(s) { return place_of_statement(s) }

# " (FILE:LINE)" of the declaration of each of these names, as " `a` (F:L), `b` (F:L)?"
function meant_at(list, where,   word, n, count, text) {
    count = split(list, word, " ")
    for (n = 1; n <= count; n++)
        text = text (n == 1 ? "" : n == count ? " or " : ", ") "`" word[n] "` (" stands(where[word[n]]) ")"
    return count ? "; did you mean " text "?" : ""
}

# The names of `list` that a statement before this one declares.
function declared_before(list, s, into,   name) { for (name in list) if (list[name] < s) into[name] = list[name] }

# ---- bytes

function find_byte(line, number, code,   at, c) {
    at = 1
    while (at <= length(line)) {
        c = substr(line, at, 1)
        if (c == "#") return
        if (c == "\"") {
            if (!match(substr(line, at + 1), /^[\t -!#-~]*/)) RLENGTH = 0
            c = substr(line, at + 1 + RLENGTH, 1)
            if (c == "") { open_string(line, at, number); return }
            if (c != "\"") { tell_byte(line, at + 1 + RLENGTH, number); return }
            at += RLENGTH + 2
        } else if (c ~ /[A-Za-z0-9\t ]/ || index("_-./*?$,=:{}[]()!&|", c)) at++
        else if (substr(line, at, 2) == "+=") at += 2
        else { tell_byte(line, at, number); return }
    }
}

function open_string(line, at, number) {
    mark(number, at, length(line) - at + 1)
    say("the quote at column " at " has no second one on this line")
    tell_escape(line, at)
}

# Does a backslash in the line want to take the meaning from a quote?
function tell_escape(line, at) {
    if (!index(substr(line, 1, at), "\\\"")) return
    say("a string ends at the next quote, even after a backslash: here one ended at column " index(line, "\\\"") + 1)
    put_left_out_of("\"a \\\"b\\\"\"")
}

function tell_byte(line, at, number,   value, size, n) {
    value = byte_value[substr(line, at, 1)] + 0
    size = value >= 240 ? 4 : value >= 224 ? 3 : value >= 194 ? 2 : 1
    for (n = 1; n < size; n++) if (substr(line, at + n, 1) !~ /[\200-\277]/) size = 1
    mark(number, at, 1)
    if (size > 1) {
        value = size == 2 ? value % 32 : size == 3 ? value % 16 : value % 8
        for (n = 1; n < size; n++) value = value * 64 + byte_value[substr(line, at + n, 1)] % 64
        n = sprintf("U+%04X", value)
        say("column " at " has the character " n character_says(n))
        return
    }
    if (value < 32 || value > 126) say("column " at " has the byte " sprintf("0x%02x", value))
    else if (value == 43) say("column " at " has a `+` without `=`")
    else say("column " at " has `" substr(line, at, 1) "`, which belongs to no token" (value == 39 ? ": strings have double quotes" : \
        value == 59 ? ": a statement ends with its line" : ""))
    tell_escape(line, at)
}

function character_says(name) {
    if (name ~ /^U\+20(1C|1D|1E|18|19|B9|BA)$/) return ", a quote of another kind: write \" in its place"
    if (name ~ /^U\+(00A0|2002|2003|2009|202F|3000)$/) return ", a blank of another kind: write a space in its place"
    if (name ~ /^U\+(2010|2011|2012|2013|2014|2212)$/) return ", a dash: write - in its place"
    if (name ~ /^U\+(FEFF|200B)$/) return ", which is invisible: delete it"
    return ""
}

# ---- paths, numbers

function find_path(s,   path, beside) {
    path = path_of[s]
    if (path == "") return 0
    mark_word(s, 2)
    say("it looked for the file " path (path ~ /^\// ? "" : ", from the current folder"))
    beside = s_file[s]
    if (!sub(/[^\/]*$/, "", beside) || beside == "") beside = ""
    if (beside != "" && path !~ /^\// && is_readable(beside unquoted(word_at(s, 2))))
        say("there is a file " beside unquoted(word_at(s, 2)) " beside the including file: write its path from the current folder")
    return 1
}

function is_readable(name,   line, got) { if (name == "") return 0; got = (getline line < name); close(name); return got >= 0 }

function find_number(s,   t, word, unit) {
    word = word_at(s, 1)
    if (word == "pseudo-device" && is_number(word_at(s, 3)) && (value_of(word_at(s, 3)) < 1 || value_of(word_at(s, 3)) > 65535)) {
        mark_word(s, 3)
        say("a count is from 1 to 65535")
        return 1
    }
    for (t = s_first[s]; t <= s_last[s]; t++) {
        if (is_number(tok[t])) {
            if (is_in_range(tok[t])) continue
            mark_token(t)
            say("a number is from -2147483648 to 4294967295")
            return 1
        }
        unit = tok[t]
        if (!match(unit, /[0-9]+$/) || RSTART == 1 || substr(unit, RSTART) + 0 <= 65535) continue
        if (t > s_first[s] + 2 && !(word == "no" && t <= s_first[s] + 3)) continue
        mark_token(t)
        say("a unit is from 0 to 65535")
        return 1
    }
    return 0
}

# ---- forms

function take_pieces(s,   t) {
    split("", piece)
    for (t = s_first[s]; t <= s_last[s]; t++) piece[t - s_first[s] + 1] = tok[t]
    piece_count = s_last[s] - s_first[s] + 1
}

function find_misfit(s,   word, t, n, list, count, attr) {
    take_pieces(s)
    word = piece[1]
    if (tell_other_language(s, word)) return 1
    for (n = 1; n <= piece_count; n++) {
        if (length(unquoted(piece[n])) <= 1023 && (!is_name(piece[n]) || length(piece[n]) <= 63)) continue
        mark_token(s_first[s] + n - 1)
        say("it has " length(unquoted(piece[n])) " bytes; a name has at most 63, any other word 1023")
        return 1
    }
    if (word ~ /^(define|defpseudo|device)$/ && is_too_long_a_list(s)) return 1
    fit_forms("config", ("config", word) in begins_form ? word : "")
    if (!stop_at) return 0
    tell_misfit(s, word)
    return 1
}

# At which word it stops fitting, what might stand there, and what this mistake may come from.
function tell_misfit(s, word,   t, there) {
    t = s_first[s] + stop_at - 1
    there = piece[stop_at]
    if (stop_at <= piece_count) mark_token(t)
    else mark(tok_line[s_last[s]], tok_at[s_last[s]] + length(tok[s_last[s]]), 1)
    say("its form is `" best_form "`")
    say((stop_at > piece_count ? "after `" piece[piece_count] "`" : "instead of `" there "`") " there should be " wanted)
    if (stop_at == 1) tell_first_word(s, word)
    else if (stop_at <= piece_count && tok_line[t] > s_line[s] && t - first_of_line(t) <= 2)
        say("line " tok_line[t] " begins with a blank, so it continues the statement of line " s_line[s] "; remove the blank if it is a statement of its own")
    if (there ~ /[A-Za-z_-]0[0-9]+$/) say("a unit has no leading zero")
    else if (best_form ~ /PARENT/ && stop_at > 2 && piece[stop_at - 1] == "at" && is_name(there))
        say("write `" there "?` for any " there (there ~ /[0-9]$/ ? "" : ", or its unit, as `" there "0`"))
    else if (best_form ~ /PARENT/ && stop_at > 2 && piece[stop_at - 1] == "at" && there ~ /\*$/)
        say("a parent has `?` for any unit; `*` is for the device to look for")
    if (best_form ~ /^device/ && stop_at == 2 && match(there, /[0-9]+$/))
        say("`" there "` would be unit " substr(there, RSTART) " of `" substr(there, 1, RSTART - 1) "`: leave out the digits")
    if (there == "flags" && (best_form ~ /LOCATOR/)) say("`flags` is no locator: every instance may have it without a definition")
    if (piece[stop_at - 1] == "flags" && there == "?") say("`flags` takes a number")
    if (there ~ /^"/ && wanted !~ /string|path/) tell_string(word)
    if (there == "=" && best_form ~ /^UNIT/) say("a blank separates a locator from its value, as in `port 0x3f8`")
}

# The first word is none of those with which a statement begins, and no unit.
function tell_first_word(s, word,   names) {
    if (s > 1 && s_file[s - 1] == s_file[s] && word_at(s - 1, 2) == "at" && has_locator_named(word)) {
        say("`" word "` is a locator: if this belongs to line " s_line[s - 1] ", begin it with a blank")
        return
    }
    if (word ~ /[0-9*?]$/) return
    words_of_forms("config", names)
    say("it is read as a device to look for, because no statement begins with `" word "`" meant(nearest(word, names)))
}

function first_of_line(t) { while (t > 1 && tok_line[t - 1] == tok_line[t]) t--; return t }

# Is there any interface attribute with a locator of this name?
function has_locator_named(name,   attr) { for (attr in is_interface) if (has_locator(attr, name)) return 1; return 0 }

function is_too_long_a_list(s,   t, count) {
    for (t = s_first[s]; t <= s_last[s] && tok[t] != "}"; t++) if (tok[t] == ",") count++
    if (t > s_last[s] || count < 16) return 0
    say("its list has " count + 1 " locators, and an attribute has at most 16")
    return 1
}

# A string in a place where none may stand.
function tell_string(word) {
    if (word == "options") put_left_out_of("options \"DDB\"")
    else if (word == "config") put_left_out_of("config netbsd root on \"wedge:root\"")
    else say("a string is not allowed here")
}

# What config(5) has and this language leaves out: the row of docs/CONFIGURATION.md of which the first code span begins so.
function tell_other_language(s, word,   n) {
    if (word == "no" && put_left_out_of("no " piece[2])) n = 2
    else if (word == "makeoptions" && is_name(word_at(s, 2)) && is_name(word_at(s, 3)) && put_left_out_of("makeoptions isa COPTS+=\"-O2\"")) n = 2
    else if (word !~ /^(no|options|makeoptions|config|machine|ident|file|maxusers|maxpartitions)$/ && put_left_out_of(word)) n = 1
    if (n) mark_word(s, n)
    return n
}

function find_left_out(s,   t, word, in_list) {
    take_pieces(s)
    word = piece[1]
    if (tell_other_language(s, word)) return 1
    for (t = s_first[s] + 1; t <= s_last[s]; t++) {
        if (tok[t] == "{") in_list = 1
        else if (tok[t] == "}") in_list = 0
        else if (word ~ /^(define|defpseudo|device)$/) {
            if (in_list && tok[t] ~ /^"/ && tok[t - 1] == "=") return mark_left_out(t, "{name = \"x\"}")
            if (in_list && tok[t] == "[" && is_name(tok[t - 1])) return mark_left_out(t, "{n[4]}")
        } else if (tok[t] ~ /^"/ && t > s_first[s] + 3 && is_name(tok[t - 1])) return mark_left_out(t, "com0 at isa? name \"x\"")
    }
    return 0
}

function mark_left_out(t, key) { mark_token(t); put_left_out_of(key); return 1 }

# Says the row of the table "What config(5) has besides" that has this code span in its first cell.
function put_left_out_of(key,   line, cell, n, is_there, count, span) {
    while ((getline line < ENVIRON["LANGUAGE"]) > 0) {
        n = cut_row(line, cell)
        if (n == 4 && cell[1] == "of config(5)") is_there = 1
        else if (n < 2) is_there = 0
        if (!is_there || !index(cell[1], "`" key "`")) continue
        close(ENVIRON["LANGUAGE"])
        say("`" key "` belongs to config(5), but this language leaves it out: " cell[3])
        mend = cell[4]
        return 1
    }
    close(ENVIRON["LANGUAGE"])
    return 0
}

# ---- names

# The place of the first word behind `:` in a definition or attachment, or one more than there are.
function needs_from(s,   t) {
    for (t = s_first[s] + 1; t <= s_last[s] && tok[t] != ":"; t++) ;
    return t + 1
}

function find_unknown(s,   word, t, last) {
    word = word_at(s, 1)
    if (word ~ /^(define|defpseudo|device|attach)$/) {
        if (word == "attach")
            for (t = s_first[s] + 3; t <= s_last[s] && tok[t] != "with" && tok[t] != ":"; t++)
                if (tok[t] != "," && tok[t] != "root" && is_unknown(tok[t], s)) return tell_unknown(s, t, tok[t], 0)
        for (t = needs_from(s); t <= s_last[s]; t++)
            if (tok[t] != "," && is_unknown(tok[t], s)) return tell_unknown(s, t, tok[t], 0)
        return 0
    }
    t = s_first[s] + 2
    word = base_of(word_at(s, 3))
    if (word_at(s, 2) != "at" || word == "root" || !is_unknown(word, s) || (word in is_device) && is_device[word] < s) return 0
    return tell_unknown(s, t, word, 1)
}

function is_unknown(name, s) { return !(name in is_attr) || is_attr[name] >= s }

function tell_unknown(s, t, name, is_parent,   names, where, text) {
    mark_token(t)
    split("", names)
    declared_before(is_attr, s, names)
    if (is_parent) declared_before(is_device, s, names)
    if (name in is_attr || is_parent && name in is_device) {
        where = name in is_attr ? is_attr[name] : is_device[name]
        text = where == s ? "this statement itself defines `" name "`" : "`" name "` is defined only later, at " stands(where) ", and a name may be used only after its definition"
    } else if (word_at(s, 1) == "attach" && edits(name, "root") == 1) text = "nothing defines `" name "`; did you mean `root`?"
    else if (name in is_device && is_device[name] < s)
        text = "`" name "` is a device without braces; `device " name " {}` at " stands(is_device[name]) " would make it an attribute, too"
    else text = "nothing defines `" name "`" meant_at(nearest(name, names), names)
    say(text)
    return 1
}

function find_no_interface(s,   t, name) {
    if (word_at(s, 1) == "attach") {
        for (t = s_first[s] + 3; t <= s_last[s] && tok[t] != "with" && tok[t] != ":"; t++)
            if (tok[t] != "," && tok[t] != "root" && tok[t] in is_attr && !(tok[t] in is_interface)) return tell_no_interface(t, tok[t])
        return 0
    }
    name = base_of(word_at(s, 3))
    if (!(name in is_attr) || name in is_interface) return 0
    return tell_no_interface(s_first[s] + 2, name)
}

function tell_no_interface(t, name,   word, offering) {
    mark_token(t)
    word = word_at(is_attr[name], 1)
    say("`" name "` is defined at " stands(is_attr[name]) (word == "devclass" ? \
        " by `devclass`, and nothing attaches at a class of devices" : " without braces; with them it is `" word " " name " {}`"))
    return 1
}

function find_no_device(s,   word, name, place, names) {
    word = word_at(s, 1)
    place = word ~ /^(attach|pseudo-device)$/ ? 2 : 1
    name = place == 2 ? word_at(s, 2) : base_of(word)
    split("", names)
    if (word == "pseudo-device") {
        if (name in is_pseudo && is_pseudo[name] < s) return 0
        mark_word(s, 2)
        declared_before(is_pseudo, s, names)
        if (name in is_pseudo) say("`" name "` is defined only later, at " stands(is_pseudo[name]))
        else if (name in is_device) say("`" name "` is a device, defined at " stands(is_device[name]) ": its instances are written as `" name "0 at ..`")
        else if (name in is_attr) say("`" name "` is an attribute of `" word_at(is_attr[name], 1) "` at " stands(is_attr[name]) "; `defpseudo` makes it one that may be configured")
        else say("no `defpseudo` defines `" name "`" meant_at(nearest(name, names), names))
        return 1
    }
    if (name in is_device && is_device[name] < s) return 0
    mark_word(s, place)
    declared_before(is_device, s, names)
    if (name in is_device) say("`" name "` is defined only later, at " stands(is_device[name]) ", and a name may be used only after its definition")
    else if (name in attachment_by && attachment_by[name] < s)
        say("`" name "` is the name of an attachment, of the device `" word_at(attachment_by[name], 2) "` (" stands(attachment_by[name]) ")")
    else if (name in is_pseudo) say("`" name "` is a pseudo-device, defined at " stands(is_pseudo[name]) ": write `pseudo-device " name "`")
    else if (name in is_attr) say("`" name "` is an attribute, defined at " stands(is_attr[name]) ", and no device")
    else say("no `device` defines `" name "`" meant_at(nearest(name, names), names))
    return 1
}

function find_unattached(s,   name) {
    name = base_of(word_at(s, 1))
    if (!(name in is_device) || name in has_attachment && has_attachment[name] < s) return 0
    mark_word(s, 1)
    say("the device `" name "` is defined at " stands(is_device[name]) \
        (name in has_attachment ? ", and attached only later, at " stands(has_attachment[name]) : ", and there is no `attach " name " at ..`"))
    return 1
}

# ---- instances and the attribute that they join

function find_unfit_parent(s,   device, above, list, n, word, count, other, names, text) {
    device = base_of(word_at(s, 1))
    above = base_of(word_at(s, 3))
    if (joined_by(device, word_at(s, 3)) != "") return 0
    mark_word(s, 3)
    list = above in is_device ? offers_of(above) : ""
    text = above in is_device ? "; the parent " above " offers " (list == " " ? "nothing" : commas(list)) : ", but not at " above
    say("the device " device " attaches at " commas(places_of(device)) text)
    count = split(places_of(device), word, " ")
    for (other in is_device) {
        list = offers_of(other)
        for (n = 1; n <= count; n++) if (index(list, " " word[n] " ")) { names[other] = 1; break }
    }
    count = 0
    for (other in names) word[++count] = other
    sort(word, count)
    for (n = text = ""; n < count && n < 8; n++) text = text (n ? ", " : "") "`" word[n + 1] "?`"
    if (count) say("parents that offer one of these: " text (count > 8 ? " and " count - 8 " more" : ""))
    return 1
}

function find_locator(s, code,   device, attr, n, word, count, missing, names, t, name) {
    if (word_at(s, 2) != "at") return 0
    device = base_of(word_at(s, 1))
    attr = joined_by(device, word_at(s, 3))
    if (attr == "") return 0
    split("", names)
    count = split(attr == "root" ? "" : locators[attr], word, " ")
    for (n = 1; n <= count; n++) names[name_of_locator(word[n])] = word[n]
    for (t = s_first[s] + 3; t < s_last[s]; t += 2) {
        name = tok[t]
        if (name == "flags") continue
        if (code == 14 && !(name in names)) {
            mark_token(t)
            if (attr == "root") say("at root there are no locators")
            else say("it joins the interface attribute " attr " {" commas(locators[attr] "") "}, which has no `" name "`" meant(nearest(name, names)))
            return 1
        }
        if (code == 16 && tok[t + 1] == "?" && (name in names) && names[name] !~ /=/) {
            mark_token(t + 1)
            say("it joins the interface attribute " attr " {" commas(locators[attr] "") "}, defined at " stands(is_interface[attr]))
            return 1
        }
        delete names[name]
    }
    if (code != 13) return 0
    for (n = 1; n <= count; n++)
        if (word[n] !~ /^\[/ && (name_of_locator(word[n]) in names)) missing = missing " " name_of_locator(word[n])
    if (missing == "") return 0
    say("it joins the interface attribute " attr " {" commas(locators[attr] "") "}; missing: " commas(missing))
    return 1
}

function find_twice(s,   t, from, step, seen, name) {
    if (word_at(s, 2) == "at") { from = 3; step = 2 } else { from = 1; step = 1 }
    for (t = s_first[s] + from; t <= s_last[s] && tok[t] != "}"; t += step) {
        name = tok[t]
        if (step == 1 && (!is_name(name) || tok[t - 1] !~ /^[[{,]$/)) continue
        if (name in seen) {
            mark_token(t)
            say("`" name "` is first at " (tok_line[seen[name]] == tok_line[t] ? "" : "line " tok_line[seen[name]] ", ") "column " tok_at[seen[name]])
            return 1
        }
        seen[name] = t
    }
    return 0
}

function find_unit(s,   name) {
    name = base_of(word_at(s, 3))
    if (word_at(s, 2) != "at" || word_at(s, 3) ~ /\?$/) return 0
    mark_word(s, 3)
    say("`" name "` is an attribute, defined at " stands(is_attr[name]) ": write `" name "?`")
    return 1
}

# ---- what is defined twice, classes, includes, conditions

function find_defined(s,   word, name, where, t, n, text) {
    word = word_at(s, 1)
    t = s_first[s] + 1
    name = tok[t]
    if (word == "attach") {
        for (n = t; n < s_last[s] && tok[n] != ":"; n++) if (tok[n] == "with") { t = n + 1; name = tok[t] }
        where = attachment_by[name]
    } else if (word == "device") {
        where = is_device[name]
        if (where >= s && name in is_attr && word_at(s, 3) == "{") where = is_attr[name]
    } else where = is_attr[name]
    if (name == "root") { mark_token(t); say("`root` is what the first devices attach at, and nothing else may have its name"); return 1 }
    if (where == "" || where >= s) return 0
    mark_token(t)
    if (stands(where) != stands(s)) say("`" name "` is defined first at " stands(where) ": " words_of(where))
    else for (n = 1; n < s; n++) if (path_of[n] == s_file[s]) text = text (text == "" ? "" : " and ") stands(n)
    if (text != "") say("the file " s_file[s] " is included at " text)
    if (word == "attach" && tok[t - 1] != "with") say("an attachment without `with` has the name of its device: write `with " name "_" base_of(word_at(s, 4)) "`, for example")
    return 1
}

# The statement as one line, cut short.
function words_of(s,   t, text) {
    for (t = s_first[s]; t <= s_last[s] && length(text) < 60; t++) text = text (t == s_first[s] || tok[t] ~ /^[,:]$/ ? "" : " ") tok[t]
    return "`" text (t <= s_last[s] ? " .." : "") "`"
}

function find_classes(s,   t, first) {
    for (t = needs_from(s); t <= s_last[s]; t++) {
        if (!(tok[t] in is_class) || tok[t] == first) continue
        if (first != "") {
            mark_token(t)
            say("`" first "` (" stands(is_class[first]) ") and `" tok[t] "` (" stands(is_class[tok[t]]) ") are both defined by `devclass`")
            return 1
        }
        first = tok[t]
    }
    return 0
}

function find_deep(s) {
    mark_word(s, 2)
    if (path_of[s] == s_file[s]) say("the file " s_file[s] " includes itself")
    return 1
}

function find_condition(s,   n, word) {
    word = word_at(s, 1)
    if (word ~ /^if/) {
        for (n = s + 1; n <= statement_count; n++) if (branch_at[n] == s && word_at(n, 1) == "endif") return 0
        mark_word(s, 1)
        say("this condition has no `endif` in " s_file[s])
        return 1
    }
    mark_word(s, 1)
    if (!branch_at[s]) { say("no condition is open here"); return 1 }
    for (n = s - 1; n > branch_at[s]; n--) if (branch_at[n] == branch_at[s] && word_at(n, 1) == "else") {
        say("the condition of line " s_line[branch_at[s]] " has its `else` at line " s_line[n])
        return 1
    }
    return 0
}
