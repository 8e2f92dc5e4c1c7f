# Finds the word of a machine file, a script, an order file, a watch file or a plan that a fault is about, marks it, and says what is known
# of it: `find_in_line(KIND, FILE, LINE, TEXT, CODE)` answers whether the line as it stands has this fault. For a machine file or a plan the configuration is read, too, where the words of the
# program name it.

function find_in_line(kind, file, number, text, code,   n) {
    if (text == "") return 1
    cut_words(text)
    line_number = number
    if (code == (kind == "machine" ? 1 : 2) && find_odd_byte(text)) return 1
    if (kind == "machine" || kind == "plan") read_known()
    if (kind == "machine") {
        read_spots(file, number)
        if (is_known && code >= 3 && code <= 6 && !has_fault(code)) return 0
        find_in_machine(code)
    } else if (kind == "script") find_in_script(code)
    else if (kind == "order") find_in_order(code)
    else if (kind == "watch") find_in_watch(file, number, code)
    else if (kind == "plan") find_in_plan(file, number, code)
    else if (code <= 2) misfits(kind)
    return 1
}

# Reads the configuration of the program's words, once.
function read_known() {
    is_known = given_word[2] != ""
    if (!is_known || config_read == given_word[2]) return
    read_configuration(given_word[2])
    config_read = given_word[2]
}

# Does a name of the line stand nowhere, by the configuration and the lines before?
function has_fault(code,   n, name) {
    if (code == 3) {
        name = piece[3]
        return !(name in spot_line) || spot_line[name] >= line_number
    }
    if (code == 4) {
        name = piece[piece[1] == "spot" ? 4 : 3]
        return !(name in is_interface) || piece[1] == "spot" && piece[3] == "root"
    }
    if (code == 6) return !(piece[2] in attachment_by)
    for (n = 5; n <= piece_count; n++) {
        name = piece[n]
        if (sub(/=.*/, "", name) && !has_locator(piece[4], name)) return 1
    }
    return 0
}

# The words of the line with their columns, as pieces for the forms.
function cut_words(text,   at) {
    split("", piece)
    piece_count = 0
    at = 1
    sub(/#.*/, "", text)
    while (match(text, /[^ \t]+/)) {
        piece[++piece_count] = substr(text, RSTART, RLENGTH)
        piece_at[piece_count] = at + RSTART - 1
        at += RSTART + RLENGTH - 1
        text = substr(text, RSTART + RLENGTH)
    }
    piece_at[piece_count + 1] = piece_count ? piece_at[piece_count] + length(piece[piece_count]) : 1
}

function mark_piece(n) { mark(line_number, piece_at[n], n > piece_count ? 1 : length(piece[n])) }

function find_odd_byte(text,   at) {
    sub(/#.*/, "", text)
    if (!match(text, /[^\t -~]/)) return 0
    tell_byte(text, RSTART, line_number)
    return 1
}

# At which word the line stops fitting its form; answers whether it does.
function misfits(kind,   word, names, n) {
    word = kind == "order" ? "" : piece[1]
    if (kind != "order" && !((kind, word) in begins_form)) {
        words_of_forms(kind, names)
        for (n in names) break
        if (n == "") return 0
        mark_piece(1)
        say("no line begins with `" word "`" meant(nearest(word, names)))
        return 1
    }
    fit_forms(kind, word)
    if (!stop_at) return 0
    mark_piece(stop_at)
    say("its form is `" best_form "`")
    say((stop_at > piece_count ? "after `" piece[piece_count] "`" : "instead of `" piece[stop_at] "`") " there should be " wanted)
    if (piece[stop_at] ~ /^-?0[0-9]*[89]/) say("a `0` in front makes a number octal, with the digits 0 to 7")
    return 1
}

# ---- machine files

# The spots of the earlier lines, and of the later ones.
function read_spots(file, number,   line, n, word) {
    split("", spot_line)
    while ((getline line < file) > 0) {
        n++
        sub(/#.*/, "", line)
        if (split(line, word, " ") < 3 || word[1] != "spot" || word[2] in spot_line) continue
        spot_line[word[2]] = n
        spot_above[word[2]] = word[3]
    }
    close(file)
}

function find_in_machine(code,   n) {
    if (code == 1) find_machine_form()
    else if (code == 2) { mark_piece(2); say("the spot `" piece[2] "` is given first at line " spot_line[piece[2]]) }
    else if (code == 3) tell_no_spot(3)
    else if (code == 4) find_attribute()
    else if (code == 5) find_machine_locator()
    else if (code == 6) find_attachment()
    else if (code == 7) find_machine_number()
    else if (code == 9) { mark_piece(3); say("the spots above `" piece[2] "`: " chain_of(piece[3])) }
}

function find_machine_form(   n, name, seen) {
    if (misfits("machine")) {
        if (piece[1] == "driver" && stop_at > 2) tell_policy(piece[stop_at] "")
        if (piece[1] == "spot" && stop_at > 4) tell_mark(piece[stop_at] "")
        return
    }
    if (piece[1] != "spot") return
    if (piece[2] == "root" || !is_name(piece[2])) { mark_piece(2); say("`root` is no name of a spot"); return }
    for (n = 5; n <= piece_count; n++) {
        name = piece[n]
        sub(/=.*/, "", name)
        if (name in seen) { mark_piece(n); say("`" name "` is first at column " piece_at[seen[name]]); return }
        seen[name] = n
    }
}

# The policies are the choices of the form.
function tell_policy(word,   list, names, n, near) {
    if (!match(best_form, /[a-z]+(\|[a-z]+)+/)) return
    for (n = split(substr(best_form, RSTART, RLENGTH), list, "|"); n; n--) names[list[n]] = 1
    near = nearest(word, names)
    if (word != "") say("there is no policy `" word "`" meant(near))
}

function tell_mark(word,   names) {
    names["late"] = names["absent"] = names["bad"] = 1
    if (word ~ /^[A-Za-z_][A-Za-z0-9_-]*=/) say("after `=` there should be a number")
    else say("after the locators there may be the marks late, absent and bad" meant(nearest(word, names)))
}

# The parent of a `spot` line or the spot of a `match` line is given by no earlier line.
function tell_no_spot(n,   name, names, other) {
    name = piece[n]
    mark_piece(n)
    for (other in spot_line) if (spot_line[other] < line_number) names[other] = 1
    if (name in spot_line && spot_line[name] >= line_number)
        say("`" name "` is given " (spot_line[name] == line_number ? "by this line itself" : "only later, at line " spot_line[name]))
    else say("there is no spot `" name "`" meant(nearest(name, names)))
}

function find_attribute(   n, name) {
    n = piece[1] == "spot" ? 4 : 3
    name = piece[n]
    mark_piece(n)
    if (piece[1] == "spot" && (name == "root") != (piece[3] == "root")) {
        say("a spot that the root finds has `root` in both places; after a spot, as `" (name == "root" ? piece[3] : "mb") "`, comes the interface attribute on which it is found")
        return
    }
    if (name == "root") { say("the root is always searched directly, so it has no `style`"); return }
    if (!is_known) return
    if (name in is_attr && !(name in is_interface)) say("`" name "` is defined at " stands(is_attr[name]) " without braces, so it is no interface attribute")
    else if (name in is_device && !(name in is_interface)) say("`" name "` is a device, which offers" (offers_of(name) == " " ? " nothing" : ": " commas(offers_of(name))))
    else say("there is no interface attribute `" name "`" meant(nearest(name, is_interface)))
    if (piece[1] == "spot") tell_offers_above(piece[3])
}

# What stands on the spot above may offer: an interface attribute of a device that has a row there is not known beforehand,
# so all that some device offers are told where they are few.
function tell_offers_above(above,   other, names, n, list, count) {
    for (other in is_interface) names[++count] = other
    if (!count || count > 24) { say("the lines `iattr` and `device .. offers` of `devconf ioconf` list them"); return }
    sort(names, count)
    for (n = 1; n <= count; n++) list = list " " names[n]
    say("the interface attributes are " commas(list))
}

function find_machine_locator(   n, name, names, word, count) {
    count = split(locators[piece[4]], word, " ")
    for (n = 1; n <= count; n++) names[name_of_locator(word[n])] = 1
    for (n = 5; n <= piece_count; n++) {
        name = piece[n]
        if (!sub(/=.*/, "", name) || name in names) continue
        if (!is_known && n < piece_count && index(piece[n + 1], "=")) return
        mark(line_number, piece_at[n], length(name))
        if (piece[4] == "root") say("at root there are no locators")
        else if (is_known) say("the interface attribute " piece[4] " has " (count ? "the locators " commas(locators[piece[4]] "") : "no locators") meant(nearest(name, names)))
        return
    }
}

function find_attachment(   name, names, a, text) {
    name = piece[2]
    mark_piece(2)
    if (!is_known) return
    if (name in is_device) {
        for (a = 1; a <= attach_count; a++) if (attached_device[a] == name) text = text " " attach_name[a]
        say("`" name "` is a device" (text == "" ? " without attachment" : ", and its attachments are: " commas(text)))
    } else say("there is no attachment `" name "`" meant(nearest(name, attachment_by)))
}

function find_machine_number(   n, number) {
    if (piece[1] == "match") { mark_piece(4); say("a match value is from 0 to 65535"); return }
    for (n = 5; n <= piece_count; n++) {
        number = piece[n]
        if (!sub(/^[^=]*=/, "", number) || !is_number(number) || is_in_range(number)) continue
        mark(line_number, piece_at[n] + length(piece[n]) - length(number), length(number))
        say("the value of a locator is from -2147483648 to 4294967295")
        return
    }
}

function chain_of(name,   text, n) {
    for (; name != "root" && name != "" && n < 6; n++) { text = text (n ? ", " : "") name; name = spot_above[name] }
    return text (name == "root" ? "" : " ..")
}

# ---- scripts and order files

function find_in_script(code,   n) {
    if (code == 1) {
        misfits("script")
        if (tolower(piece[1]) != piece[1]) say("commands are written in small letters")
    } else if (code == 2) { if (!misfits("script") && piece_count > 35) { mark_piece(36); say("a rescan has at most 16 locators") } }
    else if (code == 3) {
        for (n = piece[1] == "io" ? 3 : 5; n <= piece_count; n += 2)
            if (is_number(piece[n]) && (!is_in_range(piece[n]) || piece[1] == "io" && value_of(piece[n]) < 0)) { mark_piece(n); return }
    }
}

function find_in_order(code,   n, callers) {
    for (callers = 0; (5 + callers) in given_word; ) callers++
    for (n = 1; n <= piece_count; n++) {
        if (code == 2 && is_number(piece[n])) continue
        if (code == 3 && value_of(piece[n]) >= 1 && (!callers || value_of(piece[n]) <= callers)) continue
        mark_piece(n)
        if (code == 3 && value_of(piece[n]) == 0) say("caller 0 boots the machine and has no turn here")
        else if (code == 3 && callers) say("there " (callers == 1 ? "is 1 script" : "are " callers " scripts") ", so " (callers == 1 ? "the only caller is 1" : "the callers are 1 to " callers))
        if (code == 2 && index(piece[n], ",")) say("the numbers are separated by blanks, not by commas")
        return
    }
}

# ---- watch files

function find_in_watch(file, number, code,   subscribed) {
    if (code <= 2) {
        misfits("watch")
        if (code == 1 && tolower(piece[1]) != piece[1]) say("the words are written in small letters")
    } else if (code == 3) find_watch_number()
    else if (code == 9 || code == 10) {
        mark_piece(2)
        subscribed = subscription_of(value_of(piece[2]), file, number, code == 10)
        if (subscribed) say("subscriber " value_of(piece[2]) " subscribes at line " subscribed)
        else if (code == 10) say("no line subscribes subscriber " value_of(piece[2]))
    }
}

function find_watch_number(   callers) {
    for (callers = 0; (5 + callers) in given_word; ) callers++
    if (piece[1] == "turn") {
        mark_piece(2)
        if (callers) say("there " (callers == 1 ? "is 1 script" : "are " callers " scripts") ", so a turn is of a caller from 0, the boot, to " callers)
    } else if (value_of(piece[2]) < 1 || value_of(piece[2]) > 16) mark_piece(2)
    else mark_piece(3)
}

# The first line that subscribes this one, before the line with this number or anywhere in the file; 0 where there is none.
function subscription_of(who, file, number, is_anywhere,   line, n, found) {
    while (!found && (is_anywhere || n + 1 < number) && (getline line < file) > 0) {
        n++
        if (subscribes(line, who)) found = n
    }
    close(file)
    return found
}

function subscribes(line, who,   word) {
    sub(/#.*/, "", line)
    if (split(line, word, " ") != 3 || word[1] != "sub" || !is_number(word[2]) || !is_number(word[3])) return 0
    return value_of(word[2]) == who && value_of(word[3]) >= 1 && value_of(word[3]) <= 64
}

# ---- plans

function find_in_plan(file, number, code,   n) {
    if (code == 1) {
        misfits("plan")
        if (tolower(piece[1]) != piece[1]) say("commands are written in small letters")
    } else if (code == 2) { if (misfits("plan")) tell_long_name(stop_at) }
    else if (code >= 5) {
        read_groups(file, number)
        if (code == 5) find_device()
        else if (code == 6) { mark_piece(2); say("the group `" piece[2] "` is named first at line " group_line[piece[2]]) }
        else if (code == 7) find_group()
        else if (code == 8) find_grouped()
    }
}

function tell_long_name(n) {
    if (n <= piece_count && is_name(piece[n]) && length(piece[n]) > 63) say("a name has at most 63 bytes here, and this one has " length(piece[n]))
}

# The lines that name groups, and the groups of devices in lines before this one.
function read_groups(file, number,   line, n, k, count, word) {
    split("", group_line)
    split("", group_with)
    while ((getline line < file) > 0) {
        n++
        sub(/#.*/, "", line)
        count = split(line, word, " ")
        if (count < 3 || word[1] != "group" || word[2] in group_line) continue
        group_line[word[2]] = n
        for (k = 3; k <= count && n < number; k++) if (!(word[k] in group_with)) group_with[word[k]] = word[2]
    }
    close(file)
}

# The first device of a group that the configuration does not define.
function find_device(   n, name, base, names) {
    if (!is_known) { if (piece_count == 3) mark_piece(3); return }
    for (n = 3; n <= piece_count; n++) if (!(piece[n] in is_device)) break
    if (n > piece_count) return
    name = base = piece[n]
    mark_piece(n)
    sub(/[0-9]+$/, "", base)
    if (name in attachment_by) say("`" name "` is an attachment, of the device `" device_of(name) "`")
    else if (base in is_device) say("`" name "` is a unit; a group has all rows of the device `" base "`")
    else if (name in is_attr) say("`" name "` is an attribute, and no device")
    else say("there is no device `" name "`" meant(nearest(name, is_device)))
}

function device_of(name,   a) {
    for (a = 1; a <= attach_count; a++) if (attach_name[a] == name) return attached_device[a]
}

function find_group(   name, names, other) {
    name = piece[2]
    mark_piece(2)
    if (name in group_line) { say("the group `" name "` is named only later, at line " group_line[name]); return }
    for (other in group_line) if (group_line[other] < line_number) names[other] = 1
    say("no line names a group `" name "`" meant(nearest(name, names)))
}

# The first device that an earlier group or the line itself has already.
function find_grouped(   n, seen) {
    for (n = 3; n <= piece_count; n++) {
        if (piece[n] in group_with) {
            mark_piece(n)
            say("`" piece[n] "` is in the group `" group_with[piece[n]] "` of line " group_line[group_with[piece[n]]])
            return
        }
        if (piece[n] in seen) { mark_piece(n); say("`" piece[n] "` stands first at column " piece_at[seen[piece[n]]]); return }
        seen[piece[n]] = n
    }
}
