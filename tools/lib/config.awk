# Reads a configuration whole, for the tools that tell where something stands in it. `read_configuration(file)` takes the
# statements as they are written, whatever is wrong with them, and leaves
#
#   loaded_count, loaded[N]               the files in the order in which they are read; is_absent[F] for one that is not there
#   statement_count, s_file[S], s_line[S], s_first[S], s_last[S]    the statements outside of branches that are not taken, and
#                                         the numbers of their tokens
#   tok[T], tok_line[T], tok_at[T]        a token, its line and its column, both counted from 1
#   is_attr[A], is_device[D], is_pseudo[D], attachment_by[N]    the statement that declares it first
#   is_class[A], is_interface[A], locators[A]    a device class; an interface attribute, and its locators as " a b=1 [c=-1]"
#   needs["a:" A], needs["d:" D]          the attributes that it names, as " a b"
#   attach_count, attached_device[N], attach_name[N], attach_places[N], attach_by[N]    the attachments
#   path_of[S]                            of an include statement, the path that it loads
#   branch_at[S]                          of a word of a condition, the statement that opened the condition
#
# What a declaration says counts for later statements alone: `is_attr[A] < S` asks whether A is declared before S.

function read_configuration(file) {
    statement_count = token_count = loaded_count = prefixes = level = attach_count = 0
    read_source(file, 0)
}

# Takes the statements of a file. Its lines are kept by a number of their own, since files include others.
function read_source(name, depth,   own, count, n, line, got, begun, opened) {
    if (depth > 16 || loaded_count > 4096 || name == "") return
    own = ++loaded_count
    loaded[own] = name
    while ((got = (getline line < name)) > 0) kept_line[own, ++count] = line
    close(name)
    if (got < 0) is_absent[name] = 1
    begun = token_count + 1
    opened = level
    for (n = 1; n <= count; n++) {
        line = kept_line[own, n]
        delete kept_line[own, n]
        if (line !~ /^[ \t]/ && begun <= token_count && line !~ /^(#|$)/) {
            take_statement(name, begun, depth)
            begun = token_count + 1
        }
        cut(line, n)
    }
    if (begun <= token_count) take_statement(name, begun, depth)
    level = opened
}

# Adds the tokens of the line to the others. A byte that no token has is one by itself.
function cut(line, number,   at) {
    at = 1
    for (;;) {
        if (match(line, /^[ \t]+/)) { at += RLENGTH; line = substr(line, RLENGTH + 1) }
        if (line == "" || line ~ /^#/) return
        if (!match(line, /^[A-Za-z0-9_.\/*?$-]+/) && !match(line, /^"[^"]*"/) && !match(line, /^\+=/)) RLENGTH = 1
        tok[++token_count] = substr(line, 1, RLENGTH)
        tok_line[token_count] = number
        tok_at[token_count] = at
        at += RLENGTH
        line = substr(line, RLENGTH + 1)
    }
}

# Takes the statement that begins with this token and is the last one up to here.
function take_statement(name, first, depth,   word, s) {
    word = tok[first]
    if (level && !live_part[level] && word !~ /^(ifdef|ifndef|elifdef|elifndef|else|endif)$/) { token_count = first - 1; return }
    s = ++statement_count
    s_file[s] = name
    s_line[s] = tok_line[first]
    s_first[s] = first
    s_last[s] = token_count
    if (word ~ /^(ifdef|ifndef|elifdef|elifndef|else|endif)$/) take_condition(s, word, word_at(s, 2))
    else if (word ~ /^c?include$/) { path_of[s] = under_prefix(word_at(s, 2)); read_source(path_of[s], depth + 1) }
    else if (word == "prefix") take_prefix(word_at(s, 2))
    else if (word ~ /^(define|devclass|defpseudo|device)$/) take_definition(s, word, word_at(s, 2))
    else if (word == "attach") take_attachment(s)
}

# The word at this place of the statement, or "".
function word_at(s, place) { return s_first[s] + place - 1 > s_last[s] ? "" : tok[s_first[s] + place - 1] }

function unquoted(text) { return text ~ /^"/ ? substr(text, 2, length(text) - 2) : text }

# The path behind the last prefix.
function under_prefix(path) {
    path = unquoted(path)
    return path ~ /^\// || !prefixes ? path : prefix[prefixes] "/" path
}

function take_prefix(path) {
    if (path == "") { if (prefixes) prefixes-- }
    else { path = under_prefix(path); prefix[++prefixes] = path }
}

function take_condition(s, word, name,   is_true) {
    is_true = (name in is_attr) || (name in is_device)
    if (word ~ /ifndef$/) is_true = !is_true
    if (word ~ /^if/) {
        level++
        branch_at[s] = opened_by[level] = s
        was_live[level] = level == 1 || live_part[level - 1]
        live_part[level] = was_live[level] && is_true
        was_taken[level] = is_true
        return
    }
    branch_at[s] = level ? opened_by[level] : 0
    if (!level) return
    if (word == "endif") { level--; return }
    live_part[level] = was_live[level] && !was_taken[level] && (word == "else" || is_true)
    if (word == "else" || is_true) was_taken[level] = 1
}

# WORD NAME [{LOCATORS}] [: NAME, ..]. A device with braces has an interface attribute of its own name.
function take_definition(s, word, name,   n, last, text, braces, key) {
    key = (word == "device" ? "d:" : "a:") name
    if (word == "device") { if (!(name in is_device)) is_device[name] = s }
    else if (!(name in is_attr)) is_attr[name] = s
    if (word == "defpseudo" && !(name in is_pseudo)) is_pseudo[name] = s
    if (word == "devclass") is_class[name] = s
    if (key in needs) return
    needs[key] = ""
    last = s_last[s]
    for (n = s_first[s] + 2; n <= last && tok[n] != ":"; n++) {
        if (tok[n] == "{") braces = 1
        else if (tok[n] == ",") text = text " "
        else if (tok[n] != "}") text = text tok[n]
    }
    if (braces && !(name in is_interface)) {
        is_interface[name] = s
        if (!(name in is_attr)) is_attr[name] = s
        locators[name] = text == "" ? "" : " " text
        if (word == "device") { needs[key] = " " name; if (!(("a:" name) in needs)) needs["a:" name] = "" }
    }
    for (n++; n <= last; n++) if (tok[n] != ",") needs[key] = needs[key] " " tok[n]
}

# attach DEVICE at PLACE, .. [with NAME]
function take_attachment(s,   n, last, name) {
    last = s_last[s]
    name = word_at(s, 2)
    attach_by[++attach_count] = s
    attached_device[attach_count] = name
    attach_places[attach_count] = ""
    for (n = s_first[s] + 3; n <= last && tok[n] != ":" && tok[n] != "with"; n++)
        if (tok[n] != ",") attach_places[attach_count] = attach_places[attach_count] " " tok[n]
    if (n < last && tok[n] == "with") name = tok[n + 1]
    attach_name[attach_count] = name
    if (!(name in attachment_by)) attachment_by[name] = s
    if (!(attached_device[attach_count] in has_attachment)) has_attachment[attached_device[attach_count]] = s
}

# Where the statement stands.
function place_of_statement(s) { return s_file[s] ":" s_line[s] }

# The name of an instance or of its parent without the unit.
function base_of(word) { sub(/([0-9]+|\*|\?)$/, "", word); return word }

# The interface attributes that the device offers, as " a b ", or those of the attribute.
function offers_of(device) { split("", walked); return offered(needs["d:" device] "", " ") }

function offered(attrs, list,   word, n, count) {
    count = split(attrs, word, " ")
    for (n = 1; n <= count; n++) {
        if (word[n] in walked) continue
        walked[word[n]] = 1
        if (word[n] in is_interface) list = list word[n] " "
        list = offered(needs["a:" word[n]] "", list)
    }
    return list
}

# The interface attribute that an instance of this device below this parent joins, "root", or "" where none fits; the number
# of its attachment is left in `joined_attachment`.
function joined_by(device, parent_word,   above, a, word, n, count, list) {
    above = base_of(parent_word)
    list = above == "root" ? " root " : above in is_device ? offers_of(above) : " " above " "
    for (a = 1; a <= attach_count; a++) {
        if (attached_device[a] != device) continue
        count = split(attach_places[a], word, " ")
        for (n = 1; n <= count; n++)
            if (index(list, " " word[n] " ")) { joined_attachment = a; return word[n] }
    }
    return ""
}

# The places of all attachments of the device, as " a b".
function places_of(device,   a, text) {
    for (a = 1; a <= attach_count; a++) if (attached_device[a] == device) text = text attach_places[a]
    return text
}

# The name of a locator as it stands in a list: "[port=-1]" is "port".
function name_of_locator(text) { sub(/^\[/, "", text); sub(/[]=].*/, "", text); return text }

# Whether the attribute has the locator; its default, or "" where it has none.
function has_locator(attr, name,   n, word, count) {
    count = split(locators[attr], word, " ")
    for (n = 1; n <= count; n++) if (name_of_locator(word[n]) == name) return 1
    return 0
}

# " a b" as "a, b".
function commas(text) { sub(/^ +/, "", text); sub(/ +$/, "", text); gsub(/ +/, ", ", text); return text }
