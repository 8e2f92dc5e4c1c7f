# Writes the output that some JSON was made of. See tools/json. Blanks and the order of fields do not count.

BEGIN {
    tool = "json"
    file = ENVIRON["OUTPUT"]
    output_name = file == "-" ? "standard input" : file
    for (n = 1; n < 256; n++) code[sprintf("%c", n)] = n
    for (n = 0; n < 16; n++) digit[substr("0123456789abcdef", n + 1, 1)] = n
    order = "tables history live tree notes"
    # An object or more is read at once.
    RS = "}"
    read_top()
    put_sections()
}

function broken(why) { complain(output_name ": " why) }

# ---- words of JSON

function more(   piece, got) {
    got = file == "-" ? (getline piece) : (getline piece < file)
    if (got < 0) broken("it cannot be read")
    # The last piece ends with a brace too, if the file ends with one; it matters only until the object is whole.
    if (!got && (is_whole || at_end++)) return 0
    buffer = buffer (pieces++ ? "}" : "") piece
    return 1
}

# The next word: a mark, a text with its quotes, a number, true, false or null; "" at the end.
function next_word(   word, c) {
    for (;;) {
        sub(/^[ \t\r\n]+/, "", buffer)
        c = substr(buffer, 1, 1)
        if (c == "") { if (more()) continue; return "" }
        if (index("{}[],:", c)) { buffer = substr(buffer, 2); return c }
        if (c == "\"" ? match(buffer, /^"([^"\\]|\\.)*"/) : match(buffer, /^[-+.0-9A-Za-z]+/) && RLENGTH < length(buffer)) {
            word = substr(buffer, 1, RLENGTH)
            buffer = substr(buffer, RLENGTH + 1)
            return word
        }
        if (c != "\"" && c !~ /[-0-9tfn]/) broken("no JSON")
        if (!more()) broken("no JSON")
    }
}

function want(mark,   word) {
    word = next_word()
    if (word != mark) broken("no JSON of an output: " (word == "" ? "its end" : word) " in place of " mark)
}

# The bytes of a text. What stands there in UTF-8 or as \u0080 to \u00ff is one byte each.
function bytes_of(word,   n, c, made) {
    word = substr(word, 2, length(word) - 2)
    if (word !~ /[^] !#-[^-~]/) return word
    for (n = 1; n <= length(word); n++) {
        c = substr(word, n, 1)
        if (c == "\\") {
            c = substr(word, ++n, 1)
            if (c == "u") { made = made byte(hex(substr(word, n + 1, 4))); n += 4 }
            else made = made (c == "n" ? "\n" : c == "t" ? "\t" : c == "r" ? "\r" : c == "b" ? "\b" : c == "f" ? "\f" : c)
        } else if (code[c] >= 128) { made = made byte((code[c] - 192) * 64 + code[substr(word, ++n, 1)] - 128) }
        else made = made c
    }
    return made
}

function byte(n) {
    if (n < 1 || n > 255) broken("a text has a character that is no byte")
    return sprintf("%c", n)
}

function hex(text,   n, made) {
    text = tolower(text)
    for (n = 1; n <= 4; n++) made = made * 16 + digit[substr(text, n, 1)]
    return made
}

# ---- the object

function read_top(   word, name) {
    want("{")
    for (word = next_word(); word != "}"; word = next_word()) {
        if (word == ",") continue
        name = bytes_of(word)
        want(":")
        if (name == "devconf") { if (next_word() != 1) broken("no JSON of this version"); continue }
        if (!index(" " order " ", " " name " ")) broken("no JSON of an output: it has the field " name)
        read_section(name)
    }
    is_whole = 1
    if (!sections_read) broken("no JSON of an output: it has no part of an output")
    if (next_word() != "") broken("no JSON of an output: something follows it")
}

# The lines of a section are kept until those before it are written.
function read_section(name,   word) {
    is_there[name] = 1
    sections_read++
    want("[")
    for (word = next_word(); word != "]"; word = next_word()) {
        if (word == ",") continue
        if (word != "{") broken("no JSON of an output: " (word == "" ? "its end" : word) " in place of an object")
        forget_fields()
        read_fields()
        kept[name, ++kept_count[name]] = line_of(name)
    }
}

# The fields of an object, or of an item of a list.
function read_fields(list, item,   word, name) {
    for (word = next_word(); word != "}"; word = next_word()) {
        if (word == ",") continue
        if (word !~ /^"/) broken("no JSON of an output: " (word == "" ? "its end" : word) " in place of a field")
        name = bytes_of(word)
        want(":")
        word = next_word()
        if (word == "[" && list == "") read_list(name)
        else if (list != "") value[list, item, name] = plain(word)
        else { value[name] = plain(word); type[name] = word == "null" ? "none" : "text" }
    }
}

function plain(word) {
    if (word ~ /^[[{,:}]$|^\]$|^$/) broken("no JSON of an output: " word " in place of a value")
    return word ~ /^"/ ? bytes_of(word) : word
}

function read_list(name,   word) {
    type[name] = "list"
    length_of[name] = 0
    for (word = next_word(); word != "]"; word = next_word()) {
        if (word == ",") continue
        length_of[name]++
        if (word == "{") read_fields(name, length_of[name])
        else value[name, length_of[name]] = plain(word)
    }
}

function put_sections(   n, k, count, name) {
    count = split(order, name, " ")
    for (n = 1; n <= count; n++) {
        if (!(name[n] in is_there)) continue
        print (name[n] == "history" ? "history 2" : name[n] == "live" ? "live 1" : name[n])
        for (k = 1; k <= kept_count[name[n]]; k++) print kept[name[n], k]
    }
}
