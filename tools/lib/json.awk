# Writes an output as JSON. See tools/json.

BEGIN {
    tool = "json"
    for (n = 1; n < 256; n++) code[sprintf("%c", n)] = n
    forget_output()
    file = ENVIRON["OUTPUT"]
    output_name = file == "-" ? "standard input" : file
    output_line = 0
    section = ""
    while ((got = file == "-" ? (getline line) : (getline line < file)) > 0) {
        output_line++
        before = section
        section = read_line(section, line)
        if (section != before) begin_section(section)
        else put_line(section, line)
    }
    if (got < 0) complain(output_name ": it cannot be read")
    if (!output_line) complain(output_name ": it is empty, and no output of a run")
    end_output()
}

# A line waits until it is known whether a comma follows it.
function begin_section(name) {
    if (sections_begun++) { put_waiting(""); print "]," }
    else print "{\"devconf\": 1,"
    print "\"" name "\": ["
}

function end_output() {
    put_waiting("")
    print "]}"
}

function put_waiting(behind) {
    if (waiting != "") print waiting behind
    waiting = ""
}

function put_line(section, line,   n, text) {
    take_line(section, line)
    if (line_of(section) != line) stray("this is no line of an output of devconf")
    put_waiting(",")
    for (n = 1; n <= field_count; n++) text = text (n == 1 ? "" : ", ") json_field(field[n])
    waiting = "{" text "}"
}

function json_field(name,   n, text, count, part, k, inner) {
    text = "\"" name "\": "
    if (type[name] != "list") return text json_value(value[name], type[name])
    text = text "["
    count = split(parts[name], part, " ")
    for (n = 1; n <= length_of[name]; n++) {
        if (n > 1) text = text ", "
        if (!count) { text = text json_value(value[name, n], "text"); continue }
        inner = ""
        for (k = 1; k <= count; k++)
            if ((name, n, part[k]) in value)
                inner = inner (inner == "" ? "" : ", ") "\"" part[k] "\": " json_value(value[name, n, part[k]], type[name, n, part[k]])
        text = text "{" inner "}"
    }
    return text "]"
}

function json_value(text, kind,   n, c, made) {
    if (kind != "text") return text
    if (text !~ /[^] !#-[^-~]/) return "\"" text "\""
    for (n = 1; n <= length(text); n++) {
        c = substr(text, n, 1)
        if (c == "\"" || c == "\\") made = made "\\" c
        else made = made (code[c] < 32 || code[c] > 126 ? sprintf("\\u%04x", code[c]) : c)
    }
    return "\"" made "\""
}
