# The lines of an output as the fields of JSON objects. `take_line(section, line)` makes them of a line, `line_of(section)`
# makes the line of them again:
#
#   field_count, field[N]       the names of the fields, in their order
#   value[F], type[F]           the value and its type: text, number, flag, or list
#   length_of[F]                of a list how many items it has
#   value[F, I]                 its item I; value[F, I, G] the field G of its item I
#   parts[F]                    the fields of its items, as " name value ", "" where they are texts
#
# docs/CI.md, "As JSON", says which fields each line has.

function forget_fields() {
    field_count = 0
    split("", field); split("", value); split("", type); split("", length_of); split("", parts)
}

function put(name, text, kind) {
    field[++field_count] = name
    value[name] = text
    type[name] = kind == "" ? "text" : kind
}

function put_number(name, text) { put(name, text, "number") }

function put_list_of(name, of) {
    put(name, "", "list")
    length_of[name] = 0
    parts[name] = of
}

function add_part(name, part, text, kind) {
    value[name, length_of[name], part] = text
    type[name, length_of[name], part] = kind
}

function take_line(section, line,   word, n) {
    forget_fields()
    n = split(line, word, " ")
    if (section == "tables") take_table(line, word, n)
    else if (section == "history") take_event(line, word, n)
    else if (section == "live") take_live(line, word)
    else if (section == "tree") take_device(line, word, n)
    else put("line", line)
}

function line_of(section) {
    if (section == "tables") return line_of_table()
    if (section == "history") return value["caller"] "." value["command"] " " line_of_event()
    if (section == "live") return line_of_live()
    if (section == "tree") return line_of_device()
    return value["line"]
}

# ---- the listing

function take_table(line, word, n,   w, k, rest) {
    k = word[1]
    put("kind", k)
    if (k == "warning") {
        rest = substr(line, 9)
        match(rest, /:[0-9]+ (nothing taken back|orphan)$/)
        put("file", substr(rest, 1, RSTART - 1))
        rest = substr(rest, RSTART + 1)
        put_number("line", rest + 0)
        put("text", substr(rest, index(rest, " ") + 1))
        return
    }
    if (k == "row") { take_row(word, n); return }
    if (k ~ /options$/) {
        rest = substr(line, length(k) + 2)
        match(rest, /^[^=+]*/)
        put("name", substr(rest, 1, RLENGTH))
        rest = substr(rest, RLENGTH + 1)
        if (rest ~ /^\+/) put("added", "true", "flag")
        if (rest != "") put("value", substr(rest, index(rest, "=") + 1))
        return
    }
    put("name", word[2])
    if (k == "pseudo") put_number("count", word[3])
    if (k == "attach") put("device", word[4])
    if (k == "device" && n > 2 || k == "attach") {
        put_list_of(k == "attach" ? "at" : "offers", "")
        for (w = k == "attach" ? 6 : 4; w <= n; w++) value[field[field_count], ++length_of[field[field_count]]] = word[w]
    }
    if (k == "iattr") {
        put_list_of("locators", " name default optional ")
        for (w = 3; w <= n; w++) {
            length_of["locators"]++
            rest = word[w]
            gsub(/[][]/, "", rest)
            k = index(rest, "=")
            add_part("locators", "name", k ? substr(rest, 1, k - 1) : rest, "text")
            if (k) add_part("locators", "default", substr(rest, k + 1), "number")
            add_part("locators", "optional", word[w] ~ /^\[/ ? "true" : "false", "flag")
        }
    }
}

function take_row(word, n,   w) {
    put_number("row", word[2])
    put("name", word[3])
    w = word[4] == "from" ? 6 : 4
    if (w == 6) put_number("from", word[5])
    put("at", word[w + 1])
    put("by", word[w + 3])
    put("on", word[w + 5])
    put_list_of("locators", " name value ")
    for (w += 6; w < n - 1; w++) {
        length_of["locators"]++
        add_part("locators", "name", substr(word[w], 1, index(word[w], "=") - 1), "text")
        add_part("locators", "value", substr(word[w], index(word[w], "=") + 1), "number")
    }
    put_number("flags", word[n])
}

function line_of_table(   k, text, n, locator) {
    k = value["kind"]
    if (k == "warning") return k " " value["file"] ":" value["line"] " " value["text"]
    if (k == "row") {
        text = k " " value["row"] " " value["name"] ("from" in value ? " from " value["from"] : "") " at " value["at"] " by " value["by"] \
            " on " value["on"]
        for (n = 1; n <= length_of["locators"]; n++)
            text = text " " value["locators", n, "name"] "=" value["locators", n, "value"]
        return text " flags " value["flags"]
    }
    text = k " " value["name"]
    if (k == "pseudo") return text " " value["count"]
    if (k == "attach") return text " of " value["device"] " at" words_of("at")
    if (k == "device") return text ("offers" in type ? " offers" words_of("offers") : "")
    for (n = 1; k == "iattr" && n <= length_of["locators"]; n++) {
        locator = value["locators", n, "name"] (("locators", n, "default") in value ? "=" value["locators", n, "default"] : "")
        text = text " " (value["locators", n, "optional"] == "true" ? "[" locator "]" : locator)
    }
    if (k ~ /options$/ && "value" in value) text = text (value["added"] == "true" ? "+=" : "=") value["value"]
    return text
}

function words_of(name,   n, text) {
    for (n = 1; n <= length_of[name]; n++) text = text " " value[name, n]
    return text
}

# ---- the history

function take_event(line, word, n,   act, at, reply) {
    at = index(word[1], ".")
    put_number("caller", substr(word[1], 1, at - 1))
    put_number("command", substr(word[1], at + 1))
    act = word[2]
    reply = substr(line, index(line, ": ") + 2)
    if (act ~ /^(list|tree):?$/) { take_names(word, n, reply); return }
    put("act", act)
    if (act == "found" || act == "final") { take_found(act, word); return }
    if (act == "open" && word[3] == "-x") { put("device", bare_name(word[4])); put("sole", "true", "flag"); put("reply", reply); return }
    if (n > 2) put(act ~ /plug$/ ? "spot" : "device", bare_name(word[3]))
    if (act == "scan" || n <= 3) return
    if (act == "io") put_number("value", bare_name(word[4]))
    if (act == "done") put("answer", reply, reply == "error" ? "text" : "number")
    else put("reply", reply)
}

function bare_name(word) { sub(/:$/, "", word); return word }

function take_found(act, word,   w) {
    w = act == "final" ? 5 : 4
    put("parent", bare_name(word[3]))
    if (act == "final") {
        put_number("answer", word[4])
        if (word[4] == "0") return
    }
    put("spot", bare_name(word[w + 1]))
    if (word[w + 2] == "not") { put("device", "null", "none"); return }
    put("device", word[w + 2])
    put_number("row", word[w + 4])
}

function take_names(word, n, reply,   w, act) {
    act = bare_name(word[2])
    put("act", act)
    w = 3
    if (word[2] !~ /:$/) { put("device", bare_name(word[3])); w = 4 }
    if (reply == "no device" && w == 4) { put("reply", reply); return }
    put_list_of("names", act == "list" ? "" : " depth name ")
    for (; w <= n; w++) {
        length_of["names"]++
        if (act == "list") { value["names", length_of["names"]] = word[w]; continue }
        add_part("names", "depth", word[w], "number")
        add_part("names", "name", word[++w], "text")
    }
}

function line_of_event(   act, text, n) {
    act = value["act"]
    text = act (("device" in value) ? " " value["device"] : "")
    if (act == "interrupts" || act == "end" || act ~ /^(drop|free|sleep|wake)$/) return text
    if (act == "list" || act == "tree") {
        if ("reply" in value) return text ": " value["reply"]
        if (act == "list") return text ":" words_of("names")
        for (n = 1; n <= length_of["names"]; n++)
            text = text (n == 1 ? ":" : "") " " value["names", n, "depth"] " " value["names", n, "name"]
        return text (n == 1 ? ":" : "")
    }
    if (act == "found" || act == "final") {
        text = act " " value["parent"]
        if (act == "final") text = text ": " value["answer"]
        if (!("spot" in value)) return text
        return text " on " value["spot"] ": " (type["device"] == "none" ? "not configured" : value["device"] " row " value["row"])
    }
    if (act == "scan") return text ": done"
    if (act == "done") return text ": " value["answer"]
    if (act == "open" && value["sole"] == "true") return "open -x " value["device"] ": " value["reply"]
    if (act == "io") return text " " value["value"] ": " value["reply"]
    if (act ~ /plug$/) return act " " value["spot"] ": " value["reply"]
    return text ": " value["reply"]
}

# ---- what the commands of a plan did

# add GROUP: REPLY, scan: ok, attach NAME at PARENT row R, free NAME
function take_live(line, word,   act) {
    act = bare_name(word[1])
    put("act", act)
    if (act == "attach" || act == "free") put("device", word[2])
    if (act == "attach") { put("parent", word[4]); put_number("row", word[6]) }
    if (act == "add" || act == "remove") put("group", bare_name(word[2]))
    if (act != "attach" && act != "free") put("reply", substr(line, index(line, ": ") + 2))
}

function line_of_live(   act) {
    act = value["act"]
    if (act == "attach") return act " " value["device"] " at " value["parent"] " row " value["row"]
    if (act == "free") return act " " value["device"]
    return act (("group" in value) ? " " value["group"] : "") ": " value["reply"]
}

# ---- the tree

function take_device(line, word, n,   w, at) {
    match(line, /^ */)
    put_number("depth", RLENGTH / 2)
    put("name", word[1])
    put("parent", word[3])
    put_number("row", word[5])
    for (w = 6; w <= n && word[w] != "held"; w++) at = at " " word[w]
    put("asleep", at ~ / asleep/ ? "true" : "false", "flag")
    put("condemned", at ~ / condemned/ ? "true" : "false", "flag")
    put_list_of("held", " caller times sole ")
    for (w++; w <= n; w++) {
        length_of["held"]++
        add_part("held", "sole", word[w] ~ /!$/ ? "true" : "false", "flag")
        sub(/!$/, "", word[w])
        at = index(word[w], "*")
        add_part("held", "caller", at ? substr(word[w], 1, at - 1) : word[w], "number")
        add_part("held", "times", at ? substr(word[w], at + 1) : 1, "number")
    }
}

function line_of_device(   text, n) {
    text = value["name"] " at " value["parent"] " row " value["row"]
    if (value["asleep"] == "true") text = text " asleep"
    if (value["condemned"] == "true") text = text " condemned"
    if (value["depth"] > 0) text = sprintf("%" (2 * value["depth"]) "s", "") text
    for (n = 1; n <= length_of["held"]; n++) {
        text = text (n == 1 ? " held " : " ") value["held", n, "caller"]
        if (value["held", n, "times"] != 1) text = text "*" value["held", n, "times"]
        if (value["held", n, "sole"] == "true") text = text "!"
    }
    return text
}
