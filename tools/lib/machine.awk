# Reads a machine file. `read_machine(file)` leaves
#
#   spot_count, spot_name[N]      the spots in order
#   is_spot[S], above[S], on[S]   whether there is one of this name, its parent spot and its interface attribute
#   values[S], mark[S, M]         the values found on it, as they are written; whether it has the mark late, absent or bad
#   match_count, match_by[N], match_spot[N], match_value[N], match_line[N]    the match lines: attachment, spot or *, value as it is written
#   matched[S]                    a match line names the spot
#   style[A, ATTR]                direct or indirect
#   policy[A, P]                  whether the driver of the attachment A has the policy P
#
# A line without one of the forms ends the tool with one line and status 2.

function read_machine(file,   line, got, number, word, n) {
    spot_count = match_count = 0
    while ((got = (getline line < file)) > 0) {
        machine_line = ++number
        sub(/#.*/, "", line)
        n = split(line, word, " ")
        if (n && !read_record(word, n)) complain(file ":" number ": no line of a machine file")
    }
    close(file)
    if (got < 0) complain(file ": it cannot be read")
    if (!spot_count) complain(file ": a machine file without a spot")
}

function read_record(word, n,   w) {
    if (word[1] == "spot" && n >= 4) return read_spot(word, n)
    if (word[1] == "match") return n == 4 && read_match(word)
    if (word[1] == "style" && n == 4) { style[word[2], word[3]] = word[4]; return word[4] ~ /^(in)?direct$/ }
    if (word[1] != "driver" || n < 3) return 0
    for (w = 3; w <= n; w++) policy[word[2], word[w]] = 1
    return 1
}

function read_match(word) {
    matched[word[3]] = 1
    match_by[++match_count] = word[2]
    match_spot[match_count] = word[3]
    match_value[match_count] = word[4]
    match_line[match_count] = machine_line
    return 1
}

function read_spot(word, n,   w, name) {
    name = word[2]
    if (name in is_spot) return 0
    spot_name[++spot_count] = name
    is_spot[name] = 1
    above[name] = word[3]
    on[name] = word[4]
    values[name] = ""
    for (w = 5; w <= n; w++) {
        if (index(word[w], "=")) values[name] = values[name] " " word[w]
        else if (word[w] ~ /^(late|absent|bad)$/) mark[name, word[w]] = 1
        else return 0
    }
    return 1
}
