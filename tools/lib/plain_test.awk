# Tells whether scripts pass the plain test. See tools/summary, -t. The test is on the texts: an `open` may leave a reference, a
# `close` of the same name gives one back, and at a `detach` or `unplug` none may be left.

BEGIN {
    tool = "summary"
    count = ENVIRON["SCRIPTS"]
    for (k = 1; k <= count; k++) failed += !passes(ENVIRON["SCRIPT_" k])
    if (!failed) print count_of(count, "script") ": no detach and no unplug where a reference may be open, so " \
        (count == 1 ? "it never stands still" : "no order of turns makes them stand still")
    else print failed " of " count_of(count, "script") (failed == 1 ? " does" : " do") \
        " not pass: while one waits in a detach or unplug, it may hold what another waits for"
    exit failed > 0
}

# Goes through a script; tells the first command at which a reference may be open.
function passes(file,   line, got, number, n, word, name, open, text) {
    split("", open)
    while ((got = (getline line < file)) > 0) {
        number++
        sub(/#.*/, "", line)
        n = split(line, word, " ")
        if (!n) continue
        if (word[1] !~ /^(open|close|io|detach|rescan|list|tree|suspend|resume|resumetree|plug|unplug)$/)
            complain(file ": no script of commands")
        if (word[1] == "open") open[word[n]] = open[word[n]] " " number
        if (word[1] == "close") sub(/ [0-9]+$/, "", open[word[2]])
        if (word[1] != "detach" && word[1] != "unplug") continue
        for (name in open) if (open[name] != "") text = text (text == "" ? "" : ", ") name " (" line_in_words(open[name]) ")"
        if (text == "") continue
        close(file)
        print file ":" number ": `" word[1] " " word[2] "` where a reference may be open: " text
        return 0
    }
    close(file)
    if (got < 0) complain(file ": it cannot be read")
    return 1
}

# " 3 4" as "lines 3, 4".
function line_in_words(list,   n) {
    n = gsub(/ /, ", ", list)
    return (n == 1 ? "line " : "lines ") substr(list, 3)
}
