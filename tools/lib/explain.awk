# Tells faults in words. See tools/explain. The words are those of the tables of docs/FAULTS.md; which word of a line is meant
# is found by explain_config.awk and explain_lines.awk, which mark it and add sentences.

BEGIN {
    tool = "explain"
    for (n = 1; n < 256; n++) byte_value[sprintf("%c", n)] = n
    read_faults(ENVIRON["FAULTS"])
    read_forms(ENVIRON["FORMS"])
    for (n = 1; n <= ENVIRON["WORDS"]; n++) given_word[n] = ENVIRON["WORD_" n]
    if (ENVIRON["CODE"] != "") explain_code(ENVIRON["KIND"], ENVIRON["CODE"])
    else explain_input()
    exit
}

# ---- the tables of docs/FAULTS.md

function read_faults(file,   line, heading, cell, n, got, kind, is_words) {
    while ((got = (getline line < file)) > 0) {
        if (line ~ /^## /) { heading = substr(line, 4); kind = kind_of(heading) }
        n = cut_row(line, cell)
        if (n < 2) { is_words = 0; continue }
        if (cell[1] == "code") is_words = cell[2] == "in words"
        else if (cell[1] == "exit status") is_words = 2
        else if (cell[1] == "line") is_words = 3
        else if (is_words == 3 && cell[1] !~ /^-/) { history_line[++history_rows] = cell[1]; history_wrong[history_rows] = cell[2]; history_mends[history_rows] = cell[3] }
        else if (!is_words || cell[1] !~ /^[0-9]+$/) continue
        else if (is_words == 2) { status_words[cell[1] + 0] = cell[2]; status_mends[cell[1] + 0] = cell[4] }
        else { in_words[kind, cell[1] + 0] = cell[2]; mends[kind, cell[1] + 0] = cell[3]; section[kind] = heading }
    }
    close(file)
    if (got < 0) complain(file ": it cannot be read")
}

# Cuts a row of a table into its cells and answers how many there are.
function cut_row(line, cell,   part, n, count) {
    gsub(/\\\|/, "\001", line)
    count = split(line, part, "|") - 2
    for (n = 1; n <= count; n++) {
        cell[n] = part[n + 1]
        gsub(/\001/, "|", cell[n])
        sub(/^ +/, "", cell[n])
        sub(/ +$/, "", cell[n])
    }
    return count
}

# The word for a section of codes: "Faults of an order file" is "order".
function kind_of(heading) {
    if (!sub(/^Faults of an? /, "", heading)) return "status"
    sub(/ file$/, "", heading)
    return heading == "configuration" ? "config" : heading
}

# ---- by code

function explain_code(kind, code,   n, list, count, told) {
    if (kind == "status") {
        if (!((code + 0) in status_words)) complain("there is no exit status " code)
        print "exit status " code + 0
        put(status_words[code + 0])
        put_mend(status_mends[code + 0])
        put_section("Statuses and faults")
        return
    }
    if (kind == "history") {
        print "history: refused"
        for (n = 1; n <= history_rows; n++) {
            put(history_line[n] ~ /^[0-9]/ ? "line " history_line[n] ": " history_wrong[n] : history_line[n] ": " history_wrong[n])
            put_mend(history_mends[n])
        }
        put_section("Histories that are refused")
        return
    }
    count = split(kind == "" ? kinds_of_codes() : kind, list, " ")
    for (n = 1; n <= count; n++) {
        if (!((list[n], code + 0) in in_words)) continue
        if (told++) print ""
        print list[n] ": code " code + 0
        tell_code(list[n], code + 0)
    }
    if (!told) complain("there is no code " code (kind == "" ? "" : " of the kind " kind))
}

# The kinds of files that have codes: those of this page first, then what else has a section.
function kinds_of_codes(   kind, list) {
    list = "config machine script order watch plan"
    for (kind in section) if (!index(" " list " ", " " kind " ")) list = list " " kind
    return list
}

# The words of a code, then what was found out about the line.
function tell_code(kind, code,   n) {
    put(in_words[kind, code])
    for (n = 1; n <= sentence_count; n++) put(sentence[n])
    put_mend(mend == "" ? mends[kind, code] : mend)
    if (!is_all) put_section(section[kind])
}

function put_mend(text) { if (text != "") put("To mend it: " text) }

function put_section(heading) { put("More: " ENVIRON["PAGE"] ", \"" heading "\"") }

# Some words as a sentence, in lines of at most 79 bytes with two blanks before them.
function put(text,   n, word, count, line) {
    text = toupper(substr(text, 1, 1)) substr(text, 2)
    if (text !~ /[.?"]$/) text = text "."
    count = split(text, word, " ")
    line = " "
    for (n = 1; n <= count; n++) {
        if (length(line) + length(word[n]) > 78) { print line; line = " " }
        line = line " " word[n]
    }
    print line
}

# ---- by lines

# Fault lines are told in words, all other lines of an output pass as they are. An output is known by its first line; where the
# words of the program were given, whatever comes is its output.
function explain_input(   line, number, faults, is_output) {
    is_all = ENVIRON["ALL"] != ""
    is_output = given_word[1] != ""
    while ((getline line) > 0) {
        number++
        if (number == 1 && line ~ /^(tables$|load [0-9]+: |history [12]$|tree$)/) is_output = 1
        if (ENVIRON["BELOW"] == "" && !(is_all && line ~ /^(config|machine) .*: code [0-9]+$/)) print line
        faults += explain_line(line)
    }
    if (!faults && !is_output) complain("no fault line of devconf, so there is nothing to explain")
}

function explain_line(line,   kind, file, number, code, part) {
    sentence_count = mark_line = 0
    mend = ""
    if (match(line, /^[a-z]+ /) && match(line, /:[0-9]+: code [0-9]+$/)) {
        kind = substr(line, 1, index(line, " ") - 1)
        if (!(kind in section)) return 0
        file = substr(line, length(kind) + 2, RSTART - length(kind) - 2)
        number = substr(line, RSTART + 1) + 0
        code = line
        sub(/.* /, "", code)
        explain_fault(kind, file, number, code + 0)
        return 1
    }
    if (line ~ /^usage: (devconf|drvrun|drvall|devwhy) /) {
        tell_status(2)
        split(line, part, " ")
        judge_words(part[2])
        put_forms(part[2])
        return 1
    }
    if (line ~ /^history / && match(line, /:[0-9]+: refused$/)) {
        file = substr(line, 9, RSTART - 9)
        number = substr(line, RSTART + 1) + 0
        show_statement("history", file, number)
        put_expected(file, number)
        return tell_status(5)
    }
    if (line ~ /^[^:]+: absent$/) return tell_status(6)
    if (line ~ /^[^:]+: too long$/) return tell_status(7)
    if (line ~ /: unknown$/) return tell_status(13)
    if (line == "read fault") return tell_status(8)
    if (line == "write fault") return tell_status(9)
    if (line == "out of memory") return tell_status(10)
    if (line ~ /^more than [0-9]+ worlds$/) return tell_status(12)
    return 0
}

function tell_status(number) {
    if (!(number in status_words)) return 0
    put(status_words[number])
    put_mend(status_mends[number])
    put_section("Statuses and faults")
    return 1
}

function explain_fault(kind, file, number, code,   first, is_found) {
    first = line_of(file, number)
    if (kind == "script") kind = kind_of_script(file, first, code)
    is_found = find_fault(kind, file, number, first, code)
    if (is_all && !is_told(kind, file, number, code, is_found)) return
    show_statement(kind, file, number)
    if (!((kind, code) in in_words)) complain("there is no code " code " of the kind " kind)
    tell_code(kind, code)
    if (kind == "script" && !given_word[1] && first == "") {
        tell_other(file, "order", "the order file", code)
        tell_other(file, "watch", "the watch file", code)
        tell_other(file, "plan", "the plan", code)
    }
}

# The same code of a file of another kind, which the fault line does not tell apart.
function tell_other(file, kind, title, code) {
    if (!((kind, code) in in_words)) return
    print "  or, if " file " is " title ":"
    tell_code(kind, code)
}

# Finds the word that is at fault; answers whether the line as it stands has this fault.
function find_fault(kind, file, number, line, code) {
    if (line ~ /\r$/ && code <= 3) {
        say("the line ends with a carriage return, as lines of other systems do; tr -d '\\r' removes it")
        return 1
    }
    if (!number) return 1
    return kind == "config" ? find_in_config(file, number, code) : find_in_line(kind, file, number, line, code)
}

# Of many faults of one file: is this one told? It is not where it only follows from a statement before it that was refused, and
# that was emptied then: a name that this statement defines, or that a file defines which could not be included.
function is_told(kind, file, number, code, is_found) {
    if (faults_told && !is_found && (kind == "config" ? code ~ /^(8|9|1[0-46-7]|21)$/ : kind == "machine" && code ~ /^[3-6]$/)) return 0
    if (is_incomplete && kind == "config" && code ~ /^(8|9|1[0-2]|21)$/) return 0
    if (kind == "config" && code <= 4 && code != 3 && number) is_incomplete = code <= 2
    if (++faults_told > 20) {
        if (faults_told == 21) print "(20 faults are shown, and there are more)"
        return 0
    }
    print kind " " file ":" number ": code " code
    return 1
}

# Adds a sentence to what is told of the fault. `mend` takes the place of what mends the code.
function say(text) { sentence[++sentence_count] = text }

# Marks a word of the faulty line, to be underlined.
function mark(line, column, size) { mark_line = line; mark_column = column; mark_length = size }

function mark_token(t) { mark(tok_line[t], tok_at[t], length(tok[t])) }

# The configuration that was compiled: the second word of the program, else the file in which the fault stands.
function configuration(file) { return given_word[2] != "" ? given_word[2] : file }

# A fault line calls scripts, order files, watch files and plans scripts: which one is the file?
function kind_of_script(file, line, code) {
    if (is_plan(file, line, code)) return "plan"
    if (is_watch(file, line) || !(("script", code) in in_words) && (("watch", code) in in_words)) return "watch"
    return is_order(file, line) ? "order" : "script"
}

# Is the file a plan, by the words of the program, or else by its code or the first word of the line? Scripts have other ones.
function is_plan(file, line, code,   word) {
    if (given_word[1]) return given_word[1] == "tables" && given_word[4] == file
    if (!(("script", code) in in_words) && (("plan", code) in in_words)) return 1
    split(line, word, /[ \t#]+/)
    word[1] = word[1] == "" ? word[2] "" : word[1]
    return (("plan", word[1]) in begins_form) && !(("script", word[1]) in begins_form)
}

# Is the file the order file, by the words of the program and none of its scripts, or else by what stands in the line?
function is_order(file, line) { return given_word[1] ? is_fourth("play", file) : line ~ /^[ \t]*[-0-9]/ }

# Is it the watch file?
function is_watch(file, line) { return given_word[1] ? is_fourth("watch", file) : line ~ /^[ \t]*(boot|turn|sub|read)([ \t#]|$)/ }

# Is the file that of this command, and none of its scripts?
function is_fourth(command, file,   n) {
    if (given_word[1] != command || given_word[4] != file) return 0
    for (n = 5; n in given_word; n++) if (given_word[n] == file) return 0
    return 1
}

function line_of(file, number,   line, n) {
    if (!number) return ""
    while ((getline line < file) > 0) if (++n == number) break
    close(file)
    return n == number ? line : ""
}

# Prints the statement with its line numbers. In a configuration a statement may go on.
function show_statement(kind, file, number,   line, n, passed) {
    if (!number) { put("line 0 stands for the file itself"); return }
    while ((getline line < file) > 0) {
        n++
        if (n < number) continue
        if (n == number) { show_line(n, line); if (kind != "config") break; continue }
        if (line ~ /^[ \t]*(#.*)?$/) { passed = passed n "\t" line "\n"; continue }
        if (line !~ /^[ \t]/) break
        show_passed(passed)
        passed = ""
        show_line(n, line)
    }
    close(file)
}

# Shows the lines that were passed over, each with its number and a tab before it.
function show_passed(lines,   list, n, count) {
    count = split(lines, list, "\n")
    for (n = 1; n < count; n++)
        show_line(substr(list[n], 1, index(list[n], "\t") - 1), substr(list[n], index(list[n], "\t") + 1))
}

# One line, with what is marked underlined. A long line is shown around the mark. A character that is not of ASCII is a "?".
function show_line(n, line,   from, under) {
    from = 1
    if (n == mark_line && mark_column > 180) from = mark_column - 80
    under = substr(line, from, mark_column - from)
    if (from > 1) { line = ".." substr(line, from); under = "  " under }
    if (length(line) > 200) line = substr(line, 1, 198) ".."
    gsub(/[\300-\377][\200-\277]*/, "?", line)
    gsub(/[^\t -~]/, "?", line)
    print sprintf("  %4d | ", n) line
    if (n != mark_line) return
    gsub(/[^\t]/, " ", under)
    print "       | " under substr("^^^^^^^^^^^^^^^^^^^^^^^^^^^^^^^^^^^^^^^^", 1, mark_length < 1 ? 1 : mark_length) " column " mark_column
}

# ---- words

# The word of the command line that has no place in a form.
function judge_words(program,   line, word, n, given, takes, names) {
    if (program != "devconf" || given_word[1] == "") return
    for (given = 1; given in given_word; given++) if (given_word[given] == "" || given_word[given] ~ /^-/) {
        put("`" given_word[given] "` " (given_word[given] == "" ? "is empty" : "begins with `-`"))
        return
    }
    given -= 2
    while ((getline line < ENVIRON["FORMS"]) > 0) {
        if (index(line, program " ") != 1) continue
        sub(/\t.*/, "", line)
        n = split(line, word, " ")
        names[word[2]] = 1
        if (word[2] == given_word[1]) takes = substr(line, index(line, word[3]))
    }
    close(ENVIRON["FORMS"])
    if (takes == "") put("there is no command `" given_word[1] "`" meant(nearest(given_word[1], names)))
    else put("`" given_word[1] "` takes " takes "; " (given ? count_of(given, "word") " follow" (given == 1 ? "s" : "") " it" : "nothing follows it"))
}

# The forms of the program, each with what it does.
function put_forms(program,   line, cell) {
    while ((getline line < ENVIRON["FORMS"]) > 0) {
        if (index(line, program " ") == 1) { split(line, cell, "\t"); printf "    %-44s %s\n", cell[1], cell[2] }
    }
    close(ENVIRON["FORMS"])
}

# ---- histories

# What should have stood at this line of the history: expected.sh asks the program, with the words of the call.
function put_expected(file, number,   command, line) {
    if (given_word[1] !~ /^(replay|upgrade)$/ || given_word[4] != file || !number) return
    command = "sh \"$LIB/expected.sh\" " number " 2>/dev/null </dev/null"
    while ((command | getline line) > 0) print line
    close(command)
}
