# Reads what a kernel prints of its devices: the text of dmesg(8), or of drvctl(8) with -lt or -t. `read_kernel(file)` leaves
# the entries, in the order of the text:
#
#   entry_count
#   entry_name[N]     the device, as com0; "" for what was not configured
#   entry_below[N]    the entry of its parent, 0 for the root
#   entry_told[N]     what stands between the parent and the colon, as "port 0x3f8-0x3ff irq 4"
#   entry_text[N]     the words behind the colon; of what was not configured, those before "at"
#   entry_line[N]     the line
#   is_gone[N]        it was detached, and did not come back
#   latest[X]         the latest entry of the device X
#   kernel            the line that names the kernel, if there is one
#   format            dmesg or drvctl
#
# `skip(line, text)` tells of a line that says something of a device, but that no entry can be made of.

function read_kernel(file,   line, got, n) {
    forget_entries()
    split("", text_line)
    text_count = 0
    while ((got = file == "-" ? (getline line) : (getline line < file)) > 0) text_line[++text_count] = bare(line)
    if (file != "-") close(file)
    if (got < 0) complain((file == "-" ? "standard input" : file) ": it cannot be read")
    format = "drvctl"
    for (n = 1; n <= text_count; n++) if (text_line[n] !~ /^ *([a-z_][A-Za-z0-9_-]* )?[a-z_][A-Za-z0-9_-]*[0-9] *$/ && text_line[n] != "") format = "dmesg"
    if (format == "drvctl") for (n = 1; n <= text_count; n++) read_listed(n, text_line[n])
    else read_messages()
    if (!entry_count) complain((file == "-" ? "standard input" : file) ": no line of it attaches a device")
}

function forget_entries() {
    entry_count = 0
    kernel = ""
    split("", entry_name); split("", entry_below); split("", entry_told); split("", entry_text); split("", entry_line)
    split("", is_gone); split("", latest); split("", skipped_line)
}

# The line without its carriage return, the colours of a console, what syslogd(8) puts before it in either of its formats, and
# the time stamps of dmesg(8), of whatever form.
function bare(line) {
    sub(/\r$/, "", line)
    gsub(/\033\[[0-9;]*[A-Za-z]/, "", line)
    sub(/^([A-Z][a-z][a-z] [ 0-9][0-9] [0-9:]+|[0-9-]+T[0-9:.]+(Z|[-+][0-9:]+)) [^ ]+ (\/netbsd|kernel)(:| - - -) /, "", line)
    sub(/^\[[^]]*[0-9][^]]*\] ?/, "", line)
    sub(/^<[ 0-9.]+> ?/, "", line)
    return line
}

function new_entry(name, below, told, text, line) {
    entry_name[++entry_count] = name
    entry_below[entry_count] = below
    entry_told[entry_count] = told
    entry_text[entry_count] = text
    entry_line[entry_count] = line
    if (name != "") latest[name] = entry_count
}

# ---- dmesg

# A line that begins with a blank or a colon goes on with the one before it.
function read_messages(   n, line, begun) {
    for (n = 1; n <= text_count + 1; n++) {
        if (n <= text_count && n > 1 && text_line[n] ~ /^([ \t]|:)/) {
            sub(/^[ \t]+/, " ", text_line[n])
            line = line text_line[n]
            continue
        }
        if (n > 1) read_message(begun, line)
        line = text_line[n]
        begun = n
    }
}

function read_message(number, line,   word, name, rest, n) {
    if (line ~ /^NetBSD [0-9]/) { kernel = line; sub(/: .*/, "", kernel) }
    split(line, word, " ")
    name = word[1]
    if (line ~ / not configured$/) { read_unconfigured(number, line); return }
    if (line ~ /^[A-Za-z_][A-Za-z0-9_-]*[0-9] \(root\)/) {
        # A boot leaves its lines for the next one: the last boot counts.
        if (name in latest) { rest = kernel; forget_entries(); kernel = rest }
        new_entry(name, 0, "", "", number)
        return
    }
    if (line ~ /^[A-Za-z_][A-Za-z0-9_-]*[0-9]: detached/) {
        sub(/:$/, "", name)
        if (name in latest) is_gone[latest[name]] = 1
        return
    }
    if (line ~ /^[A-Za-z_][A-Za-z0-9_-]*[0-9]: / && (sub(/:$/, "", name) || 1) && (name in latest)) {
        n = latest[name]
        if (entry_text[n] == "") entry_text[n] = substr(line, length(name) + 3)
        return
    }
    if (line !~ /^[A-Za-z_][A-Za-z0-9_-]*[0-9] at [A-Za-z_][A-Za-z0-9_-]*[0-9]([ :]|$)/) return
    rest = substr(line, length(name " at ") + 1)
    sub(/^[A-Za-z0-9_-]*/, "", rest)
    sub(/:$/, "", word[3])
    if (!(word[3] in latest)) { skip(number, name " at " word[3] ": nothing before it attaches " word[3]); return }
    read_attached(number, name, latest[word[3]], rest)
}

function read_attached(number, name, below, rest,   told, n) {
    told = told_part(rest)
    rest = substr(rest, length(told) + 1)
    sub(/^: */, "", rest)
    sub(/^ +/, "", told)
    # The kernel may say it twice; and what was pulled out may be plugged again.
    for (n = 1; n <= entry_count; n++)
        if (entry_name[n] == name && entry_below[n] == below && entry_told[n] == told) {
            delete is_gone[n]
            latest[name] = n
            return
        }
    new_entry(name, below, told, rest, number)
}

# What stands before the colon, if none of its parentheses holds it.
function told_part(rest,   n, c, open) {
    for (n = 1; n <= length(rest); n++) {
        c = substr(rest, n, 1)
        if (c == "(") open++
        else if (c == ")") open--
        else if (c == ":" && open <= 0) return substr(rest, 1, n - 1)
    }
    return rest
}

# WORDS at PARENT TOLD not configured
function read_unconfigured(number, line,   at, before, rest, parent_name) {
    line = substr(line, 1, length(line) - length(" not configured"))
    before = ""
    rest = " " line
    while ((at = index(rest, " at ")) > 0) {
        before = before substr(rest, 1, at)
        rest = substr(rest, at + 4)
        parent_name = rest
        sub(/[ :,].*/, "", parent_name)
        if (parent_name in latest) {
            rest = substr(rest, length(parent_name) + 1)
            sub(/: .*/, "", rest)
            sub(/^[ :]+/, "", rest)
            sub(/^ +/, "", before)
            sub(/ +$/, "", before)
            new_entry("", latest[parent_name], rest, before, number)
            return
        }
        before = before "at "
    }
    skip(number, line " not configured: nothing before it attaches its parent")
}

# ---- drvctl -lt: PARENT NAME, two blanks for each level; drvctl -t: NAME alone

function read_listed(number, line,   word, n, level) {
    n = split(line, word, " ")
    if (!n) return
    match(line, /^ */)
    level = int(RLENGTH / 2)
    listed_at[level] = word[n]
    if (level == 0 && (n == 1 || word[1] == "root")) new_entry(word[n], 0, "", "", number)
    else if (n == 2 && !(word[1] in latest)) skip(number, word[2] " below " word[1] ": nothing before it lists " word[1])
    else new_entry(word[n], latest[n == 2 ? word[1] : listed_at[level - 1]], "", "", number)
}
