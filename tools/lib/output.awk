# Reads what a run wrote: the listing, the history and the tree. `read_output(file)` goes over its lines once and leaves
#
#   sections                the sections that it has, as " tables history tree "
#   row_count, row_name[R], row_at[R], row_by[R], row_on[R], row_values[R], row_flags[R]    the rows of the listing
#   offers[D]               the interface attributes that the device definition D offers, each with a blank on both sides
#   from[R]                 the first unit of a starred row, and "" of one with a number
#   locators_of[A]          the locators of the interface attribute A, as the listing spells them, with a blank on both sides
#   attachment_count, attachment[N], attachment_device[N], attachment_places[N]    the attachments, their devices and places
#   setting_count, setting_kind[N], setting_name[N]    pseudo-devices, options, makeoptions and file systems
#   warning_count, warning_file[N], warning_line[N], warning_kind[N]    the warnings
#   live[X]                 the serial of the live device X; first_live, next_live[X] go over them in order of attachment
#   parent[X], row[X], spot[X]    of a live device; the spot is "" where no history tells it
#   condemner[X]            the caller that condemned it
#   depth[X], asleep[X], condemned[X], held[X]    what the tree says of it; tree_count, tree_name[N] is its order
#   taken[S]                the device on the spot S
#   found_below[S]          the device below which the spot was searched last; found_count, found_spot[N] are these spots
#   driverless[S]           no driver took the spot when it was searched last
#   plugged[S], pulled[S]   it was plugged, or pulled out, last
#   plugged_at[S], search_at[X]    the lines at which it was plugged and at which a search below the device began last
#   shown[S]                whether a finalizer showed it
#   caller_count, caller[N], ended[K], last_line[K], last_number[K]    the callers with lines, and the last of each
#   doing[K], target[K]     the command that it has not ended yet: transfer, detach, suspend or resume; of which device
#   searches[X, K]          how many searches below X the caller K has not ended, put off or not
#   power_turn              the caller that is in a power command, or ""
#
# A line that no program writes ends the tool with one line and status 2.

function stray(why) { complain(output_name ":" output_line ": " why) }

# Nothing is known.
function forget_output() {
    sections = " "
    row_count = warning_count = tree_count = caller_count = found_count = serial = 0
    attachment_count = setting_count = 0
    split("", from); split("", locators_of); split("", setting_kind); split("", setting_name)
    split("", attachment); split("", attachment_device); split("", attachment_places)
    first_live = last_live = power_turn = ""
    split("", row_name); split("", row_at); split("", row_by); split("", row_on); split("", row_values); split("", row_flags)
    split("", offers); split("", warning_file); split("", warning_line); split("", warning_kind)
    split("", live); split("", next_live); split("", former_live); split("", parent); split("", row); split("", spot)
    split("", condemner); split("", depth); split("", asleep); split("", condemned); split("", held); split("", tree_name)
    split("", taken); split("", found_below); split("", found_spot); split("", driverless)
    split("", plugged); split("", pulled); split("", shown)
    split("", caller); split("", ended); split("", last_line); split("", last_number); split("", doing); split("", target)
    split("", searches); split("", plugged_at); split("", search_at)
}

function read_output(file,   line, got, section) {
    forget_output()
    output_name = file == "-" ? "standard input" : file
    output_line = 0
    section = ""
    while ((got = file == "-" ? (getline line) : (getline line < file)) > 0) {
        output_line++
        section = read_line(section, line)
    }
    close(file)
    if (got < 0) complain(output_name ": it cannot be read")
    if (!output_line) complain(output_name ": it is empty, and no output of a run")
    output_line++
    if (section == "history" || section == "live") stray("the output is cut off: it has no tree")
    if ((has("history") || has("live")) && tree_count != live_count())
        stray("the tree is not that of the " (has("live") ? "plan" : "history") ": a part is missing")
}

function has(section) { return index(sections, " " section " ") > 0 }

# Takes one line in this section and answers the section behind it. A section begins with its name, behind certain others.
function read_line(section, line) {
    if (line ~ /^(tables|history 2|live 1|tree|notes)$/) {
        sub(/ .*/, "", line)
        if (index(" tables/ history/ history/tables live/tables tree/ tree/history tree/live notes/tree ", " " line "/" section " ")) {
            sections = sections line " "
            return line
        }
    }
    if (section == "tables" && read_table(line)) return section
    if (section == "history" && read_event(line)) return section
    if (section == "live" && read_live(line)) return section
    if (section == "tree" && read_device(line)) return section
    if (section == "notes" && line ~ /^[0-9]+ (none|device-(attach|detach) )/) return section
    if (line == "history 1") stray("histories of format 1 have no spots; this tool reads format 2")
    if (line ~ /^usage: | code [0-9]+$|: absent$|: too long$|: refused$|^(read fault|write fault|out of memory)$/)
        stray("this is a fault line, so there was no run; tools/explain explains it")
    if (line ~ /^load [0-9]+: devices /) stray("the line of `devconf load` has only numbers")
    stray("this is no line of an output of devconf")
}

# ---- the listing

function read_table(line,   word, n, w, rest) {
    n = split(line, word, " ")
    if (word[1] == "row") return n >= 9 && read_row(line, word, n)
    if (word[1] == "device") {
        offers[word[2]] = " "
        for (w = 4; w <= n; w++) offers[word[2]] = offers[word[2]] word[w] " "
        return n == 2 || word[3] == "offers"
    }
    if (word[1] == "warning") {
        rest = substr(line, 9)
        if (!match(rest, /:[0-9]+ (nothing taken back|orphan)$/)) return 0
        warning_count++
        warning_file[warning_count] = substr(rest, 1, RSTART - 1)
        rest = substr(rest, RSTART + 1)
        warning_line[warning_count] = substr(rest, 1, index(rest, " ") - 1)
        warning_kind[warning_count] = substr(rest, index(rest, " ") + 1)
        return 1
    }
    if (word[1] == "iattr") locators_of[word[2]] = substr(line, length("iattr " word[2]) + 1) " "
    else if (word[1] == "attach") read_attachment(word, n)
    else if (word[1] ~ /^(pseudo|options|makeoptions|file-system)$/) {
        setting_kind[++setting_count] = word[1]
        setting_name[setting_count] = word[2]
        sub(/[+]?=.*/, "", setting_name[setting_count])
    } else return word[1] == "attr"
    return 1
}

# attach NAME of DEVICE at PLACE ..
function read_attachment(word, n,   w) {
    attachment[++attachment_count] = word[2]
    attachment_device[attachment_count] = word[4]
    attachment_places[attachment_count] = " "
    for (w = 6; w <= n; w++) attachment_places[attachment_count] = attachment_places[attachment_count] word[w] " "
}

# row R NAME [from UNIT] at X by ATTACHMENT on PLACE [LOC=VALUE].. flags V
function read_row(line, word, n,   w, values) {
    if (word[2] != row_count) return 0
    row_name[row_count] = word[3]
    w = word[4] == "from" ? 6 : 4
    from[row_count] = w == 6 ? word[5] : ""
    if (word[w] != "at" || word[w + 2] != "by" || word[w + 4] != "on" || word[n - 1] != "flags") return 0
    row_at[row_count] = word[w + 1]
    row_by[row_count] = word[w + 3]
    row_on[row_count] = word[w + 5]
    for (w += 6; w < n - 1; w++) values = values (values == "" ? "" : " ") word[w]
    row_values[row_count] = values
    row_flags[row_count] = word[n]
    row_count++
    return 1
}

# ---- the history

function read_event(line,   word, n, who, verb, reply) {
    if (!match(line, /^[0-9]+\.[0-9]+ [a-z]+:? ?/)) return 0
    who = substr(line, 1, index(line, ".") - 1)
    if (!(who in last_line)) caller[++caller_count] = who
    last_line[who] = line
    verb = substr(line, index(line, " ") + 1)
    last_number[who] = substr(line, length(who) + 2, index(line, " ") - length(who) - 2)
    if (verb ~ /^(list|tree)( [A-Za-z_][A-Za-z0-9_-]*)?:/) return 1
    n = split(verb, word, " ")
    verb = word[1]
    reply = substr(line, index(line, ": ") + 2)
    if (n == 1) return read_bare(who, verb)
    if (n == 2) return read_short(who, verb, word[2])
    if (verb == "open" && word[2] == "-x") { word[2] = word[3]; n-- }
    if (verb == "io" && n >= 4) { sub(/:$/, "", word[3]); return read_command(who, verb, word[2], reply, line) }
    if (word[2] !~ /^[A-Za-z_]/ || n < 3) return 0
    if (verb == "found") return read_found(who, word[2], word[3], word[4], word[5], word[6], word[7])
    if (!sub(/:$/, "", word[2])) return 0
    if (verb == "final") {
        if (n == 3 && reply == "0") return 1
        if (word[3] != "1") return 0
        sub(/:$/, "", word[5])
        shown[word[5]] = 1
        return read_found(who, word[2], word[4], word[5] ":", word[6], word[7], word[8])
    }
    return read_command(who, verb, word[2], reply, line)
}

function read_bare(who, verb) {
    if (verb == "end") { ended[who] = 1; doing[who] = "" }
    return verb == "end" || verb == "interrupts"
}

function read_short(who, verb, name) {
    if (verb == "free") free_device(who, name)
    return verb ~ /^(free|drop|sleep|wake)$/
}

# found PARENT on SPOT: NAME row R, or .. not configured
function read_found(who, below, on, at, name, is_row, number) {
    if (on != "on" || !sub(/:$/, "", at)) return 0
    if (!(at in found_below)) found_spot[++found_count] = at
    found_below[at] = below
    if (name == "not" && is_row == "configured") { driverless[at] = 1; return 1 }
    if (is_row != "row" || number !~ /^[0-9]+$/) return 0
    delete driverless[at]
    attach_device(who, name, below, at, number)
    return 1
}

function read_command(who, verb, name, reply, line) {
    if (verb ~ /^(open|close|power)$/) {
        if (verb == "power") { power_turn = ""; doing[who] = "" }
        return 1
    }
    if (verb == "scan" || verb == "done") {
        if (verb == "scan") {
            if (searches[name, who] > 0) searches[name, who]--
        } else doing[who] = ""
        return 1
    }
    if (verb == "plug" || verb == "unplug") {
        if (verb == "plug" && reply == "ok") { plugged[name] = 1; plugged_at[name] = output_line; delete pulled[name] }
        if (verb == "unplug" && reply == "ok") {
            pulled[name] = 1
            delete plugged[name]
            if (name in taken) begin_freeing(who, taken[name])
        }
        return 1
    }
    if (verb !~ /^(io|detach|rescan|suspend|resume|resumetree)$/) return 0
    if (reply != "ok" && reply != "started") return 1
    doing[who] = verb == "io" ? "transfer" : verb == "rescan" ? "" : verb == "resumetree" ? "resume" : verb
    target[who] = name
    if (verb == "detach") begin_freeing(who, name)
    if (verb == "rescan") begin_search(who, name)
    if (verb ~ /^(suspend|resume|resumetree)$/) power_turn = who
    return 1
}

function definition_of(name) { sub(/[0-9]+$/, "", name); return name }

function attach_device(who, name, below, at, number) {
    live[name] = ++serial
    former_live[name] = last_live
    next_live[name] = ""
    if (last_live == "") first_live = name
    else next_live[last_live] = name
    last_live = name
    parent[name] = below
    row[name] = number
    spot[name] = at
    if (at != "") taken[at] = name
    if (offers[definition_of(name)] ~ /[^ ]/) begin_search(who, name)
}

function begin_search(who, name) {
    searches[name, who]++
    search_at[name] = output_line
}

# Condemns the device with all below it. What comes later in the order of attachment is never above it.
function begin_freeing(who, name,   x, below) {
    doing[who] = "detach"
    target[who] = name
    for (x = name; x != ""; x = next_live[x])
        if (x == name || parent[x] in below) { below[x] = 1; condemner[x] = who }
}

function free_device(who, name) {
    if (!(name in live)) return
    if (former_live[name] == "") first_live = next_live[name]
    else next_live[former_live[name]] = next_live[name]
    if (next_live[name] == "") last_live = former_live[name]
    else former_live[next_live[name]] = former_live[name]
    if (taken[spot[name]] == name) delete taken[spot[name]]
    if (doing[who] == "detach" && target[who] == name) doing[who] = ""
    delete live[name]
    delete condemner[name]
}

# add GROUP: ok, attach NAME at PARENT row R, free NAME
function read_live(line,   word, n) {
    n = split(line, word, " ")
    if (n == 6 && word[1] == "attach" && word[3] == "at" && word[5] == "row") attach_device(0, word[2], word[4], "", word[6])
    else if (n == 2 && word[1] == "free") free_device(0, word[2])
    else return line ~ /^(add [^ ]+|remove [^ ]+|scan): [a-z]/
    return 1
}

# ---- the tree

# NAME at PARENT row R[ asleep][ condemned][ held K..], two blanks for each level before it
function read_device(line,   word, n, w, name) {
    n = split(line, word, " ")
    if (n < 5 || word[2] != "at" || word[4] != "row" || word[5] !~ /^[0-9]+$/ || !match(line, /^ */)) return 0
    name = word[1]
    tree_name[++tree_count] = name
    depth[name] = RLENGTH / 2
    if (!(name in live)) {
        if (has("history") || has("live")) stray("the " (has("live") ? "plan" : "history") " has no device " name)
        attach_device(0, name, word[3], "", word[5])
    }
    for (w = 6; w <= n && word[w] != "held"; w++) {
        if (word[w] == "asleep") asleep[name] = 1
        else if (word[w] == "condemned") condemned[name] = 1
        else return 0
    }
    for (w++; w <= n; w++) held[name] = held[name] (held[name] == "" ? "" : " ") word[w]
    return 1
}

function live_count(   x, n) {
    for (x = first_live; x != ""; x = next_live[x]) n++
    return n + 0
}
