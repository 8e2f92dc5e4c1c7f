# Tells on one screen what an output says. See tools/summary.

BEGIN {
    tool = "summary"
    whole = ENVIRON["WHOLE"]
    only = ENVIRON["ONLY"]
    read_output(ENVIRON["OUTPUT"])
    if (ENVIRON["MACHINE"] != "") take_machine(ENVIRON["MACHINE"])
    if (ENVIRON["CONFIGURATION"] != "") take_configuration(ENVIRON["CONFIGURATION"])
    script_count = ENVIRON["SCRIPTS"] + 0
    for (s = 1; s <= script_count; s++) read_script(s, ENVIRON["SCRIPT_" s])
    if (only == "n") tell_negations()
    else if (only == "b") {
        if (warning_count) tell_warnings()
        if (has("history")) tell_callers()
    } else if (!has("tree")) tell_listing()
    else {
        tell_devices()
        tell_driverless()
        tell_unsearched()
        tell_warnings()
        tell_unused_rows()
        tell_callers()
        tell_references()
    }
    exit wants_a_look
}

# A listing alone.
function tell_listing(   n) {
    print count_of(row_count, "row") ", and no machine was booted"
    begin_list()
    for (n = 0; n < row_count; n++) add_item(row_in_words(n))
    put_lines()
    tell_warnings()
}

# Where each row stands in the configuration: its statement is the first one left with the same words and values.
function take_configuration(file,   n, key, list, places) {
    read_configuration(file)
    find_instances()
    for (n = 1; n <= instance_count; n++) {
        key = row_key(word_at(instance[n], 1), word_at(instance[n], 3), substr(i_values[n], 2), i_flags[n])
        places[key] = places[key] " " instance[n]
    }
    for (n = 0; n < row_count; n++) {
        key = row_key(row_name[n], row_at[n], row_values[n], row_flags[n])
        if (!match(places[key], /^ [0-9]+/)) complain(file ": it has no instance for row " n ", " row_name[n] " at " row_at[n] ": not the configuration of this output")
        row_place[n] = place_of_statement(substr(places[key], 2, RLENGTH - 1) + 0)
        places[key] = substr(places[key], RLENGTH + 1)
    }
}

function row_key(name, at, values, flags) { return name " at " at " " values " flags " flags }

# A row as its instance is written, with where it stands.
function row_in_words(r) { return (r in row_place ? row_place[r] ": " : "") statement(row_name[r], r) }

# The spots of the history have to be those of the machine.
function take_machine(file,   n) {
    read_machine(file)
    for (n = 1; n <= found_count; n++)
        if (!(found_spot[n] in is_spot))
            complain(file ": it has no spot " found_spot[n] ", which the history searches: not the machine of this run")
}

# ---- devices by driver, as com0-1 or ld0-2,5

function tell_devices(   x, driver, unit, n, drivers, order, last, run_begin, text) {
    for (n = 1; n <= tree_count; n++) {
        driver = definition_of(tree_name[n])
        unit = substr(tree_name[n], length(driver) + 1) + 0
        if (!(driver in text)) { order[++drivers] = driver; text[driver] = "" }
        text[driver] = text[driver] " " unit
    }
    print count_of(tree_count, "device") " of " count_of(drivers + 0, "driver")
    sort(order, drivers)
    begin_list()
    for (n = 1; n <= drivers; n++) add_item(order[n] ranges(text[order[n]]))
    put_list(" ")
}

# These numbers as ranges: " 2 0 1 5" is "0-2,5".
function ranges(numbers,   n, unit, k, text) {
    n = split(numbers, unit, " ")
    sort_numbers(unit, n)
    for (k = 1; k <= n; k++) {
        text = text (k == 1 ? "" : ",") unit[k]
        if (k < n && unit[k + 1] == unit[k] + 1) {
            while (k < n && unit[k + 1] == unit[k] + 1) k++
            text = text "-" unit[k]
        }
    }
    return text
}

# ---- spots

function tell_driverless(   s, n, at) {
    if (!has("history")) { print "without a history, nothing is known about spots"; return }
    n = 0
    for (s = 1; s <= found_count; s++)
        if ((found_spot[s] in driverless) && !(found_spot[s] in taken)) at[++n] = found_spot[s]
    print count_of(n, "spot") " without a driver"
    if (n) wants_a_look = 1
    begin_list()
    for (s = 1; s <= n; s++)
        add_item(at[s] " below " found_below[at[s]] (is_gone(found_below[at[s]]) ? ", which is gone" : "") \
            (at[s] in is_spot ? ": " on[at[s]] values[at[s]] why_driverless(at[s]) : ""))
    put_lines()
    if (n && !spot_count) print "    (-m MACHINE shows the values found there, and why no driver takes them)"
    else if (n) print "    (devwhy " (ENVIRON["CONFIGURATION"] == "" ? "FILE" : ENVIRON["CONFIGURATION"]) " " ENVIRON["MACHINE"] " " at[1] " tells why no row takes it in a boot)"
}

# Why no row took the spot: no row is for its attribute and parent, none for its values, no driver of these matches, or their
# units are taken.
function why_driverless(at,   r, text, other, count, drivers, driver, driver_count, taken_by) {
    if (!has("tables")) return ""
    for (r = 0; r < row_count; r++) {
        if (row_on[r] != on[at] || !fits_parent(r, found_below[at])) continue
        count++
        if (!row_fits(r, at)) { if (other++ < 2) text = text (text == "" ? "" : ", ") statement(row_name[r], r) }
        else if (!matches(row_by[r], at)) { if (!driver[row_by[r]]++ && driver_count++ < 3) drivers = drivers (driver_count == 1 ? "" : ", ") row_by[r] }
        else taken_by = taken_by (taken_by == "" ? "" : ", ") row_name[r]
    }
    if (!count) return "; no row is for " on[at] " below " found_below[at]
    if (taken_by != "") return "; in use elsewhere, or no rescan came: " taken_by
    if (driver_count) return "; no match for it by " (driver_count <= 3 ? drivers : "any of " driver_count " drivers with rows there")
    return "; the rows there want other values: " text (other > 2 ? " and " other - 2 " more" : "")
}

# Has each locator of the row its default or the value of the spot?
function row_fits(r, at,   pair, count, n, name, value) {
    count = split(row_values[r], pair, " ")
    for (n = 1; n <= count; n++) {
        name = pair[n]
        sub(/=.*/, "", name)
        value = substr(pair[n], length(name) + 2)
        if (!is_default(row_on[r], name, value) && value != found_value(at, name)) return 0
    }
    return 1
}

# The value of a locator on a spot: what the machine file says, else its default, else -1.
function found_value(at, name,   pair, count, n) {
    count = split(values[at], pair, " ")
    for (n = 1; n <= count; n++) if (substr(pair[n], 1, length(name) + 1) == name "=") return in_decimal(substr(pair[n], length(name) + 2))
    if (match(locators_of[on[at]], "[ [][" substr(name, 1, 1) "]" substr(name, 2) "=-?[0-9]+")) {
        pair[1] = substr(locators_of[on[at]], RSTART, RLENGTH)
        sub(/.*=/, "", pair[1])
        return pair[1]
    }
    return -1
}

# Does the driver of the attachment match the spot? The last line for the spot counts, else the last one with a star.
function matches(by, at,   n, value, star) {
    for (n = 1; n <= match_count; n++) {
        if (match_by[n] != by) continue
        if (match_spot[n] == at) value = match_value[n]
        else if (match_spot[n] == "*") star = match_value[n]
    }
    return value_of(value == "" ? star : value) > 0
}

function is_gone(x) { return x != "root" && !(x in live) }

# By reason, the spots that no search came to.
function tell_unsearched(   n, name, reason, reasons, order, spots, count) {
    if (!spot_count) return
    for (n = 1; n <= spot_count; n++) {
        name = spot_name[n]
        if (name in found_below) continue
        count++
        reason = reason_for(name)
        if (!(reason in spots)) order[++reasons] = reason
        spots[reason] = spots[reason] " " name
    }
    print count_of(count + 0, "spot") " never searched"
    if (count) wants_a_look = 1
    begin_list()
    for (n = 1; n <= reasons; n++) add_item(order[n] ":" shortened(spots[order[n]]))
    put_lines()
}

# The front of some words that a line has room for.
function shortened(words) {
    if (whole || length(words) <= 50) return words
    words = substr(words, 1, 51)
    sub(/ [^ ]*$/, "", words)
    return words " .."
}

function reason_for(name,   x, by) {
    x = above[name]
    if (x != "root" && !(x in taken))
        return "its parent spot " x (x in found_below && !(x in driverless) ? " has lost its device" : " has no device")
    if (x != "root") x = taken[x]
    if (x != "root" && has("tables") && !index(offers[definition_of(x)], " " on[name] " "))
        return definition_of(x) " does not offer " on[name]
    if (name in pulled) return "pulled out and not plugged again"
    if (mark[name, "absent"] && !(name in plugged)) return "absent, and never plugged"
    by = x == "root" ? "" : row_by[row[x]]
    if (mark[name, "late"] && !(name in shown))
        return "late, and not shown" (by != "" && !policy[by, "final"] ? " (the driver of " x " has no finalizer)" : "")
    if (is_searched(x)) return "the search below " x " is not over"
    if ((name in plugged) && plugged_at[name] > search_at[x])
        return "plugged when the search below " x " was over, and no rescan came"
    if (style[by, on[name]] == "indirect") return x " is searched row by row, and no row took it"
    return "for no reason that is seen here"
}

# Is a search below the device not over?
function is_searched(x,   n) {
    for (n = 1; n <= caller_count; n++) if (searches[x, caller[n]] > 0) return 1
    return x == "root" && !ended[0]
}

# ---- warnings with their statements, rows

function tell_warnings(   n, text) {
    if (!has("tables")) return
    print count_of(warning_count, "warning")
    if (warning_count) wants_a_look = 1
    begin_list()
    for (n = 1; n <= warning_count; n++) {
        text = statement_at(warning_file[n], warning_line[n] + 0)
        if (text != "") text = ": " text
        text = (warning_kind[n] == "orphan" ? "nothing that is attached can carry it" : "it takes nothing back") text
        add_item(warning_file[n] ":" warning_line[n] ": " text)
    }
    put_lines()
}

# The statement as one line, or nothing where the file is not here.
function statement_at(file, number,   line, n, text) {
    while ((getline line < file) > 0) {
        if (++n < number) continue
        if (n > number && line ~ /^[^ \t#]/) break
        if (line !~ /"/) sub(/[ \t]*#.*/, "", line)
        text = text " " line
    }
    close(file)
    gsub(/[^ -~]/, " ", text)
    gsub(/  +/, " ", text)
    sub(/ $/, "", text)
    return substr(text, 2, 60) (length(text) > 61 ? ".." : "")
}

function tell_unused_rows(   n, used) {
    if (!has("tables")) return
    for (n = 1; n <= tree_count; n++) used[row[tree_name[n]]] = 1
    begin_list()
    for (n = 0; n < row_count; n++) if (!(n in used)) add_item(row_in_words(n))
    print item_count " of " count_of(row_count, "row") " without a device"
    if (ENVIRON["CONFIGURATION"] != "") put_lines()
    else put_list(", ")
}

# A `no` line for all rows of one spelling that no device uses. Where one of them is in use, or where a starred row of the same
# device is in use and its units would begin lower, the rows are told in a comment.
function tell_negations(   n, used, words, is_used, starred, told, device) {
    if (!has("tables") || !has("tree")) complain(output_name ": it has no rows or no devices, so no row is known to be without use")
    for (n = 1; n <= tree_count; n++) used[row[tree_name[n]]] = 1
    for (n = 0; n < row_count; n++) {
        if (!(n in used)) continue
        is_used[row_name[n] " at " row_at[n]] = 1
        if (row_name[n] ~ /\*$/) starred[definition_of_row(n)] = from[n]
    }
    for (n = 0; n < row_count; n++) {
        if (n in used) continue
        words = row_name[n] " at " row_at[n]
        device = definition_of_row(n)
        if (words in is_used) print "# " row_in_words(n) ": a row in use has the same words"
        else if (row_name[n] !~ /\*$/ && (device in starred)) print "# " row_in_words(n) ": without it, the units of " device "* might begin lower"
        else if (!told[words]++) print "no " words
    }
}

# ---- callers

function tell_callers(   n, k, count, left) {
    if (!has("history")) return
    for (n = 1; n <= script_count; n++) if (!(n in last_line)) caller[++caller_count] = n
    for (n = 1; n <= caller_count; n++) {
        if (caller[n] > 0) count++
        if (!ended[caller[n]]) left++
    }
    if (only != "b") print (ended[0] ? "the boot has ended" : "the boot has not ended") \
        (count ? "; " count_of(count, "caller") ", " (left ? left " not ended" : "all ended") : "")
    else if (left) print count_of(left, "caller") (left == 1 ? " has" : " have") " not ended"
    if (!left) return
    wants_a_look = 1
    begin_list()
    for (n = 1; n <= caller_count; n++) {
        k = caller[n]
        if (ended[k]) continue
        add_item("caller " k " " state_of(k))
        add_item("    " (k in last_line ? "its last line: " last_line[k] : "no line of it"))
    }
    find_rings()
    whole_before = whole
    whole = 1
    put_lines()
    whole = whole_before
}

# What the caller waits for, or that it waits for nothing. `waits_for[K]` is the list of callers that have to go on first.
function state_of(k,   x, next_device) {
    waits_for[k] = ""
    if (!ended[0] && k > 0) return "waits until the boot has ended"
    if (doing[k] == "detach") {
        for (x = first_live; x != ""; x = next_live[x]) if ((x in condemner) && condemner[x] == k) next_device = x
        waits_for[k] = holders(next_device)
        if (waits_for[k] != "") return "is to free " next_device ", and waits: " these_callers(waits_for[k], "hold") " it"
        return "can go on: it frees " next_device " next, which nobody holds"
    }
    if (doing[k] == "suspend") {
        next_device = next_to_sleep(target[k])
        waits_for[k] = next_device == "" ? "" : searchers(next_device)
        if (waits_for[k] != "")
            return "is to put " next_device " to sleep, and waits: " these_callers(waits_for[k], "search") " below it"
        return "can go on with its suspend of " target[k]
    }
    if (doing[k] == "resume") return "can go on: it wakes " target[k]
    if (doing[k] == "transfer") return "can go on: the transfer to " target[k] " has not ended"
    x = searched_by(k)
    if (x != "") return "can go on: it searches below " x
    return between_commands(k)
}

function between_commands(k,   next_number, command) {
    if (k == 0) return "can go on"
    next_number = (k in last_line ? last_number[k] : 0) + 1
    if (k <= script_count) {
        if (next_number > command_count[k]) return "can go on: it has only to end"
        command = script_command[k, next_number]
        if (command ~ /^(suspend|resume|resumetree) / && power_turn != "" && power_turn != k) {
            waits_for[k] = " " power_turn
            return "waits with `" command "` for the power turn, which caller " power_turn " has"
        }
        return "can go on: its next command is `" command "`"
    }
    if (power_turn == "" || power_turn == k) return "can go on with its next command (-s SCRIPT shows it)"
    return "can go on, unless its next command is one of power: caller " power_turn " has the power turn (-s SCRIPT shows it)"
}

# The callers that hold the device, as " 1 2".
function holders(x,   n, word, count, text) {
    count = split(held[x], word, " ")
    for (n = 1; n <= count; n++) { sub(/[*!].*/, "", word[n]); text = text " " word[n] }
    return text
}

# " 1" as "caller 1 holds", " 1 2" as "callers 1, 2 hold".
function these_callers(list, verb,   word) {
    if (split(list, word, " ") == 1) return "caller" list " " verb (verb ~ /ch$/ ? "es" : "s")
    gsub(/ /, ", ", list)
    return "callers" substr(list, 2) " " verb
}

# The callers that search below the device.
function searchers(x,   n, text) {
    for (n = 1; n <= caller_count; n++) if (searches[x, caller[n]] > 0) text = text " " caller[n]
    return text
}

function searched_by(k,   x) {
    for (x = first_live; x != ""; x = next_live[x]) if (searches[x, k] > 0) return x
    return k == 0 && !ended[0] ? "root" : ""
}

# Of the device and all below it, the latest that is awake.
function next_to_sleep(name,   x, below, found) {
    if (!(name in live)) return ""
    for (x = name; x != ""; x = next_live[x])
        if (x == name || parent[x] in below) { below[x] = 1; if (!(x in asleep)) found = x }
    return found
}

# Callers of which each waits for the next, and the last for the first: the shortest ring of each that is in none yet.
function find_rings(   n, k, ring, word, m, told, text) {
    for (n = 1; n <= caller_count; n++) {
        k = caller[n]
        if (ended[k] || (k in told)) continue
        ring = way_back(k)
        if (ring == "") continue
        m = split(ring, word, " ")
        text = ""
        for (m = 1; m in word; m++) {
            told[word[m]] = 1
            text = text (m == 1 ? "" : ", ") word[m] " waits for " ((m + 1) in word ? word[m + 1] : k)
        }
        add_item("a ring: caller " text "; no turn of them changes anything any more")
    }
}

# The callers on the shortest way from one to itself, as "1 3 2", or "" where it does not wait for itself.
function way_back(start,   open, next_open, n, m, count, waited, word, way, k) {
    open = start
    way[start] = start
    while (open != "") {
        count = split(open, word, " ")
        next_open = ""
        for (n = 1; n <= count; n++) {
            m = split(waits_for[word[n]], waited, " ")
            for (k = 1; k <= m; k++) {
                if (waited[k] == start) return way[word[n]]
                if (waited[k] in way) continue
                way[waited[k]] = way[word[n]] " " waited[k]
                next_open = next_open " " waited[k]
            }
        }
        open = next_open
    }
    return ""
}

function tell_references(   n, word, count, k, text, total) {
    begin_list()
    for (n = 1; n <= tree_count; n++) {
        if (!(tree_name[n] in held)) continue
        count = split(held[tree_name[n]], word, " ")
        for (k = 1; k <= count; k++) {
            text = tree_name[n] " held by caller " word[k]
            total += index(word[k], "*") ? substr(word[k], index(word[k], "*") + 1) : 1
            if (sub(/!$/, "", text)) text = text ", as its only holder"
            if (sub(/\*/, ", ", text)) text = text " times"
            add_item(text)
        }
    }
    print count_of(total + 0, "reference") " left"
    put_lines()
}

# ---- scripts

function read_script(k, file,   line, got, n, word) {
    while ((got = (getline line < file)) > 0) {
        sub(/#.*/, "", line)
        n = split(line, word, " ")
        if (!n) continue
        if (word[1] !~ /^(open|close|io|detach|rescan|list|tree|suspend|resume|resumetree|plug|unplug)$/)
            complain(file ": no script of commands")
        gsub(/[ \t]+/, " ", line)
        sub(/^ /, "", line)
        sub(/ $/, "", line)
        script_command[k, ++command_count[k]] = line
    }
    close(file)
    if (got < 0) complain(file ": it cannot be read")
}
