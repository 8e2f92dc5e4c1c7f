# Tells how two outputs differ, spot by spot. See tools/compare.

BEGIN {
    tool = "compare"
    if (is_list(ENVIRON["OUTPUT_1"]) || is_list(ENVIRON["OUTPUT_2"])) {
        compare_sources(ENVIRON["OUTPUT_1"], ENVIRON["OUTPUT_2"])
        exit differences > 0
    }
    read_output(ENVIRON["OUTPUT_1"])
    sections_1 = sections
    keep()
    read_output(ENVIRON["OUTPUT_2"])
    if (was_there("tree") != has("tree")) complain("one of the outputs has a tree, and the other has none")
    if (has("tree") && was_there("history") != has("history"))
        complain("one of the outputs has a history, which shows spots; the other has none")
    if (has("tree")) compare_devices()
    else compare_tables()
    exit differences > 0
}

function was_there(section) { return index(sections_1, " " section " ") > 0 }

# Keeps what is told of the first output.
function keep(   n, x, at, key) {
    for (n = 1; n <= tree_count; n++) {
        x = tree_name[n]
        at = place_of(x)
        place_1[n] = at
        name_1[at] = x
        parent_1[at] = parent[x]
        state_1[at] = state(x)
        row_1[at] = row_facts(row[x])
        by_1[at] = row_by[row[x]]
    }
    count_1 = tree_count
    for (x in driverless) driverless_1[x] = 1
    for (n = 0; n < row_count; n++) {
        key = instance(n)
        key_1[n] = key
        facts_1[key] = row_facts(n)
    }
    rows_1 = row_count
    split("", seen)
}

# Where a device is: its spot, or its own name where no history tells spots.
function place_of(x) { return spot[x] == "" ? x : spot[x] }

function state(x) {
    return (x in asleep ? " asleep" : "") (x in condemned ? " condemned" : "") (x in held ? " held by " held[x] : "")
}

# What a row says beside its number and the parent.
function row_facts(r) {
    if (row_flags[r] == "" || row_flags[r] == "0") return row_values[r]
    return row_values[r] (row_values[r] == "" ? "" : " ") "flags " row_flags[r]
}

# The name of a row: its instance and parent, and its place among those of the same words.
function instance(r,   key) {
    key = row_name[r] " at " row_at[r]
    seen[key]++
    return key (seen[key] > 1 ? ", the " seen[key] (seen[key] == 2 ? "nd" : seen[key] == 3 ? "rd" : "th") : "")
}

function tell(text) { differences++; print text }

function some(text) { return text == "" ? "nothing" : text }

function in_words(text) { return text == "" ? " as after a boot" : text }

function compare_devices(   n, x, at) {
    for (n = 1; n <= count_1; n++) {
        at = place_1[n]
        x = name_1[at]
        if (has_device(at)) compare_device(at, device_at(at))
        else if (moved_to(x) != "") tell(x " moved from " at " below " parent_1[at] " to " moved_to(x) " below " parent[x])
        else tell(at ": " x " went, which was below " parent_1[at] (at in driverless ? "; no driver takes the spot now" : ""))
    }
    for (n = 1; n <= tree_count; n++) {
        x = tree_name[n]
        at = place_of(x)
        if (at in name_1 || is_moved(x)) continue
        tell(at ": " x " came, below " parent[x] row_note(x) (at in driverless_1 ? "; no driver took the spot before" : ""))
    }
    compare_driverless()
}

# The spots that one of the outputs tells without a driver, and the other not at all.
function compare_driverless(   at, n, list, text) {
    for (at in driverless) {
        if (has_device(at) || at in driverless_1 || at in name_1) continue
        list[++n] = at
        text[at] = "no driver takes the spot, which was not searched before"
    }
    for (at in driverless_1) {
        if (has_device(at) || at in driverless) continue
        list[++n] = at
        text[at] = "the spot is not searched any more; no driver took it before"
    }
    sort(list, n)
    for (at = 1; at <= n; at++) tell(list[at] ": " text[list[at]])
}

function row_note(x,   facts) {
    facts = row_facts(row[x])
    return facts == "" ? "" : " (" facts ")"
}

function has_device(at) { return has("history") ? at in taken : at in live }

function device_at(at) { return has("history") ? taken[at] : at }

# The spot to which a device of this name went from a spot that is empty now, where that spot was empty before.
function moved_to(x) { return has("history") && (x in live) && !(spot[x] in name_1) ? spot[x] : "" }

function is_moved(x,   n) {
    if (!has("history")) return 0
    for (n = 1; n <= count_1; n++) if (name_1[place_1[n]] == x) return !has_device(place_1[n])
    return 0
}

function compare_device(at, x,   was) {
    was = name_1[at]
    if (definition_of(was) != definition_of(x)) { tell(at ": " was " became " x ", of another driver"); return }
    if (was != x) tell(at ": " was " is " x " now")
    if (parent_1[at] != parent[x]) tell(at ": " x " is below " parent[x] ", and was below " parent_1[at])
    if (by_1[at] != row_by[row[x]]) tell(at ": " x " is attached by " row_by[row[x]] ", and was by " by_1[at])
    if (row_1[at] != row_facts(row[x])) tell(at ": the row of " x " says " some(row_facts(row[x])) ", and said " some(row_1[at]))
    if (state_1[at] != state(x)) tell(at ": " x " is" in_words(state(x)) ", and was" in_words(state_1[at]))
}

# Two listings: their rows by instance and parent.
function compare_tables(   n, key, facts, rows) {
    for (n = 0; n < row_count; n++) { key = instance(n); rows[key] = n }
    for (n = 0; n < rows_1; n++) {
        key = key_1[n]
        if (!(key in rows)) { tell(key " went"); continue }
        facts = row_facts(rows[key])
        if (facts != facts_1[key]) tell(key " says " some(facts) ", and said " some(facts_1[key]))
    }
    split("", seen)
    for (n = 0; n < row_count; n++) {
        key = instance(n)
        if (!(key in facts_1)) tell(key " came" (row_facts(n) == "" ? "" : " (" row_facts(n) ")"))
    }
}

# ---- lists of sources, as `devconf files` writes them

# Does the file begin with the path of a source? Standard input is not asked, since it can be read once.
function is_list(file,   line, got) {
    if (file == "-") return 0
    got = (getline line < file)
    close(file)
    return got > 0 && line ~ /^[^ \t]+$/ && line ~ /[.\/]/
}

function compare_sources(one, other,   n, count_1, count_2) {
    count_1 = read_list(one, source_1, in_1)
    count_2 = read_list(other, source_2, in_2)
    for (n = 1; n <= count_1; n++) if (!(source_1[n] in in_2)) tell(source_1[n] " went")
    for (n = 1; n <= count_2; n++) if (!(source_2[n] in in_1)) tell(source_2[n] " came")
}

function read_list(file, list, known,   line, n, got) {
    while ((got = file == "-" ? (getline line) : (getline line < file)) > 0) {
        if (line ~ /^(tables|history [12]|tree)$/) complain((file == "-" ? "standard input" : file) ": it is the output of a run, but the other is a list of sources")
        list[++n] = line
        known[line] = 1
    }
    close(file)
    return n + 0
}
