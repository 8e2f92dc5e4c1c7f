# Writes the configuration that takes away what no device of an output needs. See tools/trim.

BEGIN {
    tool = "trim"
    read_output(ENVIRON["OUTPUT"])
    for (n = 1; n <= tree_count; n++) use_row(tree_name[n])
    take_kept()
    for (r = 0; r < row_count; r++) if ((r in needed) && from[r] + 0 > 0) hold_units(definition_of_row(r))
    for (r = 0; r < row_count; r++) if (r in needed) root_row(r)
    put_configuration()
}

function use_row(x) {
    needed[row[x]] = 1
    users[row[x]] = users[row[x]] " " x
}

# What is to stay by name: an instance, all instances of a device, or a pseudo-device, an option or the like.
function take_kept(   n, name, r, found) {
    for (n = 1; n <= ENVIRON["KEPT"]; n++) {
        name = ENVIRON["KEEP_" n]
        found = 0
        for (r = 0; r < row_count; r++)
            if (row_name[r] == name || definition_of_row(r) == name) found = needed[r] = is_kept[r] = 1
        for (r = 1; r <= setting_count; r++) if (setting_name[r] == name) found = stays[name] = 1
        if (!found) complain("-k " name ": the configuration has nothing of this name")
    }
}

# The units of starred rows begin above the greatest number that the device has. Where the row with that number would go,
# either it stays, or each device of the starred rows gets a row with its own number, whatever makes fewer rows.
function hold_units(device,   r, last, starred, devices, kept, k, count, word) {
    if (device in are_held) return
    are_held[device] = 1
    for (r = 0; r < row_count; r++) {
        if (definition_of_row(r) != device) continue
        if (from[r] != "" && (r in needed)) {
            starred++
            devices += split(users[r], word, " ")
            if (r in is_kept) kept = 1
            if (last == "") last = from[r] - 1
        }
    }
    for (r = 0; r < row_count; r++) if (row_name[r] == device last) { if (r in needed) return; k = r }
    if (kept || devices > starred + 1) { needed[k] = 1; return }
    for (r = 0; r < row_count; r++) {
        if (definition_of_row(r) != device || from[r] == "" || !(r in needed)) continue
        delete needed[r]
        count = split(users[r], word, " ")
        for (k = 1; k <= count; k++) { added[++added_count] = statement(word[k], r); parents[added_count] = r }
    }
}

# A row that stays needs a way to the root: where no row that stays may be its parent, the nearest ones stay too.
function root_row(r,   q, n, count, queue, below, up) {
    queue[1] = r
    below[r] = ""
    for (n = count = 1; n <= count; n++) {
        q = queue[n]
        if (row_at[q] == "root" || n > 1 && ((q in needed) || is_added(q))) {
            for (; q != ""; q = below[q]) if (!is_added(q)) needed[q] = 1
            return
        }
        for (up = 0; up < row_count; up++)
            if (!(up in below) && may_carry(up, q)) { below[up] = q; queue[++count] = up }
    }
}

function is_added(r,   n) {
    for (n = 1; n <= added_count; n++) if (parents[n] == r) return 1
    return 0
}

# May a device of the first row be the parent of one of the second?
function may_carry(up, r,   device, at, unit) {
    device = definition_of_row(up)
    if (!index(offers[device], " " row_on[r] " ")) return 0
    at = row_at[r]
    sub(/(\?|[0-9]+)$/, "", at)
    if (!(at in offers)) return 1
    unit = substr(row_at[r], length(at) + 1)
    return at == device && (unit == "?" || from[up] != "" || row_name[up] == at unit)
}

function put_configuration(   r, n, key) {
    print "# made by tools/trim: what " ENVIRON["MACHINE"] " needs of " ENVIRON["CONFIGURATION"]
    print "include \"" ENVIRON["CONFIGURATION"] "\""
    for (r = 0; r < row_count; r++) {
        key = row_name[r] " at " row_at[r]
        if (r in needed) { some_stay[key] = 1; some_stay[row_name[r]] = 1 }
    }
    for (r = 0; r < row_count; r++) {
        if (r in needed) continue
        key = row_name[r] " at " row_at[r]
        if (!(row_name[r] in some_stay)) key = row_name[r]
        if (key in is_put) continue
        is_put[key] = 1
        print "no " key
        if (!(key in some_stay)) continue
        # A negation looks at no locators: of the rows that are written alike, those that stay are written again.
        for (n = 0; n < row_count; n++)
            if ((n in needed) && row_name[n] " at " row_at[n] == key) added[++added_count] = statement(row_name[n], n)
    }
    for (n = 1; n <= added_count; n++) print added[n]
    put_settings()
}

# The pseudo-devices, options and the like that the user wants to go.
function put_settings(   n, k, name, found) {
    for (n = 1; n <= ENVIRON["DROPPED"]; n++) {
        name = ENVIRON["DROP_" n]
        found = name in stays
        for (k = 1; k <= setting_count; k++) {
            if (setting_name[k] != name || (name in stays) || ((setting_kind[k], name) in is_put)) continue
            found = is_put[setting_kind[k], name] = 1
            print "no " (setting_kind[k] == "pseudo" ? "pseudo-device" : setting_kind[k]) " " name
        }
        if (!found) complain("-n " name ": the configuration has no pseudo-device, option, makeoption or file system of this name")
    }
}
