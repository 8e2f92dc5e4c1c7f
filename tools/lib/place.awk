# Places the entries of dmesg.awk by the tables of output.awk. `place_entries()` leaves for each entry N that has a place
#
#   spot_of[N]      the name of its spot: that of the device, or one made of the parent and the values
#   attr_of[N]      the interface attribute on which it was found
#   by[N]           the attachment of its driver, "" for what was not configured
#   found[N]        the values found there, as "port=0x3f8 irq=4"
#   rows_for[N]     the rows that its driver may take it by, in their order, with a blank between them
#
# `skip(line, text)` tells why an entry has none.

function place_entries(   n) {
    split("", spot_of); split("", attr_of); split("", by); split("", found); split("", rows_for); split("", is_taken)
    for (n = 0; n < row_count; n++) {
        rows_named[definition_of_row(n)] = rows_named[definition_of_row(n)] " " n
        rows_on[row_on[n]]++
    }
    for (n = 1; n <= entry_count; n++) place_entry(n)
}

function place_entry(n,   below, list, what) {
    below = entry_below[n]
    what = (entry_name[n] == "" ? entry_text[n] : entry_name[n]) (below ? " at " entry_name[below] : "")
    if (below && !(below in by)) { skip(entry_line[n], what ": its parent has no place"); return }
    list = below ? offers[definition_of(entry_name[below])] : " root "
    take_told(n)
    if (entry_name[n] == "") place_unconfigured(n, what, list)
    else place_device(n, what, list, below ? entry_name[below] : "root")
}

function place_device(n, what, list, above_it,   device, r, count, word, best, cost, least, a) {
    device = definition_of(entry_name[n])
    if (device == "dk") { wedges++; return }
    if (!entry_below[n] && is_pseudo(device)) { pseudos++; return }
    best = -1
    count = split(rows_named[device], word, " ")
    for (r = 1; r <= count; r++) {
        cost = row_cost(n, word[r], list, above_it)
        if (cost >= 0 && (best < 0 || cost < least)) { best = word[r]; least = cost }
    }
    if (best >= 0) {
        settle(n, row_on[best], row_by[best], best)
        for (r = 1; r <= count; r++)
            if (row_by[word[r]] == by[n] && suits(n, word[r], above_it)) rows_for[n] = rows_for[n] " " word[r]
        return
    }
    best = 0
    for (a = 1; a <= attachment_count; a++) {
        if (attachment_device[a] != device) continue
        known_device = 1
        count = split(attachment_places[a], word, " ")
        for (r = 1; r <= count; r++) {
            if (!index(list, " " word[r] " ")) continue
            cost = told_cost(word[r])
            if (!best || cost < least) { best = a; least = cost; at_place = word[r] }
        }
    }
    if (best) {
        skip(entry_line[n], what ": no row of the configuration takes it")
        settle(n, at_place, attachment[best], -1)
    } else skip(entry_line[n], what ": " (device in offers ? "the configuration has no attachment of " device " there" \
        : "the configuration has no device " device))
}

function is_pseudo(device,   n) {
    for (n = 1; n <= setting_count; n++) if (setting_kind[n] == "pseudo" && setting_name[n] == device) return 1
    return 0
}

# What the row leaves unsaid of the entry, or -1 where it can't have made it.
function row_cost(n, r, list, above_it,   place, unit, cost, count, pair, k, name, value) {
    place = row_on[r]
    unit = substr(entry_name[n], length(definition_of(entry_name[n])) + 1) + 0
    if (!index(list, " " place " ") || !fits_parent(r, above_it)) return -1
    if (from[r] == "" ? row_name[r] != entry_name[n] : unit < from[r]) return -1
    cost = told_cost(place)
    count = split(row_values[r], pair, " ")
    for (k = 1; k <= count; k++) {
        name = pair[k]
        sub(/=.*/, "", name)
        value = substr(pair[k], length(name) + 2)
        if (is_default(place, name, value)) continue
        if (!(name in told)) cost += 10
        else if (number_of(told[name]) != value + 0) return -1
    }
    return cost + (from[r] != "")
}

# What the dmesg tells and the place has no locator for weighs most; then locators of which it tells nothing.
function told_cost(place,   name, cost, count, word, k) {
    for (name in told) if (name !~ /^(size|iosiz)$/ && !index(locators_of[place], " " name "=") && !index(locators_of[place], "[" name "=") \
        && !index(locators_of[place], " " name " ")) cost += 1000
    count = split(locators_of[place], word, " ")
    for (k = 1; k <= count; k++) {
        name = locator_name(word[k])
        if (!(name in told)) cost += 0.01
    }
    return cost
}

# The place is decided, and with it what was found there.
function settle(n, place, attachment_name, r,   count, word, k, name, value) {
    attr_of[n] = place
    by[n] = attachment_name
    spot_of[n] = unused_name(is_gone[n] ? entry_name[n] "-gone" : entry_name[n])
    count = split(locators_of[place], word, " ")
    for (k = 1; k <= count; k++) {
        name = locator_name(word[k])
        value = name in told ? told[name] : r < 0 ? "" : value_in(row_values[r], name)
        if (value == "" || ((!(name in told)) && is_default(place, name, value))) continue
        found[n] = found[n] (found[n] == "" ? "" : " ") name "=" value
        is_found[n, name] = number_of(value)
    }
}

function value_in(values, name,   at) {
    values = " " values " "
    at = index(values, " " name "=")
    if (!at) return ""
    values = substr(values, at + length(name) + 2)
    return substr(values, 1, index(values, " ") - 1)
}

# Does the row take what was found? Its default or the value found stands in each locator.
function suits(n, r, above_it,   count, pair, k, name, value) {
    if (row_on[r] != attr_of[n] || !fits_parent(r, above_it)) return 0
    count = split(row_values[r], pair, " ")
    for (k = 1; k <= count; k++) {
        name = pair[k]
        sub(/=.*/, "", name)
        value = substr(pair[k], length(name) + 2)
        if (!is_default(attr_of[n], name, value) && !((n, name) in is_found && is_found[n, name] == value + 0)) return 0
    }
    return 1
}

function place_unconfigured(n, what, list,   count, word, k, cost, best, least, name, value) {
    count = split(list, word, " ")
    for (k = 1; k <= count; k++) {
        # Where the text leaves it open, it is the one that most rows are for.
        cost = told_cost(word[k]) - (entry_text[n] == word[k] ? 0.5 : 0) - rows_on[word[k]] / 1000000
        if (best == "" || cost < least) { best = word[k]; least = cost }
    }
    if (best == "") {
        note(entry_line[n], what ": not configured, and no place: " definition_of(entry_name[entry_below[n]]) " offers nothing")
        return
    }
    attr_of[n] = best
    by[n] = ""
    count = split(locators_of[best], word, " ")
    for (k = 1; k <= count; k++) {
        name = locator_name(word[k])
        if (!(name in told)) continue
        found[n] = found[n] (found[n] == "" ? "" : " ") name "=" told[name]
        value = value "-" told[name]
    }
    spot_of[n] = unused_name(entry_name[entry_below[n]] (value == "" ? "-none" : value))
}

# The name, or with a number behind it where a spot has it.
function unused_name(name,   n, tried) {
    tried = name = substr(name, 1, 56)
    for (n = 2; tried in is_taken; n++) tried = name "-" n
    is_taken[tried] = 1
    return tried
}

# ---- what stands behind the parent

# `told[LOCATOR]`: the values that the dmesg tells of the entry. Of a range it is the first value, with the size it has.
function take_told(n,   text, count, word, k, name, size) {
    split("", told)
    text = entry_told[n]
    if (text ~ /\(kbd slot\)/) told["slot"] = 0
    if (text ~ /\(aux slot\)/) told["slot"] = 1
    gsub(/\([^)]*\)/, " ", text)
    count = split(text, word, /[ ,]+/)
    for (k = 1; k < count; k++) {
        name = word[k]
        if (name !~ /^[A-Za-z_][A-Za-z0-9_]*$/ || word[k + 1] !~ /^(0x[0-9a-fA-F]+|[0-9]+)(-|$)/) continue
        k++
        size = index(word[k], "-") ? number_of(substr(word[k], index(word[k], "-") + 1)) : ""
        sub(/-.*/, "", word[k])
        if (word[k] ~ /^0[0-9]/) sub(/^0+/, "", word[k])
        if (number_of(word[k]) > 4294967295) continue
        told[name] = word[k]
        if (size == "") continue
        size = size - number_of(word[k]) + 1
        if (name == "port") told["size"] = size
        if (name == "iomem") told["iosiz"] = size
    }
    if (entry_name[n] ~ /^ws(display|kbd)[0-9]/) told["console"] = entry_text[n] ~ /^console / ? 1 : 0
}

function number_of(text,   n, value) {
    if (text !~ /^0x/) return text + 0
    for (n = 3; n <= length(text); n++) value = value * 16 + index("0123456789abcdef", tolower(substr(text, n, 1))) - 1
    return value + 0
}
