# What a row of a listing says. output.awk reads the listing.

# The device of a row, be it starred or not.
function definition_of_row(r,   name) {
    name = row_name[r]
    sub(/(\*|[0-9]+)$/, "", name)
    return name
}

function locator_name(text) { sub(/^\[/, "", text); sub(/[]=].*/, "", text); return text }

# Is this the default of the locator?
function is_default(place, name, value) {
    return index(locators_of[place], " " name "=" value " ") || index(locators_of[place], "[" name "=" value "]")
}

# May a device of this name be the parent that the row wants?
function fits_parent(r, above_it,   at, unit) {
    at = row_at[r]
    if (at == "root" || above_it == "root") return at == above_it
    unit = at
    sub(/(\?|[0-9]+)$/, "", at)
    unit = substr(unit, length(at) + 1)
    if (!(at in offers)) return 1
    return at == definition_of(above_it) && (unit == "?" || above_it == at unit)
}

# The instance as a configuration writes it, with the locators that are not the default.
function statement(name, r,   text, count, pair, k, locator, value) {
    text = name " at " row_at[r]
    count = split(row_values[r], pair, " ")
    for (k = 1; k <= count; k++) {
        locator = locator_name(pair[k])
        value = substr(pair[k], length(locator) + 2)
        if (!is_default(row_on[r], locator, value)) text = text " " locator " " value
    }
    return text (row_flags[r] == "0" ? "" : " flags " row_flags[r])
}
