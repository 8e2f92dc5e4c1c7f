# Finds what is accepted and was surely meant otherwise. See tools/lint.

BEGIN {
    tool = "lint"
    whole = ENVIRON["WHOLE"]
    read_configuration(ENVIRON["CONFIGURATION"])
    find_instances()
    judge_instances()
    judge_items()
    judge_sources()
    for (s = 1; s <= statement_count; s++) if (s in told) printf "%s", told[s]
    if (ENVIRON["MACHINE"] != "") judge_machine(ENVIRON["MACHINE"])
    exit faults > 0
}

function tell(s, text) { told[s] = told[s] place_of_statement(s) ": " text "\n"; faults++ }

# ---- instances of one unit, or starred ones of one device

function judge_instances(   n, key, unit, group, list, count, i, k, first) {
    for (n = 1; n <= instance_count; n++) {
        unit = word_at(instance[n], 1)
        key = unit SUBSEP word_at(instance[n], 3) SUBSEP i_values[n]
        if (key in first) {
            i = first[key]
            tell(instance[n], "`" words_of_instance(n) "` is written a second time, and its row is never used; the first is at " place_of_statement(instance[i]) \
                (i_flags[i] == i_flags[n] ? "" : ", with flags " i_flags[i]))
            continue
        }
        first[key] = n
        group[unit] = group[unit] " " n
    }
    for (unit in group) {
        count = split(group[unit], list, " ")
        for (k = 2; k <= count && k <= 200; k++)
            for (i = 1; i < k; i++) if (i_place[list[i]] != "" && takes_all_of(list[i], list[k])) {
                tell(instance[list[k]], "`" words_of_instance(list[k]) "` is never found: `" words_of_instance(list[i]) "` at " \
                    place_of_statement(instance[list[i]]) " takes all that it would")
                break
            }
    }
}

# ---- options, file systems

# The options and file systems that are declared: the names behind the word and the header.
function read_declared(   s, t, word) {
    for (s = 1; s <= statement_count; s++) {
        word = tok[s_first[s]]
        if (word !~ /^(defflag|defparam|deffs|obsolete)$/) continue
        if (word != "obsolete") has_declared[word == "deffs" ? "file-system" : "options"] = 1
        for (t = s_first[s] + 1; t <= s_last[s]; t++) {
            if (tok[t] ~ /\.h$/ || tok[t] !~ /^[A-Za-z_][A-Za-z0-9_-]*$/ || tok[t - 1] == "=") continue
            declared[tok[t]] = s
            declared_lower[tolower(tok[t])] = s
        }
    }
}

function judge_items(   n, name, first, asked, s, key) {
    read_declared()
    names_of_conditions(asked)
    for (n = 1; n <= option_count; n++) {
        name = option_name[n]
        s = option_at[n]
        given_lower[tolower(name)] = 1
        if (option_kind[n] != "makeoptions" && has_declared[option_kind[n]] && !(name in declared) && !(tolower(name) in asked) && !is_strange[name]++)
            strange[++strange_count] = n
        if (option_kind[n] == "file-system" || option_value[n] ~ /^\+=/) continue
        key = option_kind[n] SUBSEP name
        if (!(key in first)) first[key] = n
        else if (option_value[first[key]] != option_value[n])
            tell(s, "`" name option_value[n] "` is a second value: at " place_of_statement(option_at[first[key]]) " it is `" name option_value[first[key]] "`")
    }
    tell_strange()
}

# Options that nothing declares: each that is near a declared one, and the others too where they are few.
function tell_strange(   n, k, near, list, rest, first) {
    for (n = 1; n <= strange_count; n++) {
        k = strange[n]
        near = nearest(option_name[k], declared)
        if (near == "" && strange_count > 8 && !whole) {
            rest++
            if (!first) first = option_at[k]
            if (rest <= 3) list = list " " option_name[k]
        } else tell(option_at[k], "no " (option_kind[k] == "options" ? "defflag or defparam" : "deffs") " declares `" option_name[k] "`" meant(near))
    }
    if (rest) tell(first, rest " options have no defflag, defparam or deffs, as " commas(list) " (-a shows each)")
}

# ---- conditions of sources

# The names in the conditions of all `file` statements.
function names_of_conditions(names,   s, t) {
    for (s = 1; s <= statement_count; s++)
        if (tok[s_first[s]] == "file")
            for (t = s_first[s] + 2; t <= s_last[s] && !ends_condition(tok[t]); t++) names[tok[t]] = s
}

function ends_condition(word) { return word ~ /^(needs-flag|needs-count|compile-with)$/ }

function judge_sources(   s, t, names, name) {
    for (s = 1; s <= statement_count; s++) {
        if (tok[s_first[s]] != "file") continue
        for (t = s_first[s] + 2; t <= s_last[s] && !ends_condition(tok[t]); t++) {
            if (tok[t] !~ /^[A-Za-z_]/ || is_declared(tok[t])) continue
            if (!names_known++) all_names(names)
            tell(s, "nothing declares `" tok[t] "`, so the condition of " tok[s_first[s] + 1] " never finds it true" meant(nearest(tok[t], names)))
        }
    }
}

function is_declared(name) {
    return name in is_attr || name in is_device || name in attachment_by || name in declared_lower || name in given_lower
}

function all_names(names,   name) {
    for (name in is_attr) names[name] = 1
    for (name in is_device) names[name] = 1
    for (name in attachment_by) names[name] = 1
    for (name in declared_lower) names[name] = 1
}

# ---- match lines

function judge_machine(file,   n, k, key, later, text) {
    read_machine(file)
    for (n = 1; n <= instance_count; n++) rows_of[i_attachment[n]] = rows_of[i_attachment[n]] " " n
    for (n = match_count; n; n--) {
        match_value[n] = value_of(match_value[n])
        key = match_by[n] SUBSEP match_spot[n]
        if (key in last_match) later[n] = last_match[key]
        else last_match[key] = n
    }
    for (n = 1; n <= match_count; n++) {
        if (later[n]) text = "line " match_line[later[n]] " says another value for the same driver and spot, and the last one counts"
        else if (match_value[n] > 0) text = judge_match(n)
        else text = ""
        if (text != "") { print file ":" match_line[n] ": " text; faults++ }
    }
}

function judge_match(n,   by, at, list, count, k, text, taken) {
    by = match_by[n]
    at = match_spot[n]
    if (!(by in rows_of)) return "`" by "` has no row, so it takes nothing"
    if (at != "*") return row_for(by, at) ? "" : "no row of `" by "` can stand on " at " (" on[at] values[at] "): " rows_in_words(by)
    for (k = 1; k <= match_count; k++) {
        if (match_spot[k] == "*" || match_by[k] == by || match_value[k] == 0 || last_match[match_by[k], match_spot[k]] != k) continue
        at = match_spot[k]
        if ((by, at) in last_match || match_value[k] > match_value[n] || !row_for(by, at) || !row_for(match_by[k], at)) continue
        if (match_value[k] == match_value[n] && !comes_first(by, match_by[k])) continue
        if (taken++ < 3) text = text (text == "" ? "" : ", and ") at ", which line " match_line[k] " gives to `" match_by[k] "` with " match_value[k]
    }
    return text == "" ? "" : "`*` with " match_value[n] " takes " text (taken > 3 ? ", and " taken - 3 " more" : "")
}

# Has the attachment a row that can stand on the spot, by its attribute and values?
function row_for(by, at,   list, count, k) {
    if ((by, at) in fits) return fits[by, at]
    count = split(rows_of[by], list, " ")
    for (k = 1; k <= count; k++) if (i_place[list[k]] == on[at] && values_fit(list[k], at)) return fits[by, at] = 1
    return fits[by, at] = 0
}

# Has each locator of the row its default or the value of the spot?
function values_fit(n, at,   word, defaults, count, k, name, value, own) {
    count = split(i_values[n], word, " ")
    if (count) split(locators[i_place[n]], defaults, " ")
    for (k = 1; k <= count; k++) {
        name = value = word[k]
        sub(/=.*/, "", name)
        sub(/^[^=]*=/, "", value)
        own = default_of(defaults[k])
        if (value == own) continue
        if (value != value_on(at, name, own == "" ? "-1" : own)) return 0
    }
    return 1
}

# The value of a locator on a spot.
function value_on(at, name, otherwise,   word, n, count) {
    count = split(values[at], word, " ")
    for (n = 1; n <= count; n++)
        if (substr(word[n], 1, length(name) + 1) == name "=") return in_decimal(substr(word[n], length(name) + 2))
    return otherwise
}

function rows_in_words(by,   list, count, k, text) {
    count = split(rows_of[by], list, " ")
    for (k = 1; k <= count && k <= 3; k++) text = text (k == 1 ? "" : ", ") "`" words_of_instance(list[k]) "`"
    return "its rows are " text (count > 3 ? " and " count - 3 " more" : "")
}

# Does a row of the first attachment stand before each of the second? Rows stand in the order of their devices.
function comes_first(one, other) {
    one = word_at(attachment_by[one], 2)
    other = word_at(attachment_by[other], 2)
    return one != other && is_device[one] < is_device[other]
}
