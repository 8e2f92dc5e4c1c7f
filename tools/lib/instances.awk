# Which instances of a configuration are not taken back, and what their rows say. Behind `read_configuration` of config.awk,
# `find_instances()` leaves
#
#   instance_count, instance[N]           the statements of these instances, in order
#   i_device[N], i_attachment[N], i_place[N]    its device, the name of its attachment, and the interface attribute or "root"
#   i_values[N]                           the values of all locators of that attribute, as " port=1016 irq=-1"
#   i_flags[N]                            its flags
#   option_count, option_at[N], option_kind[N], option_name[N], option_value[N]    the options, makeoptions and file systems that are not
#                                         taken back: their statements, words, names and values with `=` or `+=`

function find_instances(   s, word, n) {
    all_count = all_items = 0
    for (s = 1; s <= statement_count; s++) {
        word = tok[s_first[s]]
        if (word == "no") take_back(s)
        else if (word ~ /^(options|makeoptions|file-system)$/) add_items(s, word)
        else if (tok[s_first[s] + 1] == "at" && s_first[s] + 2 <= s_last[s] && word !~ /^(device|attach|define)$/) {
            all[++all_count] = s
            by_unit[word] = by_unit[word] " " all_count
            by_parent[tok[s_first[s] + 2]] = by_parent[tok[s_first[s] + 2]] " " all_count
        }
    }
    instance_count = option_count = 0
    for (n = 1; n <= all_count; n++) if (!(n in taken_back)) add_instance(all[n])
    for (n = 1; n <= all_items; n++) {
        if (n in option_taken) continue
        option_at[++option_count] = any_item[n]
        option_kind[option_count] = any_kind[n]
        option_name[option_count] = any_name[n]
        option_value[option_count] = any_value[n]
    }
}

# no UNIT [at PARENT], no device at PARENT, no KIND NAME, ..
function take_back(s,   word, at, list, n, count, t) {
    word = word_at(s, 2)
    if (word ~ /^(options|makeoptions|file-system)$/) {
        for (t = s_first[s] + 2; t <= s_last[s]; t++)
            for (n = 1; n <= all_items; n++) if (any_kind[n] == word && any_name[n] == tok[t]) option_taken[n] = 1
        return
    }
    at = word_at(s, 3) == "at" ? word_at(s, 4) : ""
    count = split(word == "device" ? by_parent[at] : by_unit[word], list, " ")
    for (n = 1; n <= count; n++) if (at == "" || word_at(all[list[n]], 3) == at) taken_back[list[n]] = 1
}

function add_items(s, word,   t) {
    for (t = s_first[s] + 1; t <= s_last[s]; t++) {
        any_item[++all_items] = s
        any_kind[all_items] = word
        any_name[all_items] = tok[t]
        any_value[all_items] = ""
        while (t < s_last[s] && tok[t + 1] != ",") any_value[all_items] = any_value[all_items] tok[++t]
        t++
    }
}

function add_instance(s,   n, device, above, word, count, place, key, t, value, name) {
    device = base_of(word_at(s, 1))
    above = word_at(s, 3)
    key = device SUBSEP base_of(above)
    if (!(key in place_for)) { place_for[key] = joined_by(device, above); attachment_for[key] = place_for[key] == "" ? 0 : joined_attachment }
    place = place_for[key]
    n = ++instance_count
    instance[n] = s
    i_device[n] = device
    i_place[n] = place
    i_attachment[n] = attach_name[attachment_for[key]]
    i_flags[n] = 0
    split("", value)
    for (t = s_first[s] + 3; t < s_last[s]; t += 2) {
        if (tok[t] == "flags") i_flags[n] = in_decimal(tok[t + 1])
        else if (tok[t + 1] != "?") value[tok[t]] = in_decimal(tok[t + 1])
    }
    i_values[n] = ""
    count = place == "root" || place == "" ? 0 : split(locators[place], word, " ")
    for (t = 1; t <= count; t++) {
        name = name_of_locator(word[t])
        i_values[n] = i_values[n] " " name "=" (name in value ? value[name] : default_of(word[t]))
    }
}

# The default of a locator as it stands in a list, or "".
function default_of(text) {
    sub(/\]$/, "", text)
    return sub(/^[^=]*=/, "", text) ? in_decimal(text) : ""
}

# Would the first row take all that the second does, and before it? Both have one unit, or both are starred.
function takes_all_of(one, other,   n, count, word, second, defaults, value) {
    if (i_attachment[one] != i_attachment[other] || i_place[one] != i_place[other]) return 0
    if (!parents_include(word_at(instance[one], 3), word_at(instance[other], 3), i_place[one])) return 0
    count = split(i_values[one], word, " ")
    split(i_values[other], second, " ")
    if (count) split(locators[i_place[one]], defaults, " ")
    for (n = 1; n <= count; n++) {
        if (word[n] == second[n]) continue
        value = word[n]
        sub(/^[^=]*=/, "", value)
        if (value != default_of(defaults[n])) return 0
    }
    return 1
}

# Is each parent that the second word means one that the first means, too? The attribute is the one that both join.
function parents_include(one, other, attr) {
    if (one == other) return 1
    if (one !~ /\?$/ || other == "root") return 0
    return base_of(one) == base_of(other) && (base_of(one) in is_device) || base_of(one) == attr && !(attr in is_device)
}

# The words of an instance without what may be left out: "com0 at isa? port 0x3f8".
function words_of_instance(n,   s, t, text) {
    s = instance[n]
    for (t = s_first[s]; t <= s_last[s]; t++) text = text (t == s_first[s] ? "" : " ") tok[t]
    return text
}
