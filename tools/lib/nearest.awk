# Finds the names that one may have meant. `nearest(name, names)` goes over the indexes of `names` and answers the nearest ones
# as " a b", at most three of them, or "": those of the least number of edits, where an edit adds, drops or changes a letter
# or swaps two that stand side by side. Names of up to four letters may have one edit, longer ones two; capitals are no edit.

function nearest(name, names,   other, distance, best, limit, list, count, found, n, text) {
    limit = length(name) <= 4 ? 1 : 2
    best = limit + 1
    for (other in names) {
        if (other == name || length(other) > length(name) + limit || length(name) > length(other) + limit) continue
        if (length(other) < 2 && tolower(other) != tolower(name)) continue
        if (lacks(tolower(name), tolower(other)) > limit) continue
        distance = edits(tolower(name), tolower(other))
        if (distance > limit && letters_of(name) == letters_of(other)) distance = limit
        if (distance > best || distance > limit) continue
        if (distance < best) { best = distance; count = 0 }
        found[++count] = other
    }
    for (n = 1; n <= count; n++) list[n] = found[n]
    sort(list, count)
    for (n = 1; n <= count && n <= 3; n++) text = text " " list[n]
    return text
}

# How many letters of the first word does the second one lack?
function lacks(one, other,   n, count) {
    for (n = length(one); n; n--) count += !index(other, substr(one, n, 1))
    return count + 0
}

# The letters of a name in order.
function letters_of(name,   n, letter, list, text) {
    n = split_letters(tolower(name), list)
    sort(list, n)
    for (letter = 1; letter <= n; letter++) text = text list[letter]
    return text
}

function split_letters(text, list,   n) {
    for (n = 1; n <= length(text); n++) list[n] = substr(text, n, 1)
    return length(text)
}

# The number of edits between two words.
function edits(one, other,   a, b, i, k, cost, row, least) {
    a = split_letters(one, one_letter)
    b = split_letters(other, other_letter)
    for (k = 0; k <= b; k++) row[0, k] = k
    for (i = 1; i <= a; i++) {
        row[i, 0] = i
        for (k = 1; k <= b; k++) {
            cost = one_letter[i] != other_letter[k]
            least = row[i - 1, k - 1] + cost
            if (row[i - 1, k] + 1 < least) least = row[i - 1, k] + 1
            if (row[i, k - 1] + 1 < least) least = row[i, k - 1] + 1
            if (i > 1 && k > 1 && one_letter[i] == other_letter[k - 1] && one_letter[i - 1] == other_letter[k] && row[i - 2, k - 2] + 1 < least)
                least = row[i - 2, k - 2] + 1
            row[i, k] = least
        }
    }
    return row[a, b]
}

# "; did you mean `a` or `b`?" of " a b", or "".
function meant(list,   word, n, count, text) {
    count = split(list, word, " ")
    for (n = 1; n <= count; n++) text = text (n == 1 ? "" : n == count ? " or " : ", ") "`" word[n] "`"
    return count ? "; did you mean " text "?" : ""
}
