# In which order a boot attaches what place.awk has placed, and so under which units. A driver may search at once, when the
# search of its parent is over, when interrupts work, or by a finalizer; the text tells the order, but not why. So each
# is tried, `plan[A]` for the drivers attached by A, until most devices have their names and most lines their order.

function find_plan(   n, k, best, score, kept) {
    link_entries()
    for (n = 1; n <= entry_count; n++) if (kid_count[n] && !(by[n] in plan)) { searcher[++searcher_count] = by[n]; plan[by[n]] = "" }
    best = descend()
    for (k = 1; k <= searcher_count; k++) kept[k] = plan[searcher[k]]
    if (format == "dmesg") read_plan()
    else return
    score = descend()
    if (score < best) return
    for (k = 1; k <= searcher_count; k++) plan[searcher[k]] = kept[k]
}

# What the order of the text itself says: a device whose first child comes at once, after others below its parent, or after
# others yet. Most devices of an attachment decide.
function read_plan(   n, k, way, votes, a, most) {
    for (n = 1; n <= entry_count; n++) {
        if (!kid_count[n]) continue
        way = "at once"
        for (k = n + 1; k < file_kid[n, 1] && way != "interrupts"; k++) if (k in spot_of) way = is_below(k, entry_below[n]) ? "defer" : "interrupts"
        votes[by[n], way]++
    }
    for (k = 1; k <= searcher_count; k++) {
        a = searcher[k]
        way = votes[a, "defer"] > votes[a, "interrupts"] ? "defer" : "interrupts"
        plan[a] = votes[a, way] > votes[a, "at once"] ? way : ""
    }
}

function is_below(n, p) {
    while (n && n != p) n = entry_below[n]
    return n == p
}

# Tries each way for each attachment, and keeps what is better, until nothing is.
function descend(   k, a, n, way, best, score, tried, kept, again) {
    best = run_trial()
    for (again = 1; again && tried++ < 5;) {
        again = 0
        for (k = 1; k <= searcher_count; k++) {
            a = searcher[k]
            kept = plan[a]
            for (n = 1; n <= 4; n++) {
                way = n == 1 ? "" : n == 2 ? "defer" : n == 3 ? "interrupts" : "final"
                if (way == plan[a]) continue
                score = try_way(a, way)
                if (score < best) { best = score; kept = way; again = 1 }
            }
            plan[a] = kept
        }
    }
    return best
}

function try_way(a, way,   kept, score) {
    kept = plan[a]
    plan[a] = way
    score = run_trial()
    plan[a] = kept
    return score
}

# The children of each entry, in the order in which a search goes over them.
function link_entries(   n, p, k, list, count, place) {
    for (n = 1; n <= entry_count; n++) {
        if (!(n in spot_of) || is_gone[n]) continue
        spots++
        p = entry_below[n]
        file_kid[p, ++file_kids[p]] = n
    }
    for (n = 0; n <= entry_count; n++) {
        if (!file_kids[n]) continue
        count = split(n ? offers[definition_of(entry_name[n])] : "root", place, " ")
        for (p = 1; p <= count; p++)
            for (k = 1; k <= file_kids[n]; k++)
                if (attr_of[file_kid[n, k]] == place[p]) kid[n, ++kid_count[n]] = file_kid[n, k]
    }
}

# How far a boot by this plan is from the text: wrong names weigh most, then lines out of order, then policies.
function run_trial(   f, again, a, score) {
    split("", is_unit); split("", deferred_count); split("", next_kid)
    queue_count = final_count = interrupts_work = came = right = in_order = last_came = 0
    search_kids(0)
    interrupts_work = 1
    for (f = 1; f <= queue_count; f++) search_kids(queue[f])
    do {
        again = 0
        for (f = 1; f <= final_count; f++) {
            if (next_kid[final[f]] >= file_kids[final[f]]) continue
            again = 1
            come(file_kid[final[f], ++next_kid[final[f]]], 1)
        }
    } while (again)
    for (a in plan) score += plan[a] == "" ? 0 : plan[a] == "final" ? 401 : 101
    return score + (format == "dmesg" ? (spots - in_order) * 100 : 0) + (spots - right) * 1000000
}

function search_kids(n,   k) {
    for (k = 1; k <= kid_count[n]; k++) come(kid[n, k], 0)
    for (k = 1; k <= deferred_count[n]; k++) search_kids(deferred[n, k])
}

function come(n, by_finalizer,   way, p) {
    if (entry_name[n] == "") { right++; in_order += last_came == n - 1; last_came = n; return }
    if (!take_unit(n)) return
    in_order += last_came == n - 1
    last_came = n
    way = plan[by[n]]
    if (way == "final") { final[++final_count] = n; next_kid[n] = 0; return }
    if (!kid_count[n]) return
    p = entry_below[n]
    if (way == "interrupts" && !interrupts_work) queue[++queue_count] = n
    else if (way == "defer" && !by_finalizer) deferred[p, ++deferred_count[p]] = n
    else search_kids(n)
}

# The first row that is free takes it; a starred one has the least free unit.
function take_unit(n,   count, word, k, r, unit, device) {
    device = definition_of(entry_name[n])
    count = split(rows_for[n], word, " ")
    for (k = 1; k <= count; k++) {
        r = word[k]
        if (from[r] == "") unit = substr(row_name[r], length(device) + 1)
        else for (unit = from[r]; (device, unit) in is_unit;) unit++
        if ((device, unit) in is_unit) continue
        is_unit[device, unit] = 1
        if (entry_name[n] == device unit) right++
        return 1
    }
    return 0
}
