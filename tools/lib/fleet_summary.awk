# One summary of the lines of tools/fleet. See there.

BEGIN { tool = "fleet"; whole = ENVIRON["WHOLE"] }

/^machine .*: [0-9]+ devices?$/ {
    machines++
    devices += $(NF - 1)
    next
}

# refused NAME: FAULT
/^refused / { refused[++refused_count] = substr($0, 9); next }

# lacks NAME SPOT below DEVICE: WHAT
/^lacks .* below / && match($0, /: /) {
    what = substr($0, RSTART + 2)
    place = substr($0, 7, RSTART - 7)
    name = place
    sub(/ [^ ]* below [^ ]*$/, "", name)
    if (!((what, name) in seen)) {
        seen[what, name] = 1
        if (!(what in lacking)) kind[++kinds] = what
        lacking[what]++
    }
    if (!(name in lacks)) { lacks[name] = 1; lacking_machines++ }
    # The least place, so that it does not matter in which order the calls ended.
    if (!(what in places)) places[what] = place
    else if (whole) places[what] = places[what] "\n" place
    else if (place "" < places[what] "") places[what] = place
    next
}

{
    is_broken = 1
    complain((FILENAME == "" || FILENAME == "-" ? "standard input" : FILENAME) ":" FNR ": no line of tools/fleet")
}

END {
    if (is_broken) exit 2
    if (!machines && !refused_count) complain("there is no line of tools/fleet")
    print count_of(machines + 0, "machine") " with " count_of(devices + 0, "device") (refused_count ? ", and " refused_count " refused" : "")
    for (n = 1; n <= refused_count && (n <= 8 || whole); n++) print "    " refused[n]
    if (refused_count > 8 && !whole) print "    and " (refused_count - 8) " more; -a shows all"
    print machines - lacking_machines " have a driver for everything; " lacking_machines + 0 " lack " count_of(kinds + 0, "driver")
    sort_kinds()
    for (n = 1; n <= kinds; n++) {
        print "    " count_of(lacking[kind[n]], "machine") ": " kind[n]
        count = split(places[kind[n]], place_list, "\n")
        for (k = 1; k <= count; k++) print "        " (whole ? "" : "as ") place_list[k]
    }
    exit refused_count + kinds > 0
}

# The commonest first, then by name.
function sort_kinds(   i, k, kept) {
    for (i = 2; i <= kinds; i++) {
        kept = kind[i]
        for (k = i - 1; k >= 1 && comes_before(kept, kind[k]); k--) kind[k + 1] = kind[k]
        kind[k + 1] = kept
    }
}

function comes_before(a, b) { return lacking[a] == lacking[b] ? a "" < b "" : lacking[a] > lacking[b] }
