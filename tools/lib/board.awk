# Makes a machine file of what a kernel printed. See tools/machine.

BEGIN {
    tool = "machine"
    source = ENVIRON["DMESG"] == "-" ? "standard input" : ENVIRON["DMESG"]
    if (ENVIRON["LISTING"] != "") {
        read_output(ENVIRON["LISTING"])
        if (!has("tables")) complain(output_name ": no listing of a configuration")
    }
    read_kernel(ENVIRON["DMESG"])
    if (ENVIRON["LISTING"] == "") guess_tables()
    place_entries()
    find_plan()
    put_machine()
    left_out(wedges, "wedge (dk)", "wedges (dk)")
    left_out(pseudos, "pseudo-device", "pseudo-devices")
    close("cat 1>&2")
    exit is_skipped
}

# A device, or a line, that has no place in the machine file.
function skip(line, text) { is_skipped = 1; note(line, text) }

# What is no fault, since a configuration has no rows for it.
function left_out(n, one, many) {
    if (n) print "machine: " source ": " count_of(n, one, many) ", which no row of a configuration attaches" | "cat 1>&2"
}

function note(line, text) { print "machine: " source ":" line ": " text | "cat 1>&2" }

# Without a configuration each driver has one attachment and one interface attribute of its own name, with what the text tells.
function guess_tables(   n, p, device, place, name, pair) {
    forget_output()
    sections = " tables "
    for (n = 1; n <= entry_count; n++) {
        p = entry_below[n]
        place = p ? definition_of(entry_name[p]) : "root"
        if (p && !index(offers[place], " " place " ")) offers[place] = " " place " "
        take_told(n)
        for (name in told) if (!((place, name) in pair)) {
            pair[place, name] = 1
            locators_of[place] = locators_of[place] " [" name "=-1]"
        }
        device = definition_of(entry_name[n])
        if (entry_name[n] == "") continue
        if (!(device in offers)) offers[device] = " "
        if ((device, place) in pair) continue
        pair[device, place] = 1
        row_name[row_count] = device "*"
        row_at[row_count] = p ? definition_of(entry_name[p]) "?" : "root"
        row_by[row_count] = device
        row_on[row_count] = place
        from[row_count++] = 0
    }
    for (place in locators_of) locators_of[place] = locators_of[place] " "
}

function put_machine(   n, a, count, order, k, line, marks) {
    print "# made by tools/machine of the " (format == "dmesg" ? "dmesg" : "device tree") " of " (kernel == "" ? "a kernel" : kernel)
    if (ENVIRON["CONFIGURATION"] == "")
        print "# without its configuration, so interface attributes and attachments have the names of drivers"
    for (n = 1; n <= entry_count; n++) {
        if (!(n in spot_of)) continue
        if (++spot_number > 1024) complain(source ":" entry_line[n] ": one spot too many; a machine file has at most 1024")
        marks = is_gone[n] ? " absent" : entry_below[n] && plan[by[entry_below[n]]] == "final" ? " late" : ""
        line = "spot " spot_of[n] " " (entry_below[n] ? spot_of[entry_below[n]] : "root") " " attr_of[n]
        line = line (found[n] == "" ? "" : " ") found[n] marks
        print line (entry_text[n] == "" ? "" : "   # " printable(substr(entry_text[n], 1, 70)))
        if (by[n] == "") continue
        print "match " by[n] " " spot_of[n] " 1"
        if (plan[by[n]] != "" && !(by[n] in is_told)) { is_told[by[n]] = 1; order[++count] = by[n] }
    }
    for (k = 1; k <= count; k++) print "driver " order[k] " " plan[order[k]]
}

function printable(text) { gsub(/[^ -~]/, "?", text); return text }
