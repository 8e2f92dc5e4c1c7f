# Boots the machines that are named, and prints their lines. See tools/fleet.

BEGIN {
    tool = "fleet"
    boot = quoted(ENVIRON["PROGRAM"]) " boot " quoted(ENVIRON["CONFIGURATION"]) " "
    for (n = 1; n <= ENVIRON["MACHINES"]; n++) boot_machine(ARGV[n])
    exit is_lacking
}

# The word as a shell reads it.
function quoted(word) {
    gsub(/'/, "'\\''", word)
    return "'" word "'"
}

function boot_machine(name,   command, line, last, devices, in_tree) {
    command = boot quoted(name) " 2>&1"
    driverless_count = 0
    split("", driverless)
    while ((command | getline line) > 0) {
        last = line
        if (in_tree) devices++
        else if (line == "tree") in_tree = 1
        else if (line ~ /^0\.0 (found|final) /) take_found(line)
    }
    close(command)
    if (!in_tree) { print "refused " name ": " last; is_lacking = 1; return }
    print "machine " name ": " count_of(devices + 0, "device")
    tell_lacking(name)
}

# 0.0 found PARENT on SPOT: NAME row R, 0.0 final PARENT: 1 on SPOT: not configured
function take_found(line,   word, n, at) {
    n = split(line, word, " ")
    at = word[2] == "final" ? 6 : 5
    if (n < at) return
    sub(/:$/, "", word[at])
    sub(/:$/, "", word[3])
    if (word[at + 1] == "not") {
        if (!(word[at] in driverless)) order[++driverless_count] = word[at]
        driverless[word[at]] = word[3]
    } else delete driverless[word[at]]
}

# The machine file is read again for what stands on these spots.
function tell_lacking(name,   line, n, word, what, values) {
    for (n in driverless) { is_lacking = 1; what = 1 }
    if (!what) return
    while ((getline line < name) > 0) {
        split(line, word, " ")
        if (word[1] != "spot" || !(word[2] in driverless)) continue
        what = index(line, "#") ? substr(line, index(line, "#") + 1) : ""
        gsub(/^[ \t]+|[ \t]+$/, "", what)
        called[word[2]] = what == "" ? "on " word[4] : what
    }
    close(name)
    for (n = 1; n <= driverless_count; n++)
        if (order[n] in driverless) print "lacks " name " " order[n] " below " driverless[order[n]] ": " called[order[n]]
}
