# Tells which devices of a machine file that tools/machine made do not attach under their names. See tools/machine.

BEGIN {
    tool = "machine"
    read_machine(ENVIRON["MACHINE"])
    read_output(ENVIRON["OUTPUT"])
    for (n = 1; n <= spot_count; n++) judge(spot_name[n])
    print "machine: " right " of " (wanted == 1 ? "1 device attaches under its name; " : wanted + 0 " devices attach under their names; ") count_of(free + 0, "spot") " without a driver" | "cat 1>&2"
    close("cat 1>&2")
    exit right != wanted
}

function judge(s) {
    if (mark[s, "absent"]) return
    if (!(s in matched)) { free++; return }
    wanted++
    if (!(s in taken)) tell(s " does not attach: " (above[s] != "root" && !(above[s] in taken) ? "neither does its parent" : "no driver takes its spot"))
    else if (taken[s] != s) tell(s " attaches as " taken[s])
    else right++
}

function tell(text) { print "machine: " text | "cat 1>&2" }
