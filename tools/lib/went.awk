# Tells what a trimmed configuration has less. See tools/trim.

BEGIN {
    tool = "trim"
    read_output(ENVIRON["OUTPUT"])
    rows = row_count
    drivers = count_drivers()
    read_output(ENVIRON["OUTPUT_2"])
    text = count_of(rows, "row") " became " row_count ", " count_of(drivers, "driver") " became " count_drivers()
    if (ENVIRON["SOURCES"] != "") text = text ", " count_of(ENVIRON["SOURCES"], "source") " became " ENVIRON["SOURCES_2"]
    print "trim: " text | "cat 1>&2"
    close("cat 1>&2")
}

function count_drivers(   r, is_driver, count) {
    for (r = 0; r < row_count; r++) if (!(definition_of_row(r) in is_driver)) { is_driver[definition_of_row(r)] = 1; count++ }
    return count + 0
}
