# Writes a file in which the statement that has the line `number` is emptied: its lines are there, and nothing in them. A
# statement of a configuration (`kind` is config) begins at the last line up to here that does not begin with a blank, and goes
# on over those that do; in other files each line stands for itself.

{ line[NR] = $0 }

END {
    first = last = number + 0
    if (kind == "config") {
        while (first > 1 && line[first] ~ /^([ \t]|#|$)/) first--
        while (last < NR && line[last + 1] ~ /^([ \t]|#|$)/) last++
    }
    for (n = 1; n <= NR; n++) print (n >= first && n <= last ? "" : line[n])
}
