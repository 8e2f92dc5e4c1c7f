# The files that make up the configuration `top`, a line each, in the order in which they are read first.

BEGIN {
    read_configuration(top)
    for (n = 1; n <= loaded_count; n++) {
        if (loaded[n] in is_absent || loaded[n] in seen) continue
        seen[loaded[n]] = 1
        print loaded[n]
    }
}
