# What several tools share. `tool` is the name of the tool, and `whole` is set where no list is to be cut short.

# Ends the tool with one line and status 2.
function complain(text) {
    print tool ": " text | "cat 1>&2"
    close("cat 1>&2")
    exit 2
}

# Sorts the first items of a list, as texts or as numbers.
function sort(list, n,   i, k, kept) {
    for (i = 2; i <= n; i++) {
        kept = list[i]
        for (k = i - 1; k >= 1 && list[k] "" > kept ""; k--) list[k + 1] = list[k]
        list[k + 1] = kept
    }
}

function sort_numbers(list, n,   i, k, kept) {
    for (i = 2; i <= n; i++) {
        kept = list[i]
        for (k = i - 1; k >= 1 && list[k] + 0 > kept + 0; k--) list[k + 1] = list[k]
        list[k + 1] = kept
    }
}

# ---- texts for a screen of 80 columns

# So many of something: "1 device", "2 devices".
function count_of(n, one, many) { return n " " (n == 1 ? one : many == "" ? one "s" : many) }

# Begins a list; `add_item` adds to it, `put_list` prints it.
function begin_list() { item_count = 0 }

function add_item(text) { item[++item_count] = text }

# One item a line, 8 of them or all.
function put_lines(   n) {
    for (n = 1; n <= item_count; n++) {
        if (n > 8 && !whole) { print "    and " (item_count - 8) " more; -a shows all"; return }
        print "    " item[n]
    }
}

# As many items a line as there is room for, 6 lines of them or all, with this text between them.
function put_list(between,   n, line, lines) {
    for (n = 1; n <= item_count; n++) {
        if (line != "" && length(line between item[n]) > 74) {
            print "    " line (between == " " ? "" : ",")
            line = ""
            if (++lines == 6 && !whole) { print "    and " (item_count - n + 1) " more; -a shows all"; return }
        }
        line = line == "" ? item[n] : line between item[n]
    }
    if (line != "") print "    " line
}
