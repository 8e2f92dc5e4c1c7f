# Draws the tree of an output as a graph of DOT. See tools/draw.

BEGIN {
    tool = "draw"
    read_output(ENVIRON["OUTPUT"])
    if (!has("tree")) complain(output_name ": a listing alone: there is no tree to draw")
    print "digraph devices {"
    print "    rankdir=LR"
    print "    nodesep=0.15"
    print "    node [shape=box fontname=\"sans-serif\" fontsize=10 height=0.3 margin=\"0.1,0.04\"]"
    print "    edge [arrowsize=0.5]"
    print "    root [shape=circle]"
    for (n = 1; n <= tree_count; n++) draw_device(tree_name[n])
    for (n = 1; n <= tree_count; n++) print "    \"" parent[tree_name[n]] "\" -> \"" tree_name[n] "\""
    print "}"
    exit
}

# A device is a box with its name, its row and its spot. One that sleeps is grey, a condemned one is dashed, and one that is
# held has a thick line.
function draw_device(name,   label, looks) {
    label = name "\\nrow " row[name] (spot[name] == "" ? "" : " on " spot[name])
    if (name in asleep) { label = label "\\nasleep"; looks = "filled" }
    if (name in condemned) { label = label "\\ncondemned"; looks = looks (looks == "" ? "" : ",") "dashed" }
    if (name in held) label = label "\\nheld by " held[name]
    looks = looks == "" ? "" : " style=\"" looks "\""
    if (name in asleep) looks = looks " fillcolor=lightgrey"
    if (name in condemned) looks = looks " color=red"
    if (name in held) looks = looks " penwidth=2"
    if (has("tables")) looks = looks " tooltip=\"" row_text(row[name]) "\""
    print "    \"" name "\" [label=\"" label "\"" looks "]"
}

function row_text(r) {
    return "row " r " " row_name[r] " at " row_at[r] " by " row_by[r] (row_values[r] == "" ? "" : " " row_values[r])
}
