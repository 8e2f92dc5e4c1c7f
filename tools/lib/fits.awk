# The statements of the configuration `top` that fit none of the forms, for tools/test.sh: a line each.

BEGIN {
    tool = "fits"
    read_forms(forms)
    read_configuration(top)
    for (s = 1; s <= statement_count; s++) {
        split("", piece)
        piece_count = s_last[s] - s_first[s] + 1
        for (n = 1; n <= piece_count; n++) piece[n] = tok[s_first[s] + n - 1]
        fit_forms("config", ("config", piece[1]) in begins_form ? piece[1] : "")
        if (stop_at) print place_of_statement(s) ": " best_form " stops at word " stop_at
    }
}
