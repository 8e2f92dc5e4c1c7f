# What may stand behind some words, by the forms of tools/forms: a word a line, and FILE where it may be the name of a file.
# The words are those of $WORDS, a line each, the name of the program first.

BEGIN { given = split(ENVIRON["WORDS"], word, "\n") }

{ sub(/#.*/, ""); sub(/\t.*/, "") }

$1 == word[1] { take_form() }

function take_form(   f, name, w, place, operands) {
    split("", takes_file)
    split("", operand)
    for (f = 2; f <= NF; f++) {
        if ($f ~ /^\[/) {
            name = $f
            gsub(/[][]/, "", name)
            if (name !~ /^-/) { operand[++operands] = name; continue }
            takes_file[name] = $f !~ /\]$/
            if (takes_file[name]) is_name[name] = $++f == "NAME]"
        } else operand[++operands] = $f
    }
    place = 1
    for (w = 2; w <= given; w++) {
        if (word[w] in takes_file) { if (takes_file[word[w]] && w++ == given) { if (!is_name[word[w - 1]]) print "FILE"; return } }
        else if (!fits(operand_at(place, operands), word[w])) return
        else place++
    }
    put_operand(operand_at(place, operands))
    if (place == 1) for (name in takes_file) print name
}

# The last operand may be written again where ".." follows it.
function operand_at(place, operands) {
    return place <= operands ? operand[place] : operand[operands] ~ /\.\.$/ ? operand[operands] : ""
}

function fits(form, text) { return form ~ /[A-Z]/ || index("|" form "|", "|" text "|") }

function put_operand(form) {
    if (form ~ /[a-z]/) { gsub(/\|/, "\n", form); print form }
    else if (form != "" && form != "NUMBER") print "FILE"
}
