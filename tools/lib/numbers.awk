# The numbers of configurations, machine files and scripts.

function is_number(text) { return text ~ /^-?(0|[1-9][0-9]*|0[0-7]+|0[xX][0-9a-fA-F]+)$/ }

# The value of a number; one above 2^53 comes out as some number above all that are allowed.
function value_of(text,   sign, n, value, digits) {
    sign = sub(/^-/, "", text) ? -1 : 1
    if (text ~ /^0[xX]/) {
        digits = tolower(substr(text, 3))
        for (n = 1; n <= length(digits); n++) value = value * 16 + index("0123456789abcdef", substr(digits, n, 1)) - 1
    } else if (text ~ /^0[0-7]/) for (n = 1; n <= length(text); n++) value = value * 8 + substr(text, n, 1)
    else value = text + 0
    return sign * value
}

function is_in_range(text,   value) { value = value_of(text); return value >= -2147483648 && value <= 4294967295 }

# A value as it is printed: "0x10" is "16". Numbers above 2^31 have to be printed as such by every awk.
function in_decimal(text) { return is_number(text) ? sprintf("%.0f", value_of(text)) : text }
