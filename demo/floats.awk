# Shows the f32 word at character `at` of each line whose first byte is `kind`, `columns` to a row.
function number(hex,    i, n) {
    n = 0
    for (i = 1; i <= length(hex); i++) n = 16 * n + index("0123456789ABCDEF", substr(hex, i, 1)) - 1
    return n
}
function float(hex,    w, sign, exponent, fraction) {
    w = number(hex)
    sign = 1
    if (w >= 2147483648) { sign = -1; w -= 2147483648 }
    exponent = int(w / 8388608)
    fraction = w % 8388608
    if (exponent == 255) return fraction ? "nan" : (sign > 0 ? "inf" : "-inf")
    if (exponent == 0) return sign * fraction * 2 ^ -149
    return sign * (8388608 + fraction) * 2 ^ (exponent - 150)
}
substr($0, 1, 2) == kind {
    line = line sprintf("%8.2f", float(substr($0, at, 8)))
    if (++count % columns == 0) { print line; line = "" }
}
