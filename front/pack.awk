# Words in decimal to escapes for printf: eight bytes a word, the lowest first, `\001\000..`.
#
# With signed=1 a word may have a minus, and is written in two's complement.
# A word that cannot be is told on standard error with its line, and the exit status is 2.
#
# awk counts in doubles, which are whole only up to 2^53. A word is therefore held in two parts of ten
# digits each, and divided by 256 eight times.

function refuse(token, words) {
    token = substr(token, 1, 32)
    gsub(/[^!-~]/, "?", token)
    printf "line %d: `%s` %s\n", NR, token, words | "cat >&2"
    close("cat >&2")
    failed = 1
    exit 2
}

# The number of some digits. Leading zeros go: to some awks they mean octal.
function whole(digits) {
    sub(/^0+/, "", digits)
    return digits + 0
}

# Leaves the eight bytes of a number of at most twenty digits in BYTE; whether it is below 2^64.
function divide(digits,    high, low, carried, b) {
    high = length(digits) > 10 ? whole(substr(digits, 1, length(digits) - 10)) : 0
    low = length(digits) > 10 ? whole(substr(digits, length(digits) - 9)) : whole(digits)
    for (b = 1; b <= 8; b++) {
        carried = (high % 256) * 10000000000 + low
        high = int(high / 256)
        BYTE[b] = carried % 256
        low = int(carried / 256)
    }
    return high + low == 0
}

function negate(    carry, b) {
    carry = 1
    for (b = 1; b <= 8; b++) {
        BYTE[b] = 255 - BYTE[b] + carry
        carry = BYTE[b] == 256
        if (carry) BYTE[b] = 0
    }
}

function pack(token,    digits, minus, b) {
    digits = token
    minus = signed && digits ~ /^-/
    if (minus) digits = substr(digits, 2)
    if (digits !~ /^[0-9]+$/) refuse(token, "is not a word in decimal")
    sub(/^0+/, "", digits)
    if (length(digits) > 20 || !divide(digits)) refuse(token, "is 2^64 or more: a word is at most 18446744073709551615")
    if (minus) negate()
    for (b = 1; b <= 8; b++) printf "\\%03o", BYTE[b]
    # A line holds eight words, so that the shell reads few lines and none is long.
    if (++packed % 8 == 0) print ""
}

{
    sub(/#.*/, "")
    gsub(/\r/, " ")
    for (i = 1; i <= NF; i++) pack($i)
}

END {
    if (!failed && packed % 8) print ""
}
