# Lines of the listing with names: `U theta=1/2*pi phi=0 lambda=pi qubit 3`.

# One part of an angle, n/d; a whole number without its denominator.
function fraction(n, d) {
    return d == 1 ? n : n "/" d
}

# The angle a + b*pi whose four words begin at a field.
function angle(at,    a, b) {
    a = fraction($at, $(at + 1))
    b = fraction($(at + 2), $(at + 3))
    if ($(at + 2) == 0) return a
    b = b == "1" ? "pi" : b == "-1" ? "-pi" : b "*pi"
    if ($at == 0) return b
    return a (b ~ /^-/ ? "" : "+") b
}

function fields(from, to,    i, text) {
    for (i = from; i <= to; i++) text = text " " $i
    return text
}

function counted(n, one) {
    return n " " one (n == 1 ? "" : "s")
}

# `3` or `3-5`
function span(from, to) {
    return from == to ? from : from "-" to
}

# Sums are made only of numbers that a run can have: beyond 2^53 awk's are not exact.
function small(n) {
    return n < 1000000
}

# Where qubits or bits stand, pairs of register and offset from a field on: neighbours of a register together.
function places(at, many,    i, last, text) {
    for (i = 0; i < many; i = last + 1) {
        last = i
        while (last + 1 < many && follows(at + 2 * i, at + 2 * (last + 1), last + 1 - i)) last++
        text = text (i ? ", " : "") span(i, last) " = register " $(at + 2 * i) \
            "[" (last == i ? $(at + 2 * i + 1) : span($(at + 2 * i + 1), $(at + 2 * i + 1) + last - i)) "]"
    }
    return text
}

# Whether the pair at a field is that of the register of another pair, so many elements further on.
function follows(pair, other, further) {
    return small($(pair + 1)) && $other == $pair && $(other + 1) == $(pair + 1) + further
}

function bits(first, size) {
    if (size == 1) return "bit " first
    if (small(first) && small(size) && size > 0) return "bits " span(first, first + size - 1)
    return "bits, " size " from " first " on,"
}

function head() {
    return "head " counted($2, "qubit") ($2 > 0 ? " (" places(4, $2) ")" : "") ", " counted($3, "bit") ($3 > 0 ? " (" places(4 + 2 * $2, $3) ")" : "")
}

function gate(    i, text) {
    for (i = 0; i < $3; i++) text = text (i ? ", " : "") angle(5 + 4 * i)
    return "gate " $2 ($3 > 0 ? " angles " text : "") " qubits" fields(5 + 4 * $3, NF)
}

$1 == 0 { print head() }
$1 == 1 { print "U theta=" angle(2) " phi=" angle(6) " lambda=" angle(10) " qubit " $14 }
$1 == 2 { print "CX control " $2 " target " $3 }
$1 == 3 { print gate() }
$1 == 4 { print "barrier qubits" fields(3, NF) }
$1 == 5 { print "measure qubit " $2 " -> bit " $3 }
$1 == 6 { print "reset qubit " $2 }
$1 == 7 { print "if " bits($2, $3) " == " $4 }
$1 == 8 { print "end of if" }
