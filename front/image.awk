# The lists of an image: which entry stands at a place, and what it says in words.
#
# The caller fills WORD[0], WORD[1], .. and calls lay_out(). Lists are numbered 1 to 8 in the order of
# the contents, so that WORD[list] is a list's count.

BEGIN {
    QUANTUM = 1; CLASSICAL = 2; GATES = 3; MAIN = 4; FURTHER = 5; ARGUMENTS = 6; PARAMETERS = 7; EXPRESSIONS = 8
    split("quantum register|classical register|gate|main statement|further statement|argument|parameter|expression", LIST, "|")
    split("1 1 5 5 5 2 1 3", ENTRY_WORDS, " ")
    U = 1; CX = 2; CALL = 3; BARRIER = 4; MEASURE = 5; RESET = 6; IF = 7
    split("+ - * / ^", OPERATOR, " ")
    split("1 1 2 2 4", BINDS, " ")
    split("- sin cos tan exp ln sqrt", FUNCTION, " ")
}

# FIRST[list]: the place of a list's first entry; FIRST[9]: the image's length by its counts.
function lay_out(    list) {
    FIRST[1] = 9
    for (list = 1; list <= 8; list++) FIRST[list + 1] = FIRST[list] + WORD[list] * ENTRY_WORDS[list]
}

function place_of(list, number) {
    return FIRST[list] + ENTRY_WORDS[list] * number
}

function list_at(place,    list) {
    for (list = 1; list < 8 && place >= FIRST[list + 1]; list++);
    return list
}

function number_at(place,    list) {
    list = list_at(place)
    return int((place - FIRST[list]) / ENTRY_WORDS[list])
}

# Statements are numbered through: the further ones follow those of main.
function statement_place(number) {
    return place_of(MAIN, number)
}

function statement_at(place) {
    return int((place - FIRST[MAIN]) / 5)
}

function gate_word(gate, which) {
    return WORD[place_of(GATES, gate) + which]
}

function counted(n, one) {
    return n " " one (n == 1 ? "" : "s")
}

function entry(place, length_,    i, text) {
    for (i = 0; i < length_; i++) text = text (i ? " " : "") WORD[place + i]
    return text
}

# ---- statements

# `main statement 3 (place 40)`, or `statement 7 (place 60) in the body of gate 1`.
# A scope is 0 in main and gate + 1 in a body, as in a `from` line; -1 if it is not known.
function statement_name(number, scope,    at) {
    at = " (place " statement_place(number) ")"
    if (number < WORD[MAIN]) return "main statement " number at
    if (scope == 0) return "statement " number at holders_in_main(number)
    if (scope > 0) return "statement " number at " in the body of gate " (scope - 1)
    return "statement " number at owners(number)
}

# The gates that have a statement in their bodies, which they may share; the first four.
function owners(number,    gate, first, found, text) {
    for (gate = 0; gate < WORD[GATES]; gate++) {
        first = gate_word(gate, 3)
        if (gate_word(gate, 2) != 1 || number < first || number >= first + gate_word(gate, 4)) continue
        if (++found > 4) return text " and others"
        text = text (found == 1 ? " in the body of gate " : ", ") gate
    }
    return text
}

# The ifs that hold a statement.
function holders_in_main(number,    i, text) {
    for (i = 0; i < WORD[MAIN]; i++)
        if (WORD[statement_place(i)] == IF && WORD[statement_place(i) + 3] == number)
            text = text (text == "" ? ", held by the if of main statement " : " and by that of main statement ") i
    return text
}

# What a statement's words say, entry by entry.
function statement_text(number,    at, kind, a, b, c, d) {
    at = statement_place(number)
    kind = WORD[at]; a = WORD[at + 1]; b = WORD[at + 2]; c = WORD[at + 3]; d = WORD[at + 4]
    if (kind == U) return "U with expressions " a ", " b " and " c " on argument " d
    if (kind == CX) return "CX on arguments " a " and " b
    if (kind == CALL) return "call of gate " a ", parameters from number " b " on, arguments from number " c " on"
    if (kind == BARRIER) return "barrier of " counted(b, "argument") " from number " a " on"
    if (kind == MEASURE) return "measure of argument " a " to classical argument " b
    if (kind == RESET) return "reset of argument " a
    if (kind == IF) return "if (classical register " a " == " b ") statement " c
    return "no kind of statement"
}

# Fills NAMED[1] .. with the numbers of a statement's arguments; how many.
function arguments_of(number,    at, kind, first, many, i) {
    at = statement_place(number)
    kind = WORD[at]
    if (kind == CX || kind == MEASURE) {
        NAMED[1] = WORD[at + 1]; NAMED[2] = WORD[at + 2]
        return 2
    }
    if (kind == U || kind == RESET) {
        NAMED[1] = WORD[at + (kind == U ? 4 : 1)]
        return 1
    }
    if (kind != CALL && kind != BARRIER) return 0
    first = kind == CALL ? WORD[at + 3] : WORD[at + 1]
    many = kind == CALL ? gate_word(WORD[at + 1], 1) : WORD[at + 2]
    for (i = 1; i <= many; i++) NAMED[i] = first + i - 1
    return many + 0
}

# Fills NAMED[1] .. with the numbers of the expressions that a U or a call's parameters name; how many.
function expressions_of(number,    at, many, i) {
    at = statement_place(number)
    if (WORD[at] == U) {
        for (i = 1; i <= 3; i++) NAMED[i] = WORD[at + i]
        return 3
    }
    if (WORD[at] != CALL) return 0
    many = gate_word(WORD[at + 1], 0)
    for (i = 1; i <= many; i++) NAMED[i] = WORD[place_of(PARAMETERS, WORD[at + 2] + i - 1)]
    return many + 0
}

# ---- arguments and expressions

# `quantum register 0 (size 3), element 1`; in a body `formal argument 1`.
function argument_text(number, scope, sort,    at, register, element) {
    at = place_of(ARGUMENTS, number)
    register = WORD[at]; element = WORD[at + 1]
    if (scope != 0) return "formal argument " register
    register = LIST[sort] " " register (register < WORD[sort] ? " (size " WORD[place_of(sort, register)] ")" : " (not there)")
    if (element == 0) return register ", whole"
    # Beyond 2^53 awk cannot take 1 away.
    return register ", element " (element < 9007199254740992 ? element - 1 : element " - 1")
}

# An expression as it is written in OpenQASM, p0, p1, .. being the gate's parameters. Parentheses stand only where
# they are needed. An entry that several others share is written each time, up to 40 entries.
function expression_text(number) {
    NODES = 40
    return formula(number, 0)
}

function formula(number, binding,    at, kind, a, b, text, own) {
    if (NODES-- <= 0) return ".."
    at = place_of(EXPRESSIONS, number)
    kind = WORD[at]; a = WORD[at + 1]; b = WORD[at + 2]
    if (kind == 0) return "pi"
    if (kind == 1) return binding && a >= 2147483648 ? "(" f32_text(a) ")" : f32_text(a)
    if (kind == 2) return a
    if (kind == 3) return "p" a
    if (kind > 9) return FUNCTION[kind - 8] "(" formula(a, 0) ")"
    own = kind == 9 ? 3 : BINDS[kind - 3]
    if (kind == 9) text = "-" formula(a, own)
    else if (kind == 8) text = formula(a, own + 1) "^" formula(b, own)
    else text = formula(a, own) OPERATOR[kind - 3] formula(b, own + 1)
    return own < binding ? "(" text ")" : text
}

# ---- f32

function hexadecimal(n,    i, text) {
    for (i = 0; i < 8; i++) {
        text = substr("0123456789ABCDEF", n % 16 + 1, 1) text
        n = int(n / 16)
    }
    return text
}

# 2 to a whole number; not every awk has the operator ^.
function power_of_two(n,    power) {
    power = 1
    for (; n > 0; n--) power *= 2
    for (; n < 0; n++) power /= 2
    return power
}

# The value of an f32 by its bits.
function f32_text(bits,    sign, exponent, fraction) {
    sign = bits >= 2147483648 ? "-" : ""
    exponent = int(bits / 8388608) % 256
    fraction = bits % 8388608
    if (exponent == 255) return fraction ? "NaN" : sign "infinity"
    if (exponent == 0) return sign sprintf("%.9g", fraction * power_of_two(-149))
    return sign sprintf("%.9g", (fraction + 8388608) * power_of_two(exponent - 150))
}
