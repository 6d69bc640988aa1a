# A refusal in plain words. Used behind image.awk. Input, in this order:
#
#   bytes B             the length of the image in bytes
#   word W              for each word of the image
#   from SCOPE PLACE    as in the listing
#   refused NUMBER PLACE SECOND
#
# The numbers and their order are document 01's. What is said here is read off the image alone: nothing
# is checked or run again.

BEGIN {
    MEANING[1] = "these words are no image"
    MEANING[2] = "a register has a bad size"
    MEANING[3] = "a gate entry is wrong"
    MEANING[4] = "a statement is wrong in its own words"
    MEANING[5] = "an argument of a statement is wrong"
    MEANING[6] = "an expression of a statement is wrong"
    MEANING[7] = "the sizes of a statement's arguments do not go together"
    MEANING[8] = "a body calls its own gate or a later one"
    MEANING[9] = "division by zero"
    MEANING[10] = "a float has no exact fraction"
    MEANING[11] = "overflow: an angle does not fit"
    MEANING[12] = "overlap: one operation would get the same qubit twice"
    MEANING[13] = "an angle needs a function of floats"
    MEANING[14] = "the output is full"
    MEANING[15] = "the trace lent is too short"
    MEANING[16] = "a figure of the tally is too large"
    MEANING[17] = "these words begin no whole record"

    RULE[2] = "A size is 1 to 4,096, and all registers of a sort together have at most 4,096."
    RULE[3] = "At most 16 parameters and 16 arguments; third word 1 (body) or 0 (opaque: the last two words are 0); " \
        "a body of further statements only."
    RULE[4] = "The kind must be allowed where it stands (main: 1 to 7; body: 1 to 4; held by an if: 1, 2, 3, 5, 6), " \
        "unused words are 0, and each number and run lies within its list."
    RULE[5] = "In main: a register that exists, and index + 1 up to its size, or 0 for the whole. " \
        "In a body: a formal argument of the gate, and 0."
    RULE[6] = "Kinds are 0 to 15, operands have smaller numbers, unused words are 0, there are at most 32 levels, " \
        "and a variable is a parameter of the gate (there are none in main)."
    RULE[7] = "CX and measure: equal sizes, or one is 1. Call: all sizes other than 1 are equal."
    RULE[8] = "A body calls only gates of smaller number."
    RULE[10] = "A float is taken at its exact value; both parts of the fraction must be below 2^63."
    RULE[11] = "Numerators and denominators must stay below 2^63, also between the steps of a sum."
    RULE[13] = "Only exact values are worked out: never exp or ln; a sine, cosine or tangent only where document 01's " \
        "table has its values; a root only if it is a fraction."
    RULE[14] = "The program listing has room for 8,192 words. `cowhirame tally` tells how many a run needs at most; " \
        "the library takes an output of any size (see examples/c)."
    RULE[15] = "A run is lent at least 256 trace words."
    RULE[16] = "No figure may pass 4,294,967,295. A smaller depth opens fewer bodies. The image itself is accepted."
}

$1 == "bytes" { BYTES = $2 }
$1 == "word" { WORD[WORDS++] = $2 }
$1 == "from" { SCOPE[++FRAMES] = $2; CALLED_AT[FRAMES] = $3 }
$1 == "refused" { NUMBER = $2; PLACE = $3; SECOND = $4 }

function tell(text) {
    print "  " text
}

# ---- 1: not an image

function tell_contents(    list, sum) {
    if (BYTES % 8) tell("It has " BYTES " bytes, which is no whole number of words of 8 bytes.")
    else tell("It has " counted(BYTES / 8, "word") "; an image has 9 to 8,192.")
    if (WORDS < 9) return
    for (list = 1; list <= 8; list++) sum += WORD[list] * ENTRY_WORDS[list]
    tell("Word 0 says " WORD[0] " words. The counts in words 1 to 8 " \
        (sum + 9 > 1000000 ? "are far too large" : "make " sum + 9 " words") ". All must be the same number.")
    for (list = 1; list <= 8; list++) tell("  word " list ": " counted(WORD[list], LIST[list]))
    if (WORD[GATES] > 128) tell("There may be at most 128 gates.")
}

# ---- 2 to 8: an entry of the image

function tell_register(    list) {
    list = list_at(PLACE)
    tell("place " PLACE ": " LIST[list] " " number_at(PLACE) ", of size " WORD[PLACE])
}

function tell_gate(    body) {
    body = WORD[PLACE + 2]
    tell("place " PLACE ": gate " number_at(PLACE) ", words " entry(PLACE, 5) ": " counted(WORD[PLACE], "parameter") ", " \
        counted(WORD[PLACE + 1], "argument") ", " (body == 1 ? "body" : body == 0 ? "opaque" : "third word " body) \
        ", " counted(WORD[PLACE + 4], "statement") " from statement " WORD[PLACE + 3] " on")
    if (WORD[FURTHER] > 0) tell("The further statements are " WORD[MAIN] " to " WORD[MAIN] + WORD[FURTHER] - 1 ".")
    else tell("There are no further statements.")
}

# An if has the flaws of the statement that it holds, and then that one is in main too.
function tell_bad_statement(    number, scope) {
    number = statement_at(PLACE)
    scope = number < WORD[MAIN] ? 0 : -1
    tell_entry(number, scope)
    if (WORD[PLACE] == IF && is_further(WORD[PLACE + 3])) {
        number = WORD[PLACE + 3]
        tell_entry(number, scope)
    }
    if (NUMBER == 4) tell_counts()
    if (NUMBER == 5 || NUMBER == 7) tell_arguments(number, scope)
    if (NUMBER == 6) tell_expressions(number)
}

function is_further(number) {
    return number >= WORD[MAIN] && number < WORD[MAIN] + WORD[FURTHER]
}

function tell_entry(number, scope) {
    tell("at " statement_name(number, scope) ", words " entry(statement_place(number), 5) ": " statement_text(number))
}

function tell_counts(    list, text) {
    for (list = 1; list <= 8; list++) text = text (list > 1 ? ", " : "") counted(WORD[list], LIST[list])
    tell("The image has " text ".")
}

function tell_arguments(number, scope,    many, i, sort) {
    many = arguments_of(number)
    for (i = 1; i <= many; i++) {
        sort = WORD[statement_place(number)] == MEASURE && i == 2 ? CLASSICAL : QUANTUM
        tell("place " place_of(ARGUMENTS, NAMED[i]) ": argument " NAMED[i] ", words " entry(place_of(ARGUMENTS, NAMED[i]), 2) \
            ": " argument_text(NAMED[i], scope, sort))
    }
}

function tell_expressions(number,    many, i) {
    many = expressions_of(number)
    for (i = 1; i <= many; i++) {
        if (NAMED[i] < WORD[EXPRESSIONS])
            tell("place " place_of(EXPRESSIONS, NAMED[i]) ": expression " NAMED[i] ", words " entry(place_of(EXPRESSIONS, NAMED[i]), 3))
        else tell("expression " NAMED[i] " is not there: there are " WORD[EXPRESSIONS])
    }
}

# ---- 9 to 14: a refusal of the run

# The calls that the run was in, outermost first.
function tell_frames(    i) {
    for (i = 1; i <= FRAMES; i++) tell("from " statement_name(statement_at(CALLED_AT[i]), SCOPE[i]) ": " call_text(CALLED_AT[i]))
}

function call_text(place,    many, i, text) {
    many = expressions_of(statement_at(place))
    for (i = 1; i <= many; i++) text = text (i > 1 ? ", " : "") expression_text(NAMED[i])
    return "calls gate " WORD[place + 1] (many ? " with " text : "")
}

# The scope of the refusal: the body of the gate that the last frame calls.
function fault_scope() {
    return FRAMES ? WORD[CALLED_AT[FRAMES] + 1] + 1 : 0
}

function tell_expression(    number) {
    number = number_at(PLACE)
    tell_users(number)
    tell("place " PLACE ": expression " number ", which is " expression_text(number))
    if (FRAMES) tell("(p0, p1, .. are the parameters of the gate in whose body it stands)")
}

function tell_overlap(    scope) {
    scope = fault_scope()
    tell_pairs(number_at(PLACE), number_at(SECOND))
    tell("place " PLACE ": argument " number_at(PLACE) ", " argument_text(number_at(PLACE), scope, QUANTUM))
    tell("place " SECOND ": argument " number_at(SECOND) ", " argument_text(number_at(SECOND), scope, QUANTUM))
    if (scope) tell("Both formal arguments stand for the same qubit in the calls above.")
}

# Fills HERE[1] .. with the statements of a scope, those that an if holds in its place; how many.
function statements_here(scope,    n, i, first, many) {
    if (scope) {
        first = gate_word(scope - 1, 3)
        many = gate_word(scope - 1, 4)
    } else {
        first = 0
        many = WORD[MAIN]
    }
    for (i = 0; i < many; i++) {
        n = first + i
        HERE[i + 1] = WORD[statement_place(n)] == IF ? WORD[statement_place(n) + 3] : n
    }
    return many + 0
}

# Entries may be shared, so that several statements can name the one that is refused.
function tell_user(statement, scope) {
    tell("at " statement_name(statement, scope) ": " statement_text(statement))
}

function tell_users(expression,    scope, many, i, j, n) {
    scope = fault_scope()
    many = statements_here(scope)
    for (i = 1; i <= many; i++) {
        n = expressions_of(HERE[i])
        for (j = 1; j <= n && NAMED[j] != expression; j++);
        if (j <= n) tell_user(HERE[i], scope)
    }
}

function tell_pairs(one, other,    scope, many, i, j, n, found) {
    scope = fault_scope()
    many = statements_here(scope)
    for (i = 1; i <= many; i++) {
        if (WORD[statement_place(HERE[i])] == BARRIER) continue
        n = arguments_of(HERE[i])
        found = 0
        for (j = 1; j <= n; j++) found += (NAMED[j] == one) + (NAMED[j] == other)
        if (found > 1) tell_user(HERE[i], scope)
    }
}

END {
    printf "cowhirame: refused, number %s: %s\n", NUMBER, (NUMBER in MEANING) ? MEANING[NUMBER] : "a number that this front does not know"
    if (NUMBER == 1) tell_contents()
    else lay_out()
    if (NUMBER == 2) tell_register()
    if (NUMBER == 3) tell_gate()
    if (NUMBER >= 4 && NUMBER <= 8) tell_bad_statement()
    if (NUMBER >= 9 && NUMBER <= 14) tell_frames()
    if (NUMBER == 9 || NUMBER == 10 || NUMBER == 11 || NUMBER == 13) tell_expression()
    if (NUMBER == 10) tell("the float: bits 0x" hexadecimal(SECOND) ", value " f32_text(SECOND))
    if (NUMBER == 12) tell_overlap()
    if (NUMBER in RULE) tell(RULE[NUMBER])
}
