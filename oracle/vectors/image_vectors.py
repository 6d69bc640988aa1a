"""Images with the answers of the check, printed to standard output.

    python3 -m oracle.vectors.image_vectors

The answers are those of reference.py, a second reading of document 01.  The
random part has a fixed seed, so the output is the same everywhere, to the byte.

A line that starts with '#' is a comment.  Every other line holds an image:

    number place  word word ..

The number and the place are the check's answer, 0 0 for an accepted image.
Words are decimal; k*w stands for k words w, k at least 1.

Which number an image was made for is said beside it, and the program stops
where the reference answers another.
"""

import sys
from collections import Counter
from random import Random

from oracle.reference import reference
from oracle.reference.reference import (
    ARGUMENTS, BARRIER, CALL, CLASSICAL, CX, ENTRY_WORDS, EXPRESSIONS, FURTHER, GATES, IF, INTEGER, MAIN, MEASURE,
    PARAMETERS, PI, QUANTUM, REAL, RESET, U, VARIABLE,
)
from oracle.vectors import random_images
from oracle.vectors.entries import K1, NOTHING, PI_ENTRY, changed, decimal_words, gate, image, integer, opaque, variable
from oracle.vectors.random_images import NEGATE, PLUS, POWER, SIN, SQRT

WORD_MAX = 2**64 - 1
HALF = 2**63
# What a sum or a product that wraps at 2^64, or of which 32 bits are kept, could take for a small number.
FAR = 2**32, HALF, WORD_MAX

ACCEPTED, CONTENTS, REGISTER, GATE, FORM, ARGUMENT, EXPRESSION, SIZES, UPWARD = range(9)

lines = []
made = set()
counts = Counter()


def heading(text):
    lines.append("# " + text)


def vector(words):
    """Adds a line, unless this image has been had; returns the answer."""
    answer = reference.check(words) or (0, 0)
    if tuple(words) not in made:
        made.add(tuple(words))
        counts[answer[0]] += 1
        lines.append(" ".join((*map(str, answer), *decimal_words(words))))
    return answer


def expect(number, *all_words):
    """A vector of each image, all of which are to have this number."""
    for words in all_words:
        answer = vector(words)
        if answer[0] != number:
            raise AssertionError(f"{answer}, not {number}: {words}")


def expect_at(number, which, entry, words):
    """A vector of an image whose bad entry is known."""
    expect(number, words)
    place = reference.Image(tuple(words)).place(which, entry)
    if reference.check(words) != (number, place):
        raise AssertionError(f"{reference.check(words)}, not at {place}: {words}")


# ------------------------------------------------------- 1: the contents


def lengths():
    heading("1: fewer than 9 words, and more than 8,192")
    expect(CONTENTS, [], [0], [1], [9], [WORD_MAX], [8] + [0] * 7, [9] + [0] * 7)
    expect(ACCEPTED, [9] + [0] * 8)
    expect(CONTENTS, *([total] + [0] * 8 for total in (0, 8, 10, 2**32 + 9, HALF, HALF + 9, WORD_MAX)))
    expect(CONTENTS, [9] + [0] * 9, [10] + [0] * 9, [8] + [0] * 8)
    for extra, number in (0, ACCEPTED), (1, CONTENTS):
        expect(number, image(quantum=[1] * 4096, classical=[1] * (4087 + extra)))
        expect(number, image(further=[(0,)] * 1636, parameters=[0] * (3 + extra)))
        expect(number, image(arguments=[(WORD_MAX, WORD_MAX)] * 4091, parameters=[WORD_MAX] * (1 + extra)))
        expect(number, image(parameters=[HALF] * (8183 + extra)))
        expect(number, image(parameters=[0] * (2 + extra), expressions=[(16, 16, 16)] * 2727))
        expect(number, full_main(extra))
        expect(number, full_expressions(extra))
    words = image(parameters=[0] * 8183)
    expect(CONTENTS, words + [0], words[:-1], changed(words, {0: 8193}) + [0], changed(words, {7: 8184}) + [0])
    expect(CONTENTS, image(parameters=[0] * 8190), image(quantum=[1] * 4096, parameters=[0] * 4090))


def full_main(extra):
    """1,632 times U 1 1 1 on argument 1, to 8,192 words and so many more."""
    lists = dict(arguments=[(1, 1)] * 2, expressions=[PI_ENTRY] * 2)
    return image(quantum=[1, 1], main=[(U, 1, 1, 1, 1)] * 1632, parameters=[1] * (11 + extra), **lists)


def full_expressions(extra):
    """The last of the 2,724 expressions is used."""
    lists = dict(parameters=[0] * (3 + extra), expressions=[PI_ENTRY] * 2724)
    return image(quantum=[1], main=[(U, 2723, 2723, 2723, 0)], arguments=[(0, 0)], **lists)


def contents():
    heading("1: contents that do not add up")
    expect(ACCEPTED, K1)
    expect(CONTENTS, K1[:-1], K1 + [0], K1[:9], K1[:10], K1[1:], [54] + K1)
    for at in range(9):
        word = K1[at]
        expect(CONTENTS, *(changed(K1, {at: w % 2**64}) for w in (word + 1, word - 1, word + 2**32, word + HALF)))
        expect(CONTENTS, changed(K1, {at: HALF}), changed(K1, {at: WORD_MAX}))
    heading("Counts that add up in another way: one up, one down, and sums that only wrap to the length")
    wide = image(quantum=[1, 1], classical=[1], gates=[opaque(0, 0)] * 2, main=[NOTHING] * 2, further=[NOTHING],
                 arguments=[(0, 0)] * 2, parameters=[0] * 2, expressions=[PI_ENTRY])
    expect(ACCEPTED, wide)
    for same_words in (QUANTUM, CLASSICAL, PARAMETERS), (GATES, MAIN, FURTHER):
        for up in same_words:
            for down in same_words:
                if up != down:
                    vector(changed(wide, {1 + up: wide[1 + up] + 1, 1 + down: wide[1 + down] - 1}))
                    for many in HALF, 2**32:
                        expect(CONTENTS, changed(wide, {1 + up: wide[1 + up] + many, 1 + down: wide[1 + down] + many}))
                    rest = wide[1 + up] + wide[1 + down] + 1
                    expect(CONTENTS, changed(wide, {1 + up: WORD_MAX, 1 + down: rest}))
    expect(CONTENTS, changed(wide, {1 + ARGUMENTS: 2 + HALF}), changed(wide, {1 + ARGUMENTS: 2 + 2**32}))
    for which in GATES, MAIN, FURTHER, EXPRESSIONS:
        wrapping_count(which)


def wrapping_count(which):
    """Counts whose words wrap to a few."""
    for turn in range(1, ENTRY_WORDS[which]):
        few = -turn * 2**64 % ENTRY_WORDS[which]
        contents_words = [0] * 8
        contents_words[which] = (turn * 2**64 + few) // ENTRY_WORDS[which]
        expect(CONTENTS, [9 + few, *contents_words, *[0] * few])


def gate_counts():
    heading("1: over 128 gates")
    expect(ACCEPTED, image(gates=[opaque(0, 0)] * 128), image(gates=[opaque(16, 16)] * 128, parameters=[0] * 7543))
    expect(CONTENTS, image(gates=[opaque(0, 0)] * 129), image(gates=[opaque(0, 0)] * 1636))
    expect(CONTENTS, image(quantum=[0], gates=[opaque(17, 0)] * 129, main=[(0,)]))
    expect(CONTENTS, image(gates=[opaque(16, 16)] * 128, parameters=[0] * 7544))


# ---------------------------------------------------------- 2: registers

BAD_SIZES = 0, 4097, 2**32, 2**32 + 1, HALF, HALF + 1, WORD_MAX, 2**64 - 4096


def registers():
    heading("2: sizes 1 to 4,096")
    for sort, name in (QUANTUM, "quantum"), (CLASSICAL, "classical"):
        expect(ACCEPTED, *(image(**{name: sizes}) for sizes in ([1], [4096], [1, 1, 1], [4094, 1, 1], [1, 4095])))
        for size in BAD_SIZES:
            expect_at(REGISTER, sort, 0, image(**{name: [size]}))
            expect_at(REGISTER, sort, 1, image(**{name: [2, size, 3]}))
    for size in BAD_SIZES:
        expect_at(REGISTER, CLASSICAL, 2, image(quantum=[7, 8], classical=[1, 2, size]))
    heading("2: the register that passes a total of 4,096")
    for sort, name in (QUANTUM, "quantum"), (CLASSICAL, "classical"):
        expect_at(REGISTER, sort, 1, image(**{name: [4096, 1]}))
        expect_at(REGISTER, sort, 1, image(**{name: [1, 4096, 1]}))
        expect_at(REGISTER, sort, 2, image(**{name: [4095, 1, 1]}))
        expect_at(REGISTER, sort, 2, image(**{name: [2048, 2047, 2, 0]}))
        expect_at(REGISTER, sort, 1, image(**{name: [4000, 97, 0]}))
        expect_at(REGISTER, sort, 4096, image(**{name: [1] * 4097}))
        # a total that wraps
        expect_at(REGISTER, sort, 1, image(**{name: [1, WORD_MAX, 1]}))
        expect_at(REGISTER, sort, 1, image(**{name: [4096, 2**64 - 4096]}))
        expect_at(REGISTER, sort, 0, image(**{name: [HALF, HALF]}))
        expect_at(REGISTER, sort, 1, image(**{name: [4095, 2**32 - 4095]}))
        expect(ACCEPTED, image(**{name: [1] * 4096}))
    expect(ACCEPTED, image(quantum=[4096], classical=[4096]), image(quantum=[4000, 96], classical=[1, 4095]))
    heading("2: quantum registers first")
    expect_at(REGISTER, QUANTUM, 1, image(quantum=[1, 0, 0], classical=[0]))
    expect_at(REGISTER, QUANTUM, 1, image(quantum=[4096, 1], classical=[0, 1]))
    expect_at(REGISTER, CLASSICAL, 0, image(quantum=[4096], classical=[0, 4097]))
    expect_at(REGISTER, CLASSICAL, 1, image(quantum=[4096], classical=[4096, 1, 0]))


# -------------------------------------------------------------- 3: gates


def gates():
    heading("3: gate entries. There are two main statements and three further ones")
    statements = dict(main=[NOTHING] * 2, further=[NOTHING] * 3)

    def third(entry):
        """Two good gates, this one, then a bad one."""
        return image(quantum=[1], gates=[opaque(1, 1), gate(0, 0, 2, 1), entry, opaque(17, 17)], **statements)

    def alone(entry):
        return image(gates=[entry], **statements)

    bad = [opaque(17, 0), opaque(0, 17), (0, 0, 2, 0, 0), (16, 16, 2, 2, 3)]
    bad += [(far, 1, 0, 0, 0) for far in FAR] + [(1, far, 0, 0, 0) for far in FAR]
    bad += [(1, 1, far, 0, 0) for far in FAR] + [(1, 1, 2**32 + 1, 2, 1), (1, 1, HALF + 1, 2, 1)]
    # opaque with a run
    bad += [(1, 1, 0, *run) for run in ((1, 0), (0, 1), (2, 1), (2, 0), (5, 0), (WORD_MAX, 1), (HALF, HALF))]
    # not all of further statements
    bad += [gate(1, 1, *run) for run in ((0, 1), (1, 1), (1, 2), (1, 4), (0, 5), (2, 4), (4, 2), (5, 1), (6, 0))]
    bad += [gate(1, 1, *run) for run in ((6, 1), (0, 6), (7, 0), (HALF, 0), (WORD_MAX, 0), (2**32 + 2, 0))]
    # runs that wrap
    bad += [gate(1, 1, *run) for run in ((2, WORD_MAX), (2, 2**64 - 2), (3, 2**64 - 1), (2, HALF), (HALF, HALF))]
    bad += [gate(1, 1, *run) for run in ((WORD_MAX, 1), (WORD_MAX, 2), (2**64 - 3, 8), (HALF, HALF + 5), (5, WORD_MAX))]
    bad += [gate(1, 1, *run) for run in ((2, 2**32), (2**32, 2**32), (2**32 + 2, 3))]
    for entry in bad:
        expect_at(GATE, GATES, 0, alone(entry))
        expect_at(GATE, GATES, 2, third(entry))
    heading("Gate entries that are good: bodies of further statements, empty ones anywhere")
    good = [opaque(0, 0), opaque(16, 16), gate(16, 16, 2, 3), gate(0, 0, 2, 1), gate(0, 0, 4, 1), gate(0, 0, 3, 2)]
    good += [gate(1, 1, first, 0) for first in range(6)]
    expect(ACCEPTED, *map(alone, good), image(gates=good, **statements))
    expect(ACCEPTED, image(gates=[gate(0, 0, 0, 0)]), image(gates=[gate(0, 0, 0, 1)], further=[NOTHING]))
    expect_at(GATE, GATES, 0, image(gates=[gate(0, 0, 0, 1)]))
    expect_at(GATE, GATES, 0, image(gates=[gate(0, 0, 0, 1)], main=[NOTHING]))
    expect_at(GATE, GATES, 0, image(gates=[gate(0, 0, 1, 0)]))
    expect_at(GATE, GATES, 127, image(gates=[opaque(0, 0)] * 127 + [opaque(0, 17)]))


# --------------------------------------------------- a statement's places
# One of everything, so that a statement can be judged in main, inside an if and in a body.

LISTS = dict(
    quantum=(2, 2, 3, 1),
    classical=(2, 3, 1),
    arguments=((0, 0), (1, 0)),
    parameters=(0, 1),
    expressions=(PI_ENTRY, integer(7)),
)


def made_of(main, further, body, below=(opaque(1, 2),), formals=(2, 2), above=(), **lists):
    """An image of these statements, with a gate of this body between others."""
    gates = [*below, gate(*formals, *body), *above]
    return image(gates=gates, main=main, further=further, **{**LISTS, **lists})


def in_main(statement, **lists):
    """The statement in main, number 1; 2 is a further one, for an if to take."""
    return made_of([NOTHING, statement], [(RESET, 0)], (0, 0), **lists)


def in_if(statement, **lists):
    """The statement inside an if, number 2; the if is number 1."""
    return made_of([NOTHING, (IF, 0, 5, 2)], [statement], (3, 0), **lists)


def in_body(statement, **lists):
    """The statement in a body, number 2, after another."""
    return made_of([NOTHING], [NOTHING, statement], (1, 2), **lists)


JUDGED = {in_main: 1, in_if: 1, in_body: 2}  # the statement that has the flaw
ALL, OUTER, INNER = (in_main, in_if, in_body), (in_main, in_body), (in_main, in_if)
# Where statements of each kind may stand.
PLACES = {U: ALL, CX: ALL, CALL: ALL, BARRIER: OUTER, MEASURE: INNER, RESET: INNER, IF: (in_main,)}


def everywhere(number, statement, **lists):
    """A vector of the statement wherever its kind may stand."""
    for made_in in PLACES[statement[0]]:
        words = made_in(statement, **lists)
        if number == ACCEPTED:
            expect(ACCEPTED, words)
        else:
            expect_at(number, MAIN, JUDGED[made_in], words)


# A good statement of each kind.
GOOD = {
    U: (U, 0, 1, 0, 1),
    CX: (CX, 0, 1),
    CALL: (CALL, 0, 1, 0),
    BARRIER: (BARRIER, 0, 2),
    MEASURE: (MEASURE, 0, 0),
    RESET: (RESET, 1),
    IF: (IF, 2, WORD_MAX, 2),
}


# --------------------------------------------------------------- 4: form


def kinds():
    heading("Good statements of each kind, in main, inside an if and in a body")
    for statement in GOOD.values():
        everywhere(ACCEPTED, statement)
    heading("4: kinds that are not allowed there")
    unknown = [(0,), (8,), (9,), (16,), (WORD_MAX,), (HALF,)] + [(far + 6, 0) for far in (2**32, HALF, 256, 8)]
    for made_in in ALL:
        for statement in unknown:
            expect_at(FORM, MAIN, JUDGED[made_in], made_in(statement))
    for statement in (MEASURE, 0, 0), (RESET, 0), (IF, 0, 5, 1), (IF, 0, 5, 2):
        expect_at(FORM, MAIN, 2, in_body(statement))
    for inner in (U, 0, 0, 0, 0), (CX, 0, 1), (CALL, 0, 0, 0), (RESET, 0):
        expect_at(FORM, MAIN, 0, made_of([], [(IF, 0, 5, 1), inner], (0, 1)))
    for statement in NOTHING, (BARRIER, 0, 2), (IF, 0, 5, 2), (IF, 0, 5, 1), (IF, 9, 9, 9):
        expect_at(FORM, MAIN, 1, in_if(statement))


def replaced(statement, at, word):
    words = (*statement, 0, 0, 0, 0)[:5]
    return *words[:at], word, *words[at + 1 :]


UNUSED = {CX: (3, 4), CALL: (4,), BARRIER: (3, 4), MEASURE: (3, 4), RESET: (2, 3, 4), IF: (4,)}


def unused_words():
    heading("4: unused words")
    for kind, unused in UNUSED.items():
        for at in unused:
            for word in 1, 2**32 if at % 2 else HALF:
                everywhere(FORM, replaced(GOOD[kind], at, word))


# Of each kind, its words that are numbers of entries, and how many of those there are.
NUMBERS = {
    U: {1: 2, 2: 2, 3: 2, 4: 2},
    CX: {1: 2, 2: 2},
    CALL: {1: 2},
    MEASURE: {1: 2, 2: 2},
    RESET: {1: 2},
    IF: {1: 3, 3: 3},
}


def numbers():
    heading("4: numbers out of range. A list's count, and numbers that wrap or are cut to good ones")
    for kind, positions in NUMBERS.items():
        for at, count in positions.items():
            for word in count, GOOD[kind][at] + 2**32, GOOD[kind][at] + HALF, WORD_MAX:
                everywhere(FORM, replaced(GOOD[kind], at, word))
    heading("4: an if takes a further statement, not a main one")
    for main, number in (1, 1), (1, 2), (2, 2), (3, 3), (3, 4), (1, 0), (2, 0), (2, 1), (3, 1), (3, 2), (1, 3), (3, 5):
        for at in sorted({0, main - 1}):
            statements = [(RESET, 0)] * main
            statements[at] = IF, 0, 0, number
            lists = dict(main=statements, further=[(RESET, 0)] * 2, arguments=[(0, 0)])
            expect(ACCEPTED if main <= number < main + 2 else FORM, image(quantum=[1], classical=[1], **lists))
    heading("4: a statement is no gate")
    lists = dict(quantum=[1], gates=[opaque(0, 0)], arguments=[(0, 0)], parameters=[0], expressions=[PI_ENTRY])
    expect_at(FORM, MAIN, 1, image(main=[(U, 0, 0, 0, 0), (CALL, 1, 0, 0)], **lists))
    expect_at(FORM, MAIN, 1, image(main=[(U, 0, 0, 0, 0), (CALL, 1, 1, 1)], **lists))
    heading("4: lists of no entries")
    without = dict(quantum=[1], arguments=[(0, 0)])
    expect_at(FORM, MAIN, 0, image(classical=[1], main=[(IF, 0, 0, 1)], **without))
    expect_at(FORM, MAIN, 0, image(main=[(IF, 0, 0, 1)], further=[(RESET, 0)], **without))
    expect_at(FORM, MAIN, 0, image(main=[(RESET, 0)]))
    expect_at(FORM, MAIN, 0, image(main=[(U, 0, 0, 0, 0)], **without))
    expect_at(FORM, MAIN, 0, image(main=[(U, 0, 0, 0, 0)], quantum=[1], expressions=[PI_ENTRY]))
    expect_at(FORM, MAIN, 0, image(quantum=[1], classical=[1], main=[(MEASURE, 0, 0)]))
    expect_at(FORM, MAIN, 0, image(quantum=[1], main=[(CX, 0, 0)]))
    expect_at(FORM, MAIN, 0, image(main=[(CALL, 0, 0, 0)]))


def call_runs():
    heading("4: the runs of a call of three parameters and three arguments, in lists of four")
    lists = dict(below=[opaque(3, 3)], parameters=[0] * 4, arguments=[(0, 0)] * 4)
    for first in 0, 1:
        everywhere(ACCEPTED, (CALL, 0, first, 1 - first), **lists)
    for first in 2, 3, 4, 5, 2**32, HALF, WORD_MAX, 2**64 - 2, 2**64 - 3:
        everywhere(FORM, (CALL, 0, first, 0), **lists)
        everywhere(FORM, (CALL, 0, 0, first), **lists)
    heading("4: empty runs of a call start at most at the list's count")
    for first in 0, 1, 2:
        everywhere(ACCEPTED, (CALL, 0, first, 2 - first), below=[opaque(0, 0)])
    for first in 3, 4, 2**32, HALF, WORD_MAX:
        everywhere(FORM, (CALL, 0, first, 0), below=[opaque(0, 0)])
        everywhere(FORM, (CALL, 0, 0, first), below=[opaque(0, 0)])
    expect(ACCEPTED, *(image(gates=[entry], main=[(CALL, 0, 0, 0)]) for entry in (opaque(0, 0), gate(0, 0, 1, 0))))
    for run in (1, 0), (0, 1):
        expect_at(FORM, MAIN, 0, image(gates=[opaque(0, 0)], main=[(CALL, 0, *run)]))
    heading("Calls of 16 parameters and 16 arguments, and 4: one short of each")
    for parameters, arguments, number in (16, 16, ACCEPTED), (15, 16, FORM), (16, 15, FORM), (17, 17, ACCEPTED):
        lists = dict(parameters=[0] * parameters, arguments=[(0, 0)] * arguments)
        everywhere(number, (CALL, 0, 0, 0), below=[opaque(16, 16)], **lists)


def barrier_runs():
    heading("4: the run of a barrier, in a list of four")
    lists = dict(arguments=[(0, 0)] * 4)
    for first, count in (0, 0), (4, 0), (3, 1), (0, 4), (2, 2), (1, 3):
        everywhere(ACCEPTED, (BARRIER, first, count), **lists)
    bad = [(5, 0), (4, 1), (3, 2), (0, 5), (1, 4), (HALF, 0), (WORD_MAX, 0), (2**32, 0), (0, 2**32), (0, HALF)]
    bad += [(0, WORD_MAX), (1, WORD_MAX), (4, WORD_MAX), (WORD_MAX, 1), (WORD_MAX, 2), (HALF, HALF), (HALF, HALF + 2)]
    bad += [(2**64 - 2, 4), (3, 2**64 - 2), (2**32, 2**32)]
    for first, count in bad:
        everywhere(FORM, (BARRIER, first, count), **lists)
    expect(ACCEPTED, image(main=[NOTHING]), image(quantum=[4096], main=[(BARRIER, 0, 4000)], arguments=[(0, 0)] * 4000))
    expect(FORM, image(main=[(BARRIER, 0, 1)]), image(main=[(BARRIER, 1, 0)]))


# ------------------------------------------------------- 8: upward calls


def upward_calls():
    heading("8: bodies call gates of smaller number only, main any. The statement is in gate 1's body")
    lists = dict(below=[opaque(1, 2)], above=[opaque(1, 2), gate(0, 0, 0, 0)])
    expect(ACCEPTED, in_body((CALL, 0, 0, 0), **lists))
    for called in 1, 2, 3:
        expect_at(UPWARD, MAIN, 2, in_body((CALL, called, 0, 0), **lists))
        expect(ACCEPTED, in_main((CALL, called, 0, 0), **lists), in_if((CALL, called, 0, 0), **lists))
    for called in 4, HALF, HALF + 1, WORD_MAX:
        expect_at(FORM, MAIN, 2, in_body((CALL, called, 0, 0), **lists))

    def calls(*called):
        """Gate i has a body that calls gate called[i]."""
        gates = [gate(0, 0, number, 1) for number in range(len(called))]
        return image(gates=gates, further=[(CALL, number, 0, 0) for number in called])

    expect_at(UPWARD, MAIN, 0, calls(0))
    expect_at(UPWARD, MAIN, 0, calls(1, 0))
    two_calls = [(CALL, 0, 0, 0), (CALL, 1, 0, 0)]
    expect_at(UPWARD, MAIN, 1, image(gates=[opaque(0, 0), gate(0, 0, 0, 2)], further=two_calls))
    for called in (1, 1, 0), (0, 0, 1), (2, 0, 1):
        expect_at(UPWARD, MAIN, 0, calls(*called))
    chain = [gate(0, 0, 0, 0)] + [gate(0, 0, number, 1) for number in range(127)]
    calling = [(CALL, number, 0, 0) for number in range(127)]
    expect(ACCEPTED, image(gates=chain, further=calling))
    expect_at(UPWARD, MAIN, 126, image(gates=chain, further=calling[:-1] + [(CALL, 127, 0, 0)]))
    heading("8: a shared body calls downward from one gate and not from another")
    shared = [opaque(0, 0), gate(0, 0, 0, 1), gate(0, 0, 0, 1), gate(0, 0, 0, 1)]
    expect(ACCEPTED, image(gates=shared, further=[(CALL, 0, 0, 0)]))
    for called in 1, 2, 3:
        expect_at(UPWARD, MAIN, 0, image(gates=shared, further=[(CALL, called, 0, 0)]))


# -------------------------------------------------------- 6: expressions

# Entries that are bad as number 1, in main and where there are two variables; 0 is a good one.
BAD_ENTRIES = (
    *((kind, 0, 0) for kind in (16, 17, 256, 2**32 + 2, HALF, HALF + 2, WORD_MAX)),
    (PI, 1, 0), (PI, 0, 1), (PI, WORD_MAX, 0), (PI, 2**32, 0), (PI, 0, HALF), (PI, 0, 2**32),
    (REAL, 2**32, 0), (REAL, 2**32 + 1, 0), (REAL, HALF, 0), (REAL, WORD_MAX, 0), (REAL, 0, 1), (REAL, 1, 2**32),
    (INTEGER, 0, 1), (INTEGER, 5, HALF), (INTEGER, 0, WORD_MAX),
    (VARIABLE, 2, 0), (VARIABLE, 0, 1), (VARIABLE, 16, 0), (VARIABLE, 2**32, 0), (VARIABLE, HALF, 0),
    (VARIABLE, WORD_MAX, 0), (VARIABLE, 1, 2**32),
    *((kind, 0, 1) for kind in range(NEGATE, SQRT + 1)),
    (NEGATE, 0, WORD_MAX), (SIN, 0, 2**32), (SQRT, 0, HALF),
    *((kind, 1, 0) for kind in range(NEGATE, SQRT + 1)),
    *((SIN, operand, 0) for operand in (2, 2**32, HALF, WORD_MAX, (2**64 + 2) // 3, 2**64 - 3)),
    *((kind, *operands) for kind in range(PLUS, POWER + 1) for operands in ((0, 1), (1, 0))),
    *((PLUS, 0, operand) for operand in (2, 2**32, HALF, WORD_MAX)),
    *((PLUS, operand, 0) for operand in (2, 2**32, HALF, WORD_MAX, (2**64 + 2) // 3)),
    (POWER, 1, 1), (POWER, 2, 2), (POWER, WORD_MAX, WORD_MAX),
)
GOOD_ENTRIES = (
    PI_ENTRY, (REAL, 0, 0), (REAL, 1, 0), (REAL, 2**32 - 1, 0), integer(0), integer(HALF), integer(WORD_MAX),
    *((kind, 0, 0) for kind in range(PLUS, SQRT + 1)),
)
# Statements that name expression 1: U by each of its words, a call by two parameters of three and by one.
NAMING = (U, 1, 0, 0, 0), (U, 0, 1, 0, 0), (U, 0, 0, 1, 0), (CALL, 0, 0, 0), (CALL, 0, 1, 0)


def named(entry):
    """Lists in which the entry is expression 1."""
    return dict(below=[opaque(3, 2)], parameters=[1, 0, 1, 0], expressions=[integer(3), entry, PI_ENTRY])


def expressions():
    heading("Good expressions, which U and a call's parameter name")
    for turn, entry in enumerate(GOOD_ENTRIES):
        for statement in (U, 0, 1, 0, 0), (CALL, 0, 0, 0):
            expect(ACCEPTED, ALL[turn % 3](statement, parameters=[1], expressions=[PI_ENTRY, entry]))
    heading("6: bad expressions. In a body there are two variables, in main none")
    for turn, entry in enumerate(BAD_ENTRIES):
        statement = NAMING[turn % len(NAMING)]
        for made_in in in_body, INNER[turn % 2]:
            expect_at(EXPRESSION, MAIN, JUDGED[made_in], made_in(statement, **named(entry)))


def named_expressions():
    heading("6: the bad expression named by each word of a U and by a parameter of a call")
    for statement in NAMING:
        everywhere(EXPRESSION, statement, **named((16, 0, 0)))
    many = dict(below=[opaque(16, 0)], expressions=[PI_ENTRY, (16, 0, 0)])
    for at in 0, 7, 15:
        everywhere(EXPRESSION, (CALL, 0, 0, 0), parameters=[0] * at + [1] + [0] * (15 - at), **many)
    everywhere(ACCEPTED, (CALL, 0, 1, 0), parameters=[1] + [0] * 16 + [1], **many)
    heading("6: a parameter's number, in a list of two expressions")
    for number in 2, 3, 2**32, HALF, (2**64 + 2) // 3, WORD_MAX:
        everywhere(EXPRESSION, (CALL, 0, 1, 0), parameters=[0, number])
    everywhere(ACCEPTED, (CALL, 0, 1, 0), parameters=[2, 1, 2])


def variables_and_operands():
    heading("6: variables, below the gate's parameter count, none in main")
    for parameters in 0, 1, 2, 16:
        for number in sorted({0, 1, max(parameters, 1) - 1, parameters, 16}):
            lists = dict(formals=(parameters, 2), above=[opaque(16, 2)], expressions=[PI_ENTRY, variable(number)])
            vector(in_body((U, 1, 0, 1, 0), **lists))
    for number in 0, 1:
        lists = dict(expressions=[variable(number), (NEGATE, 0, 0)])
        expect(EXPRESSION, in_main((U, 1, 1, 1, 0), **lists), in_if((U, 1, 1, 1, 0), **lists))
        expect(ACCEPTED, in_body((U, 1, 1, 1, 0), **lists))
    heading("6: a flaw below the expression that is named")
    for entry in (16, 0, 0), (PI, 0, 1), variable(2), (NEGATE, 1, 0), (PLUS, 0, 5):
        for user in (NEGATE, 1, 0), (PLUS, 1, 0), (PLUS, 0, 1):
            everywhere(EXPRESSION, (U, 0, 3, 0, 0), expressions=[PI_ENTRY, entry, user, (SQRT, 2, 0)])


def levels():
    heading("Expressions of 32 levels, and 6: of 33")

    def left(level):
        return PLUS, level, 0

    def right(level):
        return PLUS, 0, level

    def doubled(level):
        return POWER, level, level

    def single(level):
        return SIN, level, 0

    for step, made_in in (left, in_main), (right, in_if), (doubled, in_main), (doubled, in_body), (single, in_body):
        chain = [integer(1), *map(step, range(32))]
        for statement in (U, 0, 31, 1, 0), (CALL, 0, 0, 0):
            expect(ACCEPTED, made_in(statement, expressions=chain[:32], parameters=[31]))
        for statement in (U, 31, 0, 32, 0), (CALL, 0, 0, 0):
            expect(EXPRESSION, made_in(statement, expressions=chain, parameters=[32]))
    heading("Levels of variables, gaps between operands, and a deep expression that is no operand")
    variables = [variable(1), *((PLUS, level, level) for level in range(32))]
    expect(ACCEPTED, in_body((U, 31, 31, 31, 0), expressions=variables))
    expect(EXPRESSION, in_body((U, 31, 31, 32, 0), expressions=variables))
    expect(EXPRESSION, in_main((U, 31, 31, 31, 0), expressions=variables))
    gaps = [PI_ENTRY, (16, 1, 1)] + [entry for level in range(31) for entry in ((NEGATE, 2 * level, 0), (99, 9, 9))]
    expect(ACCEPTED, in_main((U, 62, 0, 60, 0), expressions=gaps))
    expect(EXPRESSION, in_main((U, 64, 0, 60, 0), expressions=gaps + [(SQRT, 62, 0)]))
    expect(EXPRESSION, in_main((U, 63, 0, 60, 0), expressions=gaps))
    forked = [PI_ENTRY, *((NEGATE, level, 0) for level in range(31)), (PLUS, 0, 30), (PLUS, 30, 0), (PLUS, 0, 31)]
    everywhere(ACCEPTED, (U, 31, 32, 33, 0), expressions=forked)
    everywhere(EXPRESSION, (U, 31, 32, 34, 0), expressions=forked)
    long = [PI_ENTRY, *((PLUS, level, level) for level in range(99))]
    expect(EXPRESSION, in_main((U, 99, 0, 0, 0), expressions=long))
    expect(ACCEPTED, in_main((U, 31, 0, 0, 0), expressions=long[:40]))
    # 2^31 paths to the bad leaf
    expect(EXPRESSION, in_main((U, 31, 31, 31, 0), expressions=[(16, 0, 0), *map(doubled, range(31))]))


# ---------------------------------------------------------- 5: arguments


def arguments():
    heading("5: registers and indices, in main. Quantum sizes 2 2 3 1, classical sizes 2 3 1")
    good = (0, 1), (0, 2), (2, 0), (2, 3), (3, 0), (3, 1)
    bad = [(0, 3), (2, 4), (3, 2), (4, 0), (4, 1), (5, 0), (WORD_MAX, 0), (HALF, 0), (2**32, 0), (0, 2**32 + 1)]
    bad += [(0, HALF), (0, HALF + 1), (0, WORD_MAX), (WORD_MAX, WORD_MAX), (2**64 - 9, 0), (2**64 - 4, 1)]
    for argument in good:
        for statement, made_in in ((U, 0, 0, 0, 0), in_main), ((RESET, 0), in_if), ((BARRIER, 0, 1), in_main):
            expect(ACCEPTED, made_in(statement, arguments=[argument]))
    for turn, argument in enumerate(bad):
        one, other = (in_main, in_if) if turn % 2 else (in_if, in_main)
        for statement, made_in in ((U, 0, 0, 0, 0), one), ((RESET, 0), other), ((BARRIER, 0, 1), in_main):
            expect_at(ARGUMENT, MAIN, 1, made_in(statement, arguments=[argument]))


def measured_arguments():
    heading("5: a measure's quantum argument, and its classical one")
    for argument in (0, 0), (0, 2), (1, 3), (2, 0), (2, 1):
        expect(ACCEPTED, in_main((MEASURE, 0, 1), arguments=[(0, 1), argument]))
    for argument in (0, 3), (1, 4), (2, 2), (3, 0), (3, 1), (4, 0), (WORD_MAX, 0), (0, WORD_MAX), (HALF, 1):
        for made_in in INNER:
            expect_at(ARGUMENT, MAIN, 1, made_in((MEASURE, 0, 1), arguments=[(0, 1), argument]))
    for argument in (0, 3), (1, 3), (4, 0), (WORD_MAX, 0), (0, WORD_MAX):
        for made_in in INNER:
            expect_at(ARGUMENT, MAIN, 1, made_in((MEASURE, 0, 1), arguments=[argument, (2, 1)]))
    expect(ACCEPTED, in_main((MEASURE, 0, 0), arguments=[(2, 1)]), in_main((MEASURE, 1, 0), arguments=[(1, 3), (3, 1)]))
    expect(ARGUMENT, in_main((MEASURE, 0, 0), arguments=[(1, 3)]), in_main((MEASURE, 0, 0), arguments=[(3, 1)]))


def formal_arguments():
    heading("5: formals, in a body. The gate has two")
    bad = (2, 0), (3, 0), (0, 1), (1, 1), (1, 2), (0, WORD_MAX), (1, HALF), (WORD_MAX, 0), (HALF, 0), (2**32, 0)
    for argument in bad:
        for statement in (U, 0, 0, 0, 0), (CX, 0, 1), (CX, 1, 0), (CALL, 0, 0, 0), (BARRIER, 0, 2), (BARRIER, 0, 1):
            expect_at(ARGUMENT, MAIN, 2, in_body(statement, arguments=[argument, (0, 0)]))
    for formals, formal in (0, 0), (1, 0), (1, 1), (16, 15), (16, 16):
        vector(in_body((U, 0, 0, 0, 0), formals=(0, formals), above=[opaque(9, 9)], arguments=[(formal, 0)]))


def each_argument():
    heading("5: each argument of a CX, a call and a barrier")
    for made_in in ALL:
        good, bad = [(0, 0)], [(4, 1)]
        expect_at(ARGUMENT, MAIN, JUDGED[made_in], made_in((CX, 0, 1), arguments=good + bad))
        expect_at(ARGUMENT, MAIN, JUDGED[made_in], made_in((CX, 1, 0), arguments=good + bad))
        for at in 0, 8, 15:
            row = good * at + bad + good * (15 - at)
            lists = dict(below=[opaque(0, 16)], arguments=row)
            expect_at(ARGUMENT, MAIN, JUDGED[made_in], made_in((CALL, 0, 0, 0), **lists))
            if made_in != in_if:
                expect_at(ARGUMENT, MAIN, JUDGED[made_in], made_in((BARRIER, 0, 16), arguments=row))
                expect(ACCEPTED, made_in((BARRIER, at + 1, 15 - at), arguments=row))
    heading("5: without registers or formals")
    lists = dict(main=[(RESET, 0)], arguments=[(0, 0)])
    expect_at(ARGUMENT, MAIN, 0, image(classical=[1], **lists))
    expect_at(ARGUMENT, MAIN, 0, image(quantum=[1], main=[(MEASURE, 0, 0)], arguments=[(0, 0)]))


# -------------------------------------------------------------- 7: sizes


SIZED = dict(quantum=(1, 2, 3, 2), classical=(3, 1, 2))
WHOLES = dict(SIZED, arguments=[(register, 0) for register in range(4)])
INDICES = dict(SIZED, arguments=[(2, 1), (2, 2), (2, 0), (0, 1)])


def sizes():
    heading("7: sizes. Quantum registers of 1, 2, 3 and 2 qubits, classical ones of 3, 1 and 2 bits")
    for kind, seconds in (CX, range(4)), (MEASURE, range(3)):
        for first in range(4):
            for second in seconds:
                for made_in in INNER:
                    vector(made_in((kind, first, second), **WHOLES))
    for kind in CX, MEASURE:
        for first, second in (0, 1), (0, 2), (2, 1), (3, 2), (1, 3):
            expect(ACCEPTED, *(made_in((kind, first, second), **INDICES) for made_in in INNER))


def sizes_of_calls():
    heading("7: the sizes of a call's arguments, the first, the largest or another the odd one")
    accepted = "1 3 11 13 31 33 113 131 311 133 313 331 333 111 3131 1333 1111111111111112 3333333333333333"
    unequal = "23 32 123 132 213 231 312 321 223 232 322 233 323 332 2311 1123 3112 2113 3332 2333 1323 22223"
    unequal += " 1111111111111123 2222222222222223 3222222222222222"
    rows = {ACCEPTED: accepted.split(), SIZES: unequal.split()}
    for number, all_rows in rows.items():
        for turn, row in enumerate(all_rows):
            arguments = [("123".index(size), 0) for size in row]
            gates = dict(below=[opaque(0, len(row))], formals=(0, len(row)))
            for made_in, called in (in_main, 0), ((in_main, 1), (in_if, 0))[turn % 2]:
                expect(number, made_in((CALL, called, 0, 0), **SIZED, **gates, arguments=arguments))
    heading("Sizes that are no matter: of a barrier, of indices, of formals")
    expect(ACCEPTED, in_main((BARRIER, 0, 4), **WHOLES))
    expect(ACCEPTED, in_main((CALL, 0, 0, 0), **INDICES, below=[opaque(0, 4)]))
    formals = dict(SIZED, below=[opaque(0, 3)], formals=(0, 3), arguments=[(0, 0), (1, 0), (2, 0)])
    expect(ACCEPTED, *(in_body(statement, **formals) for statement in ((CX, 1, 2), (CALL, 0, 0, 0))))
    expect(SIZES, in_main((CX, 1, 2), **formals), in_main((CALL, 0, 0, 0), **formals))


# --------------------------------------------------- two flaws and order


# Arguments 0 and 1 are of unequal sizes, 2 is bad everywhere, and so are expression 1 and parameter 1.
FLAWED_LISTS = dict(
    quantum=(2, 3),
    classical=(2, 3),
    below=[opaque(1, 2)],
    formals=(1, 2),
    above=[opaque(1, 2)],
    arguments=[(0, 0), (1, 0), (9, 9)],
    parameters=[0, 1],
    expressions=[PI_ENTRY, (16, 0, 0)],
)


def order_in_a_statement():
    heading("Two flaws in one statement: 4 before 8 before 6 before 5 before 7")
    for parameter, argument, unused in (1, 0, 1), (1, 1, 1), (0, 1, 1), (0, 0, 1), (1, 1, 0), (1, 0, 0), (0, 1, 0):
        number = FORM if unused else EXPRESSION if parameter else ARGUMENT
        everywhere(number, (CALL, 0, parameter, argument, unused), **FLAWED_LISTS)
    for first, argument in (1, 2), (0, 2), (1, 0), (1, 3), (2, 2):
        number = FORM if argument == 3 or first == 2 else EXPRESSION if first else ARGUMENT
        everywhere(number, (U, 0, first, 0, argument), **FLAWED_LISTS)
    for call in (1, 0, 0, 1), (1, 1, 1, 1), (1, 2, 0), (1, 0, 2), (1, HALF, 0), (1, 0, WORD_MAX), (3, 0, 0):
        expect_at(FORM, MAIN, 2, in_body((CALL, *call), **FLAWED_LISTS))
    for call in (1, 1, 0), (1, 0, 1), (1, 1, 1), (2, 1, 1):
        expect_at(UPWARD, MAIN, 2, in_body((CALL, *call), **FLAWED_LISTS))
    for statement, number in (
        ((CX, 0, 1), SIZES), ((CX, 0, 1, 1), FORM), ((CX, 0, 1, 0, 1), FORM), ((CX, 0, 2), ARGUMENT),
        ((CX, 2, 3), FORM), ((CX, 2, 0, 1), FORM), ((MEASURE, 0, 1), SIZES), ((MEASURE, 0, 1, 0, 1), FORM),
        ((MEASURE, 1, 2), ARGUMENT), ((MEASURE, 2, 3), FORM), ((RESET, 2), ARGUMENT), ((RESET, 2, 1), FORM),
        ((CALL, 0, 0, 0), SIZES), ((CALL, 0, 1, 0), EXPRESSION), ((CALL, 0, 0, 1), ARGUMENT),
    ):
        for made_in in INNER:
            expect_at(number, MAIN, 1, made_in(statement, **FLAWED_LISTS))
    for parameter, number in (0, ARGUMENT), (1, EXPRESSION):
        for made_in in INNER:  # arguments 0 and 1, of unequal sizes, and 2
            expect_at(number, MAIN, 1, made_in((CALL, 0, parameter, 0), **dict(FLAWED_LISTS, below=[opaque(1, 3)])))
    expect_at(FORM, MAIN, 1, in_main((BARRIER, 2, 1, 1), **FLAWED_LISTS))
    expect_at(FORM, MAIN, 1, in_main((BARRIER, 2, 2), **FLAWED_LISTS))
    heading("An if's own flaws with its inner statement's: 4")
    for statement in (IF, 0, 0, 2, 1), (IF, 9, 0, 2), (IF, 0, 0, 3), (IF, 0, 0, 1):
        words = image(quantum=[1], classical=[1], main=[NOTHING, statement], further=[(RESET, 0)], arguments=[(1, 0)])
        expect_at(FORM, MAIN, 1, words)


def order_of_lists():
    heading("The order of the lists: a flaw in each, and then one less from the front")
    whole = dict(
        quantum=[2, 0, 3], classical=[1, 4097], gates=[opaque(0, 0), opaque(17, 0), gate(0, 1, 5, 2), gate(0, 1, 3, 2)],
        main=[NOTHING, (RESET, 1), (8,)], further=[(U, 0, 0, 0, 0), (CALL, 3, 0, 0), (CX, 0, 0), (9,)],
        arguments=[(0, 0), (1, 9)], expressions=[(VARIABLE, 0, 0)],
    )
    words = image(**whole)
    expect(CONTENTS, changed(words, {0: len(words) + 1}), words + [0])
    repairs = (
        (REGISTER, QUANTUM, 1, "quantum", [2, 2, 3]),
        (REGISTER, CLASSICAL, 1, "classical", [1, 4095]),
        (GATE, GATES, 1, "gates", [opaque(0, 0), opaque(16, 0), gate(0, 1, 5, 2), gate(0, 1, 3, 2)]),
        (ARGUMENT, MAIN, 1, "arguments", [(0, 0), (1, 2)]),
        (FORM, MAIN, 2, "main", [NOTHING, (CALL, 1, 0, 0), (RESET, 1)]),
        (FORM, MAIN, 1, "main", [NOTHING, (RESET, 1), (RESET, 1)]),
        (FORM, MAIN, 6, "further", [(U, 0, 0, 0, 0), (CALL, 3, 0, 0), (CX, 0, 0), (U, 0, 0, 0, 0)]),
        (EXPRESSION, MAIN, 6, "expressions", [integer(0)]),
        (UPWARD, MAIN, 4, "further", [(U, 0, 0, 0, 0), (CALL, 2, 0, 0), (CX, 0, 0), (U, 0, 0, 0, 0)]),
    )
    for number, which, entry, name, repaired in repairs:
        expect_at(number, which, entry, image(**whole))
        whole[name] = repaired
    expect(ACCEPTED, image(**whole))


def first_bad_statement():
    heading("The first bad statement: main in order, then the bodies by gate number, each in order")
    bad = (8,)
    for main, further, entry in (
        ([NOTHING, bad, bad], [bad] * 4, 1),
        ([bad, NOTHING, bad], [bad] * 4, 0),
        ([NOTHING] * 3, [bad, bad, bad, bad], 5),
        ([NOTHING] * 3, [bad, bad, NOTHING, bad], 6),
        ([NOTHING] * 3, [bad, bad, NOTHING, NOTHING], 3),
        ([NOTHING] * 3, [NOTHING, bad, NOTHING, NOTHING], 4),
    ):
        gates = [gate(0, 0, 5, 2), opaque(0, 0), gate(0, 0, 3, 2)]
        expect_at(FORM, MAIN, entry, image(gates=gates, main=main, further=further))
    heading("An if's place for what is wrong with its inner statement, before the bodies and after main statements")
    lists = dict(quantum=[1, 2, 3], classical=[1], gates=[opaque(1, 1), gate(0, 1, 2, 2)], parameters=[0, 1])
    lists |= dict(arguments=[(0, 0), (1, 0), (2, 0), (9, 0)], expressions=[PI_ENTRY, (16, 0, 0)])
    for inner, number in (
        ((CX, 1, 2), SIZES), ((RESET, 3), ARGUMENT), ((U, 0, 1, 0, 0), EXPRESSION), ((CALL, 0, 1, 0), EXPRESSION),
        ((RESET, 4), FORM), ((BARRIER, 0, 1), FORM), ((CALL, 0, 0, 3), ARGUMENT),
    ):
        main = [(IF, 0, 0, 4), (IF, 0, 0, 5)]
        further = [NOTHING, (9,), (RESET, 2), inner]
        expect_at(number, MAIN, 1, image(main=main, further=further, **lists))


# ------------------------------------------------ sharing and what is not read


def sharing():
    heading("Shared bodies, which are judged in each gate's scope")
    lists = dict(arguments=[(0, 0), (1, 0), (15, 0)], parameters=[2, 3])
    lists |= dict(expressions=[PI_ENTRY, integer(1), variable(0), variable(15)])

    def body_of(statement, *scopes):
        """Gates of so many parameters and arguments that share a statement."""
        gates = [opaque(1, 1)] + [gate(*scope, 1, 1) for scope in scopes]
        return image(quantum=[1], gates=gates, main=[NOTHING], further=[statement], **lists)

    for statement in (U, 0, 2, 1, 0), (U, 0, 3, 1, 0), (U, 0, 1, 1, 1), (U, 0, 2, 1, 2), (CALL, 0, 1, 2), (CX, 0, 1):
        for formals in (1, 1, 16, 16), (16, 16, 1, 1), (16, 16, 16, 15), (15, 16, 16, 16), (16, 16, 16, 16):
            vector(body_of(statement, formals[:2], formals[2:]))


def overlapping():
    heading("Overlapping bodies, and a statement that a body and an if share")
    further = [(U, 0, 0, 0, 0), (CX, 0, 1), (CALL, 0, 0, 0), (BARRIER, 0, 2)]
    gates = [gate(0, 1, 1, 1), gate(0, 2, 1, 4), gate(1, 2, 2, 2), gate(0, 2, 4, 1), gate(0, 2, 3, 0)]
    shared = dict(quantum=[2, 2], classical=[1], arguments=[(0, 0), (1, 0)], expressions=[PI_ENTRY])
    expect(ACCEPTED, image(gates=gates, main=[(IF, 0, 1, 2)], further=further, **shared))
    expect_at(FORM, MAIN, 0, image(gates=gates, main=[(IF, 0, 1, 4)], further=further, **shared))
    expect_at(ARGUMENT, MAIN, 2, image(gates=[gate(0, 1, 1, 2)], main=[(IF, 0, 1, 2)], further=further, **shared))
    expect_at(FORM, MAIN, 1, image(gates=[gate(0, 1, 1, 1)], main=[(IF, 0, 1, 1)], further=[(RESET, 0)], **shared))
    expect(ACCEPTED, image(main=[(IF, 0, 1, 2), (IF, 0, 2, 2)], further=[(RESET, 0)], **shared))
    heading("Parameters, arguments and expressions that several statements share")
    calls = [(CALL, number, first, second) for number in (0, 1) for first in (0, 1) for second in (0, 1)]
    several = dict(quantum=[2, 2, 2], gates=[opaque(2, 2), opaque(1, 1)], parameters=[0, 0, 0])
    several |= dict(arguments=[(0, 0), (1, 0), (2, 0)], expressions=[PI_ENTRY])
    expect(ACCEPTED, image(main=calls + [(BARRIER, 0, 3), (CX, 0, 1), (CX, 1, 0)], **several))
    expect_at(ARGUMENT, MAIN, 1, image(main=calls, **dict(several, arguments=[(0, 0), (1, 0), (3, 0)])))
    expect_at(EXPRESSION, MAIN, 2, image(main=calls, **dict(several, parameters=[0, 0, 1])))
    expect_at(SIZES, MAIN, 1, image(main=calls, **dict(several, quantum=[2, 2, 3])))


def not_read():
    heading("Entries that nothing uses are not read")
    junk = (WORD_MAX,) * 5
    expect(ACCEPTED, image(further=[junk], arguments=[junk[:2]], parameters=[WORD_MAX], expressions=[junk[:3]]))
    for made_in in ALL:
        for statement in (U, 1, 1, 1, 1), (CALL, 0, 1, 1):
            lists = dict(arguments=[(9, 9), (0, 0), (1, 0), (9, 9)], parameters=[9, 1, 9])
            expect(ACCEPTED, made_in(statement, expressions=[(9, 9, 9), PI_ENTRY, junk[:3]], **lists))
    expect(ACCEPTED, image(gates=[opaque(1, 1), gate(1, 1, 1, 0)], main=[NOTHING], further=[(8,), (IF, 9, 9, 9)]))
    expect(ACCEPTED, image(gates=[gate(0, 0, 1, 1)], further=[(8,), NOTHING, (9, 9, 9, 9, 9)]))
    heading("Registers, gates and bodies are judged though nothing uses them")
    expect_at(REGISTER, QUANTUM, 0, image(quantum=[0]))
    expect_at(REGISTER, CLASSICAL, 0, image(classical=[0]))
    expect_at(GATE, GATES, 0, image(gates=[opaque(0, 17)]))
    expect_at(FORM, MAIN, 0, image(gates=[gate(0, 0, 0, 1)], further=[(8,)]))


# -------------------------------------------------- every word, and random


def every_word():
    heading("One image with something of everything, and each word of it changed")
    words = image(
        quantum=[2, 1, 2],
        classical=[2],
        gates=[opaque(1, 2), gate(1, 1, 4, 2)],
        main=[(CALL, 0, 0, 0), (MEASURE, 0, 2), (IF, 0, 3, 6), (BARRIER, 1, 2)],
        further=[(U, 0, 1, 2, 3), (CALL, 0, 1, 3), (CALL, 1, 0, 1)],
        arguments=[(0, 0), (2, 0), (0, 2), (0, 0), (0, 0)],
        parameters=[0, 2],
        expressions=[PI_ENTRY, (REAL, 2**32 - 1, 0), variable(0), (NEGATE, 2, 0)],
    )
    expect(ACCEPTED, words)
    for at in range(9, len(words)):
        for word in words[at] + 1, words[at] + HALF, WORD_MAX:
            vector(changed(words, {at: word}))


SEED = 20170711


def random_vectors(rounds):
    heading("Random images, accepted and damaged")
    rng = Random(SEED)
    for _ in range(rounds):
        words = random_images.random_program(rng)
        vector(words)
        for _ in range(3):
            vector(random_images.damaged(rng, words))
    heading("Larger ones")
    for _ in range(rounds // 2):
        words = random_images.random_program(rng, large=True)
        if len(words) < 600:
            vector(random_images.damaged(rng, words))


def main():
    lengths()
    contents()
    gate_counts()
    registers()
    gates()
    kinds()
    unused_words()
    numbers()
    call_runs()
    barrier_runs()
    upward_calls()
    expressions()
    named_expressions()
    variables_and_operands()
    levels()
    arguments()
    measured_arguments()
    formal_arguments()
    each_argument()
    sizes()
    sizes_of_calls()
    order_in_a_statement()
    order_of_lists()
    first_bad_statement()
    sharing()
    overlapping()
    not_read()
    every_word()
    random_vectors(40)
    print("\n".join(lines))
    print(*(f"{number}: {counts[number]}" for number in range(9)), file=sys.stderr)


if __name__ == "__main__":
    main()
