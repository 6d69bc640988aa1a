"""Images, depths and lengths lent, with the outcome of the run, printed to standard output.

    python3 -m oracle.vectors.run_vectors

The outcomes are those of reference.py, a second reading of document 01.  The
random part has a fixed seed, so the output is the same everywhere, to the byte.

A line that starts with '#' is a comment.  Every other line holds a run:

    words depth output trace  number place second records written traced sum sum  word word ..

First how many words the image has, the depth, and the lengths of the output and
the trace that are lent.  Then the run's answer: the number, 0 if it finished,
the two places (of a 10: the place and the f32's bits), the records, output words
and trace words; then a sum over the output words and one over the trace words.
The image's words close the line; a line that has none of them takes those of the
line before.  Words are decimal; k*w stands for k words w.

What an image was made for is said beside it, as the listing program writes it or
in part, and the program stops where the reference has another outcome.  The last
lines are runs that the reference could not finish: their outcomes follow by hand.
"""

import sys
from collections import Counter
from itertools import permutations
from random import Random

from oracle.reference import reference
from oracle.reference.reference import (
    ARGUMENTS, BARRIER, CALL, CX, EXPRESSIONS, IF, INTEGER, MAIN, MEASURE, REAL, RESET, U, VARIABLE,
    Image, Outcome,
)
from oracle.vectors import random_images
from oracle.vectors.entries import K1, NOTHING, PI_ENTRY, changed, decimal_words, gate, image, integer, opaque, variable
from oracle.vectors.hundred_images import hundred_cases
from oracle.vectors.random_images import (
    COS, DIVIDE, EXP, F32_PI, LN, MINUS, NEAR_PI, NEGATE, PI_TREE, PLUS, POWER, SIN, SQRT, TAN, TIMES, Case, Scale,
    pi_times, ratio, whole,
)
from oracle.vectors.tally_vectors import CX_ONE, U_ONE, call, program, refused_images, tower

WORD_MAX = 2**64 - 1

# What the replaying program can lend at most.
OUTPUT_ROOM = 81920
TRACE_ROOM = 300
IMAGE_ROOM = 65600

lines = []
stored = []  # each case with the numbers of its line
unfinished = set()  # the cases of images that the reference could not finish
made = set()
images_made = set()
counts = Counter()


def heading(text):
    lines.append("# " + text)


# A polynomial over the 32-bit halves of the words, low half first.  Every product
# is below 2^49.
FACTOR, PRIME = 65599, 4294967291


def checksum(words):
    total = 0
    for word in words:
        for half in word % 2**32, word >> 32:
            total = (total * FACTOR + half) % PRIME
    return total


def numbers_of(outcome):
    """What a line says of an outcome."""
    output, trace = outcome.output, outcome.trace
    return *outcome[:4], len(output), len(trace), checksum(output), checksum(trace)


def vector(words, depth, output_length, trace_length=256):
    """Adds a line, unless this has been had; returns the outcome."""
    case = Case(tuple(words), depth, output_length, trace_length)
    outcome = reference.run(*case)
    if case not in made:
        add_line(case, outcome)
    return outcome


def add_line(case, outcome):
    lent_good = 0 <= case.output_length <= OUTPUT_ROOM and 0 <= case.trace_length <= TRACE_ROOM
    if len(case.words) > IMAGE_ROOM or not lent_good:
        raise AssertionError(f"no room: {len(case.words)} words, {case[1:]}")
    if not all(0 <= word <= WORD_MAX for word in (case.depth, *case.words, *outcome.output, *outcome.trace)):
        raise AssertionError(f"no word: {case}")
    repeated = bool(stored) and stored[-1][0].words == case.words
    made.add(case)
    images_made.add(case.words)
    counts[outcome.number] += 1
    stored.append((case, numbers_of(outcome)))
    numbers = len(case.words), *case[1:], *stored[-1][1]
    lines.append(" ".join((*map(str, numbers), *decimal_words(() if repeated else case.words))))


# --------------------------------------------------------- expectations


def text_of(outcome):
    """An outcome as the listing program writes it."""
    texts = [reference.listed_words(record) for record in reference.records_of(outcome.output)]
    if outcome.number:
        texts += [("from", *pair) for pair in zip(outcome.trace[::2], outcome.trace[1::2])]
        texts.append(("refused", *outcome[:3]))
    else:
        texts.append(("done", outcome.records))
    return [" ".join(map(str, text)) for text in texts]


def agree(outcome, found, by_hand, words):
    if found != by_hand:
        raise AssertionError(f"{found}, not {by_hand}: {outcome[:4]}, {len(words)} words {list(words[:60])}")


def around(words, depth):
    """Lines at lengths ample, exact, one short, one over and 0; the ample outcome."""
    length = len(reference.run(words, depth, OUTPUT_ROOM, 256).output)
    outcome = vector(words, depth, min(length + 64, OUTPUT_ROOM))
    for other in length, length + 1, length - 1, 0:
        vector(words, depth, min(max(other, 0), OUTPUT_ROOM))
    return outcome


def every_length(words, depth):
    """Lines at all lengths to one more than is written."""
    length = len(reference.run(words, depth, OUTPUT_ROOM, 256).output)
    for lent in range(length + 2):
        vector(words, depth, lent)


def stated(words, depth, *text):
    """Lines of a run that the listing program would write so."""
    outcome = around(words, depth)
    agree(outcome, text_of(outcome), list(text), words)


def expect_outcome(outcome, words, **by_hand):
    """An outcome of which this is known: its fields, or frames for the trace."""
    found = dict(outcome._asdict(), frames=len(outcome.trace) // 2, written=len(outcome.output))
    agree(outcome, {name: found[name] for name in by_hand}, by_hand, words)


def expect(words, depth, **by_hand):
    """Lines round the length that is written, of a run of which this is known."""
    expect_outcome(around(words, depth), words, **by_hand)


def place(words, which, number):
    return Image(tuple(words)).place(which, number)


def head(quantum, classical=()):
    """The head's line: the totals, then register and offset of each."""
    named = [(number, k) for sizes in (quantum, classical) for number, size in enumerate(sizes) for k in range(size)]
    return " ".join(map(str, (0, sum(quantum), sum(classical), *(n for pair in named for n in pair))))


# ------------------------------------------------------------- programs


def numbered(tree, entries):
    """The number of a tree's entry; the entries that are not there are added."""
    kind, *operands = tree
    if kind > VARIABLE:
        operands = [numbered(operand, entries) for operand in operands]
    entry = (kind, *operands, 0)[:3]
    if entry not in entries:
        entries.append(entry)
    return entries.index(entry)


def flat(*trees):
    """The expression entries of some trees, equal ones shared, and their numbers."""
    entries = []
    numbers = [numbered(tree, entries) for tree in trees]
    return entries, numbers


def rotation(first, second, third, size=1):
    """U of three trees on a whole register."""
    entries, numbers = flat(first, second, third)
    return image(quantum=[size], main=[(U, *numbers, 0)], arguments=[(0, 0)], expressions=entries)


def parameters(*trees):
    """The lists of parameters and expressions for these trees."""
    entries, numbers = flat(*trees)
    return dict(parameters=numbers, expressions=entries)


X, Y = (VARIABLE, 0), (VARIABLE, 1)
ZERO, ONE, TWO = whole(0), whole(1), whole(2)
BAD = DIVIDE, ONE, ZERO

# The line of U_ONE, without its qubit.
U_TEXT = "1" + " 0 1 1 1" * 3


# ----------------------------------------------------------- K1 to K10


def examples():
    heading("K1 to K10 of document 01")
    u = "1 0 1 1 2 0 1 0 1 0 1 1 1"
    for depth in 8, 2, 3, 129, WORD_MAX:
        stated(K1, depth, "0 2 0 0 0 0 1", f"{u} 0", f"{u} 1", "2 0 1", "done 4")
    for depth in 1, 0:
        stated(K1, depth, "0 2 0 0 0 0 1", "3 0 0 1 0", "3 0 0 1 1", "2 0 1", "done 4")
    words = image(quantum=[3], main=[(CX, 0, 1)], arguments=[(0, 2), (0, 0)])
    # Contents 9 words, the register 1, the statement 5: the arguments are at 15 and 17.
    stated(words, 8, "0 3 0 0 0 0 1 0 2", "2 1 0", "refused 12 15 17")
    angle("4 1 0 1", (POWER, whole(8), ratio(2, 3)))
    refused_angle(9, 0, (POWER, ZERO, (NEGATE, ratio(1, 2))))
    angle("1 2 0 1", (COS, ratio_of_pi(3)))
    refused_angle(13, 0, (TAN, ratio_of_pi(2)))
    refused_angle(9, 0, (TAN, (NEGATE, ratio_of_pi(2))))
    angle("4611686018427387904 1 0 1", (REAL, 0x5E800000))
    refused_angle(10, 0x5F000000, (REAL, 0x5F000000))
    angle("1 4611686018427387904 0 1", (REAL, 0x20800000))
    refused_angle(10, 0x20000000, (REAL, 0x20000000))
    for lists in {}, dict(quantum=[4], classical=[2], gates=[opaque(1, 1)]):
        for depth in 8, 0, WORD_MAX:
            stated(image(**lists), depth, "done 0")


def example_lengths():
    heading("K1 and K2 at each length of output")
    every_length(K1, 8)
    every_length(K1, 1)
    heading("K1 with outputs and traces of other lengths")
    for lent in 38, 39, 8192, OUTPUT_ROOM:
        for trace in 0, 1, 255:
            expect_outcome(vector(K1, 8, lent, trace), K1, number=15, records=0, output=[], trace=[])
        for trace in 256, 257, 300:
            expect_outcome(vector(K1, 8, lent, trace), K1, number=0, records=4, written=38, trace=[])


def ratio_of_pi(d):
    return DIVIDE, PI_TREE, whole(d)


def angle(text, tree):
    """The angle of a tree, as the three angles of a U."""
    stated(rotation(tree, tree, tree), 8, head([1]), f"1 {text} {text} {text} 0", "done 2")


def refused_angle(number, second, tree):
    """A tree that is refused: the place is that of the entry that U names."""
    words = rotation(tree, tree, tree)
    at = place(words, EXPRESSIONS, words[8] - 1)  # the outermost entry is the last
    stated(words, 8, head([1]), f"refused {number} {at} {second}")


# ---------------------------------------------------------------- angles

LARGEST = 2**63 - 1
PI_SQUARED = "6499908331188584841 658578405682719844"

ANGLES = (
    ("0 1 0 1", ZERO),
    ("-1 1 0 1", whole(-1)),
    ("-1 3 0 1", ratio(-1, 3)),
    ("-3 2 0 1", ratio(6, -4)),
    ("0 1 1 1", PI_TREE),
    ("0 1 -1 2", pi_times(-1, 2)),
    ("-1 2 -3 4", (PLUS, ratio(-1, 2), pi_times(-3, 4))),
    ("-2 1 1 1", (MINUS, PI_TREE, TWO)),
    ("5 6 -1 6", (MINUS, (PLUS, ratio(1, 2), pi_times(1, 3)), (MINUS, pi_times(1, 2), ratio(1, 3)))),
    (f"{LARGEST} 1 0 1", whole(LARGEST)),
    (f"-{LARGEST} 1 0 1", whole(-LARGEST)),
    (f"-1 {LARGEST} 0 1", ratio(-1, LARGEST)),
    (f"0 1 -{LARGEST} 1", (TIMES, whole(-LARGEST), PI_TREE)),
    (f"0 1 -1 {LARGEST}", pi_times(-1, LARGEST)),
    (PI_SQUARED + " 0 1", (TIMES, PI_TREE, PI_TREE)),
    (f"-{PI_SQUARED} 0 1", (TIMES, PI_TREE, (NEGATE, PI_TREE))),
    ("1 1 0 1", (REAL, 0x3F800000)),
    ("-3 2 0 1", (REAL, 0xBFC00000)),
    ("13421773 134217728 0 1", (REAL, 0x3DCCCCCD)),
    ("-13176795 4194304 0 1", (NEGATE, F32_PI)),
    ("0 1 0 1", (REAL, 0x80000000)),
    ("-4611686018427387904 1 0 1", (REAL, 0xDE800000)),
    ("9223371487098961920 1 0 1", (REAL, 0x5EFFFFFF)),
    ("-8 1 0 1", (POWER, whole(-2), whole(3))),
    ("1 4 0 1", (POWER, whole(8), ratio(-2, 3))),
    ("3 2 0 1", (POWER, ratio(4, 9), ratio(-1, 2))),
    ("1 1 0 1", (POWER, ZERO, ZERO)),
    ("-1 1 0 1", (POWER, whole(-1), whole(LARGEST))),
    ("1 4611686018427387904 0 1", (POWER, TWO, whole(-62))),
    ("1 2 0 1", (SIN, pi_times(13, 6))),
    ("-1 1 0 1", (SIN, pi_times(-1, 2))),
    ("-1 2 0 1", (SIN, pi_times(-5, 6))),
    ("-1 1 0 1", (COS, PI_TREE)),
    ("-1 2 0 1", (COS, pi_times(4, 3))),
    ("0 1 0 1", (TAN, pi_times(2, 1))),
    ("3 2 0 1", (SQRT, ratio(9, 4))),
    ("0 1 0 1", (SQRT, ZERO)),
    ("2 3 0 1", (DIVIDE, pi_times(2, 5), pi_times(3, 5))),
    ("1 2 0 1", (DIVIDE, (PLUS, ONE, PI_TREE), (PLUS, TWO, (TIMES, TWO, PI_TREE)))),
    ("10680707 33554432 0 1", (DIVIDE, ONE, PI_TREE)),  # the f32 3EA2F983
    ("1 14 1 7", (DIVIDE, (PLUS, ratio(1, 2), PI_TREE), whole(7))),
)

VANISHING = MINUS, F32_PI, PI_TREE  # its f32 is 0

REFUSED_ANGLES = (
    (9, 0, BAD),
    (9, 0, (DIVIDE, PI_TREE, (MINUS, PI_TREE, PI_TREE))),
    (9, 0, (DIVIDE, ONE, (REAL, 0x80000000))),
    (9, 0, (POWER, ZERO, whole(-1))),
    (10, 0x7F800000, (REAL, 0x7F800000)),
    (10, 0xFF800000, (REAL, 0xFF800000)),
    (10, 0x7FC00000, (REAL, 0x7F800001)),
    (10, 0x7FC00000, (REAL, 0xFFFFFFFF)),
    (10, 0xDF000000, (NEGATE, (REAL, 0xDF000000))),
    (10, 1, (REAL, 1)),
    (10, 0x7F800000, (DIVIDE, ONE, VANISHING)),
    (10, 0xFF800000, (DIVIDE, whole(-1), VANISHING)),
    (10, 0x7FC00000, (DIVIDE, (MINUS, NEAR_PI, PI_TREE), VANISHING)),
    (11, 0, (INTEGER, 2**63)),
    (11, 0, (INTEGER, WORD_MAX)),
    (11, 0, (PLUS, whole(LARGEST), ONE)),
    (11, 0, (MINUS, whole(-LARGEST), ONE)),
    (11, 0, (TIMES, whole(2**32), whole(2**31))),
    (11, 0, (PLUS, ratio(1, 3037000500), ratio(1, 3037000501))),
    (11, 0, (TIMES, (TIMES, PI_TREE, PI_TREE), (TIMES, PI_TREE, PI_TREE))),
    (11, 0, (POWER, TWO, whole(63))),
    (11, 0, (DIVIDE, whole(2**62), ratio(1, 2))),
    (13, 0, (EXP, ZERO)),
    (13, 0, (LN, ONE)),
    (13, 0, (SIN, PI_TREE)),
    (13, 0, (SIN, ONE)),
    (13, 0, (COS, ratio(1, 2))),
    (13, 0, (TAN, ratio_of_pi(4))),
    (13, 0, (SQRT, TWO)),
    (13, 0, (SQRT, whole(-4))),
    (13, 0, (POWER, TWO, ratio(1, 2))),
    (13, 0, (POWER, whole(-8), ratio(1, 3))),
    (13, 0, (POWER, ZERO, ratio(-1, 2**32))),
    (13, 0, (POWER, PI_TREE, TWO)),
)
ONE_OF_EACH = REFUSED_ANGLES[0], REFUSED_ANGLES[4], REFUSED_ANGLES[13], REFUSED_ANGLES[22]


def angle_kinds():
    heading("Angles of all kinds, three of one U; negative ones are two's complement")
    for text, tree in ANGLES:
        angle(text, tree)


def angle_orders():
    heading("Three angles of one U are in its order, over a register too")
    for k in range(0, len(ANGLES) - 2, 5):
        texts, trees = zip(*ANGLES[k : k + 3])
        us = [f"1 {' '.join(texts)} {qubit}" for qubit in range(3)]
        stated(rotation(*trees, size=3), 0, head([3]), *us, "done 4")


def angle_refusals():
    heading("Refusals 9, 10, 11 and 13 of expressions")
    for number, second, tree in REFUSED_ANGLES:
        refused_angle(number, second, tree)


def first_refusals():
    heading("The first refused angle of a U, and the left operand, decide; nothing of the U is written")
    for number, second, tree in ONE_OF_EACH:
        for at in range(3):
            for other in PI_TREE, (EXP, PI_TREE), (DIVIDE, PI_TREE, ZERO):
                trees = [PI_TREE] * at + [tree] + [other] * (2 - at)
                words = rotation(*trees, size=2)
                named = place(words, EXPRESSIONS, words[place(words, MAIN, 0) + 1 + at])
                stated(words, 2, head([2]), f"refused {number} {named} {second}")
        for kind in PLUS, POWER:
            for other in (EXP, ONE), (DIVIDE, ONE, (MINUS, ONE, ONE)), (INTEGER, 2**63 + 1):
                refused_angle(number, second, (kind, tree, other))


def shared_expressions():
    heading("Expressions of 32 levels, of which each is used twice: 2^31 paths")
    for kind, of_32, of_31 in (PLUS, 2**31, 2**30), (TIMES, 1, 1), (MINUS, 0, 0), (DIVIDE, 1, 1):
        entries = [integer(1)] + [(kind, k, k) for k in range(31)]
        words = image(quantum=[2], main=[(U, 31, 30, 31, 0)], arguments=[(0, 0)], expressions=entries)
        text = f"{of_32} 1 0 1 {of_31} 1 0 1 {of_32} 1 0 1"
        stated(words, 2, head([2]), f"1 {text} 0", f"1 {text} 1", "done 3")
    # A variable at the leaves, and a refusal at the bottom of a shared one.
    entries = [variable(0)] + [(PLUS, k, k) for k in range(31)] + [integer(3), (NEGATE, 32, 0)]
    lists = dict(parameters=[33], expressions=entries)
    words = program([call(0)], [(1, 1, [(U, 31, 31, 0, 0)])], **lists)
    text = "-6442450944 1 0 1 -6442450944 1 0 1 -3 1 0 1"
    stated(words, 2, head([1]), f"1 {text} 0", "done 2")
    entries = [integer(1), (EXP, 0, 0)] + [(PLUS, k, k) for k in range(1, 31)]
    words = image(quantum=[1], main=[(U, 31, 31, 31, 0)], arguments=[(0, 0)], expressions=entries)
    stated(words, 2, head([1]), f"refused 13 {place(words, EXPRESSIONS, 31)} 0")


def many_expressions():
    heading("Images of 127, 128, 129 and 2,700 expressions, the last ones worked out of a parameter or a constant and used twice")
    for count in 127, 128, 129, 2700:
        # The last five are -7, which main hands on as x, then x, 2x, 2x - 7 and twice that.
        given, x, double, less, last = range(count - 5, count)
        entries = [integer(7)] * given + [(NEGATE, 0, 0), variable(0), (PLUS, x, x), (MINUS, double, 0), (PLUS, less, less)]
        lists = dict(parameters=[given], expressions=entries)
        words = program([call(0)], [(1, 1, [(U, last, less, double, 0)])], **lists)
        stated(words, 2, head([1]), "1 -42 1 0 1 -21 1 0 1 -14 1 0 1 0", "done 2")
        entries = [integer(7)] * (count - 2) + [(NEGATE, 0, 0), (PLUS, count - 2, count - 2)]
        words = image(quantum=[1], main=[(U, count - 1, count - 2, 0, 0)], arguments=[(0, 0)], expressions=entries)
        stated(words, 2, head([1]), "1 -14 1 0 1 -7 1 0 1 7 1 0 1 0", "done 2")


def variables():
    heading("Variables: the caller's angles, worked out once a call, through two bodies in another order")
    # Gate 0 has U(x, y, x + y); gate 1 calls it with y and -x.
    entries, (*handed, x, y, total) = flat(Y, (NEGATE, X), pi_times(1, 2), ratio(-1, 3), X, Y, (PLUS, X, Y))
    gates = [(2, 1, [(U, x, y, total, 0)]), (2, 1, [call(0, 0)])]
    words = program([call(1, 2), call(0, 2)], gates, parameters=handed, expressions=entries, quantum=[2])
    swapped = "-1 3 0 1 0 1 -1 2 -1 3 -1 2"  # x = -1/3, y = -pi/2
    direct = "0 1 1 2 -1 3 0 1 -1 3 1 2"
    us = [f"1 {text} {qubit}" for text in (swapped, direct) for qubit in range(2)]
    stated(words, 3, head([2]), *us, "done 5")
    stated(words, 2, head([2]), "3 0 0 1 0", "3 0 0 1 1", *us[2:], "done 5")
    stated(words, 1, head([2]), "3 1 0 1 0", "3 1 0 1 1", "3 0 0 1 0", "3 0 0 1 1", "done 5")


def sixteen_parameters():
    heading("16 parameters, each another angle, to an opaque gate through a body that turns them round")
    texts, trees = zip(*(ANGLES[k] for k in range(16)))
    entries, numbers = flat(*trees, *((VARIABLE, k) for k in reversed(range(16))))
    gates = [(16, 2), (16, 2, [call(0, 16, 2)])]
    lists = dict(parameters=numbers, expressions=entries, arguments=[(0, 2), (0, 1), (1, 0), (0, 0)], quantum=[2])
    words = program([call(1), call(0)], gates, **lists)
    turned = " ".join(reversed(texts))
    stated(words, 2, head([2]), f"3 0 16 2 {turned} 0 1", f"3 0 16 2 {' '.join(texts)} 1 0", "done 3")
    stated(words, 1, head([2]), "3 1 0 2 1 0", f"3 0 16 2 {' '.join(texts)} 1 0", "done 3")


# ------------------------------------------------------- refusals in calls


def chain(count, bottom, **lists):
    return program([call(count - 1)], tower(count, bottom, 1), **lists)


def chain_trace(words, count, frames, bottom_length=1):
    """Main's call, then the call in each body from the highest gate downward:
    gate k's one statement stands behind main's, gate 0's and those below it."""
    first = place(words, MAIN, 0)
    pairs = [(0, first)] + [(k + 1, first + 5 * (bottom_length + k)) for k in range(count - 1, 0, -1)]
    return [f"from {scope} {at}" for scope, at in pairs[:frames]]


def nested_refusals():
    heading("Each refusal at the bottom of 1, 2, 3 and 128 calls")
    for count in 1, 2, 3, 128:
        for number, second, tree in ONE_OF_EACH if count < 128 else ONE_OF_EACH[:2]:
            entries, (named,) = flat(tree)
            words = chain(count, [(U, named, named, named, 0)], expressions=entries)
            trace = chain_trace(words, count, count)
            at = place(words, EXPRESSIONS, named)
            for depth in (count + 1, WORD_MAX) if count < 128 else (129,):
                stated(words, depth, head([1]), *trace, f"refused {number} {at} {second}")
        words = chain(count, [CX_ONE])
        trace = chain_trace(words, count, count)
        at = place(words, ARGUMENTS, 0)
        stated(words, 129, head([1]), *trace, f"refused 12 {at} {at}")
        for trace_length in 300, 256, 255, 0:
            outcome = vector(words, WORD_MAX, 99, trace_length)
            frames = count if trace_length >= 256 else 0
            expect_outcome(outcome, words, number=12 if frames else 15, frames=frames)


def nested_output_ends():
    heading("An output that ends at the bottom of 1, 2, 3 and 128 calls: opened, and not opened")
    for count in 1, 2, 3, 128:
        words = chain(count, [U_ONE])
        for lent in 5, 18:
            outcome = vector(words, count + 1, lent, 300)
            expect_outcome(outcome, words, number=14, frames=count, written=5)
            agree(outcome, text_of(outcome)[1:-1], chain_trace(words, count, count), words)
        for depth in sorted({0, 1, 2, 3, count - 1, count}):
            if depth <= count:  # a call is written, and it is in the trace
                frames = max(depth, 1)
                outcome = vector(words, depth, 9)
                expect_outcome(outcome, words, number=14, place=0, second=0, frames=frames, written=5)
                agree(outcome, text_of(outcome)[1:-1], chain_trace(words, count, frames), words)
                expect_outcome(vector(words, depth, 10), words, number=0, records=2, written=10, trace=[])


def deep_chain():
    heading("128 gates, each calling the one below, at depths")
    words = chain(128, [U_ONE])
    u = U_TEXT + " 0"
    for depth in 0, 1, 2, 3, 64, 127, 128, 129, 130, 2**32, 2**63, WORD_MAX:
        last = u if depth > 128 else f"3 {128 - max(depth, 1)} 0 1 0"
        outcome = vector(words, depth, 100)
        agree(outcome, text_of(outcome), [head([1]), last, "done 2"], words)


def refusals_after_others():
    heading("The trace has only the calls that the run is in; the caller's gate, not the one called")
    # Gate 0 is fine, gate 1 refuses; gate 2 calls 0, 1; gate 3 calls 0, 2, 0.
    bad = (U, 3, 3, 3, 0)
    lists = dict(expressions=[PI_ENTRY, integer(1), integer(0), (DIVIDE, 1, 2)], quantum=[2])
    gates = [(0, 1, [U_ONE]), (0, 1, [U_ONE, bad]), (0, 1, [call(0), call(1)]), (0, 1, [call(0), call(2), call(0)])]
    words = program([call(0), U_ONE, call(3), call(0)], gates, **lists)
    u = U_TEXT
    first = place(words, MAIN, 0)
    # Statements: 4 of main; then gate 0's is 4, gate 1's 5 and 6, gate 2's 7 and 8, gate 3's 9 to 11.
    trace = [f"from 0 {first + 5 * 2}", f"from 4 {first + 5 * 10}", f"from 3 {first + 5 * 8}"]
    written = [f"{u} {qubit}" for qubit in (0, 1, 0, 1, 0, 0, 0)]
    stated(words, 4, head([2]), *written, *trace, f"refused 9 {place(words, EXPRESSIONS, 3)} 0")
    # At depth 3 gate 1 is not opened.
    half = [f"{u} 0", "3 0 0 1 0", "3 1 0 1 0", f"{u} 0"], [f"{u} 1", "3 0 0 1 1", "3 1 0 1 1", f"{u} 1"]
    stated(words, 3, head([2]), *written[:4], *half[0], *half[1], f"{u} 0", f"{u} 1", "done 15")
    every_length(words, 3)


def numbers_that_differ():
    heading("Main calls, bodies and gates that differ only in their numbers")
    for wanted in range(3):
        # Gates 0 to 2 have a CX; one of the gates 3 to 5 calls with one qubit twice.
        gates = [(0, 2, [(CX, 0, 1)])] * 3 + [(0, 2, [call(k, 0, 2 if k == wanted else 0)]) for k in range(3)]
        arguments = [(0, 0), (1, 0), (1, 0), (1, 0), (0, 2), (0, 1)]
        words = program([call(3 + k, 0, 4) for k in range(3)], gates, arguments=arguments, quantum=[2])
        first = place(words, MAIN, 0)
        trace = f"from 0 {first + 5 * wanted}", f"from {4 + wanted} {first + 5 * (6 + wanted)}"
        at = place(words, ARGUMENTS, 0)
        stated(words, 3, head([2]), *["2 1 0"] * wanted, *trace, f"refused 12 {at} {at + 2}")


def refusals_of_parameters():
    heading("A call's own parameters: refused before its frame is pushed, whether opened, cut or opaque")
    for number, second, tree in ONE_OF_EACH:
        lists = parameters(PI_TREE, tree, (EXP, ONE))
        at_expression = lists["parameters"][1]
        for gates in [(3, 1, [NOTHING])], [(3, 1)], [(3, 0, [NOTHING])], [(3, 0)], [(2, 2, [CX_ONE])], [(2, 2)]:
            words = program([U_ONE, call(0)], gates, arguments=[(0, 0), (0, 0)], **lists)
            at = place(words, EXPRESSIONS, at_expression)
            u = U_TEXT + " 0"
            for depth in 1, 2:
                stated(words, depth, head([1]), u, f"refused {number} {at} {second}")
        # In a body: the outer call is in the trace, the refused one is not.
        for inner in (2, 1, [NOTHING]), (2, 1), (2, 0, [NOTHING]), (2, 0):
            words = program([call(1)], [inner, (0, 1, [NOTHING, call(0)])], quantum=[2], **lists)
            at = place(words, EXPRESSIONS, at_expression)
            text = head([2]), "4 0", f"from 0 {place(words, MAIN, 0)}", f"refused {number} {at} {second}"
            stated(words, 2, *text)
            stated(words, WORD_MAX, *text)
            stated(words, 1, head([2]), "3 1 0 1 0", "3 1 0 1 1", "done 3")


def handed_down():
    heading("A parameter handed down that is refused where it is used")
    # Gate 0 divides by x, gate 1 hands down x - 1.
    entries, numbers = flat((DIVIDE, PI_TREE, X), (MINUS, X, ONE), ONE, TWO)
    quotient, less, one, two = numbers
    gates = [(1, 1, [(U, quotient, quotient, quotient, 0)]), (1, 1, [call(0, 0), call(0, 0)])]
    for handed, finished in (one, False), (two, True):
        lists = dict(parameters=[less, handed], expressions=entries)
        words = program([call(1, 1)], gates, quantum=[2], **lists)
        u = U_TEXT
        if finished:
            stated(words, 3, head([2]), f"{u} 0", f"{u} 0", f"{u} 1", f"{u} 1", "done 5")
        else:
            first = place(words, MAIN, 0)
            trace = f"from 0 {first}", f"from 2 {first + 5 * 2}"
            stated(words, 3, head([2]), *trace, f"refused 9 {place(words, EXPRESSIONS, quotient)} 0")
        cut = [f"3 0 0 1 {qubit}" for qubit in (0, 0, 1, 1)]
        stated(words, 2, head([2]), *cut, "done 5")


def without_arguments():
    heading("Calls without arguments: parameters are worked out, nothing is written and no body is entered")
    for gates in [(0, 0)], [(0, 0, [NOTHING])], [(0, 0, [])], [(16, 0)], [(16, 0, [NOTHING] * 2)]:
        count = gates[0][0]
        for depth in 0, 1, 2, 3, 129, WORD_MAX:
            words = program([call(0), (RESET, 0)], gates, parameters=[0] * 16)
            stated(words, depth, head([1]), "6 0", "done 2")
        if count:
            lists = parameters(*[PI_TREE] * 15, BAD)
            words = program([call(0), (RESET, 0)], gates, **lists)
            for depth in 0, 1, 2, WORD_MAX:
                stated(words, depth, head([1]), f"refused 9 {place(words, EXPRESSIONS, lists['parameters'][15])} 0")


def without_arguments_inside():
    heading("Calls without arguments in bodies, in ifs, and without registers")
    gates = [(1, 0, [NOTHING]), (1, 0), (0, 1, [call(0), call(1), NOTHING, call(0)])]
    for tree, fine in (PI_TREE, True), (BAD, False):
        lists = parameters(tree)
        at = lists["parameters"][0]
        words = program([call(2)], gates, quantum=[2], **lists)
        if fine:
            stated(words, 2, head([2]), "4 0", "4 0", "done 3")
        else:
            text = f"from 0 {place(words, MAIN, 0)}", f"refused 9 {place(words, EXPRESSIONS, at)} 0"
            stated(words, 2, head([2]), *text)
        for number in 0, 1:
            words = program([(IF, 0, 6, 1)], gates, [call(number)], classical=[3], **lists)
            ending = ["8", "done 3"] if fine else [f"refused 9 {place(words, EXPRESSIONS, at)} 0"]
            stated(words, 2, head([1], [3]), "7 0 3 6", *ending)
            words = image(gates=[gate(1, 0, 1, 0), opaque(1, 0)], main=[call(number)], **lists)
            ending = "done 1" if fine else f"refused 9 {place(words, EXPRESSIONS, at)} 0"
            stated(words, 2, "0 0 0", ending)


# -------------------------------------------------------------- overlaps


def cx_overlaps():
    heading("12 of a CX: first then second, in any round")
    arguments = [(0, 0), (0, 0), (0, 1), (0, 2), (0, 3), (1, 1)]
    for first, second, *cxs in (
        (0, 1), (1, 0), (0, 0), (0, 2), (4, 4), (5, 5),
        (0, 3, "2 0 1"), (3, 0, "2 1 0"), (0, 4, "2 0 2", "2 1 2"), (4, 0, "2 2 0", "2 2 1"),
    ):
        words = image(quantum=[3, 1], main=[(CX, first, second)], arguments=arguments)
        base = place(words, ARGUMENTS, 0)
        stated(words, 0, head([3, 1]), *cxs, f"refused 12 {base + 2 * first} {base + 2 * second}")


def opaque_overlaps():
    heading("12 of an opaque gate: argument i, then j below i, of the first such i")
    # Qubits 0 to 3 of one register, a register of one twice, and one of four.
    arguments = [(0, 1), (0, 2), (0, 3), (0, 4), (1, 0), (1, 1), (2, 0)]
    quantum = [4, 1, 4]
    for chosen, i, j in (
        ((0, 0), 1, 0), ((0, 1, 0), 2, 0), ((0, 1, 1), 2, 1), ((0, 0, 0), 1, 0), ((3, 2, 1, 2), 3, 1),
        ((3, 2, 3, 2), 2, 0), ((4, 5), 1, 0), ((4, 1, 5), 2, 0), ((0, 1, 2, 3, 4, 4), 5, 4), ((6, 6), 1, 0),
        ((0, 1, 1, 0), 2, 1), ((0, 1, 2, 1, 0), 3, 1), ((6, 2, 3, 3, 6), 3, 2),
    ):
        words = image(quantum=quantum, gates=[opaque(0, len(chosen))], main=[call(0)],
                      arguments=[arguments[k] for k in chosen])
        base = place(words, ARGUMENTS, 0)
        for depth in 0, 2:
            stated(words, depth, head(quantum), f"refused 12 {base + 2 * i} {base + 2 * j}")
        # With a body it is not tested: not opened, it is written; opened, it has no statement that overlaps.
        words = program([call(0)], [(0, len(chosen), [NOTHING])], quantum=quantum,
                        arguments=[arguments[k] for k in chosen])
        expect(words, 1, number=0)
        expect(words, 2, number=0)


def overlaps_in_later_rounds():
    heading("12 of an opaque gate in a later round: q[k] beside q, in both orders")
    for k in range(4):
        for arguments, where in ([(0, 0), (0, k + 1)], 0), ([(0, k + 1), (0, 0)], 1), ([(1, 0), (0, 0), (0, k + 1)], 2):
            count = len(arguments)
            words = image(quantum=[4, 4], gates=[opaque(0, count)], main=[call(0)], arguments=arguments)
            resolved = {0: lambda t: (t, k), 1: lambda t: (k, t), 2: lambda t: (4 + t, t, k)}[where]
            written = [f"3 0 0 {count} {' '.join(map(str, resolved(t)))}" for t in range(k)]
            base = place(words, ARGUMENTS, 0)
            ending = f"refused 12 {base + 2 * (count - 1)} {base + 2 * (count - 2)}"
            stated(words, 1, head([4, 4]), *written, ending)
            # In a body, opened in rounds.
            formals = [(n, 0) for n in range(count)]
            words = program([call(1, 0, count)], [(0, count), (0, count, [call(0)])],
                            quantum=[4, 4], arguments=formals + arguments)
            base = place(words, ARGUMENTS, 0)
            trace = f"from 0 {place(words, MAIN, 0)}"
            ending = f"refused 12 {base + 2 * (count - 1)} {base + 2 * (count - 2)}"
            stated(words, 2, head([4, 4]), *written, trace, ending)
            cut = [f"3 1 0 {count} {' '.join(map(str, resolved(t)))}" for t in range(4)]
            stated(words, 1, head([4, 4]), *cut, "done 5")


def overlaps_and_more():
    heading("12 and what else is wrong: parameters come first, the output's length last")
    lists = parameters(BAD)
    words = image(quantum=[1], gates=[opaque(1, 2)], main=[call(0)], arguments=[(0, 0)] * 2, **lists)
    expect(words, 0, number=9, written=5)
    lists = parameters(PI_TREE)
    words = image(quantum=[1], gates=[opaque(1, 2)], main=[call(0)], arguments=[(0, 0)] * 2, **lists)
    every_length(words, 0)
    expect(words, 0, number=12, written=5)
    heading("12 of 16 arguments: the last against the first, the last but one, and all before")
    for j in 0, 7, 14:
        arguments = [(0, k + 1) for k in range(15)] + [(0, j + 1)]
        words = image(quantum=[16], gates=[opaque(0, 16)], main=[call(0)], arguments=arguments)
        base = place(words, ARGUMENTS, 0)
        stated(words, 0, head([16]), f"refused 12 {base + 30} {base + 2 * j}")


# --------------------------------------------------------------- rounds


# Pairs of the arguments below that have a qubit in common.
OVERLAPPING = {((1, 0), (1, 2)), ((1, 2), (1, 0)), ((3, 0), (3, 2)), ((3, 2), (3, 0))}


def lock_step():
    heading("Whole registers in lock-step, arguments of size 1 stay: CX, measure, opaque calls and bodies")
    quantum, classical = [1, 3, 3, 2], [3, 1, 2]
    # Registers begin at qubits 0, 1, 4, 7 and at bits 0, 3, 4.
    whole_or_index = {(0, 0): (0, 1), (1, 0): (1, 3), (2, 0): (4, 3), (3, 0): (7, 2), (1, 2): (2, 1), (3, 2): (8, 1)}
    bits = {(0, 0): (0, 3), (1, 0): (3, 1), (2, 0): (4, 2), (0, 3): (2, 1), (2, 1): (4, 1)}

    def resolved(sizes, turn):
        return [first if size == 1 else first + turn for first, size in sizes]

    def text(*sizes):
        return [" ".join(map(str, resolved(sizes, turn))) for turn in range(max(size for _, size in sizes))]

    top = head(quantum, classical)
    for one, one_size in whole_or_index.items():
        for two, two_size in whole_or_index.items():
            if one != two and len({one_size[1], two_size[1]} - {1}) < 2 and (one, two) not in OVERLAPPING:
                lists = dict(quantum=quantum, classical=classical, arguments=[one, two])
                rounds = text(one_size, two_size)
                words = image(main=[(CX, 0, 1)], **lists)
                stated(words, 0, top, *("2 " + pair for pair in rounds), f"done {1 + len(rounds)}")
                words = image(gates=[opaque(0, 2)], main=[call(0)], **lists)
                stated(words, 2, top, *("3 0 0 2 " + pair for pair in rounds), f"done {1 + len(rounds)}")
                lists = dict(quantum=quantum, classical=classical, arguments=[(0, 0), (1, 0), one, two])
                words = program([call(0, 0, 2)], [(0, 2, [(CX, 1, 0)])], **lists)
                turned = [" ".join(reversed(pair.split())) for pair in rounds]
                stated(words, 2, top, *("2 " + pair for pair in turned), f"done {1 + len(rounds)}")
                stated(words, 1, top, *("3 0 0 2 " + pair for pair in rounds), f"done {1 + len(rounds)}")
        for bit, bit_size in bits.items():
            if len({one_size[1], bit_size[1]} - {1}) < 2:
                words = image(quantum=quantum, classical=classical, main=[(MEASURE, 0, 1)], arguments=[one, bit])
                rounds = text(one_size, bit_size)
                stated(words, 0, top, *("5 " + pair for pair in rounds), f"done {1 + len(rounds)}")


def turned_formals():
    heading("Nested bodies whose formals are turned round, in rounds of 3")
    # Gate 0: CX f0, f1; U on f2.  Gate 1 calls it with its 2, 0, 1; gate 2 calls gate 1 with its 2, 0, 1.
    arguments = [(0, 0), (1, 0), (2, 0), (2, 0), (0, 0), (1, 0), (1, 0), (0, 1), (2, 0)]
    gates = [(0, 3, [(CX, 0, 1), (U, 0, 0, 0, 2)]), (0, 3, [call(0, 0, 3)]), (0, 3, [call(1, 0, 3), call(0, 0, 0)])]
    words = program([call(2, 0, 6)], gates, arguments=arguments, quantum=[1, 3, 3])
    u = U_TEXT
    inner, flat_calls, shut = [], [], []
    for k in range(3):
        a, b, c = 1 + k, 0, 4 + k  # main's call: q1[k], q0[0], q2[k]
        # Gate 1 has c, a, b; gate 0 by it b, c, a.
        inner += [f"2 {b} {c}", f"{u} {a}", f"2 {a} {b}", f"{u} {c}"]
        flat_calls += [f"3 1 0 3 {c} {a} {b}", f"3 0 0 3 {a} {b} {c}"]
        shut.append(f"3 2 0 3 {a} {b} {c}")
    top = head([1, 3, 3])
    stated(words, 4, top, *inner, "done 13")
    stated(words, 2, top, *flat_calls, "done 7")
    stated(words, 1, top, *shut, "done 4")
    expect(words, 3, number=0)
    every_length(words, 2)


def sixteen_arguments():
    heading("Opaque gates of 16 parameters and 16 arguments, indices and whole registers mixed")
    texts, trees = zip(*ANGLES[-16:])
    lists = parameters(*trees)
    quantum = [20, 3, 1, 3, 3]
    arguments = [(0, 3 * k % 20 + 1) for k in range(12)] + [(1, 0), (2, 0), (3, 0), (4, 0)]
    words = image(quantum=quantum, gates=[opaque(16, 16)], main=[call(0)], arguments=arguments, **lists)
    fixed = " ".join(str(3 * k % 20) for k in range(12))
    calls = [f"3 0 16 16 {' '.join(texts)} {fixed} {20 + t} 23 {24 + t} {27 + t}" for t in range(3)]
    stated(words, 0, head(quantum), *calls, "done 4")
    stated(words, WORD_MAX, head(quantum), *calls, "done 4")


ALL = dict(quantum=[4096])
ALL_HEAD = 3 + 2 * 4096  # words


def large_broadcasts():
    heading("4,096 qubits: U, reset, barrier, measure and opaque gates")
    entries, (minus, third) = flat(pi_times(-1, 2), ratio(-1, 3))
    lists = dict(**ALL, arguments=[(0, 0)], expressions=entries)
    few(image(main=[(U, minus, third, 0, 0)], **lists), 0, number=0, records=4097, written=ALL_HEAD + 14 * 4096)
    few(image(main=[(RESET, 0)], **lists), 0, number=0, records=4097, written=ALL_HEAD + 2 * 4096)
    words = image(main=[(BARRIER, 0, 2)], **ALL, arguments=[(0, 0)] * 2)
    few(words, 0, number=0, records=2, written=ALL_HEAD + 2 + 4096)
    for arguments in [(0, 0), (0, 0)], [(0, 0), (0, 7)], [(0, 4096), (0, 0)]:
        words = image(main=[(MEASURE, 0, 1)], **ALL, classical=[4096], arguments=arguments)
        few(words, 0, number=0, records=4097, written=ALL_HEAD + 2 * 4096 + 3 * 4096)
    words = image(gates=[opaque(1, 1)], main=[call(0)], parameters=[minus], **lists)
    few(words, 0, number=0, records=4097, written=ALL_HEAD + 9 * 4096)
    words = image(quantum=[900, 900], gates=[opaque(16, 2)], main=[call(0)], parameters=[minus] * 16,
                  arguments=[(1, 0), (0, 0)], expressions=entries)
    few(words, 0, number=0, records=901, written=3 + 3600 + 70 * 900)


def large_pairs():
    heading("4,096 qubits: CX, and overlaps in the last round of a CX, an opaque gate and a nested call")
    for sizes, arguments, rounds in (
        ([2048, 2048], [(0, 0), (1, 0)], 2048), ([2048, 2048], [(1, 0), (0, 0)], 2048),
        ([1, 4095], [(0, 0), (1, 0)], 4095), ([4095, 1], [(0, 0), (1, 1)], 4095),
    ):
        words = image(quantum=sizes, main=[(CX, 0, 1)], arguments=arguments)
        few(words, 2, number=0, records=1 + rounds, written=ALL_HEAD + 3 * rounds)
    for arguments in [(0, 4096), (0, 0)], [(0, 0), (0, 4096)]:
        words = image(main=[(CX, 0, 1)], **ALL, arguments=arguments)
        few(words, 2, number=12, records=4096, written=ALL_HEAD + 3 * 4095, trace=[])
        words = image(gates=[opaque(0, 2)], main=[call(0)], **ALL, arguments=arguments)
        few(words, 2, number=12, records=4096, written=ALL_HEAD + 6 * 4095, trace=[])
        gates = [(0, 2, [(CX, 0, 1)]), (0, 2, [call(0)])]
        words = program([call(1, 0, 2)], gates, **ALL, arguments=[(0, 0), (1, 0), *arguments])
        few(words, 3, number=12, records=4096, written=ALL_HEAD + 3 * 4095, frames=2)
        few(words, 2, number=0, records=4097, written=ALL_HEAD + 6 * 4096)


def large_bodies():
    heading("4,096 qubits: calls with bodies, opened and not, nested, and in an if")
    for body, records, length in (
        ([U_ONE], 1, 14), ([], 0, 0), ([(BARRIER, 0, 1), NOTHING, (BARRIER, 0, 1)], 3, 8),
    ):
        opened = dict(number=0, records=1 + 4096 * records, written=ALL_HEAD + 4096 * length)
        words = program([call(0)], [(0, 1, body)], **ALL)
        few(words, 2, **opened)
        few(words, 1, number=0, records=4097, written=ALL_HEAD + 5 * 4096)
        few(program([call(1)], [(0, 1, body), (0, 1, [call(0)])], **ALL), WORD_MAX, **opened)
    words = program([(IF, 0, 5, 1)], [(0, 1, [(BARRIER, 0, 1)])], [call(0)], **ALL, classical=[2])
    few(words, 2, number=0, records=4096 + 3, written=ALL_HEAD + 4 + 3 * 4096 + 5)
    words = program([call(0)], [(0, 2, [(CX, 0, 1), (CX, 1, 0)])], quantum=[2048, 2048], arguments=[(0, 0), (1, 0)])
    few(words, 2, number=0, records=4097, written=ALL_HEAD + 3 * 4096)


def many_registers():
    heading("4,096 registers of one qubit and 4,000 of one bit: the head, and a statement on the last")
    words = image(quantum=[1] * 4096, classical=[1] * 4000, main=[(MEASURE, 0, 1)], arguments=[(4095, 0), (3999, 1)])
    few(words, 0, number=0, records=2, written=3 + 2 * 8096 + 3)


def few(words, depth, **by_hand):
    """Lines of a long output: all of it, exact, one short, and within a round."""
    outcome = reference.run(words, depth, OUTPUT_ROOM, 256)
    expect_outcome(outcome, words, **by_hand)
    length = len(outcome.output)
    for lent in min(length + 64, OUTPUT_ROOM), length, length - 1, 2 * length // 3:
        vector(words, depth, lent)


# ------------------------------------------------------------- barriers


def barriers():
    heading("Barriers: each qubit once, rising, whatever the arguments' order")
    quantum = [2, 3, 1, 4]  # from 0, 2, 5, 6
    for arguments, held in (
        ([], ""),
        ([(0, 0)], "0 1"),
        ([(3, 0), (0, 0)], "0 1 6 7 8 9"),
        ([(3, 4), (3, 2), (3, 3), (3, 1)], "6 7 8 9"),
        ([(3, 4), (3, 4), (3, 4)], "9"),
        ([(1, 0), (1, 2), (1, 0)], "2 3 4"),
        ([(2, 0), (2, 1), (0, 2), (0, 1)], "0 1 5"),
        ([(3, 0), (2, 0), (1, 0), (0, 0)], "0 1 2 3 4 5 6 7 8 9"),
        ([(1, 3), (3, 1), (0, 1)], "0 4 6"),
        ([(3, 3), (0, 0), (3, 1), (0, 2), (2, 0), (3, 3)], "0 1 5 6 8"),
    ):
        words = image(quantum=quantum, main=[(BARRIER, 0, len(arguments))], arguments=arguments)
        text = " ".join(("4", str(len(held.split())), *held.split()))
        stated(words, 0, head(quantum), text, "done 2")


def body_barriers():
    quantum = [2, 3, 1, 4]
    heading("Barriers in bodies: formals that stand for one qubit hold it once; rising, whatever the caller's order")
    formals = [(2, 0), (0, 0), (1, 0), (0, 0)]
    for arguments, held in (
        ([(0, 0), (0, 1), (1, 1)], ["2 0 2", "3 0 1 2"]),
        ([(3, 1), (2, 0), (0, 1)], ["3 0 5 6"]),
        ([(3, 4), (3, 4), (3, 4)], ["1 9"]),
        ([(1, 0), (1, 0), (0, 2)], ["2 1 2", "2 1 3", "2 1 4"]),
    ):
        words = program([call(0, 0, 4)], [(0, 3, [(BARRIER, 0, 4)])], quantum=quantum, arguments=formals + arguments)
        stated(words, 2, head(quantum), *("4 " + text for text in held), f"done {1 + len(held)}")
    heading("A barrier of more arguments than qubits, and its words")
    words = image(quantum=[1, 3], main=[(BARRIER, 0, 300)], arguments=[(1, 0), (0, 0)] * 150)
    stated(words, 0, head([1, 3]), "4 4 0 1 2 3", "done 2")
    every_length(words, 0)


def barrier_orders():
    heading("Barriers over several registers, in every order of arguments that overlap: the same words")
    quantum = [2, 3, 1, 4]  # from 0, 2, 5, 6
    for arguments in permutations(((3, 0), (1, 2), (0, 0), (3, 3))):
        words = image(quantum=quantum, main=[(BARRIER, 0, 4)], arguments=list(arguments))
        stated(words, 0, head(quantum), "4 7 0 1 3 6 7 8 9", "done 2")
    heading("Barriers whose qubits have one to four digits: by number and not by digits")
    numbers = 1000, 101, 20, 9, 100, 10, 11, 999, 2
    for quantum, arguments in (
        ([1001], qubits(*numbers)),
        ([1001], qubits(*sorted(numbers, key=str))),
        ([9, 91, 900, 1], [(3, 0), (2, 2), (1, 12), (1, 1), (2, 1), (1, 2), (1, 3), (2, 900), (0, 3)]),
    ):
        words = image(quantum=quantum, main=[(BARRIER, 0, 9)], arguments=arguments)
        stated(words, 0, head(quantum), "4 9 2 9 10 11 20 100 101 999 1000", "done 2")


def body_barrier_orders():
    heading("Barriers in bodies: every order of three formals, in a body that is called and one that it calls; and none")
    for order in permutations(range(3)):
        lists = Lists()
        inner = [lists.barrier(*order), lists.barrier(), lists.barrier(order[2], order[0])]
        outer = [lists.call(0, formals(*order)), lists.barrier(*order, *order[:2])]
        main, texts = [], []
        for row in (10, 2, 9), (2, 9, 10):
            main.append(lists.call(1, qubits(*row)))
            handed = [row[number] for number in order]
            pair = sorted((handed[order[2]], handed[order[0]]))
            texts += ["4 3 2 9 10", "4 0", f"4 2 {joined(pair)}", "4 3 2 9 10"]
        words = lists.program(main, [(0, 3, inner), (0, 3, outer)], quantum=[11])
        stated(words, 3, head([11]), *texts, "done 9")


# ------------------------------------------------------------- conditionals


def ifs():
    heading("Ifs around each allowed kind; first bit and size of the register, any value")
    quantum, classical = [2, 1], [2, 1, 3]
    starts = {0: "7 0 2", 1: "7 2 1", 2: "7 3 3"}
    # Arguments 0 to 2 are main's, 3 and 4 formals.
    gates = [(1, 1), (0, 1, [U_ONE, (BARRIER, 0, 1)]), (0, 2, [(CX, 3, 4)])]
    arguments = [(0, 0), (1, 0), (0, 2), (0, 0), (1, 0)]
    u = U_TEXT
    for inner, depth, texts in (
        (U_ONE, 0, [f"{u} 0", f"{u} 1"]),
        ((CX, 0, 1), 0, ["2 0 2", "2 1 2"]),
        ((MEASURE, 0, 0), 1, ["5 0 0", "5 1 1"]),
        ((MEASURE, 1, 2), 1, ["5 2 1"]),
        ((RESET, 0), 2, ["6 0", "6 1"]),
        (call(0), 2, ["3 0 1 1 0 1 1 1 0", "3 0 1 1 0 1 1 1 1"]),
        (call(1), 1, ["3 1 0 1 0", "3 1 0 1 1"]),
        (call(1), 2, [f"{u} 0", "4 1 0", f"{u} 1", "4 1 1"]),
        (call(2, 0, 1), 3, ["2 2 1"]),
    ):
        for register, value in (0, 0), (1, WORD_MAX), (2, 5):
            lists = dict(quantum=quantum, classical=classical, arguments=arguments, parameters=[0])
            words = program([(IF, register, value, 1)], gates, [inner], **lists)
            text = head(quantum, classical), f"{starts[register]} {value}", *texts, "8", f"done {3 + len(texts)}"
            stated(words, depth, *text)


def ifs_in_turn():
    u = U_TEXT
    heading("Ifs one after another, that share an inner statement with a body; each length of output")
    lists = dict(quantum=[2], classical=[1, 2], arguments=[(0, 0), (0, 1)])
    words = image(gates=[gate(0, 1, 4, 1)], main=[(IF, 1, 3, 4), (IF, 0, 1, 5), (RESET, 1), (IF, 1, 0, 5)],
                  further=[(BARRIER, 0, 1), (CALL, 0, 0, 0)], **lists)
    expect_outcome(vector(words, 2, 99), words, number=4)  # a barrier is not allowed in an if
    words = image(gates=[gate(0, 1, 4, 1)], main=[(IF, 1, 3, 4), (IF, 0, 1, 5), (RESET, 1), (IF, 1, 0, 5)],
                  further=[(U, 0, 0, 0, 0), (CALL, 0, 0, 0)], expressions=[PI_ENTRY], **lists)
    us = [f"{u} 0", f"{u} 1"]
    text = "7 1 2 3", *us, "8", "7 0 1 1", *us, "8", "6 0", "7 1 2 0", *us, "8", "done 14"
    stated(words, 2, head([2], [1, 2]), *text)
    cut = ["3 0 0 1 0", "3 0 0 1 1"]
    text = "7 1 2 3", *us, "8", "7 0 1 1", *cut, "8", "6 0", "7 1 2 0", *cut, "8", "done 14"
    stated(words, 1, head([2], [1, 2]), *text)
    every_length(words, 1)


def refusals_in_ifs():
    heading("Refusals in an if: the start stays, the end is missing; the trace has the inner call's place")
    for count in 1, 2, 3:
        for number, second, tree in ONE_OF_EACH:
            entries, (named,) = flat(tree)
            words = program([NOTHING, (IF, 0, 9, 2)], tower(count, [(U, named, named, named, 0)], 1), [call(count - 1)],
                            expressions=entries, classical=[2])
            # Statements 0 and 1 are main's, 2 is the if's, then the bodies.
            pairs = [(0, 2)] + [(k + 1, 3 + k) for k in range(count - 1, 0, -1)]
            first = place(words, MAIN, 0)
            trace = [f"from {scope} {first + 5 * statement}" for scope, statement in pairs]
            ending = f"refused {number} {place(words, EXPRESSIONS, named)} {second}"
            stated(words, count + 1, head([1], [2]), "4 0", "7 0 2 9", *trace, ending)
        words = program([(IF, 0, 9, 1)], tower(count, [CX_ONE], 1), [call(count - 1)], classical=[2])
        expect(words, WORD_MAX, number=12, records=2, frames=count)
        every_length(words, 1)
    for inner in (CX, 0, 1), (CX, 1, 0):
        words = image(quantum=[3], classical=[1], main=[(IF, 0, 2, 1)], further=[inner], arguments=[(0, 0), (0, 3)])
        base = place(words, ARGUMENTS, 0)
        cxs = [f"2 {t} 2" if inner == (CX, 0, 1) else f"2 2 {t}" for t in range(2)]
        ending = f"refused 12 {base + 2 * inner[1]} {base + 2 * inner[2]}"
        stated(words, 0, head([3], [1]), "7 0 1 2", *cxs, ending)
        every_length(words, 0)
    lists = parameters(BAD)
    words = program([(IF, 0, 2, 1)], [(1, 1)], [call(0)], classical=[1], **lists)
    ending = f"refused 9 {place(words, EXPRESSIONS, lists['parameters'][0])} 0"
    stated(words, 0, head([1], [1]), "7 0 1 2", ending)


# ------------------------------------------------------ output too short


def short_outputs():
    heading("14: a head that does not fit, with an empty trace; nothing is written")
    for quantum, classical in ([1], []), ([2, 3], [4]), ([], [1]), ([], []):
        words = image(quantum=quantum, classical=classical, main=[NOTHING])
        length = 3 + 2 * (sum(quantum) + sum(classical))
        for lent in range(length + 3):
            outcome = vector(words, 2, lent)
            number, records = (14, 0) if lent < length else (14, 1) if lent < length + 2 else (0, 2)
            expect_outcome(outcome, words, number=number, place=0, second=0, records=records, trace=[])
    lists = parameters(BAD)
    words = program([call(0)], [(1, 1, [U_ONE])], **lists)
    for lent in 0, 4:  # the head comes before the first statement's parameters
        expect_outcome(vector(words, 2, lent), words, number=14, records=0, trace=[])
    expect_outcome(vector(words, 2, 5), words, number=9, records=1, trace=[])


def records_too_long():
    heading("14: the first record of each kind that is one word too long")
    gates = [(1, 1), (0, 1, [(BARRIER, 0, 1), CX_ONE])]
    lists = dict(quantum=[2, 1], classical=[2], arguments=[(0, 0), (1, 0)], parameters=[0])
    top = len(head([2, 1], [2]).split())
    for statement, length, frames in (
        (U_ONE, 14, 0), ((CX, 0, 1), 3, 0), (call(0), 9, 0), (call(1), 5, 1), ((BARRIER, 0, 2), 5, 0),
        ((MEASURE, 0, 0), 3, 0), ((RESET, 0), 2, 0), ((IF, 0, 1, 1), 4, 0),
    ):
        words = program([statement], gates, [(RESET, 0)], **lists)
        for lent in range(top, top + length):
            expect_outcome(vector(words, 1, lent), words, number=14, records=1, written=top, frames=frames)
        expect_outcome(vector(words, 1, top + length), words, records=2, written=top + length)
        around(words, 1)


def short_outputs_inside():
    heading("14: in a later round, in a body, and the ends of ifs")
    for depth in 1, 2, 3:
        gates = [(0, 2, [(CX, 1, 0)]), (0, 2, [call(0), (BARRIER, 0, 2)])]
        lists = dict(quantum=[3, 3], classical=[1], arguments=[(0, 0), (1, 0)])
        every_length(program([(IF, 0, 1, 2), (RESET, 1)], gates, [call(1)], **lists), depth)
    heading("An output of exactly the words that a refused run has written: it is refused for its own reason, not as full")
    words = image(quantum=[3], main=[(RESET, 0), (CX, 0, 1)], arguments=[(0, 0), (0, 2)])
    every_length(words, 1)
    words = program([U_ONE, call(0)], [(1, 1)], **parameters(PI_TREE, BAD) | dict(parameters=[3]))
    every_length(words, 1)


# ------------------------------------------------- refused by the check


def refused_by_the_check():
    heading("What the check refuses: nothing is written, whatever is lent; a short trace comes first")
    contents = [[0], K1[:-1], changed(K1, {4: 3})]
    for number, at, words in refused_images() + [(1, 0, words) for words in contents]:
        nothing = dict(second=0, records=0, output=[], trace=[])
        for depth, lent, trace in (8, 99, 256), (0, 0, 256), (WORD_MAX, 500, 300):
            expect_outcome(vector(words, depth, lent, trace), words, number=number, place=at, **nothing)
        for lent, trace in (99, 255), (0, 0):
            expect_outcome(vector(words, 8, lent, trace), words, number=15, place=0, **nothing)
    heading("A bad statement that the run would not meet is refused beforehand")
    words = image(quantum=[1], main=[(CX, 0, 0), (RESET, 0, 1)], arguments=[(0, 0)])
    expect_outcome(vector(words, 8, 99), words, number=4, place=15, records=0)
    words = program([CX_ONE], [(0, 1, [(U, 0, 0, 0, 1)])])
    expect_outcome(vector(words, 8, 99), words, number=4, place=place(words, MAIN, 1), records=0)


# --------------------------------------------------------------- empties


def empties():
    heading("Programs without statements, registers or gates; entries that nothing uses")
    for depth in 0, 2, WORD_MAX:
        stated(image(), depth, "done 0")
        stated(image(quantum=[4096], classical=[4096]), depth, "done 0")
        stated(program([], tower(8, [U_ONE])), depth, "done 0")
        stated(image(main=[NOTHING]), depth, "0 0 0", "4 0", "done 2")
        stated(image(classical=[2], main=[NOTHING] * 2), depth, head([], [2]), "4 0", "4 0", "done 3")
        stated(image(gates=[opaque(0, 0)], main=[call(0)] * 3), depth, "0 0 0", "done 1")
    garbage = dict(further=[(9, 9, 9, 9, 9)], parameters=[WORD_MAX], expressions=[(99, 9, 9)])
    stated(image(arguments=[(7, 7)], **garbage), 2, "done 0")
    words = image(quantum=[1], main=[(RESET, 1)], arguments=[(9, 9), (0, 0)], **garbage)
    stated(words, 2, head([1]), "6 0", "done 2")


def longest_images():
    heading("The longest images: 8,192 words, of statements and of expressions")
    words = image(quantum=[2], main=[(RESET, 0)] * 1635, parameters=[0] * 5, arguments=[(0, 2)])
    expect_outcome(vector(words, 2, 5000), words, number=0, records=1636, written=7 + 2 * 1635)
    expect_outcome(vector(words, 2, 3276), words, number=14, records=1635, written=7 + 2 * 1634)
    words = image(quantum=[1], main=[(U, 2723, 2723, 0, 0)], arguments=[(0, 0)], parameters=[0] * 3,
                  expressions=[integer(7)] * 2722 + [(NEGATE, 2721, 0), (NEGATE, 2722, 0)])
    stated(words, 2, head([1]), "1 7 1 0 1 7 1 0 1 7 1 0 1 0", "done 2")


def shared_bodies():
    heading("Bodies that gates share: the frame's own gate in the trace, its own formals and variables")
    # Statement 1 is a U of x, statement 2 a call of gate 0 with x; gates 1 and 2 have both, gate 3 the second.
    entries, (x, bad, fine, quotient) = flat(X, (MINUS, ONE, ONE), ratio(-2, 3), (DIVIDE, ONE, X))
    for handed in bad, fine:
        gates = [gate(1, 1, 5, 1), gate(1, 1, 3, 2), gate(2, 2, 3, 2), gate(1, 1, 4, 1)]
        further = [(U, x, x, x, 0), (CALL, 0, 0, 0), (U, quotient, x, quotient, 0)]
        for number in 1, 2, 3:
            words = image(quantum=[2], gates=gates, main=[NOTHING, call(number, 1, 0), NOTHING], further=further,
                          arguments=[(0, 0), (0, 1)], parameters=[x, handed, handed], expressions=entries)
            first = place(words, MAIN, 0)
            text = "0 1 0 1" if handed == bad else "-2 3 0 1"
            own = [] if number == 3 else [f"1 {text} {text} {text} %d"]
            if handed == bad:
                trace = f"from 0 {first + 5}", f"from {number + 1} {first + 20}"
                at = place(words, EXPRESSIONS, quotient)
                stated(words, 3, head([2]), "4 0", *(u % 0 for u in own), *trace, f"refused 9 {at} 0")
            else:
                inner = own + ["1 -3 2 0 1 -2 3 0 1 -3 2 0 1 %d"]
                done = [u % qubit for qubit in range(2) for u in inner]
                stated(words, 3, head([2]), "4 0", *done, "4 0", f"done {3 + len(done)}")
            count = 2 if number == 2 else 1
            cut = [f"3 {number} 0 {count} {qubit}" + " 0" * (count - 1) for qubit in range(2)]
            stated(words, 1, head([2]), "4 0", *cut, "4 0", "done 5")


def towers_at_depths():
    heading("Gates that call the one below twice: the depth cuts, the output ends the run")
    words = program([call(39)], tower(40, [U_ONE]))
    for depth in 0, 1, 2, 3, 5, 8:
        opened = max(depth - 1, 0)
        expect(words, depth, number=0, records=1 + 2**opened, written=5 + 5 * 2**opened)
    for depth in 40, 41, 129, WORD_MAX:
        for lent in 0, 4, 5, 18, 19, 20, 300, 5000:
            vector(words, depth, lent)
    words = program([call(4)], tower(5, [U_ONE, (BARRIER, 0, 1)]), quantum=[3])
    for depth in 0, 1, 2, 3, 4, 5, 6, 129:
        opened = min(max(depth - 1, 0), 5)
        records = 3 * 2 ** opened if opened < 5 else 3 * 2 * 2**4
        expect(words, depth, number=0, records=1 + records)


# -------------------------------------------------------- repeated calls
# A run may keep what a body has written, and copy it when the gate is called again.
# Each of these runs would end otherwise if a wrong body were copied, or a right one
# wrongly.


class Lists:
    """Arguments, parameters and expressions, added statement by statement."""

    def __init__(self):
        self.arguments, self.parameters, self.expressions = [], [], []

    def named(self, arguments):
        self.arguments += arguments
        return len(self.arguments) - len(arguments)

    def u(self, formal, *trees):
        return U, *(numbered(tree, self.expressions) for tree in trees), self.named(formals(formal))

    def cx(self, first, second):
        at = self.named(formals(first, second))
        return CX, at, at + 1

    def barrier(self, *numbers):
        return BARRIER, self.named(formals(*numbers)), len(numbers)

    def call(self, number, arguments, *trees):
        first = len(self.parameters)
        self.parameters += [numbered(tree, self.expressions) for tree in trees]
        return call(number, first, self.named(arguments))

    def program(self, main, gates, inner=(), **lists):
        return program(main, gates, inner, arguments=self.arguments, parameters=self.parameters,
                       expressions=self.expressions, **lists)


def formals(*numbers):
    return [(number, 0) for number in numbers]


def qubits(*numbers):
    """Arguments of main: qubits of register 0."""
    return [(0, number + 1) for number in numbers]


def joined(numbers):
    return " ".join(map(str, numbers))


Z = VARIABLE, 2
ZERO_TEXT = "0 1 0 1"


def pair_body(lists):
    """U of x on the first of two qubits, CX, U of x on the second."""
    return [lists.u(0, X, ZERO, ZERO), lists.cx(0, 1), lists.u(1, ZERO, X, X)]


def pair_texts(angle, first, second):
    return [f"1 {angle} {ZERO_TEXT} {ZERO_TEXT} {first}", f"2 {first} {second}",
            f"1 {ZERO_TEXT} {angle} {angle} {second}"]


# Angles, each with others that differ from it in one number or two; the last is equal to it.
HALF = "1 2 0 1", ratio(1, 2)
BOTH = "1 2 1 2", (PLUS, ratio(1, 2), pi_times(1, 2))
NEAR = {
    HALF: (("-1 2 0 1", ratio(-1, 2)), ("3 2 0 1", ratio(3, 2)), ("1 3 0 1", ratio(1, 3)), ("0 1 0 1", ZERO),
           ("1 2 1 1", (PLUS, ratio(1, 2), PI_TREE)), ("0 1 1 2", pi_times(1, 2)), ("1 2 0 1", ratio(2, 4))),
    BOTH: (("1 2 1 3", (PLUS, ratio(1, 2), pi_times(1, 3))), ("1 2 -1 2", (PLUS, ratio(1, 2), pi_times(-1, 2))),
           ("1 3 1 2", (PLUS, ratio(1, 3), pi_times(1, 2))), ("-1 2 -1 2", (NEGATE, BOTH[1])),
           ("1 2 1 2", (DIVIDE, (PLUS, ONE, PI_TREE), TWO))),
}


def repeated_calls():
    heading("A gate called again, with the same and another angle, on the same, other and swapped qubits")
    for one, other in ((one, other) for one, others in NEAR.items() for other in others):
        lists, main, texts, cut = Lists(), [], [], []
        for (text, tree), *pair in (
            (one, 0, 1), (one, 0, 1), (one, 2, 3), (one, 1, 0), (other, 0, 1), (other, 3, 2), (one, 0, 2),
            (other, 0, 1), (one, 3, 1), (one, 1, 3),
        ):
            main.append(lists.call(0, qubits(*pair), tree))
            texts += pair_texts(text, *pair)
            cut.append(f"3 0 0 2 {joined(pair)}")
        words = lists.program(main, [(1, 2, pair_body(lists))], quantum=[4])
        for depth in 2, WORD_MAX:
            stated(words, depth, head([4]), *texts, f"done {1 + len(texts)}")
        stated(words, 1, head([4]), *cut, f"done {1 + len(cut)}")


def repeated_parameters():
    heading("A gate of 1, 2, 3 and 16 parameters called again: each of them another in turn, and all turned round")
    for count in 1, 2, 3, 16:
        lists = Lists()
        # A U for each third parameter k: of k, k + 1 and k + 2, where the first follow on the last.
        us = [[(VARIABLE, (k + i) % count) for i in range(3)] for k in range(0, count, 3)]
        gates = [(count, 1, [lists.u(0, *trees) for trees in us])]
        plain = list(range(count))
        rows = [plain, plain]
        for k in range(count):
            rows += [[*plain[:k], 99, *plain[k + 1 :]], plain]
        rows += [plain[1:] + plain[:1], plain[::-1], plain]
        main, texts = [], []
        for at, row in enumerate(rows):
            main.append(lists.call(0, qubits(at % 3), *map(whole, row)))
            for k in range(0, count, 3):
                named = " ".join(f"{row[(k + i) % count]} 1 0 1" for i in range(3))
                texts.append(f"1 {named} {at % 3}")
        words = lists.program(main, gates, quantum=[3])
        stated(words, 2, head([3]), *texts, f"done {1 + len(texts)}")


def repeated_arguments():
    heading("A gate of 16 arguments called again with them turned round, exchanged, and moved up by one")
    lists = Lists()
    body = [lists.cx(k, (k + 1) % 16) for k in range(16)] + [lists.u(15, TWO, ONE, ZERO), lists.barrier(7, 0, 15)]
    row = list(range(16))
    rows = [row, row[5:] + row[:5], row[::-1], [1, 0, *row[2:]], [*row[:14], 15, 14], [k + 1 for k in row], row]
    main = [lists.call(0, qubits(*row)) for row in rows]
    texts = []
    for row in rows:
        texts += [f"2 {row[k]} {row[(k + 1) % 16]}" for k in range(16)]
        texts.append(f"1 2 1 0 1 1 1 0 1 {ZERO_TEXT} {row[15]}")
        texts.append(f"4 3 {joined(sorted((row[7], row[0], row[15])))}")
    words = lists.program(main, [(0, 16, body)], quantum=[17])
    stated(words, 2, head([17]), *texts, f"done {1 + len(texts)}")


def repeated_with_equal_qubits():
    heading("Formals that stand for one qubit in one call and for two in another, in each order of the calls")
    # No CX: nothing refuses them.  The barrier holds an equal qubit once, so its length changes.
    rows = (0, 1, 2), (0, 0, 1), (1, 0, 0), (2, 1, 2), (2, 2, 2)
    for turn in range(len(rows)):
        order = [*rows[turn:], *rows[:turn], *rows[turn::-1]]
        lists = Lists()
        body = [lists.u(0, ONE, ZERO, ZERO), lists.u(1, TWO, ZERO, ZERO), lists.barrier(1, 0),
                lists.u(2, ZERO, ONE, ZERO)]
        gates = [(0, 3, body), (0, 3, [lists.call(0, formals(2, 0, 1))])]
        for number in 0, 1:
            main, texts = [], []
            for row in order:
                main.append(lists.call(number, qubits(*row)))
                a, b, c = row if number == 0 else (row[2], row[0], row[1])
                held = sorted({a, b})
                texts += [f"1 1 1 0 1 {ZERO_TEXT} {ZERO_TEXT} {a}", f"1 2 1 0 1 {ZERO_TEXT} {ZERO_TEXT} {b}",
                          f"4 {len(held)} {joined(held)}", f"1 {ZERO_TEXT} 1 1 0 1 {ZERO_TEXT} {c}"]
            words = lists.program(main, gates, quantum=[3])
            stated(words, 3, head([3]), *texts, f"done {1 + len(texts)}")
            if number:
                cut = [f"3 0 0 3 {c} {a} {b}" for a, b, c in order]
                stated(words, 2, head([3]), *cut, f"done {1 + len(cut)}")


def repeated_overlaps():
    heading("12 of a body that was fine before: a CX and an opaque gate, called directly and nested")
    fine, bad = ((0, 1, 2), (2, 1, 0)), (3, 3, 0)
    for inner in CX, CALL:
        for numbers in (1, 1, 1), (2, 2, 2), (1, 2, 1), (2, 1, 2), (1,), (2,):
            lists = Lists()
            gates, texts, overlapping = overlapping_gates(lists, inner)
            rows = [*fine[: len(numbers) - 1], bad, fine[0]]
            main = [lists.call(number, qubits(*row)) for number, row in zip((*numbers, 1), rows)]
            words = lists.program(main, gates, quantum=[4])
            done = [line for number, row in zip(numbers[:-1], rows) for line in texts(number, *row)]
            first, base = place(words, MAIN, 0), place(words, ARGUMENTS, 0)
            trace = [f"from 0 {first + 5 * (len(numbers) - 1)}"]
            if numbers[-1] == 2:  # gate 2's one statement stands behind main's and the two of gate 1
                trace.append(f"from 3 {first + 5 * (len(main) + 2)}")
            ending = "refused 12 %d %d" % tuple(base + 2 * argument for argument in overlapping)
            stated(words, 3, head([4]), *done, texts(1, *bad)[0], *trace, ending)
    heading("12 in a later round of a body that was fine in the rounds before")
    for inner in CX, CALL:
        for before in False, True:
            lists = Lists()
            gates, texts, overlapping = overlapping_gates(lists, inner)
            # Registers from 0 and 4: q0[k], q0[2] and q1[k]; before it q1[0], q0[k] and q1[1].
            main = [lists.call(2, [(1, 1), (0, 0), (1, 2)])] * before + [lists.call(2, [(0, 0), (0, 3), (1, 0)])]
            words = lists.program(main, gates, quantum=[4, 4])
            done = [line for k in range(4 * before) for line in texts(2, 4, k, 5)]
            done += [line for k in range(2) for line in texts(2, k, 2, 4 + k)] + texts(2, 2, 2, 6)[:1]
            first, base = place(words, MAIN, 0), place(words, ARGUMENTS, 0)
            trace = f"from 0 {first + 5 * before}", f"from 3 {first + 5 * (len(main) + 2)}"
            ending = "refused 12 %d %d" % tuple(base + 2 * argument for argument in overlapping)
            stated(words, 3, head([4, 4]), *done, *trace, ending)


def overlapping_gates(lists, inner):
    """Gate 0 is opaque.  Gate 1 has a U on its third, and a CX or gate 0 on its second and first; gate 2 calls it with
    these two exchanged.  With them what is written, and the two arguments that overlap, as document 01 tells them."""
    last = lists.cx(1, 0) if inner == CX else lists.call(0, formals(1, 0), TWO)
    gates = [(1, 2), (0, 3, [lists.u(2, ONE, ONE, ONE), last]), (0, 3, [lists.call(1, formals(1, 0, 2))])]

    def texts(number, a, b, c):
        a, b = (a, b) if number == 1 else (b, a)
        return ["1" + " 1 1 0 1" * 3 + f" {c}", f"2 {b} {a}" if inner == CX else f"3 0 1 2 2 1 0 1 {b} {a}"]

    return gates, texts, (last[1], last[2]) if inner == CX else (last[3] + 1, last[3])


def repeated_at_levels():
    heading("A gate called again with other levels left: its callee is opened in one place and cut in the other")
    # Gate 0 is U of x and CX, or has no statements; gate n calls the one below it with x, and from 2 on gate 0 too.
    for silent in False, True:
        for order in (1, 3, 1, 2), (3, 1, 2, 3), (2, 3, 0, 1), (1, 2, 3, 2, 1), (3, 2, 1, 0, 3):
            lists = Lists()
            gates = [(1, 2, [] if silent else [lists.u(0, X, ZERO, ZERO), lists.cx(0, 1)])]
            for number in 1, 2, 3:
                body = [lists.call(number - 1, formals(1, 0), X)]
                gates.append((1, 2, body if number < 2 else body + [lists.call(0, formals(0, 1), X)]))

            def written(number, a, b, levels, text):
                if levels == 0:
                    return [f"3 {number} 0 2 {a} {b}"]
                if number == 0:
                    return [] if silent else [f"1 {text} {ZERO_TEXT} {ZERO_TEXT} {a}", f"2 {a} {b}"]
                more = written(0, a, b, levels - 1, text) if number > 1 else []
                return written(number - 1, b, a, levels - 1, text) + more

            calls = [(number, at % 3, 3, ANGLES[at // 3 % 2 + 1]) for at, number in enumerate(order)]
            main = [lists.call(number, qubits(a, b), tree) for number, a, b, (_, tree) in calls]
            words = lists.program(main, gates, quantum=[4])
            for depth in 0, 1, 2, 3, 4, 5, 6, WORD_MAX:
                levels = max(depth - 1, 0)
                texts = [line for number, a, b, (text, _) in calls for line in written(number, a, b, levels, text)]
                stated(words, depth, head([4]), *texts, f"done {1 + len(texts)}")


def repeated_broadcasts():
    heading("Gates over whole registers, again over others, and on single qubits before, between and after")
    for barrier in False, True:
        lists = Lists()
        body = pair_body(lists) + [lists.barrier(1, 0)] * barrier
        gates = [(1, 2, body), (1, 2, [lists.call(0, formals(1, 0), X)] * 2)]
        text, tree = HALF
        # Registers of 3, 3 and 1 qubits: from 0, 3 and 6.
        rows = (
            (0, [(0, 0), (1, 0)], [(0, 3), (1, 4), (2, 5)]), (0, [(1, 2), (0, 2)], [(4, 1)]),
            (1, [(1, 0), (0, 0)], [(3, 0), (4, 1), (5, 2)]), (0, [(2, 0), (1, 0)], [(6, 3), (6, 4), (6, 5)]),
            (1, [(0, 0), (2, 1)], [(0, 6), (1, 6), (2, 6)]), (0, [(0, 1), (0, 2)], [(0, 1)]),
        )
        for order in rows, rows[::-1]:
            main, texts = [], []
            for number, arguments, rounds in order:
                main.append(lists.call(number, arguments, tree))
                for a, b in rounds:
                    pair = (a, b) if number == 0 else (b, a)
                    lines = pair_texts(text, *pair) + [f"4 2 {joined(sorted(pair))}"] * barrier
                    texts += lines * (number + 1)
            words = lists.program(main, gates, quantum=[3, 3, 1])
            for depth in 3, WORD_MAX:
                stated(words, depth, head([3, 3, 1]), *texts, f"done {1 + len(texts)}")
            expect(words, 2, number=0)
            expect(words, 1, number=0, records=1 + sum(len(rounds) for *_, rounds in rows))


def doubling(levels, count, bottom, handed, lists):
    """Gates of two qubits: each calls the one below as it is called, and then with its qubits swapped."""
    gates = [(count, 2, bottom)]
    for number in range(levels - 1):
        body = [lists.call(number, formals(*pair), *handed) for pair in ((0, 1), (1, 0))]
        gates.append((count, 2, body))
    return gates


def repeated_doubling():
    heading("5 levels of doubling, copies of copies: 0, 1 and 3 parameters handed on as they are, and turned round")
    variables_of = {0: [], 1: [X], 3: [X, Y, Z]}
    for count, turned in (0, 0), (1, 0), (3, 0), (3, 1):
        lists = Lists()
        own = variables_of[count]
        trees = [*own, ONE, ZERO, TWO][:3]
        handed = own[turned:] + own[:turned]
        gates = doubling(5, count, [lists.u(0, *trees), lists.cx(0, 1)], handed, lists)
        given = [3, 2, 4][:count]

        def written(number, a, b, levels, values):
            if levels == 0:
                return [f"3 {number} 0 2 {a} {b}"]
            if number == 0:
                texts = " ".join(f"{value} 1 0 1" for value in [*values, 1, 0, 2][:3])
                return [f"1 {texts} {a}", f"2 {a} {b}"]
            values = values[turned:] + values[:turned]
            return [line for pair in ((a, b), (b, a)) for line in written(number - 1, *pair, levels - 1, values)]

        rows = (0, 1), (2, 1), (1, 2)
        main = [lists.call(4, qubits(*row), *map(whole, given)) for row in rows]
        words = lists.program(main, gates, quantum=[3])
        for depth in 0, 2, 3, 4, 5, 6, WORD_MAX:
            texts = [line for row in rows for line in written(4, *row, max(depth - 1, 0), given)]
            stated(words, depth, head([3]), *texts, f"done {1 + len(texts)}")


def repeated_barriers():
    heading("Bodies with barriers called again on each order of three qubits of four: the qubits are rising in each")
    lists = Lists()
    body = [lists.barrier(0, 1, 2), lists.u(2, ONE, TWO, ONE), lists.barrier(2, 0), lists.cx(2, 1), lists.barrier(1),
            lists.barrier()]
    calls = [lists.call(0, formals(1, 2, 0)), lists.barrier(2, 1), lists.call(0, formals(0, 1, 2))]
    gates = [(0, 3, body), (0, 3, calls)]
    rows = list(permutations(range(4), 3))
    for number in 0, 1:
        main, texts = [], []

        def lines(a, b, c):
            return [f"4 3 {joined(sorted((a, b, c)))}", f"1 1 1 0 1 2 1 0 1 1 1 0 1 {c}",
                    f"4 2 {joined(sorted((c, a)))}", f"2 {c} {b}", f"4 1 {b}", "4 0"]

        for a, b, c in rows:
            main.append(lists.call(number, qubits(a, b, c)))
            nested = [*lines(b, c, a), f"4 2 {joined(sorted((c, b)))}"] if number else []
            texts += [*nested, *lines(a, b, c)]
        words = lists.program(main, gates, quantum=[4])
        stated(words, 3, head([4]), *texts, f"done {1 + len(texts)}")
        expect(words, 2, number=0)


def repeated_opaque_gates():
    heading("Bodies with opaque gates called again; angles, counts and gates have the same numbers as the qubits")
    lists = Lists()
    # Gates 0 to 3 are opaque, with so many parameters; gates 4 and 5 have bodies.
    opaque_gates = [(0, 1), (1, 3), (2, 2), (3, 1)]
    body = [lists.call(2, formals(1, 0), X, TWO), lists.call(1, formals(2, 0, 1), ONE), lists.call(0, formals(2)),
            lists.call(3, formals(0), ZERO, X, whole(3))]
    calls = [lists.call(4, formals(2, 1, 0), X), lists.call(4, formals(0, 2, 1), ONE)]
    gates = [*opaque_gates, (1, 3, body), (1, 3, calls)]

    def lines(x, a, b, c):
        return [f"3 2 2 2 {x} 1 0 1 2 1 0 1 {b} {a}", f"3 1 1 3 1 1 0 1 {c} {a} {b}", f"3 0 0 1 {c}",
                f"3 3 3 1 {ZERO_TEXT} {x} 1 0 1 3 1 0 1 {a}"]

    main, texts, half, cut = [], [], [], []
    for number, x, a, b, c in (
        (4, 1, 0, 1, 2), (4, 1, 2, 3, 1), (4, 2, 1, 2, 3), (5, 1, 3, 1, 0), (4, 1, 3, 2, 1), (5, 2, 0, 1, 2),
        (5, 1, 1, 2, 3),
    ):
        main.append(lists.call(number, qubits(a, b, c), whole(x)))
        texts += lines(x, a, b, c) if number == 4 else lines(x, c, b, a) + lines(1, a, c, b)
        half += lines(x, a, b, c) if number == 4 else [f"3 4 0 3 {c} {b} {a}", f"3 4 0 3 {a} {c} {b}"]
        cut.append(f"3 {number} 0 3 {a} {b} {c}")
    words = lists.program(main, gates, quantum=[4])
    for depth, text in (WORD_MAX, texts), (3, texts), (2, half), (1, cut):
        stated(words, depth, head([4]), *text, f"done {1 + len(text)}")


def repeated_output_ends():
    heading("14 in a body that is called again: each length of output, direct and nested calls, opened and cut")
    lists = Lists()
    gates = [(1, 2, pair_body(lists)), (0, 2, [lists.call(0, formals(1, 0), ONE), lists.barrier(1, 0)]),
             (0, 2, [lists.call(1, formals(0, 1)), lists.call(1, formals(1, 0))])]
    main = [lists.call(1, qubits(0, 1)), lists.call(2, qubits(1, 2)), (RESET, lists.named(qubits(2)))]
    words = lists.program(main, gates, quantum=[3])
    # The head has 9 words; gate 0 has 14, 3 and 14, and gate 1 a barrier of 4 more.
    first = place(words, MAIN, 0)
    bodies = 5 * 3 + 5 * 3  # main's statements, and gate 0's
    one, two = f"from 0 {first + 5}", [f"from 3 {first + bodies + 10 + 5 * k}" for k in range(2)]
    inner = f"from 2 {first + bodies}"
    for lent, records, *trace in (
        (9 + 34, 4, f"from 0 {first}"), (9 + 35, 5, one, two[0], inner), (9 + 35 + 13, 5, one, two[0], inner),
        (9 + 35 + 14, 6, one, two[0], inner), (9 + 35 + 30, 7, one, two[0], inner), (9 + 35 + 31, 8, one, two[0]),
        (9 + 70, 9, one, two[1], inner), (9 + 70 + 16, 10, one, two[1], inner), (9 + 70 + 34, 12, one, two[1]),
        (9 + 105, 13), (9 + 106, 13),
    ):
        for depth in 4, WORD_MAX:
            outcome = vector(words, depth, lent)
            expect_outcome(outcome, words, number=14, place=0, second=0, records=records)
            agree(outcome, text_of(outcome)[records:-1], trace, words)
    for depth in 1, 2, 3, 4:
        every_length(words, depth)
    expect(words, 4, number=0, records=14, written=9 + 105 + 2)


def repeated_refusals():
    heading("9, 10, 11 and 13 of a body that was fine with another angle; the trace has the later call")
    # The angle is refused with 0, and fine with 1, in the body of gate 0.
    vanishing = MINUS, (DIVIDE, F32_PI, (PLUS, X, ONE)), PI_TREE  # its f32 is 0 with 0
    for refused, second, tree in (
        (9, 0, (DIVIDE, ONE, X)), (10, 0x7F800000, (DIVIDE, ONE, vanishing)),
        (11, 0, (PLUS, whole(LARGEST), (MINUS, ONE, X))), (13, 0, (SQRT, (MINUS, TWO, X))),
    ):
        lists = Lists()
        body = [lists.u(0, X, ZERO, ZERO), lists.u(0, tree, ZERO, ZERO)]
        gates = [(1, 1, body), (1, 1, [lists.call(0, formals(0), X)])]
        named = numbered(tree, lists.expressions)
        calls = (1, 0, ONE), (0, 1, ONE), (1, 1, ONE), (1, 0, ZERO), (0, 0, ONE)
        main = [lists.call(number, qubits(qubit), x) for number, qubit, x in calls]
        words = lists.program(main, gates, quantum=[2])
        outcome = around(words, 3)
        at = place(words, EXPRESSIONS, named)
        expect_outcome(outcome, words, number=refused, place=at, second=second, records=8)
        first = place(words, MAIN, 0)
        trace = [f"from 0 {first + 15}", f"from 2 {first + 5 * 7}"]
        agree(outcome, text_of(outcome)[8:-1], trace, words)
        expect(words, 2, number=0)


def repeated_in_ifs():
    heading("Calls repeated within ifs and outside of them")
    lists = Lists()
    gates = [(1, 2, pair_body(lists))]
    text, tree = HALF
    rows = (0, 1), (1, 0), (2, 0)
    calls = [lists.call(0, qubits(*row), tree) for row in rows]
    main = [(IF, 0, 1, 5), calls[1], (IF, 0, 2, 6), (IF, 0, 3, 5), calls[2]]
    words = lists.program(main, gates, [calls[0], calls[2]], quantum=[3], classical=[2])
    one, two, three = (pair_texts(text, *row) for row in rows)
    texts = ["7 0 2 1", *one, "8", *two, "7 0 2 2", *three, "8", "7 0 2 3", *one, "8", *three]
    stated(words, 2, head([3], [2]), *texts, f"done {1 + len(texts)}")
    every_length(words, 2)


def repeated_among_many():
    heading("Many gates, each with an angle of its own, called in turn and again in turn")
    for count, step in (40, 1), (40, 16), (128, 1), (128, 64), (33, 32):
        lists = Lists()
        gates = [(0, 1, [lists.u(0, whole(number), ZERO, ONE)]) for number in range(count)]
        # Those with one rest by the step, twice; then those with the next rest.
        order = [number for rest in range(step) for _ in range(2) for number in range(rest, count, step)]
        main = [lists.call(number, qubits(at % 3)) for at, number in enumerate(order)]
        one_u_each(lists.program(main, gates, quantum=[3]), order)
    heading("One gate with many angles, called in turn and again in turn")
    for count in 3, 20, 70:
        lists = Lists()
        gates = [(1, 1, [lists.u(0, X, ZERO, ONE)])]
        order = [*range(count), *range(count), *reversed(range(count))]
        main = [lists.call(0, qubits(at % 3), whole(x)) for at, x in enumerate(order)]
        one_u_each(lists.program(main, gates, quantum=[3]), order)


def one_u_each(words, angles):
    """A line of a run that writes a U for each of these angles, on the qubits in turn."""
    texts = [f"1 {x} 1 0 1 {ZERO_TEXT} 1 1 0 1 {at % 3}" for at, x in enumerate(angles)]
    outcome = vector(words, 2, 5000)
    agree(outcome, text_of(outcome), [head([3]), *texts, f"done {1 + len(texts)}"], words)


def repeated_chains():
    heading("128 gates, each calling the one below, called again at depths: which gate is cut changes with the first")
    words = program([call(number, 0, at % 3 + 1) for at, number in enumerate(CHAINS)], tower(128, [U_ONE], 1),
                    arguments=[(0, 0), *qubits(0, 1, 2)], quantum=[3])
    for depth in 0, 1, 2, 64, 100, 101, 102, 127, 128, 129, WORD_MAX:
        cut = [number - max(depth - 1, 0) for number in CHAINS]
        texts = [f"{U_TEXT} {at % 3}" if gate < 0 else f"3 {gate} 0 1 {at % 3}" for at, gate in enumerate(cut)]
        stated(words, depth, head([3]), *texts, f"done {1 + len(texts)}")


CHAINS = 127, 126, 127, 126, 100, 0, 127, 100, 99, 99, 1, 0, 126


def repeated_shared_bodies():
    heading("Gates whose bodies begin with one statement, or end with it, called in turn and again")
    us = [f"1 {k} 1 0 1 {k} 1 0 1 {k} 1 0 1" for k in range(3)]
    # Statement 10 + k is a U of k; gates 0 to 4 have some of them.
    bodies = (0, 1), (0, 2), (1, 2), (0, 3), (2, 1)
    order = 0, 1, 2, 3, 4, 0, 4, 3, 2, 1
    words = image(quantum=[3], gates=[gate(0, 1, 10 + first, length) for first, length in bodies],
                  main=[call(number, 0, at % 3 + 1) for at, number in enumerate(order)],
                  further=[(U, k, k, k, 0) for k in range(3)], arguments=[(0, 0), *qubits(0, 1, 2)],
                  expressions=[integer(k) for k in range(3)])
    texts = []
    for at, number in enumerate(order):
        first, length = bodies[number]
        texts += [f"{us[k]} {at % 3}" for k in range(first, first + length)]
    stated(words, 2, head([3]), *texts, f"done {1 + len(texts)}")


def silent_calls():
    heading("10 levels of gates that write nothing: doubling, with 0, 1 and 3 parameters; each calling the two below")
    for words in (*(silent_doubling(10, count) for count in (0, 1, 3)), silent_pairs(10), silent_pairs(10, -1)):
        for depth in 11, 12, 129, WORD_MAX:
            stated(words, depth, head([2]), "6 1", "done 2")
        for depth in 1, 2, 5, 9, 10:  # a gate is cut somewhere, and written
            expect(words, depth, number=0)
    heading("Each calls the two below, and three of them have no statements: 9 levels are enough for ten gates")
    for order in 1, -1:
        words = silent_pairs(10, order, empty=3)
        for depth in 9, 10, 11, WORD_MAX:
            stated(words, depth, head([2]), "6 1", "done 2")
        for depth in 6, 7, 8:
            expect(words, depth, number=0)
    heading("Bodies that write nothing since they call without arguments; another that writes comes between")
    gates = [(1, 0, [NOTHING]), (0, 0), (0, 1, [call(0), call(1)]), (0, 1, [call(2), call(2)]),
             (0, 1, [call(3), U_ONE, call(3)])]
    words = program([call(3), call(4), call(3), call(4), call(2)], gates, quantum=[2], parameters=[0])
    us = [f"{U_TEXT} {qubit}" for qubit in range(2)]
    stated(words, 4, head([2]), *us, *us, "done 5")
    expect(words, 3, number=0)
    expect(words, 2, number=0)
    heading("A body that writes nothing with one angle and is refused with another")
    entries, (x, quotient, one, zero) = flat(X, (DIVIDE, ONE, X), ONE, ZERO)
    # Gate 0 has no statements; gate 1 calls it with 1/x, gate 2 calls gate 1 with x.
    gates = [(1, 1, []), (1, 1, [call(0, 1)]), (1, 1, [call(1, 0), call(1, 0)])]
    lists = dict(parameters=[x, quotient, one, zero], expressions=entries, quantum=[2])
    words = program([call(2, 2), call(2, 2), call(1, 2), call(2, 3)], gates, **lists)
    first = place(words, MAIN, 0)
    trace = f"from 0 {first + 15}", f"from 3 {first + 5 * 5}"
    stated(words, 4, head([2]), *trace, f"refused 9 {place(words, EXPRESSIONS, quotient)} 0")


def silent_doubling(levels, count):
    """The lowest has no statements, each other calls the one below twice and hands its parameters on."""
    lists = Lists()
    gates = doubling(levels, count, [], [X, Y, Z][:count], lists)
    main = [lists.call(levels - 1, qubits(0, 1), *map(whole, range(1, count + 1))), (RESET, lists.named(qubits(1)))]
    return lists.program(main, gates, quantum=[2])


def silent_pairs(levels, order=1, empty=1):
    """Each calls the two below it in this order; the lowest have no statements."""
    gates = [(0, 1, [])] * empty
    for number in range(empty, levels):
        gates.append((0, 1, [call(below) for below in (number - 1, number - 2)[::order] if below >= 0]))
    return program([call(levels - 1, 0, 1), (RESET, 2)], gates, quantum=[2], arguments=[(0, 0), *qubits(0, 1)])


# ---------------------------------------------------------------- random

SEED = 20170713
DEPTHS = 0, 1, 2, 3, 129, WORD_MAX
MIDDLE = Scale(registers=4, size=9, gates=7, body=4, main=6, levels=4, words=330, entries=1500, output=6000)


class Steady(random_images.Builder):
    """Programs that mostly finish: angles are plain and qubits distinct."""

    def __init__(self, rng, scale):
        super().__init__(rng, scale)
        self.overlaps, self.wild, self.refused_trees = False, False, []

    def main_kind(self):
        return self.rng.choice((U, CX, CALL, CALL, CALL, CALL, BARRIER, MEASURE, RESET, IF, IF))


def steady_program(rng):
    while True:
        words = Steady(rng, MIDDLE).program()
        if 60 < len(words) <= MIDDLE.words:
            return words


def short_run(words, depth):
    figures = reference.tally(words, depth)
    return figures[reference.ENTRIES_FIGURE] <= MIDDLE.entries and figures[reference.WORDS_FIGURE] <= MIDDLE.output


def random_lines(rng, words):
    """A run at two depths, each with an ample output and one near its end."""
    for depth in rng.sample(DEPTHS, 2):
        if short_run(words, depth):
            length = len(vector(words, depth, MIDDLE.output).output)
            lent = rng.choice((length, length - 1, length + 1, rng.randrange(length + 1)))
            vector(words, depth, max(lent, 0), rng.choice((256, 300)))


def random_programs(count):
    heading("Random programs that mostly finish: broadcasts, nested calls and ifs mixed")
    rng = Random(SEED)
    for _ in range(count):
        random_lines(rng, steady_program(rng))


def random_cases(count):
    heading("Random programs of all sorts, two in five damaged")
    rng = Random(SEED + 1)
    made_before = len(images_made)
    while len(images_made) < made_before + count:
        case = random_images.random_case(rng)
        if len(case.words) <= 260:
            outcome = vector(*case)
            if outcome.number not in range(1, 9) and outcome.number != 15 and random_images.chance(rng, 60):
                random_lines(rng, case.words)


def random_broadcasts(count):
    heading("Random programs over registers of up to 400")
    rng = Random(SEED + 2)
    scale = MIDDLE._replace(size=400, gates=4, main=4, words=200)
    for _ in range(count):
        while len(words := Steady(rng, scale).program()) > scale.words:
            pass
        for depth in rng.sample(DEPTHS, 2):
            figures = reference.tally(words, depth)
            if figures[reference.ENTRIES_FIGURE] <= 5000:
                lent = figures[reference.WORDS_FIGURE] + rng.choice((0, 0, 1, -1))
                vector(words, depth, min(max(lent, 0), 20000))


# -------------------------------------------------- too long for the reference


def silent_towers():
    heading("128 gates that write nothing, each calling the one below twice: the head, and 2^128 - 1 bodies")
    plain = program([call(127)], tower(128))
    # With a parameter that is handed on: 0 is the variable, 1 what main gives.
    gates = [(1, 1, [])] + [(1, 1, [call(number)] * 2) for number in range(127)]
    handed = program([call(127, 1)], gates, parameters=[0, 1], expressions=[variable(0), PI_ENTRY])
    for words in plain, handed:
        for depth in 129, 130, WORD_MAX:
            silent(words, depth, [0, 1, 0, 0, 0])
    heading("The same on two qubits that are swapped, with 0, 1 and 3 parameters; a reset comes after them")
    for count in 0, 1, 3:
        for depth in 129, WORD_MAX:
            silent(silent_doubling(128, count), depth, [0, 2, 0, 0, 0, 0, 1], [RESET, 1])
    heading("128 such gates, each calling the two below; where the lowest call none, smaller depths cut none")
    for order in 1, -1:
        for empty, depths in (1, (129, WORD_MAX)), (3, (127, 128, 129, WORD_MAX)), (64, (66, 127, 128, WORD_MAX)):
            for depth in depths:
                silent(silent_pairs(128, order, empty), depth, [0, 2, 0, 0, 0, 0, 1], [RESET, 1])


def silent(words, depth, head_words, *records):
    """Lines of a run that writes the head, then nothing in the first statement, then these records.

    The reference would enter each body, and there are more than could be entered.  What is written
    follows by hand.  The first statement calls a gate whose body has calls alone, and so have all bodies
    below it but the lowest, which have no statements.  No call is cut at this depth, and no parameter is
    refused: each is a variable handed on.  So no body writes a record, and every call ends.  The tally's
    figures say the same of the records."""
    figures = reference.tally(words, depth)
    kinds = [sum(record[0] == kind for record in records) for kind in range(1, 8)]
    if figures[:7] != kinds or figures[reference.ENTRIES_FIGURE] < 2**40:
        raise AssertionError(f"{figures} at depth {depth}")
    output = head_words + [word for record in records for word in record]
    for lent in len(output) + 64, len(output), len(output) + 1:
        unfinished_line(words, depth, lent, Outcome(0, 0, 0, 1 + len(records), output, []))
    if records:  # the last record does not fit
        unfinished_line(words, depth, len(output) - 1, Outcome(14, 0, 0, len(records), output[: -len(records[-1])], []))
    # The head does not fit, and no body is entered.
    unfinished_line(words, depth, len(head_words) - 1, Outcome(14, 0, 0, 0, [], []))


def unfinished_line(words, depth, output_length, outcome):
    case = Case(tuple(words), depth, output_length, 256)
    unfinished.add(case)
    add_line(case, outcome)


def random_hundred():
    heading("A hundred small random images, which the tallies have too")
    for case in hundred_cases():
        vector(*case)


SECTIONS = (
    examples, example_lengths,
    angle_kinds, angle_orders, angle_refusals, first_refusals, shared_expressions, many_expressions,
    variables, sixteen_parameters,
    nested_refusals, nested_output_ends, deep_chain, refusals_after_others, numbers_that_differ,
    refusals_of_parameters, handed_down, without_arguments, without_arguments_inside,
    cx_overlaps, opaque_overlaps, overlaps_in_later_rounds, overlaps_and_more,
    lock_step, turned_formals, sixteen_arguments,
    large_broadcasts, large_pairs, large_bodies, many_registers,
    barriers, body_barriers, barrier_orders, body_barrier_orders, ifs, ifs_in_turn, refusals_in_ifs,
    short_outputs, records_too_long, short_outputs_inside, refused_by_the_check,
    empties, longest_images, shared_bodies, towers_at_depths,
    repeated_calls, repeated_parameters, repeated_arguments, repeated_with_equal_qubits, repeated_overlaps,
    repeated_at_levels, repeated_broadcasts, repeated_doubling, repeated_barriers, repeated_opaque_gates,
    repeated_output_ends, repeated_refusals, repeated_in_ifs, repeated_among_many, repeated_chains,
    repeated_shared_bodies, silent_calls,
)


def make():
    """All lines."""
    for section in SECTIONS:
        section()
    random_programs(170)
    random_cases(300)
    random_broadcasts(50)
    random_hundred()
    silent_towers()


def main():
    make()
    print("\n".join(lines))
    print(len(stored), "lines,", len(images_made), "images", file=sys.stderr)
    print(*(f"{number}: {counts[number]}" for number in range(16) if counts[number]), file=sys.stderr)


if __name__ == "__main__":
    main()
