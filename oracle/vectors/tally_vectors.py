"""Images and depths with the answers of the tally, printed to standard output.

    python3 -m oracle.vectors.tally_vectors

The answers are those of reference.py, a second reading of document 01.  The
random part has a fixed seed, so the output is the same everywhere, to the byte.

A line that starts with '#' is a comment.  Every other line holds a depth and an
image, between them the answer:

    depth number place  figure figure ..  word word ..

The number and the place are the refusal, 0 0 where there are figures.  The nine
figures are 0 where it is refused.  Words are decimal; k*w stands for k words w.

All nine figures of a made image are worked out beside it from the words of
document 01, and the program stops where the reference has others.
"""

import sys
from collections import Counter
from math import comb
from random import Random

from oracle.reference import reference
from oracle.reference.reference import BARRIER, CALL, CX, IF, MEASURE, RESET, U
from oracle.vectors import random_images
from oracle.vectors.entries import K1, NOTHING, PI_ENTRY, changed, decimal_words, gate, image, opaque, variable
from oracle.vectors.hundred_images import hundred_cases

WORD_MAX = 2**64 - 1
LIMIT = 4294967295

FIGURES = "u cx calls barriers measures resets ifs entries words".split()

lines = []
made = set()
counts = Counter()


def heading(text):
    lines.append("# " + text)


def vector(words, depth):
    """Adds a line, unless this image has been had at this depth; returns the answer."""
    answer = reference.tally_operation(words, depth)
    refused = answer[0] == "refused"
    refusal, figures = (answer[1:], [0] * 9) if refused else ((0, 0), answer)
    if (depth, *words) not in made:
        made.add((depth, *words))
        counts[refusal[0]] += 1
        lines.append(" ".join((*map(str, (depth, *refusal, *figures)), *decimal_words(words))))
    return answer


def named(figures):
    """The nine figures by their names, those not named 0."""
    if not set(figures) <= set(FIGURES):
        raise AssertionError(f"names {set(figures)}")
    return [figures.get(name, 0) for name in FIGURES]


def agree(words, depth, answer, by_hand):
    if answer != by_hand:
        raise AssertionError(f"{answer}, not {by_hand}: depth {depth}, {len(words)} words {words[:60]}")


def given(words, depths, /, **figures):
    """Lines of an image that has these figures, none over the limit."""
    by_hand = named(figures)
    for depth in depths:
        agree(words, depth, vector(words, depth), by_hand)
    if max(by_hand) > LIMIT:
        raise AssertionError(f"{by_hand} over the limit")


def passed(words, depths, /, **figures):
    """Lines of an image that has these figures, of which one is over the limit."""
    by_hand = named(figures)
    for depth in depths:
        agree(words, depth, vector(words, depth), ("refused", 16, 0))
        agree(words, depth, reference.tally(words, depth), by_hand)
    if max(by_hand) <= LIMIT:
        raise AssertionError(f"{by_hand} within the limit")


def tested(words, depths, /, **figures):
    """Lines of an image that has these figures, one over the limit or none."""
    (given if max(figures.values()) <= LIMIT else passed)(words, depths, **figures)


def refused(words, depths, number, place):
    """Lines of an image that the check refuses."""
    for depth in depths:
        agree(words, depth, vector(words, depth), ("refused", number, place))


# Depths for what no depth changes, for bodies not opened and for all opened.
ANY = 0, 1, 2, WORD_MAX
SHUT = 0, 1
OPEN = 129, WORD_MAX
FAR = 2**32, 2**63, WORD_MAX


def head(qubits, bits=0):
    return 3 + 2 * (qubits + bits)


# -------------------------------------------------------------- programs
# Argument 0 is register 0 in main and formal 0 in a body, so that statements of
# both share it.

ONE_QUBIT = dict(quantum=[1], arguments=[(0, 0)], expressions=[PI_ENTRY])
U_ONE = U, 0, 0, 0, 0
CX_ONE = CX, 0, 0


def call(number, parameter=0, argument=0):
    return CALL, number, parameter, argument


def program(main, gates=(), inner=(), **lists):
    """Gates are (parameters, arguments) where opaque, else with a list for the
    body.  The statements inner follow main, then the bodies in turn."""
    further, entries = list(inner), []
    for parameters, arguments, *body in gates:
        if body:
            entries.append(gate(parameters, arguments, len(main) + len(further), len(body[0])))
            further += body[0]
        else:
            entries.append(opaque(parameters, arguments))
    return image(gates=entries, main=main, further=further, **{**ONE_QUBIT, **lists})


def tower(count, bottom=(), times=2):
    """Each gate calls the one below so many times; gate 0 has this body."""
    return [(0, 1, bottom)] + [(0, 1, [call(number)] * times) for number in range(count - 1)]


def stairs(main, count, lead=(), repeat=1, below=(), above=(), **lists):
    """After the gates below, so many that share one body: each has the lead and
    the calls of the shared gates under it, so many times each.  Opened wholly,
    the k-th of them, from 0, has (1 + repeat)^k entries and as many leads: itself,
    and repeat times those under it."""
    first = len(below)
    further = [*lead, *(call(first + k) for k in range(count - 1) for _ in range(repeat))]
    entries = [opaque(*formals) for formals in below]
    entries += [gate(0, 1, len(main), len(lead) + repeat * k) for k in range(count)]
    for body in above:
        entries.append(gate(0, 1, len(main) + len(further), len(body)))
        further += body
    return image(gates=entries, main=main, further=further, **{**ONE_QUBIT, **lists})


def steps(number, first=0):
    """Calls of the stairs whose entries, 2^k each, add up to the number."""
    return [call(first + k) for k in range(number.bit_length()) if number >> k & 1]


# ------------------------------------------------ body entries at the limit


def entries_at_the_limit():
    heading("Body entries 4,294,967,295 and one more, with few words: empty bodies")
    # 32 gates that double: gate k has 1 + 2 + 4 + .. + 2^k = 2^(k+1) - 1 entries, gate 31 has 2^32 - 1.
    # Gate 31 is opened at the depth given, gate 0 at 31 less, which must be above 1.
    given(program([call(31)], tower(32)), (33, 34, WORD_MAX), entries=LIMIT, words=head(1))
    # Gate 0 is not opened: 2^31 records of kind 3, 5 words each.
    shut = dict(entries=2**31 - 1, calls=2**31, words=head(1) + 5 * 2**31)
    passed(program([call(31)], tower(32)), (32,), **shut)
    # One entry more, by a call of gate 0.
    passed(program([call(31), call(0)], tower(32)), (33, WORD_MAX), entries=LIMIT + 1, words=head(1))
    # Gate 0 has no arguments, so calling it does nothing and gates 1 to 32 have 2^k - 1 entries.
    nothing = [(0, 0, [NOTHING]), *((0, 1, [call(number)] * 2) for number in range(32))]
    given(program([call(32)], nothing), (33,), entries=LIMIT, words=head(1))
    passed(program([call(32), call(1)], nothing), (34,), entries=LIMIT + 1, words=head(1))
    # Inside an if: the if's record and 5 words.
    conditional = dict(inner=[call(31)], classical=[1])
    given(program([(IF, 0, 7, 1)], tower(32), **conditional), (33,), entries=LIMIT, ifs=1, words=head(1, 1) + 5)
    conditional = dict(inner=[call(31), call(0)], classical=[1])
    words = program([(IF, 0, 7, 2), (IF, 0, 7, 3)], tower(32), **conditional)
    passed(words, (33,), entries=LIMIT + 1, ifs=2, words=head(1, 1) + 10)

    heading("Body entries at the limit by rounds: 4,096 times 2^20, and 3,855 times 1,114,129")
    passed(stairs([call(20)], 21, quantum=[4096]), (22, WORD_MAX), entries=2**32, words=head(4096))
    given(stairs([call(20)], 21, quantum=[4095]), (22, WORD_MAX), entries=4095 * 2**20, words=head(4095))
    # Gate 21 has 1 + 2^20 + 2^16 + 2^4 = 1,114,129 entries; 3855 * 1114129 = 2^32 - 1.
    top = [call(20), call(16), call(4)]
    rounds = dict(quantum=[3855], arguments=[(0, 0), (0, 3855)])
    given(stairs([call(21)], 21, above=[top], **rounds), (23, WORD_MAX), entries=LIMIT, words=head(3855))
    words = stairs([call(21), call(0, 0, 1)], 21, above=[top], **rounds)
    passed(words, (23, WORD_MAX), entries=LIMIT + 1, words=head(3855))
    # Main statements: 4,096 rounds of 2^0 to 2^19 entries, one round of 2^0 to 2^11.
    main = [call(k) for k in range(20)] + [call(k, 0, 1) for k in range(12)]
    rounds = dict(quantum=[4096], arguments=[(0, 0), (0, 1)])
    given(stairs(main, 20, **rounds), (21, WORD_MAX), entries=LIMIT, words=head(4096))
    passed(stairs([*main, call(0, 0, 1)], 20, **rounds), (21,), entries=LIMIT + 1, words=head(4096))


def entries_that_wrap():
    heading("Body entries of 2^31, 2^32 and further, which 32 or 64 bits could take for few")
    given(stairs([call(31)], 32), (33, WORD_MAX), entries=2**31, words=head(1))
    for k in 32, 63, 64, 96:
        passed(stairs([call(k)], k + 1), (WORD_MAX,), entries=2**k, words=head(1))
    # In sums and in products.
    passed(stairs([call(31)] * 2, 32), (40,), entries=2**32, words=head(1))
    passed(stairs([call(63)] * 2, 64), (129,), entries=2**64, words=head(1))
    passed(stairs(steps(2**64 - 1), 64), (129,), entries=2**64 - 1, words=head(1))
    passed(stairs([call(52)], 53, quantum=[4096]), (129,), entries=2**64, words=head(4096))
    # 3^20 is below the limit and 3^21 is not.
    given(stairs([call(20)], 21, repeat=2), (22,), entries=3**20, words=head(1))
    passed(stairs([call(21)], 22, repeat=2), (129,), entries=3**21, words=head(1))
    heading("Gates far over the limit that no main statement reaches")
    given(stairs([call(3)], 70), (129,), entries=8, words=head(1))
    given(stairs([NOTHING], 70), (WORD_MAX,), barriers=1, words=head(1) + 2)
    given(stairs([], 70), (WORD_MAX,))
    given(program([call(20)], tower(40)), (WORD_MAX,), entries=2**21 - 1, words=head(1))


# ------------------------------------------------------ words at the limit

WHOLES, SINGLES = 2800, 200
FILLED = dict(quantum=[4095, 1], arguments=[(0, 0)] * WHOLES + [(1, 1)] * SINGLES)


def barriers(total):
    """Main barriers of so many words in all, over arguments of FILLED: 2 words
    and 4,095 for each whole register, or 2 words and 1 for each index."""
    made_of = []
    while total:
        size, first, most = (4095, 0, WHOLES) if total >= 4097 else (1, WHOLES, SINGLES)
        many = min((total - 2) // size, most)
        if total - 2 - size * many == 1:  # a barrier has 2 words at least
            many -= 1
        made_of.append((BARRIER, first, many))
        total -= 2 + size * many
    return made_of


def words_at_the_limit():
    heading("Words 4,294,967,295 and one more: barriers over whole registers, no calls")
    room = LIMIT - head(4096)
    for total, judged in (room, given), (room + 1, passed):
        main = barriers(total)
        judged(program(main, **FILLED), (1,), barriers=len(main), words=head(4096) + total)
    heading("Words at the limit: bodies of barriers, 4,095 rounds")
    # 32 barriers of 2 + 1,000 words, each of the 1,000 arguments a formal.
    gates = [(0, 1, [(BARRIER, 0, 1000)] * 32)]
    opened = 32 * 4095 * 32 * 1002  # 32 main calls
    for more, judged in (0, given), (1, passed), (-1, given), (2, passed):
        rest = barriers(room - opened + more)
        figures = dict(entries=32 * 4095, barriers=32 * 4095 * 32 + len(rest), words=LIMIT + more)
        judged(program([call(0)] * 32 + rest, gates, **FILLED), (2,), **figures)
    # Not opened, the calls have 5 words a round.
    rest = barriers(room - opened)
    words = program([call(0)] * 32 + rest, gates, **FILLED)
    shut = dict(calls=32 * 4095, barriers=len(rest), words=LIMIT - opened + 32 * 4095 * 5)
    given(words, (1,), **shut)

    heading("Words at the limit: opaque gates of 16 parameters and 16 arguments, 84 words each")
    gates = [(16, 16), (0, 1, [call(0)] * 124)]
    opened = 100 * 4095 * 124 * (4 + 4 * 16 + 16)
    for more, judged in (0, given), (1, passed):
        rest = barriers(room - opened + more)
        figures = dict(entries=100 * 4095, calls=100 * 4095 * 124, barriers=len(rest), words=LIMIT + more)
        judged(program([call(1)] * 100 + rest, gates, parameters=[0] * 16, **FILLED), (2,), **figures)

    heading("Words at the limit: the head, without which none is over it")
    # 2,147,483,645 barriers of 2 words are 2^32 - 6, the head of one qubit has 5.
    many = 2**31 - 3
    main = steps(many)
    lead = [NOTHING]
    given(stairs(main, 31, lead), (32,), entries=many, barriers=many, words=LIMIT)
    passed(stairs(main, 31, lead, classical=[1]), (WORD_MAX,), entries=many, barriers=many, words=LIMIT + 2)
    passed(stairs(main, 31, lead, quantum=[1, 1]), (32,), entries=many, barriers=many, words=LIMIT + 2)
    passed(stairs(main, 31, lead, classical=[4096]), (32,), entries=many, barriers=many, words=LIMIT + 8192)
    # One barrier has 3 words and not 2.
    words = stairs([*steps(many - 1), (BARRIER, 0, 1)], 31, lead)
    passed(words, (32,), entries=many - 1, barriers=many, words=LIMIT + 1)
    # The statements alone have 2^32 - 1 words, by one of 3.
    words = stairs([*steps(many + 1), (BARRIER, 0, 1)], 31, lead)
    passed(words, (32,), entries=many + 1, barriers=many + 2, words=LIMIT + head(1))


def words_that_wrap():
    heading("Words of 2^32 and 2^64 and the head, which 32 or 64 bits could take for the head alone")
    for k, judged in (30, given), (31, passed), (63, passed):
        words = stairs([call(k)], k + 1, [NOTHING])
        judged(words, (WORD_MAX,), entries=2**k, barriers=2**k, words=head(1) + 2 * 2**k)
    # 8 barriers of 4 words a body: 2^5 words, so the words pass and nothing else does.
    lead = [(BARRIER, 0, 2)] * 8
    two = dict(arguments=[(0, 0), (0, 0)])
    for k, judged in (26, given), (27, passed), (28, passed):
        words = stairs([call(k)], k + 1, lead, **two)
        judged(words, (129,), entries=2**k, barriers=8 * 2**k, words=head(1) + 32 * 2**k)
    # 4,096 rounds of 2^20 words.
    words = stairs([call(15)], 16, lead, **two, quantum=[4096])
    passed(words, (129,), entries=2**27, barriers=2**30, words=head(4096) + 2**32)


# ------------------------------------------------------- kinds 1 to 7
# A record of kinds 1 to 7 has 2 words at least, so that the words pass the limit
# before a figure of these kinds does: none of the seven ever decides alone.  For
# kinds 1 to 4 the largest figure is tested that the words allow, one more, and
# 4,294,967,295 and 4,294,967,296, which 32 bits could take for 0.  Kinds 5, 6 and
# 7 stand in main or an if only, a main statement has 5 of the 8,192 words and at most
# 4,096 rounds, so that their figures stay below 1,637 * 4,096 = 6,705,152: they
# cannot reach the limit, and the largest is tested.


def kind_figures():
    heading("Kinds 1 to 4: the largest figure that the words allow, and one more")
    for name, lead, below, length, largest in (
        ("u", U_ONE, (), 14, 306783377),  # 14 * 306,783,377 + 5 = 2^32 - 13
        ("cx", CX_ONE, (), 3, 1431655763),  # 3 * 1,431,655,763 + 5 = 2^32 - 2
        ("calls", call(0), [(0, 1)], 5, 858993458),  # 5 * 858,993,458 + 5 = 2^32 - 1
        ("barriers", NOTHING, (), 2, 2147483645),  # 2 * 2,147,483,645 + 5 = 2^32 - 1
    ):
        first = len(below)
        for many, judged in (largest, given), (largest + 1, passed):
            figures = {name: many, "entries": many, "words": head(1) + length * many}
            words = stairs(steps(many, first), many.bit_length(), [lead], below=below)
            judged(words, (WORD_MAX,), **figures)
        # 15 * 286,331,153 = 2^32 - 1, and 16 * 2^28 = 2^32; the entries are few.
        for times, many in (15, 286331153), (16, 2**28):
            figures = {name: times * many, "entries": many, "words": head(1) + length * times * many}
            words = stairs(steps(many, first), many.bit_length(), [lead] * times, below=below)
            passed(words, (129,), **figures)
    # 2^64 records: 64 bits could take them, and their words, for 0.
    for name, lead, length in ("u", U_ONE, 14), ("cx", CX_ONE, 3):
        figures = {name: 2**64, "entries": 2**60, "words": head(1) + length * 2**64}
        passed(stairs([call(60)], 61, [lead] * 16), (129,), **figures)

    heading("Kinds 5, 6 and 7: the largest figures, of images of up to 8,192 words")
    # 9 + 1 + 1 + 5 * 1,635 + 2 = 8,188 words; argument 0 is the quantum and the classical one.
    words = image(quantum=[4096], classical=[4096], main=[(MEASURE, 0, 0)] * 1635, arguments=[(0, 0)])
    many = 1635 * 4096
    given(words, (0,), measures=many, words=head(4096, 4096) + 3 * many)
    # 9 + 1 + 5 * 1,636 + 2 = 8,192 words.
    words = image(quantum=[4096], main=[(RESET, 0)] * 1636, arguments=[(0, 0)])
    many = 1636 * 4096
    given(words, (WORD_MAX,), resets=many, words=head(4096) + 2 * many)
    # 9 + 1 + 1 + 5 * 1,634 + 5 + 2 = 8,188 words; all ifs have one measure inside.
    lists = dict(quantum=[4096], classical=[4096], arguments=[(0, 0)])
    words = image(main=[(IF, 0, 0, 1634)] * 1634, further=[(MEASURE, 0, 0)], **lists)
    many = 1634 * 4096
    given(words, (1,), ifs=1634, measures=many, words=head(4096, 4096) + 5 * 1634 + 3 * many)


# --------------------------------------------------------- towers at depths

DEPTHS = 0, 1, 2, 3, 10, 31, 32, 33, 34, 127, 128, 129, 130, *FAR


def towers():
    heading("Gates that call the one below twice, 128 of them and 34")
    tower_at_depths(128, 2, (129, WORD_MAX))
    tower_at_depths(34, 2, (*DEPTHS, 30))
    heading("Gates that call the one below 11 times: 128 of them in 7,645 words")
    tower_at_depths(128, 11, (WORD_MAX,))
    heading("Gates that call the one below 16 times, 10 of them")
    tower_at_depths(10, 16, (2, 7, 8, 11, 2**32))
    heading("Gates that call the one below 3 and 7 times")
    tower_at_depths(8, 3, (0, 1, 2, 8, 9, 10))
    tower_at_depths(12, 7, (1, 11, 12, 13, WORD_MAX))


def tower_at_depths(count, times, depths):
    """At depth d the gates of d - 1 levels are opened, and the calls one level
    lower are written, 5 words each; gate 0 is empty."""
    words = program([call(count - 1)], tower(count, times=times))
    for depth in depths:
        opened = min(max(depth - 1, 0), count)
        written = times**opened if opened < count else 0
        figures = dict(entries=sum(times**k for k in range(opened)), calls=written, words=head(1) + 5 * written)
        tested(words, (depth,), **figures)


def stairs_at_depths():
    heading("Gates of one shared body that call all below them, at depths: entries are binomial sums")
    # Of gate k, comb(k, t) calls are t levels down: choices of t gates below k.
    for k, depths in (6, (0, 1, 2, 3, 4, 7, 8, 9)), (34, (3, 15, 16, 17, 18, 34, 36)):
        words = stairs([call(k)], k + 1, [(BARRIER, 0, 1)])
        for depth in depths:
            opened = max(depth - 1, 0)
            leads = sum(comb(k, t) for t in range(opened))
            written = comb(k, opened)
            figures = dict(entries=leads, barriers=leads, calls=written, words=head(1) + 3 * leads + 5 * written)
            tested(words, (depth,), **figures)


def chains():
    heading("Chains of gates that call the one below once, with a U at the bottom: 128 gates, and few")
    for count, depths in (
        (128, (0, 2, 128, 129, 130, WORD_MAX)),
        (1, (0, 1, 2, 3, WORD_MAX)),
        (2, (0, 1, 2, 3, 4)),
        (4, (0, 1, 2, 3, 4, 5, 6, *FAR)),
    ):
        words = program([call(count - 1)], tower(count, [U_ONE], 1))
        for depth in depths:
            opened = min(max(depth - 1, 0), count)
            if opened < count:  # a call is written, 4 words and 1 argument
                given(words, (depth,), entries=opened, calls=1, words=head(1) + 5)
            else:
                given(words, (depth,), entries=opened, u=1, words=head(1) + 14)
    heading("A chain where each body also has a U before the call and a barrier after it")
    gates = [(0, 1, [CX_ONE])] + [(0, 1, [U_ONE, call(k), (BARRIER, 0, 1)]) for k in range(3)]
    words = program([call(3)], gates, quantum=[5])
    given(words, SHUT, calls=5, words=head(5) + 5 * 5)
    given(words, (2,), entries=5, u=5, calls=5, barriers=5, words=head(5) + 5 * (14 + 5 + 3))
    given(words, (3,), entries=10, u=10, calls=5, barriers=10, words=head(5) + 5 * (2 * 14 + 5 + 2 * 3))
    given(words, (4,), entries=15, u=15, calls=5, barriers=15, words=head(5) + 5 * (3 * 14 + 5 + 3 * 3))
    given(words, (5, 6, *OPEN), entries=20, u=15, cx=5, barriers=15, words=head(5) + 5 * (3 * 14 + 3 + 3 * 3))
    heading("Main calls at several heights of a chain: the depth is counted from each")
    words = program([call(0), call(1), call(2)], tower(3, [U_ONE], 1))
    given(words, SHUT, calls=3, words=head(1) + 15)
    given(words, (2,), entries=3, u=1, calls=2, words=head(1) + 14 + 10)
    given(words, (3,), entries=5, u=2, calls=1, words=head(1) + 28 + 5)
    given(words, (4, 5, WORD_MAX), entries=6, u=3, words=head(1) + 42)


# ------------------------------------------------------- few statements


def statements():
    heading("No main statement: no head")
    given(image(), ANY)
    given(image(quantum=[4096], classical=[4096]), (0, WORD_MAX))
    given(program([], tower(8, [U_ONE])), (1, WORD_MAX))
    given(image(further=[NOTHING], parameters=[WORD_MAX], arguments=[(7, 7)]), (2,))
    heading("One main statement or many: the head once, 3 words and 2 a qubit or bit")
    registers = ((), ()), ([1], ()), ((), [1]), ([1, 2, 3], [4]), ([4096], [4096]), ([1] * 4096, [1] * 4000)
    for quantum, classical in registers:
        lists = dict(quantum=quantum, classical=classical)
        length = head(sum(quantum), sum(classical))
        given(image(main=[NOTHING], **lists), (0, WORD_MAX), barriers=1, words=length + 2)
        given(image(main=[NOTHING] * 7, **lists), (2,), barriers=7, words=length + 14)
    # A call that writes nothing is a main statement too.
    given(image(gates=[opaque(0, 0)], main=[(CALL, 0, 0, 0)], quantum=[3]), ANY, words=head(3))
    given(image(gates=[gate(0, 0, 0, 0)], main=[(CALL, 0, 0, 0)]), ANY, words=head(0))


SIZED = dict(
    quantum=[1, 3, 4092],
    classical=[1, 3, 4092],
    arguments=[(0, 0), (1, 0), (2, 0), (0, 1), (1, 3), (2, 4092)],
    expressions=[PI_ENTRY],
)
SIZES = 1, 3, 4092, 1, 1, 1  # of the arguments, which are whole registers, then indices
SIZED_HEAD = head(4096, 4096)


def rounds():
    heading("U, reset, CX and measure over registers of 1, 3 and 4,092, and over indices")
    for argument, size in enumerate(SIZES):
        given(image(main=[(U, 0, 0, 0, argument)], **SIZED), (0,), u=size, words=SIZED_HEAD + 14 * size)
        given(image(main=[(RESET, argument)], **SIZED), (WORD_MAX,), resets=size, words=SIZED_HEAD + 2 * size)
    for first, second, size in (
        (0, 0, 1), (0, 1, 3), (1, 0, 3), (1, 1, 3), (2, 2, 4092), (0, 2, 4092), (3, 1, 3), (2, 5, 4092), (4, 5, 1),
    ):
        given(image(main=[(CX, first, second)], **SIZED), (1,), cx=size, words=SIZED_HEAD + 3 * size)
        given(image(main=[(MEASURE, first, second)], **SIZED), (2,), measures=size, words=SIZED_HEAD + 3 * size)


def barrier_sizes():
    heading("Barriers: one record, sizes added up, also those of arguments that come twice")
    for first, many, total in (
        (0, 0, 0), (6, 0, 0), (3, 0, 0), (0, 1, 1), (1, 1, 3), (2, 1, 4092), (3, 1, 1), (5, 1, 1), (0, 2, 4),
        (1, 2, 4095), (0, 3, 4096), (3, 3, 3), (2, 2, 4093), (0, 6, 4099),
    ):
        given(image(main=[(BARRIER, first, many)], **SIZED), (0,), barriers=1, words=SIZED_HEAD + 2 + total)
    twice = dict(quantum=[4096], arguments=[(0, 0)] * 3)
    given(image(main=[(BARRIER, 0, 3)], **twice), (0, WORD_MAX), barriers=1, words=head(4096) + 2 + 3 * 4096)
    given(image(main=[(BARRIER, 0, 3)] * 4, **twice), (0,), barriers=4, words=head(4096) + 4 * (2 + 3 * 4096))
    heading("Barriers in bodies: formals have size 1, whatever is called with")
    for size in 1, 3, 4096:
        lists = dict(quantum=[size], arguments=[(0, 0)] * 5)
        for many in 0, 1, 5:
            words = program([call(0)], [(0, 1, [(BARRIER, 0, many)])], **lists)
            given(words, (2,), entries=size, barriers=size, words=head(size) + size * (2 + many))
            given(words, (1,), calls=size, words=head(size) + size * 5)


def opaque_gates():
    heading("Opaque gates: 4 words, 4 a parameter, 1 an argument; nothing without arguments")
    for parameters in 0, 16:
        for arguments in 0, 1, 16:
            length = 4 + 4 * parameters + arguments
            lists = dict(parameters=[0] * 16, arguments=[(0, 0)] * 16)
            for size in 1, 4096:
                words = program([call(0)], [(parameters, arguments)], **lists, quantum=[size])
                many = size if arguments else 0
                given(words, (0,) if size == 1 else (WORD_MAX,), calls=many, words=head(size) + many * length)
            # In a body, called in 3 rounds; gate 1 is cut at depth 1 and has 5 words.
            words = program([call(1)], [(parameters, arguments), (0, 1, [call(0)] * 2)], **lists, quantum=[3])
            many = 6 if arguments else 0
            given(words, (1,), calls=3, words=head(3) + 3 * 5)
            given(words, (2, WORD_MAX), entries=3, calls=many, words=head(3) + many * length)
    heading("A gate with a body that is not opened is written without angles: 4 words and the arguments")
    for arguments in 1, 16:
        lists = dict(parameters=[0] * 16, arguments=[(0, 0)] * 16, quantum=[2])
        words = program([call(0)], [(16, arguments, [U_ONE])], **lists)
        given(words, SHUT, calls=2, words=head(2) + 2 * (4 + arguments))
        given(words, (2, WORD_MAX), entries=2, u=2, words=head(2) + 28)
        # In a body; it is not opened at depth 2.
        words = program([call(1)], [(16, arguments, [U_ONE]), (0, 1, [call(0)])], **lists)
        given(words, (2,), entries=2, calls=2, words=head(2) + 2 * (4 + arguments))
        given(words, (3,), entries=4, u=2, words=head(2) + 28)
        # Empty: written or entered, not both.
        words = program([call(0)], [(16, arguments, [])], **lists)
        given(words, SHUT, calls=2, words=head(2) + 2 * (4 + arguments))
        given(words, (2,), entries=2, words=head(2))


def calls_of_many_arguments():
    heading("The rounds of a call: the largest size of its arguments")
    lists = {**SIZED, "arguments": [(0, 0), (1, 0), (0, 1), (1, 0), (1, 1), (2, 0), (2, 7), (0, 0)]}
    for first, arguments, size in (
        (0, 1, 1), (0, 2, 3), (0, 5, 3), (1, 4, 3), (4, 1, 1), (4, 4, 4092), (5, 3, 4092), (6, 2, 1),
    ):
        written = SIZED_HEAD + size * (4 + arguments)
        given(program([call(0, 0, first)], [(0, arguments)], **lists), (2,), calls=size, words=written)
        words = program([call(0, 0, first)], [(0, arguments, [CX_ONE, U_ONE])], **lists)
        given(words, (1,), calls=size, words=written)
        given(words, (2,), entries=size, cx=size, u=size, words=SIZED_HEAD + size * 17)


def conditionals():
    heading("Ifs: a kind 7 and 5 words, and the inner statement")
    gates = [(1, 1), (0, 1, [U_ONE, CX_ONE]), (0, 0, [NOTHING]), (2, 0)]
    for size in 1, 4096:
        lists = dict(quantum=[size], classical=[size], parameters=[0, 0])
        length = head(size, size) + 5
        for inner, depths, figures in (
            (U_ONE, (0,), dict(u=size, words=14 * size)),
            (CX_ONE, (1,), dict(cx=size, words=3 * size)),
            ((MEASURE, 0, 0), (2,), dict(measures=size, words=3 * size)),
            ((RESET, 0), (WORD_MAX,), dict(resets=size, words=2 * size)),
            (call(0), (0, WORD_MAX), dict(calls=size, words=9 * size)),
            (call(1), (1,), dict(calls=size, words=5 * size)),
            (call(1), (2, WORD_MAX), dict(entries=size, u=size, cx=size, words=17 * size)),
            (call(2), (0, 2), dict(words=0)),
            (call(3), (0, 2), dict(words=0)),
        ):
            words = program([(IF, 0, WORD_MAX, 1)], gates, [inner], **lists)
            given(words, depths, **{**figures, "ifs": 1, "words": length + figures["words"]})
    heading("Ifs that share an inner statement, between others")
    main = [U_ONE, (IF, 0, 0, 5), (IF, 0, 1, 5), NOTHING, (IF, 0, 0, 6)]
    words = program(main, [(0, 1, [U_ONE] * 3)], [call(0), (RESET, 0)], quantum=[2], classical=[9])
    given(words, SHUT, u=2, ifs=3, calls=4, barriers=1, resets=2, words=head(2, 9) + 28 + 15 + 20 + 2 + 4)
    figures = dict(u=2 + 12, ifs=3, entries=4, barriers=1, resets=2)
    given(words, (2, WORD_MAX), **figures, words=head(2, 9) + 14 * 14 + 15 + 2 + 4)


def without_arguments():
    heading("Gates without arguments: no round, so nothing is written and no body is entered")
    for parameters in 0, 16:
        for body in [], [NOTHING] * 9:
            lists = dict(parameters=[0] * 16)
            words = program([call(0)], [(parameters, 0, body)], **lists)
            given(words, (0, 1, 2, WORD_MAX), words=head(1))
    # In a body, where the gate above is entered, and where it is called by one without arguments itself.
    gates = [(0, 0, [NOTHING]), (0, 1, [call(0), U_ONE, call(0)]), (0, 0, [call(0), NOTHING])]
    given(program([call(1)], gates, quantum=[6]), (1,), calls=6, words=head(6) + 30)
    given(program([call(1)], gates, quantum=[6]), (2, 3, 129), entries=6, u=6, words=head(6) + 84)
    given(program([call(2)], gates, quantum=[6]), (1, 2, 3, 129), words=head(6))
    given(program([call(2), call(1)] * 2, gates, quantum=[6]), (3,), entries=12, u=12, words=head(6) + 168)
    # Without registers.
    given(image(gates=[gate(16, 0, 1, 0)], main=[call(0)], parameters=[0] * 16, expressions=[PI_ENTRY]), ANY, words=3)


def shared_bodies():
    heading("Bodies shared between gates: the formals are each gate's own, the words those of the gate called")
    further = [(U, 1, 1, 1, 0), (BARRIER, 0, 1)]
    gates = [gate(1, 1, 2, 2), gate(3, 2, 2, 2), gate(1, 16, 3, 1)]
    lists = dict(quantum=[3], arguments=[(0, 0)] * 16, parameters=[0] * 3, expressions=[PI_ENTRY, variable(0)])
    for main, depths, figures in (
        ([call(0), call(1)], (0, 1), dict(calls=6, words=15 + 18)),
        ([call(0), call(1)], (2, WORD_MAX), dict(entries=6, u=6, barriers=6, words=6 * 17)),
        ([call(2), call(0)], (0, 1), dict(calls=6, words=60 + 15)),
        ([call(2), call(0)], (2, WORD_MAX), dict(entries=6, u=3, barriers=6, words=3 * 3 + 3 * 17)),
        ([call(1), call(2)], (2,), dict(entries=6, u=3, barriers=6, words=3 * 3 + 3 * 17)),
    ):
        words = image(gates=gates, main=main, further=further, **lists)
        given(words, depths, **{**figures, "words": head(3) + figures["words"]})
    # A statement that a body and an if share: a round in a body, all of the register's in main.
    lists = dict(quantum=[5], classical=[1], arguments=[(0, 0)], expressions=[PI_ENTRY])
    words = image(gates=[gate(0, 1, 2, 1)], main=[(IF, 0, 0, 2), call(0)], further=[CX_ONE], **lists)
    given(words, SHUT, ifs=1, cx=5, calls=5, words=head(5, 1) + 5 + 15 + 25)
    given(words, (2, WORD_MAX), ifs=1, cx=10, entries=5, words=head(5, 1) + 5 + 15 + 15)


def everything():
    heading("K1, and one image of all kinds")
    # A gate with one U on each of two qubits, then a CX.
    given(K1, (2, 8, WORD_MAX), u=2, cx=1, entries=2, words=head(2) + 28 + 3)
    given(K1, SHUT, calls=2, cx=1, words=head(2) + 10 + 3)
    gates = [(2, 3), (1, 2, [U_ONE, call(0), (BARRIER, 0, 2), call(0)])]
    main = [U_ONE, CX_ONE, call(0), call(1), (BARRIER, 0, 3), (MEASURE, 0, 0), (RESET, 0), (IF, 0, 1, 8)]
    lists = dict(quantum=[7], classical=[7], arguments=[(0, 0)] * 3, parameters=[0, 0])
    words = program(main, gates, [call(1)], **lists)
    # A call of gate 0 has 4 + 8 + 3 = 15 words, of gate 1 not opened 4 + 2 = 6; its body has 14 + 15 + 4 + 15 = 48.
    plain = dict(measures=7, resets=7, ifs=1)
    length = head(7, 7) + 7 * 14 + 7 * 3 + 7 * 15 + (2 + 21) + 7 * 3 + 7 * 2 + 5
    given(words, SHUT, u=7, cx=7, calls=7 + 14, barriers=1, words=length + 14 * 6, **plain)
    given(words, (2, 3, WORD_MAX), u=21, cx=7, calls=7 + 28, barriers=15, entries=14, words=length + 14 * 48, **plain)


# ------------------------------------------------- refused by the check


def refused_images():
    """Images that the check refuses, each with the number and the place."""
    lists = dict(quantum=[2], classical=[3], arguments=[(0, 0), (1, 0)], parameters=[1])
    lists |= dict(expressions=[PI_ENTRY, (16, 0, 0)])
    # Contents, 9 words; registers at 9 and 10, statements at 11; with gates, those are at 11.
    return [
        (1, 0, []),
        (1, 0, [9] + [0] * 7),
        (1, 0, K1 + [0]),
        (1, 0, image(gates=[opaque(0, 0)] * 129)),
        (1, 0, image(main=[NOTHING], parameters=[0] * 8179)),
        (2, 9, image(quantum=[0], main=[NOTHING])),
        (2, 10, image(quantum=[1], classical=[4097], main=[NOTHING])),
        (2, 10, image(quantum=[4096, 1], main=[NOTHING])),
        (3, 9, image(gates=[opaque(17, 0)], main=[NOTHING])),
        (3, 14, image(gates=[opaque(0, 0), gate(0, 0, 0, 1)], main=[NOTHING])),
        (4, 11, image(main=[(8,)], **lists)),
        (4, 16, image(main=[NOTHING, (RESET, 0, 1)], **lists)),
        (4, 11, image(main=[(IF, 0, 0, 1)], further=[NOTHING], **lists)),
        (4, 16, image(gates=[gate(0, 1, 0, 1)], further=[(RESET, 0)], **lists)),
        (5, 11, image(main=[(U, 0, 0, 0, 1)], **lists)),
        (5, 16, image(gates=[gate(0, 1, 0, 1)], further=[(BARRIER, 1, 1)], **lists)),
        (6, 11, image(main=[(U, 0, 1, 0, 0)], **lists)),
        (6, 16, image(gates=[opaque(1, 1)], main=[call(0)], **lists)),
        (7, 11, image(main=[(MEASURE, 0, 0)], **lists)),
        (7, 11, image(main=[(IF, 0, 0, 1)], further=[(MEASURE, 0, 0)], **lists)),
        (8, 16, image(gates=[gate(0, 1, 0, 1)], further=[call(0)], **lists)),
        (8, 21, image(gates=[gate(0, 1, 0, 1), opaque(0, 1)], further=[call(1)], **lists)),
    ]


def refusals():
    heading("What the check refuses, at any depth")
    for number, place, words in refused_images():
        refused(words, (0, WORD_MAX) if len(words) < 60 else (2,), number, place)
    heading("The check's number, where the figures would pass the limit too")
    words = program([call(32)], tower(33))
    refused(changed(words, {9: 0}), (33,), 2, 9)
    # The statement at 10 + 5 * 33 is main's; its last word is unused.
    refused(changed(words, {10 + 5 * 33 + 4: 1}), (WORD_MAX,), 4, 10 + 5 * 33)
    # Gate 1's first call, the statement after main's, calls gate 1 itself.
    refused(changed(words, {10 + 5 * 34 + 1: 1}), (WORD_MAX,), 8, 10 + 5 * 34)


SEED = 20170712


def random_vectors(count):
    heading("Random images, one in four damaged")
    rng = Random(SEED)
    depths = 0, 1, 2, 3, 4, 129, WORD_MAX
    before = len(lines)
    while len(lines) < before + count:
        words = random_images.random_program(rng)
        if rng.randrange(4) == 0:
            words = random_images.damaged(rng, words)
        if len(words) < 120:
            vector(words, rng.choice(depths))


def random_hundred():
    heading("A hundred small random images, which the runs have too")
    for case in hundred_cases():
        vector(case.words, case.depth)


def main():
    entries_at_the_limit()
    entries_that_wrap()
    words_at_the_limit()
    words_that_wrap()
    kind_figures()
    towers()
    stairs_at_depths()
    chains()
    statements()
    rounds()
    barrier_sizes()
    opaque_gates()
    calls_of_many_arguments()
    conditionals()
    without_arguments()
    shared_bodies()
    everything()
    refusals()
    random_vectors(100)
    random_hundred()
    print("\n".join(lines))
    print(*(f"{number}: {counts[number]}" for number in range(17) if counts[number]), file=sys.stderr)


if __name__ == "__main__":
    main()
