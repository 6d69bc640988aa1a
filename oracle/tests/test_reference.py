"""A quick self-test of the second reading: K1 to K10 of document 01 to the
byte, hand-computed cases for each refusal, the four misreadings, the record
reader, and the claims that tie the tally to the run on random images.

    python3 -m oracle.tests.test_reference
"""

import time
import unittest
from collections import Counter
from random import Random

from oracle.reference.reference import (
    Outcome, check, listing, listing_input, next_record, records_of, run, tally, tally_operation,
)
from oracle.vectors import random_images
from oracle.vectors.entries import K1, changed, image

WORD_MAX = 2**64 - 1

# Expression entries.
PI = 0, 0, 0
ZERO, ONE, TWO, THREE = ((2, n, 0) for n in range(4))


def u_image(*expressions):
    """U of the last expression, three times, on the one qubit.

    Places: statement 10, argument 15, expressions 17, 20, 23 and so on.
    """
    last = len(expressions) - 1
    return image(quantum=[1], main=[(1, last, last, last, 0)], arguments=[(0, 0)], expressions=expressions)


def listed(words, depth=8):
    return listing(listing_input(words, depth)).decode("ascii")


def lines(*texts):
    return "".join(text + "\n" for text in texts)


class Examples(unittest.TestCase):
    """K1 to K10, through the listing program's text."""

    def angle(self, text, *expressions):
        self.assertEqual(listed(u_image(*expressions)), lines("0 1 0 0 0", f"1 {text} {text} {text} 0", "done 2"))

    def refused(self, number, second, *expressions):
        place = 17 + 3 * (len(expressions) - 1)
        self.assertEqual(listed(u_image(*expressions)), lines("0 1 0 0 0", f"refused {number} {place} {second}"))

    def test_k1(self):
        u = "1 0 1 1 2 0 1 0 1 0 1 1 1"
        self.assertEqual(listed(K1), lines("0 2 0 0 0 0 1", u + " 0", u + " 1", "2 0 1", "done 4"))

    def test_k2(self):
        self.assertEqual(listed(K1, 1), lines("0 2 0 0 0 0 1", "3 0 0 1 0", "3 0 0 1 1", "2 0 1", "done 4"))

    def test_k3(self):
        words = image(quantum=[3], main=[(2, 0, 1)], arguments=[(0, 2), (0, 0)])
        self.assertEqual(listed(words), lines("0 3 0 0 0 0 1 0 2", "2 1 0", "refused 12 15 17"))

    def test_k4(self):
        self.angle("4 1 0 1", (2, 8, 0), TWO, THREE, (7, 1, 2), (8, 0, 3))

    def test_k5(self):
        self.refused(9, 0, ZERO, ONE, TWO, (7, 1, 2), (9, 3, 0), (8, 0, 4))

    def test_k6(self):
        self.angle("1 2 0 1", PI, THREE, (7, 0, 1), (11, 2, 0))

    def test_k7(self):
        self.refused(13, 0, PI, TWO, (7, 0, 1), (12, 2, 0))
        self.refused(9, 0, PI, TWO, (7, 0, 1), (9, 2, 0), (12, 3, 0))

    def test_k8(self):
        self.angle("4611686018427387904 1 0 1", (1, 0x5E800000, 0))
        self.refused(10, 0x5F000000, (1, 0x5F000000, 0))

    def test_k9(self):
        self.angle("1 4611686018427387904 0 1", (1, 0x20800000, 0))
        self.refused(10, 0x20000000, (1, 0x20000000, 0))

    def test_k10(self):
        self.assertEqual(listed(image()), "done 0\n")
        self.assertEqual(listed(image(quantum=[4], classical=[2], gates=[(1, 1, 0, 0, 0)])), "done 0\n")


class Listing(unittest.TestCase):
    def test_input_without_depth_or_within_a_word(self):
        for data in b"", b"\x08", listing_input(K1, 8)[:-1], listing_input([], 8):
            self.assertEqual(listing(data), b"refused 1 0 0\n")

    def test_signed_angles_but_unsigned_value(self):
        words = image(
            quantum=[1],
            classical=[1, 3],
            main=[(7, 1, WORD_MAX, 1)],
            further=[(1, 1, 1, 1, 0)],
            arguments=[(0, 0)],
            expressions=[PI, (9, 0, 0)],
        )
        self.assertEqual(
            listed(words),
            lines(
                "0 1 4 0 0 0 0 1 0 1 1 1 2",
                f"7 1 3 {WORD_MAX}",
                "1 0 1 -1 1 0 1 -1 1 0 1 -1 1 0",
                "8",
                "done 4",
            ),
        )

    def test_opaque_angles_and_trace(self):
        # Gate 0 is opaque, with 2 parameters and 1 argument; gate 1 calls it
        # with -1/2 and its variable, then divides by the variable.
        words = image(
            quantum=[1],
            gates=[(2, 1, 0, 0, 0), (1, 1, 1, 1, 2)],
            main=[(3, 1, 2, 0)],
            further=[(3, 0, 0, 0), (1, 4, 5, 4, 0)],
            arguments=[(0, 0)],
            parameters=[3, 4, 6],
            expressions=[ONE, TWO, (7, 0, 1), (9, 2, 0), (3, 0, 0), (7, 0, 4), ZERO],
        )
        # Places: gates 10 and 15, statements 20, 25, 30, argument 35,
        # parameters 37 to 39, expressions 40 to 58.
        self.assertEqual(
            listed(words),
            lines("0 1 0 0 0", "3 0 2 1 -1 2 0 1 0 1 0 1 0", "from 0 20", "refused 9 55 0"),
        )

    def test_output_full(self):
        words = image(quantum=[4094], main=[(6, 0)], arguments=[(0, 1)])
        text = listed(words)  # the head has 8191 words, the reset 2
        self.assertTrue(text.startswith("0 4094 0 0 0 0 1 "))
        self.assertTrue(text.endswith(" 0 4093\nrefused 14 0 0\n"))


class Check(unittest.TestCase):
    """Hand-computed refusals 1 to 8."""

    def each(self, answer, *images_):
        for words in images_:
            self.assertEqual(check(words), answer, words)

    def test_accepted(self):
        self.each(None, K1, image(), image(quantum=[4096], classical=[4000, 96]))
        self.each(None, image(gates=[(16, 16, 0, 0, 0)] * 128))

    def test_1(self):
        self.each((1, 0), [], [1], K1[:-1], K1 + [0], [9, 0, 0, 0, 0, 0, 0, 0], image(gates=[(0, 0, 0, 0, 0)] * 129))
        self.each((1, 0), *(changed(K1, {at: K1[at] + 1}) for at in range(9)))
        self.each((1, 0), *(changed(K1, {at: WORD_MAX}) for at in range(9)))
        # Sums that would be right if they wrapped at 2^64.
        self.each((1, 0), changed(K1, {1: 1 + 2**63, 2: 2**63}))
        full = image(parameters=[0] * 8183)
        self.each(None, full)
        self.each((1, 0), image(parameters=[0] * 8184))

    def test_2(self):
        self.each((2, 9), image(quantum=[0]), image(quantum=[4097]), image(quantum=[WORD_MAX, 0], classical=[0]))
        self.each((2, 11), image(quantum=[4000, 96, 1]), image(quantum=[1, 1], classical=[0]))
        self.each((2, 10), image(classical=[4096, 1]), image(quantum=[1, WORD_MAX]))

    def test_3(self):
        bad = [(17, 0, 0, 0, 0), (0, 17, 0, 0, 0), (0, 0, 2, 0, 0), (0, 0, 0, 1, 0), (0, 0, 0, 0, 1)]
        main, further = [(4, 0, 0)], [(4, 0, 0)]
        # Two statements, of which the second is a further one.
        for first, length in (0, 1), (0, 2), (1, 2), (2, 1), (3, 0), (1, WORD_MAX), (WORD_MAX, 1), (WORD_MAX, 2):
            bad.append((0, 0, 1, first, length))
        self.each((3, 14), *(image(gates=[(1, 1, 0, 0, 0), gate], main=main, further=further) for gate in bad))
        good = [(0, 0, 1, first, length) for first, length in ((1, 1), (0, 0), (1, 0), (2, 0))]
        self.each(None, *(image(gates=[gate], main=main, further=further) for gate in good))

    def statements(self, *statements):
        """Each statement as the one main statement of an image with one of
        everything; the statement's place is 16, the further one's 21."""
        lists = dict(quantum=[2], classical=[2], gates=[(1, 1, 0, 0, 0)], further=[(6, 0)])
        for statement in statements:
            yield image(main=[statement], arguments=[(0, 0)], parameters=[0], expressions=[PI], **lists)

    def test_4(self):
        good = (1, 0, 0, 0, 0), (2, 0, 0), (3, 0, 0, 0), (4, 0, 1), (4, 1, 0), (5, 0, 0), (6, 0), (7, 0, 9, 1)
        self.each(None, *self.statements(*good))
        kinds = (0,), (8,), (WORD_MAX,)
        unused = (2, 0, 0, 1), (2, 0, 0, 0, 1), (3, 0, 0, 0, 1), (4, 0, 1, 1), (5, 0, 0, 0, 1), (6, 0, 1)
        unused += ((7, 0, 9, 1, 1),)
        numbers = (1, 1, 0, 0, 0), (1, 0, 0, 0, 1), (2, 0, 1), (3, 1, 0, 0), (5, 1, 0), (6, 1)
        numbers += (7, 1, 9, 1), (7, 0, 9, 0), (7, 0, 9, 2)
        runs = (3, 0, 1, 0), (3, 0, 0, 1), (3, 0, WORD_MAX, 0), (4, 2, 0), (4, 0, 2), (4, 1, WORD_MAX)
        self.each((4, 16), *self.statements(*kinds, *unused, *numbers, *runs))

    def test_4_of_an_empty_run(self):
        def call(parameter, argument):
            lists = dict(gates=[(0, 0, 0, 0, 0)], arguments=[(9, 9)], parameters=[9, 9])
            return image(main=[(3, 0, parameter, argument)], **lists)

        self.each(None, call(0, 0), call(2, 1))
        self.each((4, 14), call(3, 0), call(0, 2), call(WORD_MAX, 0), call(0, WORD_MAX))

    def test_4_of_an_inner_statement(self):
        lists = dict(quantum=[1], classical=[1], main=[(7, 0, 0, 1)], arguments=[(0, 0)])
        for inner in (4, 0, 0), (7, 0, 0, 1), (0,), (6, 0, 1), (6, 1):
            self.each((4, 11), image(further=[inner], **lists))

    def body(self, *statements):
        """An opaque gate, then one with this body; both have a parameter and an
        argument.  The body's statements are at 19, 24 and so on."""
        gates = [(1, 1, 0, 0, 0), (1, 1, 1, 0, len(statements))]
        lists = dict(arguments=[(0, 0), (0, 1), (1, 0)], parameters=[0, 1, 9], expressions=[PI, (3, 0, 0), (3, 1, 0)])
        return image(gates=gates, further=statements, **lists)

    def test_bodies(self):
        good = (1, 0, 1, 0, 0), (2, 0, 0), (3, 0, 1, 0), (4, 0, 1), (4, 3, 0)
        bad = {(5, 0, 0): 4, (6, 0): 4, (7, 0, 0, 0): 4, (3, 1, 0, 0): 8, (3, 1, 0, 3): 4, (1, 2, 0, 0, 0): 6}
        bad |= {(3, 0, 2, 0): 6, (3, 1, 2, 1): 8, (1, 0, 0, 0, 1): 5, (2, 0, 2): 5, (4, 0, 2): 5, (1, 2, 0, 0, 2): 6}
        self.each(None, self.body(*good))
        for statement, number in bad.items():
            self.each((number, 24), self.body((4, 0, 0), statement))

    def test_6(self):
        bad = (16, 0, 0), (WORD_MAX, 0, 0), (0, 1, 0), (0, 0, 1), (1, 2**32, 0), (1, 0, 1), (2, 0, 1), (3, 0, 0)
        bad += (4, 1, 0), (4, 0, 1), (8, 0, 2), (9, 1, 0), (9, 0, 1), (15, WORD_MAX, 0)
        self.each((6, 10), *(u_image(PI, entry) for entry in bad))
        self.each(None, u_image((16, 1, 1), (2, WORD_MAX, 0)), u_image(PI, (8, 0, 0)), u_image((1, 2**32 - 1, 0)))
        self.each((6, 10), u_image(PI, (3, 0, 0), (4, 0, 1)))
        call = dict(gates=[(1, 0, 0, 0, 0)], main=[(3, 0, 0, 0)], expressions=[PI])
        self.each(None, image(parameters=[0], **call))
        self.each((6, 14), image(parameters=[1], **call), image(parameters=[WORD_MAX], **call))

    def test_levels(self):
        chain = [PI, *((9, level, 0) for level in range(32))]
        self.each(None, u_image(*chain[:32]))
        self.each((6, 10), u_image(*chain))
        shared = [PI, *((4, level, level) for level in range(2700))]
        self.each(None, u_image(*shared[:32]))
        self.each((6, 10), u_image(*shared))

    def test_5(self):
        def reset(*argument):
            return image(quantum=[2, 3], classical=[9], main=[(6, 0)], arguments=[argument])

        self.each(None, reset(0, 0), reset(0, 2), reset(1, 3))
        self.each((5, 12), reset(0, 3), reset(1, 4), reset(2, 0), reset(0, WORD_MAX), reset(WORD_MAX, 0))

        def measure(*argument):
            return image(quantum=[1], classical=[2], main=[(5, 0, 1)], arguments=[(0, 0), argument])

        self.each(None, measure(0, 0), measure(0, 2))
        self.each((5, 11), measure(0, 3), measure(1, 0))

    def test_7(self):
        def sizes(statement, *numbers):
            lists = dict(quantum=[1, 2, 3, 2], classical=[1, 2, 3], gates=[(0, 3, 0, 0, 0)])
            return image(main=[statement], arguments=[(number, 0) for number in numbers], **lists)

        cx, measure, call = (2, 0, 1), (5, 0, 1), (3, 0, 0, 0)
        self.each(None, sizes(cx, 0, 2), sizes(cx, 2, 0), sizes(cx, 1, 3), sizes(measure, 3, 1), sizes(measure, 2, 0))
        self.each(None, sizes(call, 1, 0, 3), sizes(call, 0, 0, 0), sizes((4, 0, 3), 1, 2, 3))
        self.each((7, 21), sizes(cx, 1, 2), sizes(measure, 1, 2), sizes(call, 1, 0, 2), sizes(call, 1, 2, 3))

    def test_order_within_a_statement(self):
        # Registers 9 and 10, gate 11, statement 16, arguments 21 and 23, parameter 25.
        words = image(
            quantum=[2, 3],
            gates=[(1, 2, 0, 0, 0)],
            main=[(3, 0, 0, 0, 1)],
            arguments=[(9, 0), (1, 0)],
            parameters=[9],
            expressions=[PI],
        )
        self.each((4, 16), words)
        words[20] = 0
        self.each((6, 16), words)
        words[25] = 0
        self.each((5, 16), words)
        words[21] = 0
        self.each((7, 16), words)
        words[10] = 2
        self.each(None, words)

    def test_first_bad_statement(self):
        # Gates 9 and 14, main statements 19 and 24, further ones 29 and 34.
        gates = [(0, 0, 1, 3, 1), (0, 0, 1, 2, 1)]
        words = image(gates=gates, main=[(3, 0, 0, 0, 1), (8,)], further=[(9,), (3, 0, 0, 0, 1)])
        self.each((4, 19), words)
        words[23] = 0
        self.each((4, 24), words)
        words[24] = 4
        self.each((4, 34), words)  # gate 0's body comes before gate 1's
        words[38] = 0
        self.each((8, 34), words)
        words[34:36] = 4, 0
        self.each((4, 29), words)
        words[29] = 4
        self.each(None, words)

    def test_unused_entries_are_not_read(self):
        self.each(None, image(further=[(9, 9, 9, 9, 9)], arguments=[(9, 9)], parameters=[9], expressions=[(99, 9, 9)]))


class Refusals(unittest.TestCase):
    """Hand-computed refusals 9 to 17 and what is written before them."""

    def test_15_then_check(self):
        for length in 0, 255:
            self.assertEqual(run([], 8, 99, length), Outcome(15, 0, 0, 0, [], []))
        self.assertEqual(run([], 8, 99, 256), Outcome(1, 0, 0, 0, [], []))
        self.assertEqual(run(image(quantum=[0]), 8, 99, 300), Outcome(2, 9, 0, 0, [], []))

    def refused(self, number, second, *expressions):
        outcome = run(u_image(*expressions), 0, 99, 256)
        head = [0, 1, 0, 0, 0]
        self.assertEqual(outcome, Outcome(number, 17 + 3 * (len(expressions) - 1), second, 1, head, []))

    def test_9(self):
        self.refused(9, 0, ONE, ZERO, (7, 0, 1))
        self.refused(9, 0, PI, (5, 0, 0), (7, 0, 1), (9, 2, 0))

    def test_10(self):
        pairs = (0x7F800000,) * 2, (0xFF800000,) * 2, (0xFFC00001, 0x7FC00000), (0x7F800001, 0x7FC00000)
        for bits, refusal_bits in pairs:
            self.refused(10, refusal_bits, (1, bits, 0))
        # 1 by an angle whose f32 is zero, and another such angle by it.
        zero = (1, 0x40490FDB, 0), PI, (5, 0, 1)
        self.refused(10, 0x7F800000, *zero, ONE, (7, 3, 2))
        self.refused(10, 0x7FC00000, *zero, (2, 103993, 0), (2, 33102, 0), (7, 3, 4), (5, 5, 1), (7, 6, 2))

    def test_11(self):
        self.refused(11, 0, (2, 2**63, 0))
        self.refused(11, 0, (2, 2**63 - 1, 0), ONE, (4, 0, 1))

    def test_13(self):
        self.refused(13, 0, ONE, (13, 0, 0))
        self.refused(13, 0, ONE, (14, 0, 0))
        self.refused(13, 0, PI, (10, 0, 0))
        self.refused(13, 0, TWO, (15, 0, 0))

    def test_left_operand_wins(self):
        exp, zero = (13, 0, 0), (7, 0, 1)
        self.refused(13, 0, ONE, ZERO, exp, zero, (4, 2, 3))
        self.refused(9, 0, ONE, ZERO, exp, zero, (4, 3, 2))

    def test_12_of_a_cx_in_a_body(self):
        # Gate 0 of two arguments does CX on them; it is called with q[0], q.
        words = image(
            quantum=[2],
            gates=[(0, 2, 1, 1, 1)],
            main=[(3, 0, 0, 2)],
            further=[(2, 0, 1)],
            arguments=[(0, 0), (1, 0), (0, 1), (0, 0)],
        )
        head = [0, 2, 0, 0, 0, 0, 1]
        self.assertEqual(run(words, 2, 99, 256), Outcome(12, 25, 27, 1, head, [0, 15]))
        # Cut, it is written without a distinctness test.
        records = [3, 0, 0, 2, 0, 0, 3, 0, 0, 2, 0, 1]
        self.assertEqual(run(words, 1, 99, 256), Outcome(0, 0, 0, 3, head + records, []))

    def test_12_of_an_opaque_gate(self):
        # Arguments q[2], q, r of sizes 1, 3, 3: the third round overlaps.
        words = image(
            quantum=[3, 3], gates=[(0, 3, 0, 0, 0)], main=[(3, 0, 0, 0)], arguments=[(0, 3), (1, 0), (0, 0)]
        )
        outcome = run(words, 0, 99, 256)
        self.assertEqual(outcome[:4], (12, 25, 21, 3))  # the third argument, then the first
        self.assertEqual(outcome.output[15:], [3, 0, 0, 3, 2, 3, 0, 3, 0, 0, 3, 2, 4, 1])
        self.assertEqual(outcome.trace, [])

    def test_14(self):
        outcomes = [run(K1, 8, length, 256) for length in range(40)]
        ends = {0: 0, 7: 1, 21: 2, 35: 3}  # words written: records
        for length, outcome in enumerate(outcomes):
            written = max(end for end in ends if end <= length)
            if length >= 38:
                self.assertEqual(outcome[:4], (0, 0, 0, 4))
                continue
            self.assertEqual(outcome[:4], (14, 0, 0, ends[written]))
            self.assertEqual(outcome.output, outcomes[39].output[:written])
            self.assertEqual(outcome.trace, [0, 15] if 7 <= length < 35 else [])

    def test_other_refusals_come_before_14(self):
        self.assertEqual(run(u_image(ONE, ZERO, (7, 0, 1)), 0, 5, 256)[:4], (9, 23, 0, 1))
        overlap = image(quantum=[1], main=[(2, 0, 0)], arguments=[(0, 0)])
        self.assertEqual(run(overlap, 0, 5, 256)[:4], (12, 15, 15, 1))

    def test_16(self):
        self.assertEqual(tally_operation(exact_bound(), WORD_MAX)[8], 4294967295)
        self.assertEqual(tally_operation(exact_bound(classical=[1]), WORD_MAX), ("refused", 16, 0))
        self.assertEqual(tally(exact_bound(classical=[1]), WORD_MAX)[8], 4294967297)
        self.assertEqual(tally_operation(image(quantum=[0]), WORD_MAX), ("refused", 2, 9))

    def test_17(self):
        record_lengths = {
            (0, 1, 2): 9, (1,): 14, (2,): 3, (3, 7, 2, 1): 13, (4, 3): 5, (4, 0): 2, (5,): 3, (6,): 2, (7,): 4, (8,): 1
        }
        for beginning, length in record_lengths.items():
            whole = [*beginning, *[5] * (length - len(beginning))]
            self.assertEqual(next_record(whole + [8], 0), ("record", length))
            self.assertEqual(next_record([1] + whole, 1), ("record", length))
            for short in range(1, length):
                self.assertEqual(next_record(whole[:short], 0), 17)
        for words in [9], [WORD_MAX], [0, 2**63, 2**63], [3, 0, 2**62, 0], [3, 0, 0, WORD_MAX], [4, WORD_MAX]:
            self.assertEqual(next_record(words + [0] * 9, 0), 17)
        self.assertEqual([next_record([8, 8], at) for at in (1, 2, 3, WORD_MAX)], [("record", 1), "end", 17, 17])


def exact_bound(classical=()):
    """Gate 0 has an empty barrier, 2 words; each further gate calls the one
    below twice.  Main calls gates so that there are 2147483645 barriers, whose
    words and the head's 5 are 4294967295."""
    called = [number for number in range(31) if 2147483645 >> number & 1]
    first = len(called)
    further = [(4, 0, 0)] + [(3, number, 0, 0) for number in range(30) for _ in "12"]
    gates = [(0, 1, 1, first, 1)] + [(0, 1, 1, first + 1 + 2 * number, 2) for number in range(30)]
    main = [(3, number, 0, 0) for number in called]
    return image(quantum=[1], classical=classical, gates=gates, main=main, further=further, arguments=[(0, 0)])


def nest():
    """Main calls gate 1, which calls gate 0, which has a U; one parameter and
    one argument each."""
    return image(
        quantum=[2],
        gates=[(1, 1, 1, 1, 1), (1, 1, 1, 2, 1)],
        main=[(3, 1, 1, 0)],
        further=[(1, 0, 0, 0, 0), (3, 0, 0, 0)],
        arguments=[(0, 0)],
        parameters=[0, 1],
        expressions=[(3, 0, 0), PI],
    )


class Misreadings(unittest.TestCase):
    def kinds(self, words, depth):
        return [record[0] for record in records_of(run(words, depth, 999, 256).output)]

    def test_depth_is_not_the_number_of_opened_levels(self):
        for depth in 0, 1:
            self.assertEqual(listed(nest(), depth), lines("0 2 0 0 0 0 1", "3 1 0 1 0", "3 1 0 1 1", "done 3"))
        self.assertEqual(listed(nest(), 2), lines("0 2 0 0 0 0 1", "3 0 0 1 0", "3 0 0 1 1", "done 3"))
        for depth in 3, 129, WORD_MAX:
            self.assertEqual(self.kinds(nest(), depth), [0, 1, 1])

    def test_distinctness_is_not_tested_once_before_a_broadcast(self):
        for statement, gates in ((2, 0, 1), []), ((3, 0, 0, 0), [(0, 2, 0, 0, 0)]):
            words = image(quantum=[3], gates=gates, main=[statement], arguments=[(0, 3), (0, 0)])
            outcome = run(words, 0, 99, 256)
            self.assertEqual((outcome.number, outcome.records), (12, 3))

    def test_a_cut_gates_angles_are_not_sent(self):
        self.assertEqual(tally(nest(), 1), [0, 0, 2, 0, 0, 0, 0, 0, 7 + 2 * 5])
        self.assertEqual(run(nest(), 1, 99, 256).output[7:], [3, 1, 0, 1, 0, 3, 1, 0, 1, 1])

    def test_parameters_of_a_call_without_arguments_are_evaluated(self):
        for with_body in 0, 1:
            gates, expressions = [(1, 0, with_body, 0, 0)], [ONE, ZERO, (7, 0, 1)]
            words = image(gates=gates, main=[(3, 0, 0, 0)], parameters=[2], expressions=expressions)
            self.assertEqual(run(words, 8, 99, 256), Outcome(9, 26, 0, 1, [0, 0, 0], []))
            words[19] = 0  # the parameter is 1 now: nothing is written
            self.assertEqual(run(words, 8, 99, 256), Outcome(0, 0, 0, 1, [0, 0, 0], []))


class Runs(unittest.TestCase):
    def test_barriers_rise_and_hold_a_qubit_once(self):
        words = image(quantum=[2, 3], main=[(4, 0, 3), (4, 3, 0)], arguments=[(1, 0), (0, 2), (1, 1)])
        self.assertEqual(run(words, 0, 99, 256).output[13:], [4, 4, 1, 2, 3, 4, 4, 0])
        self.assertEqual(tally(words, 0), [0, 0, 0, 2, 0, 0, 0, 0, 13 + 2 + 5 + 2])

    def test_measures(self):
        pairs = [(0, 3), (0, 4), (1, 3), (2, 4)]  # whole-whole, whole-one, one-whole, one-one
        words = image(
            quantum=[1, 2],
            classical=[2, 1],
            main=[(5, *pair) for pair in pairs],
            arguments=[(1, 0), (0, 0), (1, 2), (0, 0), (1, 0)],
        )
        output = run(words, 0, 99, 256).output[15:]
        self.assertEqual(output, [5, 1, 0, 5, 2, 1, 5, 1, 2, 5, 2, 2, 5, 0, 0, 5, 0, 1, 5, 2, 2])

    def test_call_in_an_if(self):
        # The trace has the inner statement's place, in main.
        words = image(
            quantum=[1],
            classical=[1],
            gates=[(0, 1, 1, 2, 1)],
            main=[(7, 0, 1, 1)],
            further=[(3, 0, 0, 0), (2, 0, 0)],
            arguments=[(0, 0)],
        )
        head = [0, 1, 1, 0, 0, 0, 0]
        self.assertEqual(run(words, 2, 99, 256), Outcome(12, 31, 31, 2, head + [7, 0, 1, 1], [0, 21]))
        self.assertEqual(run(words, 1, 99, 256).output, head + [7, 0, 1, 1, 3, 0, 0, 1, 0, 8])
        self.assertEqual(run(words, 1, 15, 256), Outcome(14, 0, 0, 2, head + [7, 0, 1, 1], [0, 21]))
        self.assertEqual(run(words, 1, 16, 256), Outcome(14, 0, 0, 3, run(words, 1, 99, 256).output[:16], []))
        self.assertEqual(tally(words, 1), [0, 0, 1, 0, 0, 0, 1, 0, 17])

    def test_longest_trace(self):
        # 128 gates, each calling the one below; the lowest divides by zero.
        gates = [(0, 1, 1, 1 + number, 1) for number in range(128)]
        further = [(1, 2, 2, 2, 0)] + [(3, number, 0, 0) for number in range(127)]
        lists = dict(quantum=[1], arguments=[(0, 0)], expressions=[ONE, ZERO, (7, 0, 1)])
        words = image(gates=gates, main=[(3, 127, 0, 0)], further=further, **lists)
        outcome = run(words, 129, 99, 256)
        self.assertEqual((outcome.number, len(outcome.trace)), (9, 256))
        self.assertEqual(outcome.trace[:4], [0, 650, 128, 650 + 5 * 128])
        cut = run(words, 128, 99, 256)
        self.assertEqual((cut.number, cut.output[5:]), (0, [3, 0, 0, 1, 0]))
        self.assertEqual(run(words, 128, 9, 256).trace, outcome.trace)


class Tally(unittest.TestCase):
    def test_k1(self):
        self.assertEqual(tally(K1, 8), [2, 1, 0, 0, 0, 0, 0, 2, 38])
        self.assertEqual(tally(K1, 1), [0, 1, 2, 0, 0, 0, 0, 0, 20])
        self.assertEqual(tally(image(quantum=[3]), 1), [0] * 9)

    def test_many_gates_answer_at_once(self):
        for calls in 11, 16:  # with 16 the image is longer than check allows
            gates = [(0, 1, 1, 1, 1)] + [(0, 1, 1, 2 + calls * number, calls) for number in range(127)]
            further = [(1, 0, 0, 0, 0)] + [(3, number, 0, 0) for number in range(127) for _ in range(calls)]
            lists = dict(quantum=[1], arguments=[(0, 0)], expressions=[PI])
            words = image(gates=gates, main=[(3, 127, 0, 0)], further=further, **lists)
            self.assertEqual(check(words), None if calls == 11 else (1, 0))
            began = time.monotonic()
            figures = tally(words, WORD_MAX)
            self.assertLess(time.monotonic() - began, 5)
            self.assertEqual(figures[0], calls**127)
            self.assertEqual(figures[7], sum(calls**level for level in range(128)))
            self.assertEqual(figures[8], 14 * calls**127 + 5)
            self.assertEqual(tally(words, 128)[:3], [0, 0, calls**127])
            self.assertEqual(tally(words, 3)[2], calls**2)


class Claims(unittest.TestCase):
    """What document 01 demands of the run's records by the tally."""

    def test_random_images(self):
        rng = Random(20170711)
        for _ in range(600):
            case = random_images.random_case(rng)
            outcome = run(*case)
            found = list(records_of(outcome.output))
            self.assertEqual(outcome.records, len(found))
            if outcome.number in range(1, 9) or outcome.number == 15:
                self.assertEqual(outcome[3:], (0, [], []))
                continue
            self.claims(case, outcome, found)

    def claims(self, case, outcome, found):
        figures = tally(case.words, case.depth)
        counts = Counter(record[0] for record in found)
        for kind in range(1, 8):
            self.assertLessEqual(counts[kind], figures[kind - 1])
            if outcome.number == 0:
                self.assertEqual(counts[kind], figures[kind - 1])
        self.assertLessEqual(len(outcome.output), min(figures[8], case.output_length))
        if outcome.number == 0:
            self.assertEqual(outcome.records, sum(figures[:7]) + figures[6] + (case.words[4] > 0))
            self.assertEqual(outcome.trace, [])
        if case.output_length >= figures[8]:
            self.assertNotEqual(outcome.number, 14)

    def test_generator(self):
        rng = Random(1)
        for _ in range(200):
            words = random_images.random_program(rng)
            self.assertIsNone(check(words))
            random_images.damaged(rng, words)
        checked, tallied, ran, _ = random_images.outcomes(Random(2), 1000)
        self.assertEqual(set(checked), set(range(9)))
        self.assertEqual(set(tallied), set(range(9)) | {16})
        self.assertEqual(set(ran), set(range(16)))


if __name__ == "__main__":
    unittest.main()
