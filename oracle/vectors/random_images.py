"""Random images by seed, accepted and damaged, with depths and lengths to lend.

    random_program(rng, large=False)    the words of an accepted image
    damaged(rng, words)                 a damaged copy of an accepted image
    random_case(rng, large=False)       a Case: words, depth, lengths lent

rng is a random.Random; the same seed gives the same images.  Images are small
by default, so that a slow evaluator can replay them; a few damaged ones stay
accepted, which is meant.  Started as a program, with a count, a seed and
perhaps the word large, it prints how many cases have which outcome:

    python3 -m oracle.vectors.random_images 1000 1
"""

import sys
from collections import Counter, namedtuple
from random import Random

from oracle.reference import reference
from oracle.reference.reference import (
    ARGUMENTS, BARRIER, BODY_KINDS, CALL, CLASSICAL, CX, EXPRESSIONS, FURTHER, GATES, IF, INNER_KINDS, INTEGER,
    MAIN, MAIN_KINDS, MEASURE, PARAMETERS, PI, QUANTUM, REAL, RESET, U, VARIABLE, Image,
)

WORD_LIMIT = 2**64
DEPTHS = 0, 1, 2, 3, 129, WORD_LIMIT - 1

# Bounds of a program; entries and output bound the run of a case.
Scale = namedtuple("Scale", "registers size gates body main levels words entries output")
SMALL = Scale(registers=3, size=5, gates=4, body=3, main=5, levels=3, words=200, entries=400, output=600)
LARGE = Scale(registers=8, size=60, gates=24, body=9, main=60, levels=6, words=8192, entries=20000, output=20000)


def chance(rng, percent):
    return rng.randrange(100) < percent


# ------------------------------------------------------------- expressions
# A tree is (kind, word) for a leaf, (kind, tree) or (kind, tree, tree).

PLUS, MINUS, TIMES, DIVIDE, POWER, NEGATE, SIN, COS, TAN, EXP, LN, SQRT = range(4, 16)
PI_TREE = PI, 0
F32_PI = REAL, 0x40490FDB
NEAR_PI = DIVIDE, (INTEGER, 103993), (INTEGER, 33102)


def whole(n):
    return (INTEGER, n) if n >= 0 else (NEGATE, (INTEGER, -n))


def ratio(n, d):
    return DIVIDE, whole(n), whole(d)


def pi_times(n, d):
    return DIVIDE, (TIMES, whole(n), PI_TREE), whole(d)


def real(rng):
    """Bits of an f32: a plain number, an edge, or any."""
    plain = 0x3F000000, 0x3E800000, 0xBFC00000, 0x40490FDB, 0x3DCCCCCD, 0x42C80000, 0, 0x80000000
    edges = 0x5E800000, 0x20800000, 0x5EFFFFFF, 0xDE800001, 0x1F800000, 0x2B800001
    return REAL, rng.choice(plain * 2 + edges + (rng.randrange(2**32),))


def plain_leaf(rng, variables):
    if variables and chance(rng, 50):
        return VARIABLE, rng.randrange(variables)
    return rng.choice((PI_TREE, PI_TREE, whole(rng.randrange(9)), whole(rng.randrange(1000)), real(rng)))


def plain_tree(rng, variables, levels):
    """Sums, small multiples and small parts: nearly always an angle."""
    if levels <= 1 or chance(rng, 40):
        return plain_leaf(rng, variables)
    kind = rng.choice((PLUS, MINUS, TIMES, DIVIDE, NEGATE))
    left = plain_tree(rng, variables, levels - 1)
    if kind == NEGATE:
        return NEGATE, left
    if kind == DIVIDE:
        return DIVIDE, left, whole(rng.randrange(1, 9))
    right = whole(rng.randrange(9)) if kind == TIMES else plain_tree(rng, variables, levels - 1)
    return rng.choice(((kind, left, right), (kind, right, left), (kind, left, left)))


def exact_tree(rng):
    """Powers, roots, sines and quotients that have an angle."""
    n, d = rng.randrange(1, 7), rng.randrange(1, 5)
    sixth = rng.choice((-11, -5, -3, -1, 0, 1, 3, 5, 7, 9, 11, 13))
    return rng.choice((
        (POWER, whole(8), ratio(rng.choice((2, -2, 1, 4)), 3)),
        (POWER, ratio(n**d, (n + 1) ** d), ratio(rng.choice((1, -1, 2)), d)),
        (POWER, whole(rng.choice((0, 1, n))), whole(0)),
        (POWER, whole(rng.choice((1, -1))), whole(2**63 - 1)),
        (POWER, whole(1), ratio(1, 2**40)),
        (POWER, whole(2), whole(rng.choice((62, -62)))),
        (SIN, pi_times(sixth, 6)),
        (COS, pi_times(rng.choice((-4, -3, -2, 0, 2, 3, 4, 8)), 6)),
        (TAN, rng.choice((whole(0), pi_times(2, 1), pi_times(-4, 1)))),
        (SQRT, ratio(n * n, d * d)),
        (DIVIDE, pi_times(n, d), pi_times(d, 1)),
        (DIVIDE, (PLUS, whole(n), pi_times(n, 1)), (PLUS, whole(d), pi_times(d, 1))),
        (DIVIDE, (PLUS, whole(n), pi_times(d, 1)), (PLUS, whole(7), PI_TREE)),
        (DIVIDE, whole(n), PI_TREE),
        (TIMES, PI_TREE, PI_TREE),
        (MINUS, whole(2**63 - 1), whole(n)),
    ))


def zero_division(rng, variables):
    zero = rng.choice((whole(0), (MINUS, PI_TREE, PI_TREE), (REAL, 0x80000000)))
    if variables and chance(rng, 60):
        zero = VARIABLE, rng.randrange(variables)
    return rng.choice((
        (DIVIDE, plain_leaf(rng, variables), zero),
        (DIVIDE, plain_leaf(rng, variables), zero),
        (POWER, whole(0), ratio(-1, 2)),
        (POWER, whole(0), whole(-1)),
        (TAN, pi_times(rng.choice((-1, 3)), 2)),
    ))


def float_without_fraction(rng, variables):
    nan = rng.choice((0x7FC00000, 0xFFC00000, 0x7F800001, 0x7FFFFFFF, 0xFFFFFFFF))
    edge = rng.choice((0x7F800000, 0xFF800000, 0x5F000000, 0xDF000000, 0x20000000, 0xA0000000, 1, 0x7F7FFFFF))
    vanishing = MINUS, F32_PI, PI_TREE
    return rng.choice((
        (REAL, nan),
        (REAL, edge),
        (REAL, edge),
        (DIVIDE, plain_leaf(rng, variables), vanishing),
        (DIVIDE, (MINUS, NEAR_PI, PI_TREE), vanishing),
        (DIVIDE, whole(2**62), (MINUS, ratio(355, 113), PI_TREE)),
    ))


def overflow(rng, variables):
    return rng.choice((
        (INTEGER, rng.choice((2**63, 2**64 - 1, rng.randrange(2**63, 2**64)))),
        (PLUS, whole(2**63 - 1), whole(1)),
        (MINUS, whole(-(2**63 - 1)), plain_leaf(rng, variables)),
        (PLUS, ratio(1, 3037000500), ratio(1, 3037000501)),
        (PLUS, whole(2**62), ratio(-1, 2)),
        (TIMES, whole(2**32), whole(2**31)),
        (TIMES, (TIMES, PI_TREE, PI_TREE), (TIMES, PI_TREE, PI_TREE)),
        (DIVIDE, whole(2**62), ratio(1, 2)),
        (POWER, whole(2), whole(rng.choice((63, 2**63 - 1)))),
        (POWER, whole(-3), whole(-40)),
        (SIN, pi_times(1, 2**63 - 1)),
        (COS, (TIMES, PI_TREE, whole(2**63 - 1))),
    ))


def float_function(rng, variables):
    leaf = plain_leaf(rng, variables)
    return rng.choice((
        (EXP, leaf),
        (LN, leaf),
        (SIN, (PLUS, leaf, whole(1))),
        (SIN, PI_TREE),
        (COS, ratio(1, 2)),
        (TAN, pi_times(1, rng.choice((2, 4)))),
        (TAN, (TIMES, PI_TREE, whole(2**63 - 1))),
        (SQRT, rng.choice((whole(2), whole(-4), ratio(4, 3), PI_TREE))),
        (POWER, whole(2), ratio(1, 2)),
        (POWER, whole(-8), ratio(1, 3)),
        (POWER, whole(0), ratio(-1, 2**32)),
        (POWER, PI_TREE, whole(2)),
    ))


def wild_tree(rng, variables, levels):
    """Any kinds on any leaves."""
    if levels <= 1 or chance(rng, 20):
        literal = rng.choice((0, 1, 2, 3, 4, 8, 9, 2**62, 2**63 - 1, rng.randrange(2**64)))
        return rng.choice((plain_leaf(rng, variables), (INTEGER, literal), real(rng)))
    kind = rng.randrange(PLUS, SQRT + 1)
    left = wild_tree(rng, variables, levels - 1)
    if kind >= NEGATE:
        return kind, left
    right = wild_tree(rng, variables, levels - 1)
    return rng.choice(((kind, left, right), (kind, left, right), (kind, left, left)))


def chain_tree(rng, variables, levels):
    """A tree of exactly so many levels."""
    tree = plain_leaf(rng, variables)
    for _ in range(levels - 1):
        tree = NEGATE, tree
    return tree


# Makers of expressions that are refused: 9 (twice as often), 10, 11 and 13.
REFUSED_TREES = zero_division, zero_division, float_without_fraction, overflow, float_function


# ---------------------------------------------------------------- programs

# The scope that a statement is made for; formals is None in main.
Scope = namedtuple("Scope", "variables formals gates")


class Builder:
    """Lists of an image that grow; main_count is settled beforehand, so that
    the numbers of further statements are known when they are used."""

    def __init__(self, rng, scale):
        self.rng, self.scale = rng, scale
        registers = rng.choice((0, *range(1, scale.registers + 1), *range(1, scale.registers + 1)))
        self.quantum = [self.size() for _ in range(max(registers, not chance(rng, 10)))]
        sizes = [self.size(), *self.quantum]
        self.classical = [rng.choice(sizes) for _ in range(rng.randrange(scale.registers + 1))]
        self.main_count = rng.randrange(1, scale.main + 1) if chance(rng, 96) else 0
        self.gates, self.main, self.further = [], [], []
        self.arguments, self.parameters, self.expressions = [], [], []
        self.overlaps = chance(rng, 15)  # arguments are taken as they come
        self.garbage = chance(rng, 25)
        self.wild = chance(rng, 10)
        self.refused_trees = [rng.choice(REFUSED_TREES)] if chance(rng, 40) else []

    def size(self):
        return self.rng.choice((1, 2, 2, 3, self.rng.randrange(1, self.scale.size + 1)))

    def program(self):
        for number in range(self.rng.randrange(self.scale.gates + 1)):
            self.gates.append(self.gate(number))
        scope = Scope(0, None, len(self.gates))
        for _ in range(self.main_count):
            self.main.append(self.statement(scope, self.main_kind()))
        if self.garbage:
            self.leave_garbage()
        return self.words()

    def words(self):
        lists = (
            [[size] for size in self.quantum],
            [[size] for size in self.classical],
            self.gates,
            self.main,
            self.further,
            self.arguments,
            [[expression] for expression in self.parameters],
            self.expressions,
        )
        entries = [word for entries in lists for entry in entries for word in entry]
        return [9 + len(entries), *map(len, lists), *entries]

    # ------------------------------------------------ expressions and runs

    def expression(self, variables):
        """The number of an expression that may use so many variables."""
        return self.expression_entry(self.tree(variables))

    def tree(self, variables):
        rng, levels = self.rng, self.scale.levels
        if self.refused_trees and chance(rng, 25):
            return self.refused_tree(variables)
        if self.wild:
            return wild_tree(rng, variables, levels)
        if chance(rng, 12):
            return exact_tree(rng)
        if chance(rng, 1):
            return chain_tree(rng, variables, 32)
        return plain_tree(rng, variables, levels)

    def refused_tree(self, variables):
        """A tree that is refused, perhaps beside one that is refused otherwise."""
        rng = self.rng
        tree = rng.choice(self.refused_trees)(rng, variables)
        other = rng.choice((plain_tree, wild_tree))(rng, variables, 2)
        kind = rng.choice((PLUS, MINUS, TIMES, DIVIDE, POWER))
        return rng.choice((tree, tree, (kind, tree, other), (kind, other, tree), (NEGATE, tree)))

    def expression_entry(self, tree):
        """Operands come first; an equal entry is shared more often than not."""
        kind, *operands = tree
        if kind > VARIABLE:
            operands = [self.expression_entry(operand) for operand in operands]
        entry = [kind, *operands, 0][:3]
        if entry in self.expressions and chance(self.rng, 70):
            return self.expressions.index(entry)
        if self.garbage and chance(self.rng, 5):
            self.expressions.append([self.rng.randrange(20), self.rng.randrange(WORD_LIMIT), 7])
        self.expressions.append(entry)
        return len(self.expressions) - 1

    def run_of(self, entries, wanted):
        """Where the entries wanted stand one after another, often shared."""
        if not wanted:
            return self.rng.choice((0, len(entries), self.rng.randrange(len(entries) + 1)))
        for start in range(len(entries) - len(wanted) + 1):
            if entries[start : start + len(wanted)] == wanted and chance(self.rng, 60):
                return start
        entries += wanted
        return len(entries) - len(wanted)

    def argument(self, pair):
        return self.run_of(self.arguments, [pair])

    # ----------------------------------------------------------- arguments

    def argument_of(self, sizes, common):
        """An index, or a whole register of a common size or of size 1."""
        indices = [[register, index + 1] for register, size in enumerate(sizes) for index in range(size)]
        wholes = [[register, 0] for register, size in enumerate(sizes) if size in (1, common)]
        return self.rng.choice(self.rng.choice((indices, wholes or indices)))

    def main_arguments(self, count):
        for _ in range(12):
            common = self.rng.choice(self.quantum)
            pairs = [self.argument_of(self.quantum, common) for _ in range(count)]
            if self.overlaps or not self.overlapping(pairs):
                break
        return pairs

    def overlapping(self, pairs):
        """Whether some round has a qubit twice."""
        sizes = [1 if index else self.quantum[register] for register, index in pairs]
        firsts = [sum(self.quantum[:register]) + max(index, 1) - 1 for register, index in pairs]
        for turn in range(max(sizes)):
            qubits = {first + turn * (size > 1) for first, size in zip(firsts, sizes)}
            if len(qubits) < len(pairs):
                return True
        return False

    def formals(self, scope, count):
        if count <= scope.formals and not self.overlaps:
            chosen = self.rng.sample(range(scope.formals), count)
        else:
            chosen = [self.rng.randrange(scope.formals) for _ in range(count)]
        return [[formal, 0] for formal in chosen]

    def quantum_arguments(self, scope, count):
        if count == 0:
            return []
        return self.main_arguments(count) if scope.formals is None else self.formals(scope, count)

    # ---------------------------------------------------------- statements

    def main_kind(self):
        return self.rng.choice((U, U, CX, CX, CALL, CALL, CALL, BARRIER, MEASURE, RESET, IF, IF))

    def has_qubits(self, scope):
        return bool(self.quantum if scope.formals is None else scope.formals)

    def statement(self, scope, kind):
        """A statement of the kind, or of another where that can't be made."""
        qubits = self.has_qubits(scope)
        if kind == CALL and self.callable(scope):
            return self.call(scope)
        if kind == IF and self.classical and (qubits or self.callable(scope)):
            return self.conditional(scope)
        if kind == MEASURE and qubits and self.classical:
            return self.measure()
        if kind == BARRIER or not qubits:
            return self.barrier(scope)
        if kind == CX:
            control, target = map(self.argument, self.quantum_arguments(scope, 2))
            return [CX, control, target, 0, 0]
        (argument,) = map(self.argument, self.quantum_arguments(scope, 1))
        if kind == RESET:
            return [RESET, argument, 0, 0, 0]
        return [U, *(self.expression(scope.variables) for _ in range(3)), argument]

    def callable(self, scope):
        """Gates that may be called: one without arguments needs no qubits."""
        within = range(scope.gates)
        if not self.has_qubits(scope):
            return [number for number in within if self.gates[number][1] == 0]
        return within

    def call(self, scope):
        number = self.rng.choice(self.callable(scope))
        parameters, arguments = self.gates[number][:2]
        few = [self.expression(scope.variables) for _ in range(min(parameters, 3))]
        expressions = few + [self.rng.choice(few) for _ in range(parameters - len(few))]
        first_parameter = self.run_of(self.parameters, expressions)
        first_argument = self.run_of(self.arguments, self.quantum_arguments(scope, arguments))
        return [CALL, number, first_parameter, first_argument, 0]

    def barrier(self, scope):
        """Of any sizes, with repeated qubits, or of no arguments."""
        count = self.rng.choice((0, 1, 1, 2, 3)) if self.has_qubits(scope) else 0
        if scope.formals is None:
            pairs = [self.argument_of(self.quantum, self.rng.choice(self.quantum)) for _ in range(count)]
        else:
            pairs = [[self.rng.randrange(scope.formals), 0] for _ in range(count)]
        return [BARRIER, self.run_of(self.arguments, pairs), count, 0, 0]

    def measure(self):
        common = self.rng.choice(self.quantum + self.classical)
        qubit, bit = self.argument_of(self.quantum, common), self.argument_of(self.classical, common)
        return [MEASURE, self.argument(qubit), self.argument(bit), 0, 0]

    def conditional(self, scope):
        kind = CALL if not self.has_qubits(scope) else self.rng.choice((*INNER_KINDS, CALL, CALL))
        value = self.rng.choice((0, 1, self.rng.randrange(32), WORD_LIMIT - 1, self.rng.randrange(WORD_LIMIT)))
        self.further.append(self.statement(scope, kind))
        return [IF, self.rng.randrange(len(self.classical)), value, self.main_count + len(self.further) - 1, 0]

    # --------------------------------------------------------------- gates

    def gate(self, number):
        rng = self.rng
        parameters = rng.choice((0, 0, 1, 1, 2, 3)) if chance(rng, 95) else 16
        arguments = rng.choice((0, 1, 1, 1, 2, 2, 3)) if chance(rng, 95) else 16
        if self.overlaps and chance(rng, 50):
            return [parameters, rng.choice((2, 3, 4)), 0, 0, 0]
        if chance(rng, 25):
            return [parameters, arguments, 0, 0, 0]
        scope = Scope(parameters, arguments, number)
        length = rng.randrange(self.scale.body + 1)
        body = [self.statement(scope, rng.choice(BODY_KINDS)) for _ in range(length)]
        if not body:
            return [parameters, arguments, 1, rng.randrange(self.main_count + len(self.further) + 1), 0]
        self.further += body
        return [parameters, arguments, 1, self.main_count + len(self.further) - len(body), len(body)]

    def leave_garbage(self):
        """Entries at the lists' ends that nothing uses."""
        for entries, length in (self.further, 5), (self.arguments, 2), (self.expressions, 3):
            for _ in range(self.rng.choice((0, 0, 1, 2))):
                entries.append([self.any_word() for _ in range(length)])
        for _ in range(self.rng.choice((0, 1))):
            self.parameters.append(self.any_word())

    def any_word(self):
        return self.rng.choice((0, 1, 9, WORD_LIMIT - 1, self.rng.randrange(WORD_LIMIT)))


def random_program(rng, large=False):
    """The words of an accepted image over all features."""
    scale = LARGE if large else SMALL
    makers = (plain_program,) * 16 + (sharing_program,) * 5 + (tower_program,) * 2 + (stack_program,)
    make = rng.choice(makers)
    while True:
        words = make(rng, scale)
        if len(words) <= scale.words or make == tower_program:
            return words


def plain_program(rng, scale):
    return Builder(rng, scale).program()


def sharing_program(rng, scale):
    """A program in which entries are shared wherever check lets them."""
    words = plain_program(rng, scale)
    for _ in range(20):
        other = shared(rng, Image(tuple(words)))
        if other and reference.check(other) is None:
            words = other
    return words


def shared(rng, image):
    """A copy in which some number names another entry, or a gate another body."""
    which = rng.choice((GATES, GATES, MAIN, FURTHER, PARAMETERS, EXPRESSIONS))
    if not image.counts[which]:
        return None
    number = rng.randrange(image.counts[which])
    place = image.place(which, number)
    if which == GATES:
        first, length = image.gate(rng.randrange(image.counts[GATES]))[3:]
        start = rng.randrange(length + 1)
        return edited(image, {place + 2: 1, place + 3: first + start, place + 4: rng.randrange(length - start + 1)})
    at = place if which == PARAMETERS else place + rng.randrange(1, 5 if which != EXPRESSIONS else 3)
    counts = [image.counts[ARGUMENTS], image.counts[EXPRESSIONS], image.statement_count(), number + 1]
    return edited(image, {at: rng.randrange(max(1, rng.choice(counts)))})


def tower_program(rng, scale):
    """Gates whose figures are near the largest that the tally gives.

    All bodies begin at one U, and each takes in more of the calls after it, so
    that each gate has a multiple of the records of the one below.  Up to some
    320 words.
    """
    builder = Builder(rng, scale)
    size = rng.choice((1, 2, 5, 100))
    builder.quantum, builder.classical, builder.main_count = [size], [], rng.randrange(1, 4)
    copies, wanted = rng.choice((2, 3)), 2 ** rng.choice((20, 30, 31, 32, 32, 33, 34))
    words, gates = 14 * size * builder.main_count, 0
    while words < wanted:
        words, gates = words * (copies + 1), gates + 1
    zero, argument = builder.expression_entry(whole(0)), builder.argument([0, 0])
    builder.further.append([U, zero, zero, zero, argument])
    builder.gates.append([0, 1, 1, builder.main_count, 1])
    for number in range(1, gates + 1):
        builder.further += [[CALL, number - 1, 0, argument, 0]] * copies
        builder.gates.append([0, 1, 1, builder.main_count, len(builder.further)])
    builder.main = [[CALL, gates, 0, argument, 0]] * builder.main_count
    return builder.words()


def stack_program(rng, scale):
    """Gates that each call the one below, with an angle handed down that may
    fail at the bottom: long traces."""
    builder = Builder(rng, scale)
    builder.quantum, builder.main_count = [rng.randrange(2, 4)], 1
    gates = rng.randrange(2, 8) if scale is SMALL else 128
    for number in range(gates):
        first = builder.main_count + len(builder.further)
        builder.further += stack_middle(builder, number) if number else stack_bottom(builder)
        length = builder.main_count + len(builder.further) - first
        builder.gates.append([1, 2, 1, first, length])
    handed = rng.choice((whole(0), whole(gates - 1), pi_times(1, 6), PI_TREE, whole(2**63 - 1)))
    arguments = rng.choice(([[0, 1], [0, 2]], [[0, 2], [0, 0]], [[0, 1], [0, 2]]))
    builder.main = [stack_call(builder, gates - 1, handed, arguments)]
    return builder.words()


def stack_call(builder, gate, handed, arguments):
    parameter = builder.run_of(builder.parameters, [builder.expression_entry(handed)])
    return [CALL, gate, parameter, builder.run_of(builder.arguments, arguments), 0]


def stack_middle(builder, number):
    variable = VARIABLE, 0
    handed = builder.rng.choice((variable, variable, (MINUS, variable, whole(1)), (DIVIDE, variable, whole(2))))
    arguments = builder.rng.choice(([[0, 0], [1, 0]], [[1, 0], [0, 0]]))
    return [stack_call(builder, number - 1, handed, arguments)]


def stack_bottom(builder):
    variable = VARIABLE, 0
    tree = builder.rng.choice(((DIVIDE, PI_TREE, variable), (SIN, variable), variable))
    expression = builder.expression_entry(tree)
    control, target = builder.argument([0, 0]), builder.argument([int(chance(builder.rng, 80)), 0])
    return [[U, expression, expression, expression, control], [CX, control, target, 0, 0]]


# ------------------------------------------------------------------ damage
# Each function makes one kind of damage, or gives None where it can't.


def edited(image, changes):
    words = list(image.words)
    for place, word in changes.items():
        words[place] = word % WORD_LIMIT
    return words


def with_entries(image, which, entries):
    """A copy with entries added at a list's end, contents to match."""
    end = image.first_words[which + 1]
    added = [word for entry in entries for word in entry]
    words = [*image.words[:end], *added, *image.words[end:]]
    words[0] += len(added)
    words[1 + which] += len(entries)
    return words


def judged(image):
    """Scope and number of each statement that check judges, inner ones too."""
    for scope, number in reference.judged_statements(image):
        yield scope, number
        if image.statement(number)[0] == IF:
            yield scope, image.statement(number)[3]


def some_statement(rng, image, kinds=MAIN_KINDS, scopes=range(129)):
    found = [
        (scope, number)
        for scope, number in judged(image)
        if scope in scopes and image.statement(number)[0] in kinds
    ]
    return rng.choice(found) if found else None


def some_argument(rng, image):
    """Scope, argument number and sort of an argument that check judges."""
    found = [
        (scope, *named)
        for scope, number in judged(image)
        if image.statement(number)[0] != IF
        for named in image.named_arguments(image.statement(number))
    ]
    return rng.choice(found) if found else None


def some_expression(rng, image):
    """Scope and number of an expression entry that check judges."""
    found = {
        (scope, expression)
        for scope, number in judged(image)
        for expression in image.named_expressions(image.statement(number))
    }
    if not found:
        return None
    scope, number = rng.choice(sorted(found))
    while chance(rng, 60):
        kind, *operands = image.entry(EXPRESSIONS, number)
        if kind <= VARIABLE:
            break
        number = operands[0] if kind >= NEGATE else rng.choice(operands)
    return scope, number


def near(rng, word):
    return rng.choice((word - 1, word + 1, word + 1, 0, WORD_LIMIT - 1, 2**63, rng.randrange(WORD_LIMIT)))


# 1: length and contents


def truncated(rng, image):
    return list(image.words[: rng.choice((0, 1, 8, 9, len(image.words) - 1, rng.randrange(len(image.words))))])


def emptied(rng, image):
    """Contents alone, at times one word short."""
    return [9, *[0] * rng.choice((7, 8, 8))]


def appended(rng, image):
    return [*image.words, *([rng.randrange(3)] * rng.choice((1, 1, 2, 5)))]


def changed_content(rng, image):
    at = rng.randrange(9)
    return edited(image, {at: near(rng, image.words[at])})


def moved_content(rng, image):
    """One count up and another down: the total may stay right."""
    up, down = rng.sample(range(1, 9), 2)
    return edited(image, {up: image.words[up] + 1, down: image.words[down] - 1})


def wrapped_contents(rng, image):
    """Counts that add up only if sums wrap at 2^64."""
    first, second = rng.choice(((1, 2), (1, 7), (2, 7)))
    return edited(image, {first: image.words[first] + 2**63, second: image.words[second] + 2**63})


def too_many_gates(rng, image):
    return with_entries(image, GATES, [[0, 0, 0, 0, 0]] * (129 - image.counts[GATES]))


# 2: registers


def bad_size(rng, image):
    sort = rng.choice((QUANTUM, CLASSICAL))
    if not image.counts[sort]:
        return None
    place = image.place(sort, rng.randrange(image.counts[sort]))
    return edited(image, {place: rng.choice((0, 4097, WORD_LIMIT - 1, 2**63))})


def passed_total(rng, image):
    sort = rng.choice((QUANTUM, CLASSICAL))
    sizes = image.sizes(sort)
    if not sizes:
        return None
    number = rng.randrange(len(sizes))
    rest = sum(sizes) - sizes[number]
    return edited(image, {image.place(sort, number): 4096 - rest + rng.choice((1, 1, 1, 0))})


# 3: gate entries


def bad_gate_count(rng, image):
    if not image.counts[GATES]:
        return None
    place = image.place(GATES, rng.randrange(image.counts[GATES]))
    at = rng.choice((0, 1, 2))
    return edited(image, {place + at: rng.choice(((17, WORD_LIMIT - 1), (17, 2**63), (2, WORD_LIMIT - 1))[at])})


def bad_body(rng, image):
    if not image.counts[GATES]:
        return None
    number = rng.randrange(image.counts[GATES])
    place, gate = image.place(GATES, number), image.gate(number)
    main, end = image.counts[MAIN], image.statement_count()
    if not gate.with_body:
        return edited(image, {place + rng.choice((3, 4)): rng.choice((1, end, WORD_LIMIT - 1))})
    first, length = rng.choice((
        (main - 1, 1),
        (main - 1, gate.length + 1),
        (0, 1),
        (gate.first, end - gate.first + 1),
        (end, 1),
        (end + 1, 0),
        (gate.first, WORD_LIMIT - 1),
        (gate.first, WORD_LIMIT - gate.first),
        (WORD_LIMIT - 1, rng.choice((0, 1, 2))),
    ))
    return edited(image, {place + 3: first, place + 4: length})


# 4: kinds, unused words, numbers and runs


def bad_kind(rng, image):
    found = some_statement(rng, image)
    if not found:
        return None
    place = image.statement_place(found[1])
    return edited(image, {place: rng.choice((0, 8, MEASURE, RESET, IF, rng.randrange(9), WORD_LIMIT - 1))})


def used_unused_word(rng, image):
    found = some_statement(rng, image, (CX, CALL, BARRIER, MEASURE, RESET, IF))
    if not found:
        return None
    kind = image.statement(found[1])[0]
    unused = {CX: (3, 4), CALL: (4,), BARRIER: (3, 4), MEASURE: (3, 4), RESET: (2, 3, 4), IF: (4,)}[kind]
    return edited(image, {image.statement_place(found[1]) + rng.choice(unused): rng.choice((1, WORD_LIMIT - 1))})


def misplaced_kind(rng, image):
    """A well-formed statement of a kind that a body may not hold."""
    found = some_statement(rng, image, BODY_KINDS, range(1, 129))
    if not found or not image.counts[ARGUMENTS]:
        return None
    statement = rng.choice(([MEASURE, 0, 0, 0, 0], [RESET, 0, 0, 0, 0], [IF, 0, 0, found[1], 0]))
    place = image.statement_place(found[1])
    return edited(image, dict(zip(range(place, place + 5), statement)))


def bad_inner(rng, image):
    """An if whose statement is a main one, a barrier or an if."""
    found = some_statement(rng, image, (IF,))
    if not found:
        return None
    place, inner = image.statement_place(found[1]), image.statement(found[1])[3]
    if chance(rng, 40):
        return edited(image, {place + 3: rng.randrange(image.counts[MAIN])})
    statement = rng.choice(([BARRIER, 0, 0, 0, 0], [IF, 0, 0, inner, 0]))
    place = image.statement_place(inner)
    return edited(image, dict(zip(range(place, place + 5), statement)))


def number_out_of_range(rng, image):
    """A number that just passes its list's end, or passes it by far."""
    found = some_statement(rng, image, (U, CX, CALL, MEASURE, RESET, IF))
    if not found:
        return None
    counts, far = image.counts, rng.choice((0, 0, 1, 2**63))
    expression, argument = counts[EXPRESSIONS] + far, counts[ARGUMENTS] + far
    options = {
        U: [(1, expression), (2, expression), (3, expression), (4, argument)],
        CX: [(1, argument), (2, argument)],
        CALL: [(1, counts[GATES] + far)],
        MEASURE: [(1, argument), (2, argument)],
        RESET: [(1, argument)],
        IF: [(1, counts[CLASSICAL] + far), (3, image.statement_count() + far)],
    }
    at, word = rng.choice(options[image.statement(found[1])[0]])
    return edited(image, {image.statement_place(found[1]) + at: word})


def run_out_of_range(rng, image):
    """A run of a call or a barrier that passes its list's end by one, or that
    would end within it if sums wrapped at 2^64."""
    found = some_statement(rng, image, (CALL, BARRIER))
    if not found:
        return None
    kind, first, length = image.statement(found[1])[:3]
    if kind == BARRIER:
        runs = [(1, ARGUMENTS, length)]
    else:
        gate = image.gate(first)
        runs = [(2, PARAMETERS, gate.parameters), (3, ARGUMENTS, gate.arguments)]
    at, which, count = rng.choice(runs)
    place, past = image.statement_place(found[1]) + at, image.counts[which] - count + 1
    options = [{place: past}, {place: past}, {place: WORD_LIMIT - rng.randrange(count + 1) - (count == 0)}]
    if kind == BARRIER:
        options += [{place + 1: image.counts[which] - first + 1}, {place + 1: WORD_LIMIT - max(first, 1)}]
    return edited(image, rng.choice(options))


# 8: calls


def upward_call(rng, image):
    """A body statement becomes a call of its own gate or a higher one."""
    found = some_statement(rng, image, BODY_KINDS, range(1, 129))
    if not found:
        return None
    scope, number = found
    place = image.statement_place(number)
    called = rng.choice((scope - 1, rng.randrange(scope - 1, image.counts[GATES])))
    if image.statement(number)[0] == CALL and chance(rng, 70):
        return edited(image, {place + 1: called})
    return edited(image, dict(zip(range(place, place + 5), (CALL, called, 0, 0, 0))))


# 6: expressions


def bad_expression(rng, image):
    found = some_expression(rng, image)
    if not found:
        return None
    scope, number = found
    place = image.place(EXPRESSIONS, number)
    kind = image.words[place]
    variables = image.gate(scope - 1).parameters if scope else 0
    if kind > VARIABLE and chance(rng, 60):  # an operand not below its user
        at = 1 if kind >= NEGATE else rng.choice((1, 2))
        return edited(image, {place + at: rng.choice((number, number + 1, WORD_LIMIT - 1))})
    if kind not in range(PLUS, NEGATE) and chance(rng, 30):
        return edited(image, {place + 2: rng.choice((1, WORD_LIMIT - 1))})
    entry = rng.choice((
        (PI, 1, 0),
        (REAL, rng.choice((2**32, WORD_LIMIT - 1)), 0),
        (VARIABLE, rng.choice((variables, variables, WORD_LIMIT - 1)), 0),
        (rng.choice((16, WORD_LIMIT - 1)), 0, 0),
    ))
    return edited(image, dict(zip(range(place, place + 3), entry)))


def bad_parameter(rng, image):
    found = some_statement(rng, image, (CALL,))
    if not found:
        return None
    _, gate, first, _, _ = image.statement(found[1])
    count = image.gate(gate).parameters
    if not count:
        return None
    place = image.place(PARAMETERS, first + rng.randrange(count))
    return edited(image, {place: rng.choice((image.counts[EXPRESSIONS], WORD_LIMIT - 1))})


def many_levels(rng, image):
    """An expression of 33 levels, or of 32."""
    found = some_statement(rng, image, (U,))
    if not found:
        return None
    start = image.counts[EXPRESSIONS]
    entries = [[INTEGER, 1, 0]] + [[NEGATE, start + level, 0] for level in range(32)]
    longer = Image(tuple(with_entries(image, EXPRESSIONS, entries)))
    place = longer.statement_place(found[1])
    return edited(longer, {place + rng.choice((1, 2, 3)): start + rng.choice((32, 32, 32, 31))})


# 5: arguments


def bad_argument(rng, image):
    found = some_argument(rng, image)
    if not found:
        return None
    scope, number, sort = found
    place = image.place(ARGUMENTS, number)
    register = image.words[place]
    if scope:
        formals = image.gate(scope - 1).arguments
        changes = {place: formals}, {place: WORD_LIMIT - 1}, {place + 1: 1}, {place + 1: WORD_LIMIT - 1}
    else:
        past = image.sizes(sort)[register] + 1
        changes = {place: image.counts[sort]}, {place: WORD_LIMIT - 1}, {place + 1: past}, {place + 1: past}
    return edited(image, rng.choice(changes))


def shrunk_register(rng, image):
    """A register that may be too small for an index into it."""
    sort = rng.choice((QUANTUM, QUANTUM, CLASSICAL))
    large = [number for number, size in enumerate(image.sizes(sort)) if size > 1]
    if not large:
        return None
    number = rng.choice(large)
    return edited(image, {image.place(sort, number): image.sizes(sort)[number] - 1})


# 7: sizes


def unequal_sizes(rng, image):
    """Two arguments of a statement become whole registers of sizes 2 and 3."""
    found = some_statement(rng, image, (CX, MEASURE, CALL), (0,))
    named = image.named_arguments(image.statement(found[1])) if found else []
    if len(named) < 2:
        return None
    (one, one_sort), (two, two_sort) = rng.sample(named, 2)
    first = one_sort, rng.randrange(image.counts[one_sort])
    second = two_sort, rng.randrange(image.counts[two_sort])
    if one == two or first == second:
        return None
    changes = {image.place(*first): 2, image.place(*second): 3}
    for argument, register in (one, first), (two, second):
        changes[image.place(ARGUMENTS, argument)] = register[1]
        changes[image.place(ARGUMENTS, argument) + 1] = 0
    return edited(image, changes)


# several, or any


def two_flaws(rng, image):
    """Flaws of two numbers in one statement."""
    found = some_statement(rng, image, (U, CALL))
    named = image.named_arguments(image.statement(found[1])) if found else []
    expressions = image.named_expressions(image.statement(found[1])) if found else []
    if not named or not expressions:
        return None
    changes = [
        {image.place(ARGUMENTS, rng.choice(named)[0]): WORD_LIMIT - 1},
        {image.place(EXPRESSIONS, rng.choice(expressions)): 16},
    ]
    if image.statement(found[1])[0] == CALL:
        changes.append({image.statement_place(found[1]) + 4: 1})
        changes.append({image.statement_place(found[1]) + 1: image.counts[GATES] - 1})
    one, two = rng.sample(changes, 2)
    return edited(image, {**one, **two})


def changed_word(rng, image):
    at = rng.randrange(len(image.words))
    return edited(image, {at: near(rng, image.words[at])})


def exchanged_words(rng, image):
    one, two = rng.randrange(len(image.words)), rng.randrange(len(image.words))
    return edited(image, {one: image.words[two], two: image.words[one]})


def removed_entry(rng, image):
    """One entry less, contents to match: all numbers above it slip."""
    which = rng.choice([which for which in range(8) if image.counts[which]] or [None])
    if which is None:
        return None
    number = rng.randrange(image.counts[which])
    place = image.place(which, number)
    words = list(image.words)
    del words[place : place + reference.ENTRY_WORDS[which]]
    words[0] = len(words)
    words[1 + which] -= 1
    return words


DAMAGES = (
    (truncated, appended, changed_content, changed_content, moved_content, wrapped_contents),
    (emptied, too_many_gates, bad_size, passed_total, passed_total),
    (bad_size, passed_total),
    (bad_gate_count, bad_body, bad_body),
    (bad_kind, misplaced_kind, bad_inner, used_unused_word),
    (number_out_of_range, bad_inner),
    (run_out_of_range,),
    (upward_call,),
    (upward_call, two_flaws),
    (bad_expression, bad_expression, bad_parameter, many_levels),
    (bad_argument, bad_argument, shrunk_register),
    (unequal_sizes,),
    (unequal_sizes,),
    (two_flaws, changed_word, exchanged_words, removed_entry),
)


def damaged(rng, words):
    """A damaged copy of an accepted image."""
    image = Image(tuple(words))
    for _ in range(8):  # try other damage of the same sort before another sort
        damages = rng.choice(DAMAGES)
        for _ in range(6):
            result = rng.choice(damages)(rng, image)
            if result is not None:
                return result
    return changed_word(rng, image)


# ------------------------------------------------------------------- cases

Case = namedtuple("Case", "words depth output_length trace_length")


def random_case(rng, large=False):
    """A program, damaged two times in five, with a depth and lengths to lend."""
    scale = LARGE if large else SMALL
    words = random_program(rng, large)
    if chance(rng, 40):
        words = damaged(rng, words)
    if large and chance(rng, 5):
        words = filled(rng, words)
    trace_length = rng.choice((256, 300)) if chance(rng, 94) else rng.choice((0, 255))
    depth = rng.choice(DEPTHS + DEPTHS[4:])
    if reference.check(words):
        return Case(words, depth, rng.choice((0, 100, scale.output)), trace_length)
    depth = affordable(rng, words, depth, scale)
    return Case(words, depth, output_length(rng, words, depth, scale), trace_length)


def filled(rng, words):
    """Filled with parameters that nothing uses, to the largest length or by one
    word more."""
    if reference.check(words):
        return words
    room = rng.choice((8192, 8193)) - len(words)
    return with_entries(Image(tuple(words)), PARAMETERS, [[WORD_LIMIT - 1]] * room)


def affordable(rng, words, depth, scale):
    """A depth at which the run is short: with few body entries, or with bodies
    that all write at once, so that the output's length ends it."""
    if reference.tally(words, depth)[reference.ENTRIES_FIGURE] <= scale.entries or bodies_write(words):
        return depth
    return rng.choice((0, 1, 2))


def bodies_write(words):
    """Whether each body begins with a U, as those of tower_program do."""
    image = Image(tuple(words))
    bodies = [image.body(image.gate(gate)) for gate in range(image.counts[GATES])]
    return all(body and image.statement(body[0])[0] == U for body in bodies)


def output_length(rng, words, depth, scale):
    """Exactly long enough, one short, none, ample, the word bound, or any."""
    bound = min(reference.tally(words, depth)[reference.WORDS_FIGURE], scale.output)
    written = len(reference.run(words, depth, bound, 256).output)
    exact, short, anything = written, max(written - 1, 0), rng.randrange(written + 1)
    ample = bound + 20
    return rng.choice((ample,) * 8 + (bound,) * 3 + (exact,) * 4 + (short, short, anything, 0))


def outcomes(rng, count, large=False):
    """Counts by outcome: of check, of the tally's operation, of the run."""
    checked, tallied, ran = Counter(), Counter(), Counter()
    lengths = []
    for _ in range(count):
        case = random_case(rng, large)
        flaw = reference.check(case.words)
        checked[flaw[0] if flaw else 0] += 1
        figures = reference.tally_operation(case.words, case.depth)
        tallied[figures[1] if figures[0] == "refused" else 0] += 1
        ran[reference.run(*case).number] += 1
        lengths.append(len(case.words))
    return checked, tallied, ran, sorted(lengths)


def main(count=1000, seed=1, scale=""):
    checked, tallied, ran, lengths = outcomes(Random(int(seed)), int(count), scale == "large")
    for name, counts in ("check", checked), ("tally", tallied), ("run", ran):
        print(name, *(f"{number}: {counts[number]}" for number in range(17) if counts[number]), sep="  ")
    print("words", f"least {lengths[0]}", f"median {lengths[len(lengths) // 2]}", f"most {lengths[-1]}", sep="  ")


if __name__ == "__main__":
    main(*sys.argv[1:])
