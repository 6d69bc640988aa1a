"""Mutants of the reference's run, one thing wrong in each, and how many lines of
run_vectors.py each of them fails.

    python3 -m oracle.tests.run_mutants

Some are mutants of a run that keeps what each body has written, and copies it when
the gate is called again.

The program ends with an error if a mutant fails no line, or if the run itself
fails one, with copies or without.  Lines with a long output are left out, which
only makes the counts smaller; so are those that the reference could not finish,
but the run with copies itself does them too.
"""

import sys
from collections import namedtuple

from oracle.reference import angles, reference
from oracle.reference.reference import (
    ARGUMENTS, BARRIER, CALL, CLASSICAL, CX, EXPRESSIONS, MAIN_SCOPE, QUANTUM, U, Frame, Image, Outcome, Refusal, Run,
)
from oracle.vectors import run_vectors

LONG_OUTPUT = 10000


class Unchanged(Run):
    """The run, taken apart into what the mutants change.  Which j an overlap has
    needs no mutant: those below the first such i are distinct, so there is one."""

    shortest_trace = 256

    @classmethod
    def outcome(cls, case, flaw):
        if case.trace_length < cls.shortest_trace:
            return Outcome(15, 0, 0, 0, [], [])
        if flaw:
            return Outcome(*flaw, 0, 0, [], [])
        return cls(Image(case.words), case.depth, case.output_length).ended()

    def ended(self):
        try:
            self.program()
        except Refusal as refusal:
            return Outcome(
                refusal.number, refusal.place, refusal.second, self.records, self.output, self.trace()
            )
        return Outcome(0, 0, 0, self.records, self.output, [])

    def trace(self):
        return [word for pair in self.stack for word in pair]

    def call(self, frame, number):
        statement = self.image.statement(number)
        gate = self.image.gate(statement[1])
        values = self.values(frame, statement)
        if not gate.with_body:
            self.opaque(frame, statement, values)
            return
        self.stack.append(self.pair(frame, statement, number))
        for turn, qubits in enumerate(self.rounds(frame, statement)):
            if self.opens(turn):
                self.open(gate, Frame(statement[1] + 1, values, qubits))
            else:
                self.cut(statement, values, qubits)
        self.stack.pop()

    def values(self, frame, statement):
        return self.angles(frame, statement)

    def pair(self, frame, statement, number):
        return frame.scope, self.image.statement_place(number)

    def opens(self, turn):
        return len(self.stack) < self.depth

    def cut(self, statement, values, qubits):
        self.write(CALL, statement[1], 0, len(qubits), *qubits)

    def cx(self, frame, statement):
        for turn, (control, target) in enumerate(self.rounds(frame, statement)):
            self.one_cx(statement, control, target, turn)

    def one_cx(self, statement, control, target, turn):
        if control == target:
            self.overlap(statement[1], statement[2])
        self.write(CX, control, target)

    def opaque(self, frame, statement, values):
        words = self.angle_words(values)
        numbers = [argument for argument, _ in self.image.named_arguments(statement)]
        for turn, qubits in enumerate(self.rounds(frame, statement)):
            self.one_opaque(numbers, qubits, turn, (CALL, statement[1], len(values), len(qubits), *words, *qubits))

    def one_opaque(self, numbers, qubits, turn, record):
        self.distinct(numbers, qubits)
        self.write(*record)

    def distinct(self, numbers, qubits):
        for i in range(len(qubits)):
            for j in range(i):
                if qubits[i] == qubits[j]:
                    self.overlap(numbers[i], numbers[j])


MUTANTS = []


def mutant(what):
    def add(cls):
        MUTANTS.append((what, cls))
        return cls
    return add


# ----------------------------------------------------------------- depth


@mutant("depth one more")
class DepthMore(Unchanged):
    def opens(self, turn):
        return len(self.stack) <= self.depth


@mutant("depth one less")
class DepthLess(Unchanged):
    def opens(self, turn):
        return len(self.stack) + 1 < self.depth


@mutant("depth 0 opens all")
class DepthWraps(Unchanged):
    def opens(self, turn):
        return len(self.stack) - 1 < (self.depth - 1) % 2**64


@mutant("only 7 bits of the depth")
class DepthNarrow(Unchanged):
    def opens(self, turn):
        return len(self.stack) < self.depth % 128


@mutant("only 32 bits of the depth, signed")
class DepthSigned(Unchanged):
    def opens(self, turn):
        return len(self.stack) < (self.depth + 2**31) % 2**32 - 2**31


# ---------------------------------------------------------------- rounds


@mutant("a body opened in the first round, the others only reported")
class FirstOpened(Unchanged):
    def opens(self, turn):
        return turn == 0 and super().opens(turn)


@mutant("the first round only")
class FirstRound(Unchanged):
    def rounds(self, frame, statement):
        for qubits in super().rounds(frame, statement):
            yield qubits
            break


@mutant("the last round missing, of more than one")
class LastRound(Unchanged):
    def rounds(self, frame, statement):
        turns = list(super().rounds(frame, statement))
        yield from turns[:-1] if len(turns) > 1 else turns


@mutant("the second round on the first round's qubits")
class SecondRound(Unchanged):
    def rounds(self, frame, statement):
        first = None
        for turn, qubits in enumerate(super().rounds(frame, statement)):
            first = first or qubits
            yield first if turn == 1 else qubits


@mutant("the rounds of the first argument")
class FirstSize(Unchanged):
    def rounds(self, frame, statement):
        named = self.image.argument_sizes(frame.scope, statement)
        for turn, qubits in enumerate(super().rounds(frame, statement)):
            if turn < named[0]:
                yield qubits


@mutant("arguments of size 1 advance")
class SinglesAdvance(Unchanged):
    def rounds(self, frame, statement):
        for turn, qubits in enumerate(super().rounds(frame, statement)):
            yield [qubit if size > 1 else qubit + turn
                   for qubit, size in zip(qubits, self.image.argument_sizes(frame.scope, statement))]


@mutant("whole registers of size 1 alone advance")
class WholesAdvance(Unchanged):
    def rounds(self, frame, statement):
        numbers = [argument for argument, _ in self.image.named_arguments(statement)]
        sizes = self.image.argument_sizes(frame.scope, statement)
        for turn, qubits in enumerate(super().rounds(frame, statement)):
            yield [qubit if size > 1 or self.image.entry(ARGUMENTS, number)[1] else qubit + turn
                   for qubit, number, size in zip(qubits, numbers, sizes)]


@mutant("rounds from the last to the first")
class RoundsBackward(Unchanged):
    def rounds(self, frame, statement):
        return reversed(list(super().rounds(frame, statement)))


@mutant("statements of a body in turn over all rounds")
class StatementsFirst(Unchanged):
    def call(self, frame, number):
        statement = self.image.statement(number)
        gate = self.image.gate(statement[1])
        values = self.values(frame, statement)
        if not gate.with_body:
            self.opaque(frame, statement, values)
            return
        self.stack.append(self.pair(frame, statement, number))
        turns = list(self.rounds(frame, statement))
        if self.opens(0):
            for inner in self.image.body(gate):
                for qubits in turns:
                    self.statement(Frame(statement[1] + 1, values, qubits), inner)
        else:
            for qubits in turns:
                self.cut(statement, values, qubits)
        self.stack.pop()


# -------------------------------------------------------------- overlaps


@mutant("distinctness of a CX in the first round only")
class CxOnce(Unchanged):
    def one_cx(self, statement, control, target, turn):
        if turn:
            self.write(CX, control, target)
        else:
            super().one_cx(statement, control, target, turn)


@mutant("distinctness of an opaque gate in the first round only")
class OpaqueOnce(Unchanged):
    def one_opaque(self, numbers, qubits, turn, record):
        if turn:
            self.write(*record)
        else:
            super().one_opaque(numbers, qubits, turn, record)


@mutant("a CX written before its distinctness test")
class CxWritten(Unchanged):
    def one_cx(self, statement, control, target, turn):
        self.write(CX, control, target)
        if control == target:
            self.overlap(statement[1], statement[2])


@mutant("an opaque gate written before its distinctness test")
class OpaqueWritten(Unchanged):
    def one_opaque(self, numbers, qubits, turn, record):
        self.write(*record)
        self.distinct(numbers, qubits)


@mutant("a CX's places exchanged")
class CxPlaces(Unchanged):
    def one_cx(self, statement, control, target, turn):
        if control == target:
            self.overlap(statement[2], statement[1])
        self.write(CX, control, target)


@mutant("j then i")
class OpaquePlaces(Unchanged):
    def distinct(self, numbers, qubits):
        for i in range(len(qubits)):
            for j in range(i):
                if qubits[i] == qubits[j]:
                    self.overlap(numbers[j], numbers[i])


@mutant("an argument tested against the one before it only")
class Neighbours(Unchanged):
    def distinct(self, numbers, qubits):
        for i in range(1, len(qubits)):
            if qubits[i] == qubits[i - 1]:
                self.overlap(numbers[i], numbers[i - 1])


@mutant("the first j, of that the first i")
class FirstJ(Unchanged):
    def distinct(self, numbers, qubits):
        for j in range(len(qubits)):
            for i in range(j + 1, len(qubits)):
                if qubits[i] == qubits[j]:
                    self.overlap(numbers[i], numbers[j])


@mutant("a cut call is tested for distinctness")
class CutTested(Unchanged):
    def cut(self, statement, values, qubits):
        self.distinct([number for number, _ in self.image.named_arguments(statement)], qubits)
        super().cut(statement, values, qubits)


@mutant("a call with a body is tested before it is opened")
class OpenTested(Unchanged):
    def call(self, frame, number):
        statement = self.image.statement(number)
        if self.image.gate(statement[1]).with_body:
            named = [argument for argument, _ in self.image.named_arguments(statement)]
            for qubits in self.rounds(frame, statement):
                self.distinct(named, qubits)
        super().call(frame, number)


@mutant("one place twice in a 12")
class OnePlace(Unchanged):
    def overlap(self, argument, other):
        super().overlap(argument, argument)


@mutant("the places of the call's arguments for the body's, in a 12")
class CallPlaces(Unchanged):
    def overlap(self, argument, other):
        if self.stack:
            number = (self.stack[-1][1] - self.image.statement_place(0)) // 5
            first = self.image.statement(number)[3]
            argument, other = (first + self.image.entry(ARGUMENTS, formal)[0] for formal in (argument, other))
        super().overlap(argument, other)


# ----------------------------------------------------------------- trace


@mutant("trace innermost first")
class Innermost(Unchanged):
    def trace(self):
        return [word for pair in reversed(self.stack) for word in pair]


@mutant("the callee's gate for the caller's")
class Callee(Unchanged):
    def pair(self, frame, statement, number):
        return statement[1] + 1, self.image.statement_place(number)


@mutant("the place of the call's gate entry in the trace")
class GatePlace(Unchanged):
    def pair(self, frame, statement, number):
        return frame.scope, self.image.place(reference.GATES, statement[1])


@mutant("the caller's gate without 1")
class NoScope(Unchanged):
    def pair(self, frame, statement, number):
        return max(frame.scope - 1, 0), self.image.statement_place(number)


@mutant("the number of a statement for its place")
class NumberForPlace(Unchanged):
    def pair(self, frame, statement, number):
        return frame.scope, number


@mutant("a call that is not opened is not in the trace")
class CutNotTraced(Unchanged):
    def cut(self, statement, values, qubits):
        popped = self.stack.pop()
        super().cut(statement, values, qubits)
        self.stack.append(popped)


@mutant("an opaque call is in the trace")
class OpaqueTraced(Unchanged):
    def call(self, frame, number):
        statement = self.image.statement(number)
        if self.image.gate(statement[1]).with_body:
            super().call(frame, number)
            return
        values = self.values(frame, statement)
        self.stack.append(self.pair(frame, statement, number))
        self.opaque(frame, statement, values)
        self.stack.pop()


@mutant("a call is in the trace of its own parameters")
class ParametersTraced(Unchanged):
    def call(self, frame, number):
        statement = self.image.statement(number)
        self.stack.append(self.pair(frame, statement, number))
        self.values(frame, statement)
        self.stack.pop()
        super().call(frame, number)


@mutant("the if's place in the trace, not its inner call's")
class IfPlace(Unchanged):
    if_number = None

    def conditional(self, frame, statement):
        numbers = range(self.image.counts[reference.MAIN])
        self.if_number = next(n for n in numbers if self.image.statement(n) == statement)
        super().conditional(frame, statement)
        self.if_number = None

    def pair(self, frame, statement, number):
        if frame.scope == MAIN_SCOPE and self.if_number is not None:
            number = self.if_number
        return super().pair(frame, statement, number)


@mutant("calls that are over stay in the trace")
class NotPopped(Unchanged):
    ended_calls = ()

    def call(self, frame, number):
        super().call(frame, number)
        if frame.scope == MAIN_SCOPE and self.image.gate(self.image.statement(number)[1]).with_body:
            self.ended_calls += (self.pair(frame, self.image.statement(number), number),)

    def trace(self):
        return [word for pair in (*self.ended_calls, *self.stack) for word in pair][:256]


@mutant("no trace for a 14")
class NoTrace(Unchanged):
    def write(self, *record):
        if len(record) > self.output_length - len(self.output):
            self.stack = []
        super().write(*record)


@mutant("a trace of 255 words is enough")
class ShortTrace(Unchanged):
    shortest_trace = 255


@mutant("a trace of 257 words is wanted")
class LongTrace(Unchanged):
    shortest_trace = 257


@mutant("check's flaw before 15")
class CheckFirst(Unchanged):
    @classmethod
    def outcome(cls, case, flaw):
        if flaw:
            return Outcome(*flaw, 0, 0, [], [])
        return super().outcome(case, flaw)


# ---------------------------------------------------------------- output


@mutant("14 with a word to spare")
class Spare(Unchanged):
    def write(self, *record):
        if len(record) >= self.output_length - len(self.output):
            raise Refusal(14)
        super().write(*record)


@mutant("14 if the rest of the statement does not fit")
class WholeStatement(Unchanged):
    def u(self, frame, statement):
        words = self.angle_words(self.angles(frame, statement))
        turns = list(self.rounds(frame, statement))
        if 14 * len(turns) > self.output_length - len(self.output):
            raise Refusal(14)
        for (qubit,) in turns:
            self.write(U, *words, qubit)


@mutant("the beginning of a record that does not fit is written")
class Beginning(Unchanged):
    def write(self, *record):
        if len(record) > self.output_length - len(self.output):
            self.output += record[: self.output_length - len(self.output)]
            raise Refusal(14)
        super().write(*record)


@mutant("14 before the overlaps of a record")
class FullFirst(Unchanged):
    def one_cx(self, statement, control, target, turn):
        if self.output_length - len(self.output) < 3:
            raise Refusal(14)
        super().one_cx(statement, control, target, turn)

    def one_opaque(self, numbers, qubits, turn, record):
        if self.output_length - len(self.output) < len(record):
            raise Refusal(14)
        super().one_opaque(numbers, qubits, turn, record)


@mutant("records counted without the head")
class HeadNotCounted(Unchanged):
    def ended(self):
        outcome = super().ended()
        return outcome._replace(records=max(outcome.records - 1, 0))


# --------------------------------------------------------------- records


@mutant("the head missing")
class NoHead(Unchanged):
    def head(self):
        pass


@mutant("a head without statements")
class HeadAlways(Unchanged):
    def program(self):
        if not self.image.counts[reference.MAIN]:
            self.head()
        super().program()


@mutant("the head with the first record, not the first statement")
class HeadLate(Unchanged):
    late = False

    def head(self):
        self.late = True

    def write(self, *record):
        if self.late:
            self.late = False
            super().head()
        super().write(*record)


@mutant("the head's registers and offsets exchanged")
class HeadExchanged(Unchanged):
    def head(self):
        named = [(offset, register) for sort in (QUANTUM, CLASSICAL)
                 for register, size in enumerate(self.image.sizes(sort)) for offset in range(size)]
        qubits, bits = sum(self.image.sizes(QUANTUM)), sum(self.image.sizes(CLASSICAL))
        self.write(0, qubits, bits, *(number for pair in named for number in pair))


@mutant("the head's bits before its qubits")
class HeadBits(Unchanged):
    def head(self):
        named = [(register, offset) for sort in (CLASSICAL, QUANTUM)
                 for register, size in enumerate(self.image.sizes(sort)) for offset in range(size)]
        qubits, bits = sum(self.image.sizes(QUANTUM)), sum(self.image.sizes(CLASSICAL))
        self.write(0, qubits, bits, *(number for pair in named for number in pair))


@mutant("CX operands exchanged")
class CxExchanged(Unchanged):
    def write(self, *record):
        super().write(*((CX, record[2], record[1]) if record[0] == CX else record))


@mutant("measure's qubit for its bit")
class MeasureQubit(Unchanged):
    def write(self, *record):
        super().write(*((5, record[1], record[1]) if record[0] == 5 else record))


@mutant("a bit's offset in its register for the bit")
class BitOffset(Unchanged):
    def resolve(self, frame, argument, sort):
        first, size = super().resolve(frame, argument, sort)
        if sort == CLASSICAL:
            first -= sum(self.image.sizes(sort)[: self.image.entry(ARGUMENTS, argument)[0]])
        return first, size


@mutant("an index that is not taken less 1")
class IndexMore(Unchanged):
    def resolve(self, frame, argument, sort):
        first, size = super().resolve(frame, argument, sort)
        return first + (frame.scope == MAIN_SCOPE and self.image.entry(ARGUMENTS, argument)[1] != 0), size


@mutant("a formal's number for its qubit")
class FormalNumber(Unchanged):
    def resolve(self, frame, argument, sort):
        first, size = super().resolve(frame, argument, sort)
        return (first if frame.scope == MAIN_SCOPE else self.image.entry(ARGUMENTS, argument)[0]), size


@mutant("a cut gate with its angles")
class CutAngles(Unchanged):
    def cut(self, statement, values, qubits):
        self.write(CALL, statement[1], len(values), len(qubits), *self.angle_words(values), *qubits)


@mutant("a cut gate with the count of its parameters, without the angles")
class CutCount(Unchanged):
    def cut(self, statement, values, qubits):
        self.write(CALL, statement[1], len(values), len(qubits), *qubits)


@mutant("a barrier in its arguments' order")
class BarrierOrder(Unchanged):
    def barrier(self, frame, statement):
        held = {}
        for argument, sort in self.image.named_arguments(statement):
            first, size = self.resolve(frame, argument, sort)
            held |= dict.fromkeys(range(first, first + size))
        self.write(BARRIER, len(held), *held)


@mutant("a barrier that holds a qubit twice")
class BarrierTwice(Unchanged):
    def barrier(self, frame, statement):
        held = []
        for argument, sort in self.image.named_arguments(statement):
            first, size = self.resolve(frame, argument, sort)
            held += range(first, first + size)
        self.write(BARRIER, len(held), *sorted(held))


@mutant("a barrier in falling order")
class BarrierFalling(Unchanged):
    def write(self, *record):
        if record[0] == BARRIER:
            record = (*record[:2], *reversed(record[2:]))
        super().write(*record)


@mutant("a barrier in the order of its qubits' digits")
class BarrierDigits(Unchanged):
    def write(self, *record):
        if record[0] == BARRIER:
            record = (*record[:2], *sorted(record[2:], key=str))
        super().write(*record)


@mutant("a barrier without its last argument's qubits")
class BarrierLast(Unchanged):
    def barrier(self, frame, statement):
        kind, first, count, *unused = statement
        super().barrier(frame, (kind, first, max(count - 1, 0), *unused))


@mutant("a barrier without arguments is not written")
class BarrierNone(Unchanged):
    def barrier(self, frame, statement):
        if statement[2]:
            super().barrier(frame, statement)


@mutant("a conditional's end missing")
class NoEnd(Unchanged):
    def write(self, *record):
        if record != (8,):
            super().write(*record)


@mutant("a conditional's register for its first bit")
class RegisterForBit(Unchanged):
    def conditional(self, frame, statement):
        self.write(7, statement[1], self.image.sizes(CLASSICAL)[statement[1]], statement[2])
        self.statement(frame, statement[3])
        self.write(8)


@mutant("a conditional among the quantum registers")
class QuantumCondition(Unchanged):
    def conditional(self, frame, statement):
        sizes = [*self.image.sizes(QUANTUM), *self.image.sizes(CLASSICAL)]
        self.write(7, sum(sizes[: statement[1]]), sizes[statement[1]], statement[2])
        self.statement(frame, statement[3])
        self.write(8)


# ---------------------------------------------------------------- angles


@mutant("parameters of a call without arguments skipped")
class Skipped(Unchanged):
    def values(self, frame, statement):
        return self.angles(frame, statement) if self.image.gate(statement[1]).arguments else []


@mutant("parameters of a cut call skipped")
class CutSkipped(Unchanged):
    def values(self, frame, statement):
        cut = self.image.gate(statement[1]).with_body and len(self.stack) + 1 >= self.depth
        return [] if cut else self.angles(frame, statement)


@mutant("the last parameter first")
class ParametersBackward(Unchanged):
    def angles(self, frame, statement):
        named = self.image.named_expressions(statement)
        return [self.angle(frame, number) for number in reversed(named)][::-1]


@mutant("denominators before numerators")
class Upside(Unchanged):
    def angle_words(self, values):
        words = super().angle_words(values)
        return [words[at ^ 1] for at in range(len(words))]


@mutant("the parts of an angle exchanged")
class PartsExchanged(Unchanged):
    def angle_words(self, values):
        return [n % 2**64 for value in values for n in (*angles.numbers(value)[2:], *angles.numbers(value)[:2])]


@mutant("negative numbers without their sign")
class NoSign(Unchanged):
    def angle_words(self, values):
        return [abs(n) for value in values for n in angles.numbers(value)]


@mutant("negative numbers with a sign bit")
class SignBit(Unchanged):
    def angle_words(self, values):
        return [abs(n) + 2**63 * (n < 0) for value in values for n in angles.numbers(value)]


@mutant("the second angle of a U for the third")
class SecondAngle(Unchanged):
    def u(self, frame, statement):
        values = self.angles(frame, statement)
        words = self.angle_words([values[0], values[1], values[1]])
        for (qubit,) in self.rounds(frame, statement):
            self.write(U, *words, qubit)


@mutant("the first variable for each")
class FirstVariable(Unchanged):
    def angle(self, frame, number):
        return super().angle(frame._replace(angles=frame.angles[:1] * len(frame.angles)), number)


@mutant("main's variables through all calls")
class OuterVariables(Unchanged):
    def open(self, gate, frame):
        if len(self.stack) > 1 and len(self.outer) >= gate.parameters:
            frame = frame._replace(angles=self.outer)
        elif len(self.stack) == 1:
            self.outer = frame.angles
        super().open(gate, frame)


@mutant("the right operand's refusal wins")
class RightWins(Unchanged):
    def angle(self, frame, number):
        kind, first, second = self.image.entry(EXPRESSIONS, number)
        if kind in reference.BINARY_KINDS:
            try:
                reference.evaluate(self.image, frame.angles, second)
            except angles.AngleRefusal as refusal:
                raise Refusal(refusal.number, self.image.place(EXPRESSIONS, number), refusal.bits) from None
        return super().angle(frame, number)


@mutant("a second place of a 9 or 11")
class SecondPlace(Unchanged):
    def angle(self, frame, number):
        try:
            return super().angle(frame, number)
        except Refusal as refusal:
            raise Refusal(refusal.number, refusal.place, refusal.second or refusal.place) from None


@mutant("the f32 of a 10 missing")
class NoFloat(Unchanged):
    def angle(self, frame, number):
        try:
            return super().angle(frame, number)
        except Refusal as refusal:
            raise Refusal(refusal.number, refusal.place) from None


@mutant("the number of an expression for its place")
class ExpressionNumber(Unchanged):
    def angle(self, frame, number):
        try:
            return super().angle(frame, number)
        except Refusal as refusal:
            raise Refusal(refusal.number, number, refusal.second) from None


@mutant("the place of the innermost refused entry")
class InnermostPlace(Unchanged):
    def operands(self, entry):
        kind, *operands = self.image.entry(EXPRESSIONS, entry)
        if kind in reference.BINARY_KINDS:
            return operands
        return operands[:1] if kind in reference.UNARY_KINDS else []

    def angle(self, frame, number):
        def refused(entry):
            try:
                reference.evaluate(self.image, frame.angles, entry)
            except angles.AngleRefusal:
                return True
            return False

        try:
            return super().angle(frame, number)
        except Refusal as refusal:
            entry = number
            while below := [operand for operand in self.operands(entry) if refused(operand)]:
                entry = below[0]
            raise Refusal(refusal.number, self.image.place(EXPRESSIONS, entry), refusal.second) from None


# -------------------------------------------------------- bodies that are copied

# What is kept of a body that was run to its end: its qubits, and its records.
Kept = namedtuple("Kept", "qubits records")


class Copying(Unchanged):
    """A run that keeps the records of each opened body, by the gate, its angles and the
    levels that are left, and copies them when the gate is called so again.  A body on
    equal qubits is neither kept nor copied, unless it has written nothing."""

    def __init__(self, *case):
        super().__init__(*case)
        self.kept = {}

    def open(self, gate, frame):
        number, levels = frame.scope - 1, self.depth - len(self.stack)
        key = self.key(number, self.numbers(frame), self.levels(number, levels))
        kept = self.kept.get(key)
        if kept and self.fits(kept, frame.qubits):
            for record in kept.records:
                self.copy(kept, record, frame.qubits)
            return
        start = len(self.output)
        super().open(gate, frame)
        written = self.of_body(list(reference.records_of(self.output[start:])))
        if self.keeps(frame.qubits, written):
            self.kept[key] = Kept(frame.qubits, written)

    def key(self, number, values, levels):
        return number, values, levels

    def numbers(self, frame):
        return tuple(angles.numbers(value) for value in frame.angles)

    def levels(self, number, levels):
        """Gates call smaller ones: with as many levels as this everything is opened."""
        return min(levels, number + 1)

    def fits(self, kept, qubits):
        return not kept.records or self.apart(qubits) and self.has_room(kept.records)

    def keeps(self, qubits, records):
        return not records or self.apart(qubits)

    def apart(self, qubits):
        return len(set(qubits)) == len(qubits)

    def has_room(self, records):
        return sum(map(len, records)) <= self.output_length - len(self.output)

    def of_body(self, records):
        return records

    def copy(self, kept, record, qubits):
        self.write(*self.renamed(record, dict(zip(kept.qubits, qubits))))

    def renamed(self, record, names):
        first = self.first_qubit(record)
        renamed = [names[qubit] for qubit in record[first:]]
        return *record[:first], *self.in_order(record, renamed)

    def first_qubit(self, record):
        return 4 + 4 * record[2] if record[0] == CALL else {U: 13, CX: 1, BARRIER: 2}[record[0]]

    def in_order(self, record, qubits):
        return sorted(qubits) if record[0] == BARRIER else qubits


@mutant("copies: of another gate with these angles")
class CopiesAnyGate(Copying):
    def key(self, number, values, levels):
        return number % 16, values, levels


@mutant("copies: whatever the angles")
class CopiesAnyAngle(Copying):
    def numbers(self, frame):
        return ()


@mutant("copies: the first angle alone compared")
class CopiesFirstAngle(Copying):
    def numbers(self, frame):
        return super().numbers(frame)[:1]


@mutant("copies: the last angle not compared")
class CopiesNotLast(Copying):
    def numbers(self, frame):
        return super().numbers(frame)[:-1]


@mutant("copies: 15 angles compared")
class CopiesFifteen(Copying):
    def numbers(self, frame):
        return super().numbers(frame)[:15]


@mutant("copies: angles compared in any order")
class CopiesSorted(Copying):
    def numbers(self, frame):
        return tuple(sorted(super().numbers(frame)))


@mutant("copies: an angle's numerator not compared")
class CopiesNumerator(Copying):
    def numbers(self, frame):
        return tuple(numbers[1:] for numbers in super().numbers(frame))


@mutant("copies: an angle's denominator not compared")
class CopiesDenominator(Copying):
    def numbers(self, frame):
        return tuple((numbers[0], *numbers[2:]) for numbers in super().numbers(frame))


@mutant("copies: an angle's part of pi not compared")
class CopiesRational(Copying):
    def numbers(self, frame):
        return tuple(numbers[:2] for numbers in super().numbers(frame))


@mutant("copies: an angle's denominator of pi not compared")
class CopiesPiDenominator(Copying):
    def numbers(self, frame):
        return tuple(numbers[:3] for numbers in super().numbers(frame))


@mutant("copies: an angle's sign not compared")
class CopiesSign(Copying):
    def numbers(self, frame):
        return tuple(tuple(map(abs, numbers)) for numbers in super().numbers(frame))


@mutant("copies: whatever the levels")
class CopiesAnyLevel(Copying):
    def levels(self, number, levels):
        return 0


@mutant("copies: all opened with a level less")
class CopiesLevelLess(Copying):
    def levels(self, number, levels):
        return min(levels, number)


@mutant("copies: a level more or less is alike")
class CopiesLevelPairs(Copying):
    def levels(self, number, levels):
        return min(levels, number + 1) // 2


@mutant("copies: 4 levels are alike with more")
class CopiesFourLevels(Copying):
    def levels(self, number, levels):
        return min(levels, number + 1, 4)


@mutant("copies: nothing written, whatever the levels")
class SilentAnyLevel(Copying):
    def open(self, gate, frame):
        if (silent := (frame.scope, self.numbers(frame))) in self.kept:
            return
        start = len(self.output)
        super().open(gate, frame)
        if start == len(self.output):
            self.kept[silent] = True


@mutant("copies: nothing written, whatever the angles")
class SilentAnyAngle(Copying):
    def open(self, gate, frame):
        if (silent := (frame.scope, self.depth - len(self.stack))) in self.kept:
            return
        start = len(self.output)
        super().open(gate, frame)
        if start == len(self.output):
            self.kept[silent] = True


@mutant("copies: on equal qubits")
class CopiesOnEqual(Copying):
    def fits(self, kept, qubits):
        return self.has_room(kept.records)


@mutant("copies: on qubits of which the first and last are equal")
class CopiesOnLastEqual(Copying):
    def fits(self, kept, qubits):
        return not kept.records or self.apart(qubits[1:]) and self.has_room(kept.records)


@mutant("copies: on qubits of which two neighbours are equal")
class CopiesOnNeighbours(Copying):
    def fits(self, kept, qubits):
        apart = self.apart(qubits[::2]) and self.apart(qubits[1::2])
        return not kept.records or apart and self.has_room(kept.records)


@mutant("copies: of equal qubits")
class CopiesOfEqual(Copying):
    def keeps(self, qubits, records):
        return True


@mutant("copies: qubits as they were")
class CopiesQubits(Copying):
    def renamed(self, record, names):
        return record


@mutant("copies: renamed one qubit after the other")
class CopiesInTurn(Copying):
    def renamed(self, record, names):
        first = self.first_qubit(record)
        renamed = record[first:]
        for old, new in names.items():
            renamed = [new if qubit == old else qubit for qubit in renamed]
        return *record[:first], *self.in_order(record, renamed)


@mutant("copies: eight qubits renamed")
class CopiesEight(Copying):
    def renamed(self, record, names):
        return super().renamed(record, {old: names[old] if at < 8 else old for at, old in enumerate(names)})


@mutant("copies: renamed back")
class CopiesBack(Copying):
    def renamed(self, record, names):
        back = {new: old for old, new in names.items()}
        return super().renamed(record, {old: back.get(old, new) for old, new in names.items()})


@mutant("copies: each word renamed")
class CopiesEachWord(Copying):
    def renamed(self, record, names):
        return record[0], *(names.get(word, word) for word in record[1:])


@mutant("copies: an opaque gate's numbers renamed")
class CopiesCallNumbers(Copying):
    def renamed(self, record, names):
        kind, number, *rest = super().renamed(record, names)
        return kind, names.get(number, number) if kind == CALL else number, *rest


@mutant("copies: the last qubit of a record alone renamed")
class CopiesLast(Copying):
    def renamed(self, record, names):
        first = self.first_qubit(record)
        renamed = [*record[first:-1], *(names[qubit] for qubit in record[first:][-1:])]
        return *record[:first], *self.in_order(record, renamed)


@mutant("copies: a U's qubit not renamed")
class CopiesU(Copying):
    def renamed(self, record, names):
        return record if record[0] == U else super().renamed(record, names)


@mutant("copies: a CX's qubits not renamed")
class CopiesCX(Copying):
    def renamed(self, record, names):
        return record if record[0] == CX else super().renamed(record, names)


@mutant("copies: an opaque or cut gate's qubits not renamed")
class CopiesCall(Copying):
    def renamed(self, record, names):
        return record if record[0] == CALL else super().renamed(record, names)


@mutant("copies: a cut gate's qubits not renamed")
class CopiesCut(Copying):
    def renamed(self, record, names):
        cut = record[0] == CALL and self.image.gate(record[1]).with_body
        return record if cut else super().renamed(record, names)


@mutant("copies: a barrier's qubits not renamed")
class CopiesBarrier(Copying):
    def renamed(self, record, names):
        return record if record[0] == BARRIER else super().renamed(record, names)


@mutant("copies: a barrier not rising")
class CopiesUnsorted(Copying):
    def in_order(self, record, qubits):
        return qubits


@mutant("copies: a barrier's last qubit not placed")
class CopiesLastUnsorted(Copying):
    def in_order(self, record, qubits):
        return [*sorted(qubits[:-1]), *qubits[-1:]] if record[0] == BARRIER else qubits


@mutant("copies: an opaque gate rising")
class CopiesSortedCall(Copying):
    def in_order(self, record, qubits):
        return sorted(qubits) if record[0] != CX else qubits


@mutant("copies: records of a copy not counted")
class CopiesUncounted(Copying):
    def copy(self, kept, record, qubits):
        super().copy(kept, record, qubits)
        self.records -= 1


@mutant("copies: a copy counted as one record")
class CopiesOne(Copying):
    def copy(self, kept, record, qubits):
        super().copy(kept, record, qubits)
        self.records -= record is not kept.records[0]


@mutant("copies: without the last record")
class CopiesButLast(Copying):
    def of_body(self, records):
        return records[:-1]


@mutant("copies: whatever the room, the trace without the calls inside")
class CopiesAnyRoom(Copying):
    def has_room(self, records):
        return True


@mutant("copies: refused as a whole if there is no room")
class CopiesWhole(Copying):
    def has_room(self, records):
        if not super().has_room(records):
            raise Refusal(14)
        return True


@mutant("copies: a word more than there is room")
class CopiesPast(Copying):
    def has_room(self, records):
        return sum(map(len, records)) <= self.output_length - len(self.output) + 1


@mutant("copies: nothing if there is no room")
class CopiesNothing(Copying):
    def fits(self, kept, qubits):
        return not kept.records or self.apart(qubits)

    def copy(self, kept, record, qubits):
        if self.has_room(kept.records):
            super().copy(kept, record, qubits)


@mutant("copies: what was kept for a gate is kept for good")
class CopiesFirstKept(Copying):
    def open(self, gate, frame):
        kept = self.kept.get(frame.scope)
        if kept and self.fits(kept, frame.qubits):
            for record in kept.records:
                self.copy(kept, record, frame.qubits)
            return
        start = len(self.output)
        Unchanged.open(self, gate, frame)
        self.kept.setdefault(frame.scope, Kept(frame.qubits, list(reference.records_of(self.output[start:]))))


# ------------------------------------------------------- wrong altogether


@mutant("done with no records")
class Nothing(Unchanged):
    def ended(self):
        return Outcome(0, 0, 0, 0, [], [])


@mutant("the same records for all programs")
class Same(Unchanged):
    def ended(self):
        return reference.run(run_vectors.K1, 8, 38, 256)


@mutant("refusing all")
class RefusingAll(Unchanged):
    def ended(self):
        return Outcome(14, 0, 0, 0, [], [])


def failed(cls, lines):
    """How many lines a mutant fails: its outcome is another, or it has none."""
    count = 0
    for case, flaw, numbers in lines:
        try:
            found = run_vectors.numbers_of(cls.outcome(case, flaw))
        except (IndexError, KeyError, ValueError):
            found = None
        count += found != numbers
    return count


def main():
    run_vectors.make()
    short = [(case, numbers) for case, numbers in run_vectors.stored if numbers[4] <= LONG_OUTPUT]
    flaws = {words: reference.check(words) for words in {case.words for case, _ in short}}
    all_short = [(case, flaws[case.words], numbers) for case, numbers in short]
    lines = [line for line in all_short if line[0] not in run_vectors.unfinished]
    print(len(lines), "of", len(run_vectors.stored), "lines")
    wrong = 0
    for what, cls, tried in ("the run itself", Unchanged, lines), ("the run with copies", Copying, all_short):
        count = failed(cls, tried)
        print("%6d  %s, of %d" % (count, what, len(tried)), flush=True)
        wrong += count
    for what, cls in MUTANTS:
        count = failed(cls, lines)
        print("%6d  %s" % (count, what), flush=True)
        wrong += not count
    return wrong


if __name__ == "__main__":
    sys.exit(1 if main() else 0)
