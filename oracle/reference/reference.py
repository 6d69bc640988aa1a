"""A second reading of document 01: check, tally, run, record reader and listing,
with the tickets of document 02 that have landed.

It is made so that another program can be compared with it.  It was written
from these documents and their settled readings only, with no sight of the code
it tests.  A word is a Python integer below 2^64; sums and products are taken on
unbounded integers, so nothing wraps.  Sentences of document 01 stand in
quotation marks beside the lines that render them; those of document 02 with
their ticket.

    check(words)                        the flaw, (number, place), or None
    tally(words, depth)                 the nine figures of an accepted image
    tally_operation(words, depth)       ("refused", number, place), or the figures
    run(words, depth, output, trace)    an Outcome; the last two are lengths lent
    next_record(words, position)        ("record", length), "end" or 17
    listing(data)                       the listing program's text, as bytes
    listing_input(words, depth)         the bytes that the listing program reads
"""

from collections import namedtuple

from oracle.reference import angles

# ------------------------------------------------------------------- image
# "A lent slice of u64 words, contents first: total words, then counts of
# quantum registers, classical registers, gates, main statements, further
# statements, arguments, parameters, expressions.  The bodies follow in that
# order without gaps.  All numbering starts at 0."

QUANTUM, CLASSICAL, GATES, MAIN, FURTHER, ARGUMENTS, PARAMETERS, EXPRESSIONS = range(8)
ENTRY_WORDS = 1, 1, 5, 5, 5, 2, 1, 3
CONTENTS_WORDS = 9

U, CX, CALL, BARRIER, MEASURE, RESET, IF = range(1, 8)

PI, REAL, INTEGER, VARIABLE = range(4)
BINARY_KINDS = range(4, 9)
UNARY_KINDS = range(9, 16)

# The scope of a statement is the trace's word for it: "0 for main or calling
# gate+1", so 0 in main and the gate's number + 1 in its body.
MAIN_SCOPE = 0

# "Gate, 5: parameter count, argument count, 1 with body or 0 opaque, first
# body statement, body length."
Gate = namedtuple("Gate", "parameters arguments with_body first length")


def contents_total(words):
    """The words that contents and lists take by the counts."""
    return CONTENTS_WORDS + sum(map(int.__mul__, words[1:CONTENTS_WORDS], ENTRY_WORDS))


class Image:
    """The lists of an image whose contents add up."""

    def __init__(self, words):
        self.words = words
        self.counts = words[1:CONTENTS_WORDS]
        self.first_words = [CONTENTS_WORDS]
        for count, length in zip(self.counts, ENTRY_WORDS):
            self.first_words.append(self.first_words[-1] + count * length)
        self.judged = {}  # expressions that check has judged

    def place(self, which, number):
        # "A place is the index of an entry's first word in the image."
        return self.first_words[which] + ENTRY_WORDS[which] * number

    def entry(self, which, number):
        place = self.place(which, number)
        return self.words[place : place + ENTRY_WORDS[which]]

    def statement_count(self):
        return self.counts[MAIN] + self.counts[FURTHER]

    def statement_place(self, number):
        # "Statements are numbered through": further ones follow main ones.
        return self.place(MAIN, number)

    def statement(self, number):
        return self.entry(MAIN, number)

    def gate(self, number):
        return Gate(*self.entry(GATES, number))

    def body(self, gate):
        return range(gate.first, gate.first + gate.length) if gate.with_body else ()

    def sizes(self, sort):
        """The sizes of all registers of a sort, QUANTUM or CLASSICAL."""
        return self.words[self.first_words[sort] : self.first_words[sort + 1]]

    def named_expressions(self, statement):
        """The numbers of the expressions that a U or a call's parameters name."""
        kind, *operands = statement
        if kind == U:
            return operands[:3]
        if kind == CALL:
            number, first, _, _ = operands
            run = range(first, first + self.gate(number).parameters)
            return [self.entry(PARAMETERS, parameter)[0] for parameter in run]
        return []

    def named_arguments(self, statement):
        """The numbers of a statement's arguments, each with its sort."""
        kind, first, second, third, fourth = statement
        if kind == MEASURE:  # "quantum argument, classical argument"
            return [(first, QUANTUM), (second, CLASSICAL)]
        if kind == CALL:
            numbers = range(third, third + self.gate(first).arguments)
        elif kind == BARRIER:
            numbers = range(first, first + second)
        else:
            numbers = {U: [fourth], CX: [first, second], RESET: [first]}[kind]
        return [(number, QUANTUM) for number in numbers]

    def argument_size(self, scope, argument, sort):
        # "1 for an index or a formal, else its register's."
        register, index = self.entry(ARGUMENTS, argument)
        return 1 if scope != MAIN_SCOPE or index else self.sizes(sort)[register]

    def argument_sizes(self, scope, statement):
        return [self.argument_size(scope, *named) for named in self.named_arguments(statement)]


# ------------------------------------------------------------------- check

SIZE_LIMIT = 4096  # "sizes 1 to 4,096; 4,096 qubits and 4,096 bits in all"
LEVEL_LIMIT = 32  # "An expression has at most 32 levels, a leaf being one."

MAIN_KINDS = U, CX, CALL, BARRIER, MEASURE, RESET, IF
BODY_KINDS = U, CX, CALL, BARRIER  # "Bodies hold kinds 1 to 4"
INNER_KINDS = U, CX, CALL, MEASURE, RESET  # "of kind 1, 2, 3, 5 or 6"


def check(words):
    """The flaw of an image, (number, place), or None if it is accepted."""
    words = tuple(words)
    if not contents_good(words):
        return 1, 0
    image = Image(words)
    return bad_register(image) or bad_gate(image) or bad_statement(image)


def contents_good(words):
    # "1, place 0, for a wrong length, contents that don't add up, or over
    # 128 gates."  "Limits: 9 to 8,192 words."
    if not 9 <= len(words) <= 8192:
        return False
    return len(words) == words[0] == contents_total(words) and words[1 + GATES] <= 128


def bad_register(image):
    # "Then 2 for a register ... at the first bad one, quantum registers first";
    # "the register that passes a total is the bad one".
    for sort in QUANTUM, CLASSICAL:
        total = 0
        for number, size in enumerate(image.sizes(sort)):
            total += size
            if not 1 <= size <= SIZE_LIMIT or total > SIZE_LIMIT:
                return 2, image.place(sort, number)
    return None


def bad_gate(image):
    # "Then 3 for a gate entry", at the first bad one.
    for number in range(image.counts[GATES]):
        if not gate_good(image, image.gate(number)):
            return 3, image.place(GATES, number)
    return None


def gate_good(image, gate):
    # "16 parameters and 16 arguments a gate"
    if gate.parameters > 16 or gate.arguments > 16:
        return False
    # "An opaque gate's last two are 0."
    if gate.with_body == 0:
        return gate.first == gate.length == 0
    if gate.with_body != 1:
        return False
    # "An empty run of statements ... starts at most at its list's count."
    if gate.length == 0:
        return gate.first <= image.statement_count()
    # "Also a nonempty body not all of further statements."
    return image.counts[MAIN] <= gate.first and gate.first + gate.length <= image.statement_count()


def bad_statement(image):
    """The first bad statement: main in order, then bodies by gate number."""
    for scope, number in judged_statements(image):
        allowed = MAIN_KINDS if scope == MAIN_SCOPE else BODY_KINDS
        flaw_number = statement_flaw_number(image, scope, number, allowed)
        if flaw_number:
            return flaw_number, image.statement_place(number)
    return None


def judged_statements(image):
    """Scope and number of each statement of main, then of each gate's body."""
    for number in range(image.counts[MAIN]):
        yield MAIN_SCOPE, number
    for gate in range(image.counts[GATES]):
        for number in image.body(image.gate(gate)):
            yield gate + 1, number


def statement_flaw_number(image, scope, number, allowed):
    # "4 a kind not allowed there, an unused word, or a number or run of its
    # own out of range, 8 call not downward, 6 expression or a parameter's number,
    # 5 argument entry, 7 sizes, in this order."
    statement = image.statement(number)
    kind = statement[0]
    if kind not in allowed or not own_words_good(image, statement):
        return 4
    if kind == IF:  # "An if has its inner statement's faults, at its own place."
        return statement_flaw_number(image, scope, statement[3], INNER_KINDS)
    if kind == CALL and not downward(scope, statement[1]):
        return 8
    if not all(named_expression_good(image, scope, e) for e in image.named_expressions(statement)):
        return 6
    if not all(argument_good(image, scope, *named) for named in image.named_arguments(statement)):
        return 5
    if not sizes_good(kind, image.argument_sizes(scope, statement)):
        return 7
    return None


def own_words_good(image, statement):
    """Statement words: numbers and runs within their lists, "unused words 0"."""
    kind, first, second, third, fourth = statement
    counts = image.counts
    if kind == U:
        return max(first, second, third) < counts[EXPRESSIONS] and fourth < counts[ARGUMENTS]
    if kind in (CX, MEASURE):
        return max(first, second) < counts[ARGUMENTS] and third == fourth == 0
    if kind == CALL:
        if first >= counts[GATES] or fourth != 0:
            return False
        gate = image.gate(first)
        return (
            second + gate.parameters <= counts[PARAMETERS]
            and third + gate.arguments <= counts[ARGUMENTS]
        )
    if kind == BARRIER:
        return first + second <= counts[ARGUMENTS] and third == fourth == 0
    if kind == RESET:
        return first < counts[ARGUMENTS] and second == third == fourth == 0
    # "7 if: classical register, value, statement"; "an if takes one further
    # statement"; its value is any word.
    return (
        first < counts[CLASSICAL]
        and counts[MAIN] <= third < image.statement_count()
        and fourth == 0
    )


def downward(scope, gate):
    # "Bodies ... call only gates of smaller number."
    return scope == MAIN_SCOPE or gate + 1 < scope


def named_expression_good(image, scope, number):
    if number >= image.counts[EXPRESSIONS]:
        return False  # only a parameter entry can still name such a number
    # "variable (below the gate's parameter count, none in main)"
    variables = 0 if scope == MAIN_SCOPE else image.gate(scope - 1).parameters
    return expression_good(image, variables, number, LEVEL_LIMIT)


def expression_good(image, variables, number, levels):
    """Whether an expression is good and has at most so many levels.  An entry is
    judged once for each number of variables and levels."""
    judged = variables, number, levels
    if judged not in image.judged:
        image.judged[judged] = levels > 0 and entry_good(image, *judged)
    return image.judged[judged]


def entry_good(image, variables, number, levels):
    # "Expression, 3, unused words 0: kind, two operands."
    kind, first, second = image.entry(EXPRESSIONS, number)

    def operand_good(operand):
        # "An operand has a smaller number than its user."
        return operand < number and expression_good(image, variables, operand, levels - 1)

    if kind in BINARY_KINDS:
        return operand_good(first) and operand_good(second)
    if second != 0:
        return False
    if kind in UNARY_KINDS:
        return operand_good(first)
    if kind == PI:
        return first == 0
    if kind == REAL:
        return first < 2**32
    if kind == VARIABLE:
        return first < variables
    return kind == INTEGER


def argument_good(image, scope, number, sort):
    # "Argument, 2: register (in a body: formal argument), then index+1, or 0
    # for the whole.  In a body the second is 0."
    register, index = image.entry(ARGUMENTS, number)
    if scope != MAIN_SCOPE:
        return register < image.gate(scope - 1).arguments and index == 0
    return register < image.counts[sort] and index <= image.sizes(sort)[register]


def sizes_good(kind, sizes):
    # "CX and measure: sizes equal, or one is 1.  Call: all sizes other than 1
    # equal."
    return kind not in (CX, MEASURE, CALL) or len(set(sizes) - {1}) <= 1


# ------------------------------------------------------------------- tally

FIGURE_LIMIT = 4294967295
ENTRIES_FIGURE, WORDS_FIGURE = 7, 8  # after "records of each kind 1 to 7"
ROUND_WORDS = {U: 14, CX: 3, MEASURE: 3, RESET: 2}


def tally(words, depth):
    """The nine figures of an accepted image, whole numbers of any size."""
    return Tally(Image(tuple(words))).program(depth)


def tally_operation(words, depth):
    # "Check's, then 16, place 0, exactly if any figure passes 4,294,967,295."
    flaw = check(words)
    if flaw:
        return ("refused", *flaw)
    figures = tally(words, depth)
    return ("refused", 16, 0) if max(figures) > FIGURE_LIMIT else figures


def records(kind, count, words):
    """The figures of so many records of a kind, so many words each."""
    figures = [0] * 9
    figures[kind - 1] = count
    figures[WORDS_FIGURE] = count * words
    return figures


def added(one, other):
    return [figure + more for figure, more in zip(one, other)]


ONE_ENTRY = [0] * ENTRIES_FIGURE + [1, 0]


class Tally:
    """The figures of an accepted image."""

    def __init__(self, image):
        self.image = image
        self.known = {}

    def program(self, depth):
        # "In all: the main statements at the depth given; if any, the head's
        # 3 + 2*(qubits + bits) words too."
        main = range(self.image.counts[MAIN])
        figures = self.statements(MAIN_SCOPE, main, depth)
        return added(figures, self.head()) if main else figures

    def head(self):
        qubits, bits = sum(self.image.sizes(QUANTUM)), sum(self.image.sizes(CLASSICAL))
        return [0] * WORDS_FIGURE + [3 + 2 * (qubits + bits)]

    def statements(self, scope, numbers, depth):
        figures = [0] * 9
        for number in numbers:
            figures = added(figures, self.statement(scope, number, depth))
        return figures

    def statement(self, scope, number, depth):
        statement = self.image.statement(number)
        kind = statement[0]
        if kind == IF:  # "a kind 7, 5 words with its end, and the inner statement"
            return added(records(IF, 1, 5), self.statement(scope, statement[3], depth))
        sizes = self.image.argument_sizes(scope, statement)
        if kind == BARRIER:  # "one record, of 2 words plus its argument sizes added up"
            return records(BARRIER, 1, 2 + sum(sizes))
        rounds = max(sizes, default=0)  # "the largest size, 0 without arguments"
        if kind == CALL:
            return [rounds * figure for figure in self.call_round(statement[1], depth)]
        return records(kind, rounds, ROUND_WORDS[kind])

    def call_round(self, number, depth):
        # "Call, each round: with a body and a depth above 1, one body entry and
        # the body's statements at a depth less by 1.  Otherwise a kind 3 of 4+4p+q
        # words (p its parameters, 0 with a body; q its arguments)."
        gate = self.image.gate(number)
        if gate.with_body and depth > 1:
            return added(ONE_ENTRY, self.body(number, depth - 1))
        angle_count = 0 if gate.with_body else gate.parameters
        return records(CALL, 1, 4 + 4 * angle_count + gate.arguments)

    def body(self, number, depth):
        """Worked out once for each gate and depth."""
        if (number, depth) not in self.known:
            body = self.image.body(self.image.gate(number))
            self.known[number, depth] = self.statements(number + 1, body, depth)
        return self.known[number, depth]


# --------------------------------------------------------------------- run

HEAD, CONDITIONAL_START, CONDITIONAL_END = 0, 7, 8

# number: 0 if finished.  second: the second place, or the f32 bits of a 10.
# records: how many.  output and trace: the words written.
Outcome = namedtuple("Outcome", "number place second records output trace")

# The scope of the statements run, and what its variables and formals stand for.
Frame = namedtuple("Frame", "scope angles qubits")

OPERATIONS = {
    4: angles.add,
    5: angles.subtract,
    6: angles.multiply,
    7: angles.divide,
    8: angles.power,
    9: angles.negate,
    10: angles.sine,
    11: angles.cosine,
    12: angles.tangent,
    13: angles.float_function,
    14: angles.float_function,
    15: angles.square_root,
}


class Refusal(Exception):
    def __init__(self, number, place=0, second=0):
        super().__init__(number)
        self.number, self.place, self.second = number, place, second


def run(words, depth, output_length, trace_length):
    """The outcome of a run that is lent an output and a trace of these lengths."""
    # "15, place 0, if the trace has under 256 words; then check's."
    if trace_length < 256:
        return Outcome(15, 0, 0, 0, [], [])
    flaw = check(words)
    if flaw:
        return Outcome(*flaw, 0, 0, [], [])
    running = Run(Image(tuple(words)), depth, output_length)
    try:
        running.program()
    except Refusal as refusal:
        trace = [word for pair in running.stack for word in pair]
        return Outcome(refusal.number, refusal.place, refusal.second, running.records, running.output, trace)
    return Outcome(0, 0, 0, running.records, running.output, [])


class Run:
    """A run of an accepted image: what it has written, and the calls it is in."""

    def __init__(self, image, depth, output_length):
        self.image = image
        self.depth = depth
        self.output_length = output_length
        self.output = []
        self.records = 0
        self.stack = []  # "Outermost first, two words a frame"

    def write(self, *record):
        # "14, place 0, exactly if a record is longer than the words left."
        if len(record) > self.output_length - len(self.output):
            raise Refusal(14)
        self.output += record
        self.records += 1

    def program(self):
        frame = Frame(MAIN_SCOPE, (), ())
        for number in range(self.image.counts[MAIN]):
            if number == 0:  # "The head comes with the first main statement"
                self.head()
            self.statement(frame, number)

    def head(self):
        # "0 head: qubits, bits, then register and offset for each qubit, then
        # for each bit."
        named = []
        for sort in QUANTUM, CLASSICAL:
            for register, size in enumerate(self.image.sizes(sort)):
                for offset in range(size):
                    named += register, offset
        qubits, bits = sum(self.image.sizes(QUANTUM)), sum(self.image.sizes(CLASSICAL))
        self.write(HEAD, qubits, bits, *named)

    def statement(self, frame, number):
        statement = self.image.statement(number)
        kind = statement[0]
        if kind == U:
            self.u(frame, statement)
        elif kind == CX:
            self.cx(frame, statement)
        elif kind == CALL:
            self.call(frame, number)
        elif kind == BARRIER:
            self.barrier(frame, statement)
        elif kind == IF:
            self.conditional(frame, statement)
        else:  # "5 measure: qubit, bit.  6 reset."
            for indices in self.rounds(frame, statement):
                self.write(kind, *indices)

    def u(self, frame, statement):
        # "1 U: three angles ..., qubit."
        words = self.angle_words(self.angles(frame, statement))
        for (qubit,) in self.rounds(frame, statement):
            self.write(U, *words, qubit)

    def cx(self, frame, statement):
        for control, target in self.rounds(frame, statement):
            if control == target:  # "for a CX first then second"
                self.overlap(statement[1], statement[2])
            self.write(CX, control, target)

    def barrier(self, frame, statement):
        # "4 barrier: count, qubits."  "A barrier holds each qubit once".
        # Document 02, One: "A barrier's qubits are written in increasing number."
        qubits = set()
        for argument, sort in self.image.named_arguments(statement):
            first, size = self.resolve(frame, argument, sort)
            qubits.update(range(first, first + size))
        self.write(BARRIER, len(qubits), *sorted(qubits))

    def conditional(self, frame, statement):
        # "An if writes kind 7, then what its inner statement writes in main,
        # then kind 8."  "7 conditional start: first bit, size, value."
        _, register, value, inner, _ = statement
        sizes = self.image.sizes(CLASSICAL)
        self.write(CONDITIONAL_START, sum(sizes[:register]), sizes[register], value)
        self.statement(frame, inner)
        self.write(CONDITIONAL_END)

    def call(self, frame, number):
        statement = self.image.statement(number)
        gate = self.image.gate(statement[1])
        # "Parameters are evaluated before anything else of a call."
        values = self.angles(frame, statement)
        if not gate.with_body:
            self.opaque(frame, statement, values)
            return
        # "A call pushes a frame."  "Two words a frame: 0 for main or calling
        # gate+1, then the call statement's place.  A body not opened counts as
        # a frame."
        self.stack.append((frame.scope, self.image.statement_place(number)))
        for qubits in self.rounds(frame, statement):
            # "The body is opened only if the frames on the stack after the push
            # are fewer than the depth."
            if len(self.stack) < self.depth:
                self.open(gate, Frame(statement[1] + 1, values, qubits))
            else:
                # "A body not opened is written as kind 3 with p = 0 and no
                # distinctness test."
                self.write(CALL, statement[1], 0, len(qubits), *qubits)
        self.stack.pop()

    def open(self, gate, frame):
        for number in self.image.body(gate):
            self.statement(frame, number)

    def opaque(self, frame, statement, values):
        # "3 opaque: gate, p, q, p angles, q qubits."
        words = self.angle_words(values)
        arguments = [argument for argument, _ in self.image.named_arguments(statement)]
        for qubits in self.rounds(frame, statement):
            # "Opaque distinctness is tested each round, argument i against each
            # j below i."  "For an opaque gate i then j."
            for i in range(len(qubits)):
                for j in range(i):
                    if qubits[i] == qubits[j]:
                        self.overlap(arguments[i], arguments[j])
            self.write(CALL, statement[1], len(values), len(qubits), *words, *qubits)

    def overlap(self, argument, other):
        # "12 overlap: the two arguments' places"
        raise Refusal(12, self.image.place(ARGUMENTS, argument), self.image.place(ARGUMENTS, other))

    def rounds(self, frame, statement):
        # "Whole registers advance in lock-step; size-1 arguments stay."
        resolved = [self.resolve(frame, *named) for named in self.image.named_arguments(statement)]
        for turn in range(max((size for _, size in resolved), default=0)):
            yield [first if size == 1 else first + turn for first, size in resolved]

    def resolve(self, frame, argument, sort):
        """The first qubit or bit of an argument, and its size."""
        register, index = self.image.entry(ARGUMENTS, argument)
        size = self.image.argument_size(frame.scope, argument, sort)
        if frame.scope != MAIN_SCOPE:
            return frame.qubits[register], size
        first = sum(self.image.sizes(sort)[:register])
        return first + index - 1 if index else first, size

    def angles(self, frame, statement):
        """The angles of a statement, each worked out in turn."""
        return [self.angle(frame, number) for number in self.image.named_expressions(statement)]

    def angle(self, frame, number):
        # "9 division by zero, 10 float without a fraction (with the f32), 11
        # overflow, 13 function of floats: place of the outermost expression entry
        # that U or the call's parameter names."
        try:
            return evaluate(self.image, frame.angles, number)
        except angles.AngleRefusal as refusal:
            place = self.image.place(EXPRESSIONS, number)
            raise Refusal(refusal.number, place, refusal.bits) from None

    def angle_words(self, values):
        # "Four words each: a's n, d, b's n, d, signed in two's complement."
        return [number % 2**64 for value in values for number in angles.numbers(value)]


def evaluate(image, variables, outermost):
    """The angle of an expression, each entry worked out once."""
    known = {}

    def value(number):
        if number not in known:
            known[number] = work_out(*image.entry(EXPRESSIONS, number))
        return known[number]

    def work_out(kind, first, second):
        if kind == PI:
            return angles.angle(0, 1)
        if kind == REAL:
            return angles.from_float(first)
        if kind == INTEGER:  # "A literal of 2^63 or more ... here it is 11"
            return angles.angle(first)
        if kind == VARIABLE:
            return variables[first]
        # "The left operand's refusal wins."
        operands = (first, second) if kind in BINARY_KINDS else (first,)
        return OPERATIONS[kind](*[value(operand) for operand in operands])

    return value(outermost)


# ----------------------------------------------------------- record reader


def next_record(words, position):
    # "17, exactly if the words there begin no whole record of a known kind with
    # its length; end if none are left; a position past the end is 17."
    left = len(words) - position
    if left < 0:
        return 17
    if left == 0:
        return "end"
    # A word that a length is made of but that is missing counts as 0: the least
    # length of that kind is too long already.
    kind, first, second, third = (*words[position : position + 4], 0, 0, 0)[:4]
    lengths = {
        HEAD: 3 + 2 * (first + second),
        U: 14,
        CX: 3,
        CALL: 4 + 4 * second + third,
        BARRIER: 2 + first,
        MEASURE: 3,
        RESET: 2,
        CONDITIONAL_START: 4,
        CONDITIONAL_END: 1,
    }
    if kind not in lengths or lengths[kind] > left:
        return 17
    return "record", lengths[kind]


def records_of(words):
    """The records of an output, each a list of its words."""
    position = 0
    while (found := next_record(words, position)) != "end":
        if found == 17:
            raise ValueError("no record at word %d" % position)
        yield words[position : position + found[1]]
        position += found[1]


# ----------------------------------------------------------------- listing


def listing(data):
    # "It reads little-endian words from standard input, depth first, then the
    # image, and lends 8,192 output words."  The trace lent has 256 words.
    # "Input that ends within a word, or has no depth, gives `refused 1 0 0`."
    if len(data) % 8 or not data:
        return b"refused 1 0 0\n"
    depth, *words = (int.from_bytes(data[at : at + 8], "little") for at in range(0, len(data), 8))
    outcome = run(words, depth, 8192, 256)
    lines = [listed_words(record) for record in records_of(outcome.output)]
    if outcome.number == 0:
        # "A finished run closes with `done` and the number of records, the head
        # among them."
        lines.append(("done", outcome.records))
    else:
        # "A refused one closes with a `from` line for each trace pair, then
        # `refused`, number, two places (10: place, f32 bits; unused 0)."
        pairs = zip(outcome.trace[::2], outcome.trace[1::2])
        lines += [("from", *pair) for pair in pairs]
        lines.append(("refused", outcome.number, outcome.place, outcome.second))
    return "".join(" ".join(map(str, line)) + "\n" for line in lines).encode("ascii")


def listed_words(record):
    # "Each record is a line of its words in decimal, the angles signed."
    first, end = angle_span(record)
    return [*record[:first], *map(signed, record[first:end]), *record[end:]]


def angle_span(record):
    """Where the words of a record's angles begin and end."""
    if record[0] == U:
        return 1, 13
    if record[0] == CALL:
        return 4, 4 + 4 * record[2]
    return 0, 0


def signed(word):
    return word - 2**64 if word >= 2**63 else word


def listing_input(words, depth):
    return b"".join(word.to_bytes(8, "little") for word in (depth, *words))
