"""Test vectors for fractions and angles, printed to standard output.

    python3 -m oracle.vectors.number_vectors

The arithmetic is that of angles.py, a second reading of the definitions, made
so that another program can be compared with it.  The random part has a fixed
seed, so the output is the same everywhere, to the byte.

A line that starts with '#' is a comment.  Every other line holds 14 integers:

    op  x.a.n x.a.d x.b.n x.b.d  y.a.n y.a.d y.b.n y.b.d  case  r1 r2 r3 r4

The angle x is x.a.n/x.a.d + x.b.n/x.b.d * pi, in lowest terms; so is y.  An
unused operand is 0 1 0 1, an unused result 0.

    op   1 sum        2 difference   3 product      4 quotient   5 power
         6 negation   7 sine         8 cosine       9 tangent
        10 exponential              11 logarithm   12 square root
        13 into_float: r1 is the bits of the f32
        14 from_float: x.a.n is the bits of the f32
        15 nearest f32 of the 64-bit number x.a.n: r1 is its bits
        16 greatest common divisor of x.a.n and y.a.n: r1
        17 whole root: r1 is the r with r^k = v, where k = x.a.n, v = y.a.n

    case 0 done (the four numbers of the angle, or r1), 1 no whole root,
         9 division by zero, 10 f32 without a fraction (r1 is its bits),
         11 overflow, 13 function of floats
"""

from fractions import Fraction
from itertools import product as pairs
from math import gcd
from random import Random

from oracle.reference.angles import (
    DIVISION_BY_ZERO, FLOAT_FUNCTION, HALF, INFINITY, LIMIT, NAN, NO_FRACTION, OVERFLOW, PI_F32, PI_SQUARED, SIGN,
    ZERO, AngleRefusal, add, angle, cosine, divide, f32_round, f32_value, fits, float_function, from_float, into_float,
    multiply, negate, numbers, overflowing_steps, power, sine, square_root, subtract, tangent, whole_root,
)

# ----------------------------------------------------------------- vectors

(SUM, DIFFERENCE, PRODUCT, QUOTIENT, POWER, NEGATION, SINE, COSINE, TANGENT,
 EXPONENTIAL, LOGARITHM, SQUARE_ROOT, INTO_FLOAT, FROM_FLOAT, NEAREST_F32,
 GCD, WHOLE_ROOT) = range(1, 18)

ANGLE_OPERATIONS = {
    SUM: add,
    DIFFERENCE: subtract,
    PRODUCT: multiply,
    QUOTIENT: divide,
    POWER: power,
    NEGATION: negate,
    SINE: sine,
    COSINE: cosine,
    TANGENT: tangent,
    EXPONENTIAL: float_function,
    LOGARITHM: float_function,
    SQUARE_ROOT: square_root,
}

lines = []
made = set()


def heading(text):
    lines.append("# " + text)


def record(op, x, y, result):
    """Adds a line, unless these operands have been had; returns the result."""
    result = (*result, 0, 0, 0, 0)[:5]
    if (op, x, y) not in made:
        made.add((op, x, y))
        lines.append(" ".join(map(str, (op, *x, *y, *result))))
    return result


def outcome(operation, *operands):
    try:
        return 0, *numbers(operation(*operands))
    except AngleRefusal as refusal:
        return refusal.number, refusal.bits


def vector(op, x, y=None):
    """One vector of an operation on angles (1 to 12)."""
    operands = (x,) if y is None else (x, y)
    return record(op, numbers(x), numbers(y or ZERO), outcome(ANGLE_OPERATIONS[op], *operands))


def into_float_vector(x):
    return record(INTO_FLOAT, numbers(x), numbers(ZERO), (0, into_float(x)))


def whole_vector(op, n, result, m=0):
    """One vector of an operation on plain 64-bit numbers (14 to 17)."""
    return record(op, (n, 1, 0, 1), (m, 1, 0, 1), result)


def from_float_vector(bits):
    return whole_vector(FROM_FLOAT, bits, outcome(from_float, bits))


def nearest_vector(n):
    return whole_vector(NEAREST_F32, n, (0, f32_round(Fraction(n))))


def gcd_vector(n, m):
    return whole_vector(GCD, n, (0, gcd(n, m)), m)


def root_vector(k, v):
    r = whole_root(k, v)
    return whole_vector(WHOLE_ROOT, k, (1, 0) if r is None else (0, r), v)


def expect(result, *beginning):
    """Stops the program unless a vector came out as it had to."""
    if result[: len(beginning)] != beginning:
        raise AssertionError(f"{result} does not begin with {beginning}")


F = Fraction
PI = angle(0, 1)
EXTREMES = [0, 1, -1, LIMIT, -LIMIT]
F32_PI = f32_value(PI_F32)
# Two angles whose f32 is exactly zero though their values are not.
VANISHING = angle(F32_PI, -1)
VANISHING_TOO = angle(F(103993, 33102), -1)


def document_examples():
    heading("Examples K4 to K9 of document 01")
    expect(vector(POWER, angle(8), angle(F(2, 3))), 0, 4, 1, 0, 1)
    expect(vector(POWER, angle(0), angle(-HALF)), DIVISION_BY_ZERO)
    expect(vector(COSINE, angle(0, F(1, 3))), 0, 1, 2, 0, 1)
    expect(vector(TANGENT, angle(0, HALF)), FLOAT_FUNCTION)
    expect(vector(TANGENT, angle(0, -HALF)), DIVISION_BY_ZERO)
    expect(from_float_vector(f32_round(F(2**62))), 0, 2**62, 1, 0, 1)
    expect(from_float_vector(f32_round(F(2**63))), NO_FRACTION)
    expect(from_float_vector(f32_round(F(1, 2**62))), 0, 1, 2**62, 0, 1)
    expect(from_float_vector(f32_round(F(1, 2**63))), NO_FRACTION)


def extremes():
    heading("0, 1, -1, 2^63-1 and -(2^63-1) with each other")
    for x, y in pairs(EXTREMES, EXTREMES):
        vector(DIFFERENCE, angle(x), angle(y))
        vector(QUOTIENT, angle(x), angle(y))
        if x <= y:
            vector(SUM, angle(x), angle(y))
            vector(PRODUCT, angle(x), angle(y))
    heading("The same in the pi part, and in both parts")
    for x, y in pairs((1, LIMIT), (1, -LIMIT)):
        vector(SUM, angle(0, x), angle(0, y))
        vector(DIFFERENCE, angle(x, y), angle(y, x))
        vector(PRODUCT, angle(x, -x), angle(y))
    heading("Negation")
    for x in EXTREMES + [HALF, F(1, LIMIT), F(-LIMIT, LIMIT - 1)]:
        vector(NEGATION, angle(x))
        vector(NEGATION, angle(-x, x))
    heading("Denominators near 2^63")
    for x in F(1, LIMIT), F(-1, LIMIT - 1), F(LIMIT - 1, LIMIT):
        for y in F(1, LIMIT), F(1 - LIMIT, LIMIT), F(1), F(-1):
            vector(SUM, angle(x), angle(y))
        vector(PRODUCT, angle(0, x), angle(x))
        vector(PRODUCT, angle(0, x), angle(2))
        vector(QUOTIENT, angle(0, x), angle(2))
        vector(DIFFERENCE, angle(x, 1), angle(x, 1))


def sum_vector(steps, x, y):
    """The sum x+y as rationals, then as pi multiples by a difference.

    Exactly the named steps leave the range; none if the name is empty.
    """
    x, y = F(x), F(y)
    assert overflowing_steps(x, y) == steps
    vector(SUM, angle(x), angle(y))
    vector(DIFFERENCE, angle(1, x), angle(2, -y))


def sums(rng):
    heading("Sums where exactly l leaves the range, and neighbours that fit")
    root = 3037000500  # the square root of 2^63, rounded up
    sum_vector("l", F(1, root), F(1, root + 1))
    sum_vector("", F(1, root - 1), F(1, root))
    sum_vector("l", F(1, 27), F(1, (2**63 + 1) // 27))
    sum_vector("", F(1, 49), F(1, LIMIT // 49))
    sum_vector("l", F(1, LIMIT), F(-1, LIMIT - 1))
    heading("Exactly p")
    sum_vector("p", 2**62, -HALF)
    sum_vector("", 2**62 - 1, -HALF)
    sum_vector("", 2**62 - 1, HALF)
    sum_vector("p", -(2**62), HALF)
    sum_vector("p", F(2**62 + 1, 3), F(-5, 6))
    heading("Exactly q")
    sum_vector("q", -HALF, 2**62)
    sum_vector("", -HALF, 2**62 - 1)
    sum_vector("q", HALF, -(2**62))
    sum_vector("q", F(-5, 6), F(2**62 + 1, 3))
    heading("Exactly s")
    sum_vector("s", 2**62, 2**62)
    sum_vector("", 2**62, 2**62 - 1)
    sum_vector("s", -(2**62), -(2**62))
    sum_vector("", -(2**62), 1 - 2**62)
    sum_vector("s", F(2, LIMIT), 1)
    sum_vector("", F(-2, LIMIT), 1)
    heading("Overflowing sums whose exact value is small")
    sum_vector("s", F(LIMIT, 2), HALF)
    sum_vector("s", F(LIMIT, 4), F(1, 4))
    sum_vector("p", 2**62, F(-LIMIT, 2))
    sum_vector("q", F(LIMIT, 2), -(2**62))
    g = 2**61 + 5
    x, y = F(1, 2 * g), F((g - 3) // 2, 3 * g)  # l is 6g
    assert x + y == F(1, 6)
    sum_vector("l", x, y)
    heading("Every set of overflowing steps, found by search")
    found = {}
    while len(found) < 16:
        g, m, k = rng.number(), rng.number(), rng.number()
        if fits(g * m) and fits(g * k):
            x, y = F(rng.signed(), g * m), F(rng.signed(), g * k)
            found.setdefault(overflowing_steps(x, y), (x, y))
    for steps in sorted(found):
        x, y = found[steps]
        vector(SUM, angle(x), angle(y))
    heading("Overflow in one part only")
    for x, y in (angle(LIMIT, 1), angle(1, 1)), (angle(1, -LIMIT), angle(1, -1)):
        vector(SUM, x, y)
        vector(DIFFERENCE, x, y)


def products():
    heading("Products whose unreduced form leaves the range; the last of each row past it")
    rows = [
        [(F(LIMIT, 3), F(3, LIMIT)), (F(LIMIT, 3), F(6, LIMIT)), (F(LIMIT, 3), F(1, 2**62))],
        [(F(LIMIT, 2), 2), (F(-LIMIT, 2), 2), (F(LIMIT, 2), 4)],
        [(F(2**62, 3), F(3, 4)), (F(2**62, 3), 3), (F(2**62, 3), 6)],
        [(F(1, 2**62), F(4, 7)), (F(3, 2**62), F(2, 3)), (F(1, 2**62), HALF)],
        [(F(LIMIT, 2**62), F(-(2**62), LIMIT)), (F(LIMIT, 2**62), F(2**61, 3)), (F(LIMIT, 2**62), 2**61 + 1)],
        [(3037000499, 3037000499), (3037000499, -3037000500), (3037000500, 3037000500)],
    ]
    for row in rows:
        for x, y in row:
            last = vector(PRODUCT, angle(x), angle(y))
        expect(last, OVERFLOW)
        x, y = row[0]
        vector(PRODUCT, angle(0, x), angle(y))
    heading("Products with pi squared")
    n, d = PI_SQUARED.numerator, PI_SQUARED.denominator
    assert (n, d) == (6499908331188584841, 658578405682719844)
    for factor in 1, -1, 2, 4, 8, HALF, F(1, 3), F(1, 14), F(1, 15), F(3, 2):
        vector(PRODUCT, angle(0, factor), PI)
    for x, y in pairs((angle(1, 1), angle(1, -1), angle(F(1, 3), 2)), repeat=2):
        vector(PRODUCT, x, y)
    heading("One step of the product overflows, then a neighbour that fits")
    for x, y, fitting in [
        (angle(0, d), angle(0, F(16, n)), angle(0, F(15, n))),  # b b', whose pi^2 multiple fits
        (PI, angle(0, d + 1), angle(0, d)),  # pi^2
        (angle(LIMIT), angle(2), angle(1)),  # a a'
        (angle(5, 1), angle(1, 1), angle(F(4, 5), 1)),  # the sum of the rational part
        (angle(0, LIMIT), angle(2), angle(-1)),  # b a'
        (angle(LIMIT), angle(0, 2), angle(0, -1)),  # a b'
        (angle(F(LIMIT, 2), 1), angle(F(2, LIMIT), 1), angle(0, F(1, 2))),  # the sum of the pi part
    ]:
        expect(vector(PRODUCT, x, y), OVERFLOW)
        expect(vector(PRODUCT, x, fitting), 0)


def quotients():
    heading("Quotients by zero")
    for x in ZERO, angle(1), PI, angle(1, 1), angle(-LIMIT, F(1, LIMIT)):
        expect(vector(QUOTIENT, x, ZERO), DIVISION_BY_ZERO)
    heading("Quotients by a rational")
    for x, y in [
        (angle(1, 1), 2),
        (angle(1, -1), F(-2, 3)),
        (angle(LIMIT, -LIMIT), -LIMIT),
        (angle(F(LIMIT, 3), F(LIMIT, 2)), F(LIMIT, 5)),
        (angle(F(1, 2**61)), 2),
        (angle(F(1, 2**62)), 2),
        (angle(F(2, LIMIT)), 2),
        (angle(1, F(1, LIMIT)), 2),
        (angle(F(1, LIMIT), 1), -2),
        (angle(2**62 - 1), HALF),
        (angle(2**62), HALF),
        (angle(0, 2**62), -HALF),
        (angle(1), F(-1, LIMIT)),
        (angle(2), F(1, LIMIT)),
    ]:
        vector(QUOTIENT, x, angle(y))
    heading("Pi multiples by pi multiples")
    for x, y in [
        (1, 2), (F(1, 3), F(-1, 6)), (0, 1), (0, -LIMIT), (LIMIT, -LIMIT), (F(LIMIT, 3), F(LIMIT, 5)),
        (LIMIT, HALF), (2**62 - 1, HALF), (F(1, LIMIT), 2), (F(2, LIMIT), 2), (1, F(1, LIMIT)),
        (F(1, LIMIT), F(1, LIMIT)), (F(1, LIMIT), F(-1, LIMIT - 1)),
    ]:
        vector(QUOTIENT, angle(0, x), angle(0, y))
    heading("Others by pi multiples: one f32 division")
    for x in 1, 3, F(-22, 7), F(1, 3), LIMIT:
        for y in 1, -1, F(2, 3), LIMIT:
            vector(QUOTIENT, angle(x), angle(0, y))
        vector(QUOTIENT, angle(x, -1), angle(0, 2))
    heading("The f32 near the ends of the fractions, and subnormal")
    for exponent in (*range(36, 43), 61, 62):
        vector(QUOTIENT, angle(1), angle(0, 2**exponent))
        vector(QUOTIENT, angle(-5), angle(0, 2**exponent))
    for x, y in pairs((2**61, 2**62, -LIMIT), (F(1, 2), F(1, 4), F(1, LIMIT))):
        vector(QUOTIENT, angle(x), angle(0, y))
    for x in F(1, LIMIT), F(-1, 2**62), F(3, 2**61):
        vector(QUOTIENT, angle(x), angle(0, LIMIT))
    heading("The smallest dividends: 1/d - pi/(2^63-1), nearly cancelling")
    for step in range(-4, 5):
        d = round(LIMIT / F32_PI) + step * 2**37
        vector(QUOTIENT, angle(F(1, d), F(-1, LIMIT)), angle(0, LIMIT))
    heading("Both parts of the divisor nonzero: common ratio")
    for y in angle(1, 1), angle(F(1, 3), F(-2, 5)):
        for ratio in 0, 1, -1, F(-2, 3), F(1, 2**40):
            vector(QUOTIENT, angle(y.a * ratio, y.b * ratio), y)
    for ratio in LIMIT, -LIMIT, F(1, LIMIT):
        vector(QUOTIENT, angle(ratio, ratio), angle(1, 1))
    vector(QUOTIENT, angle(LIMIT, F(1, LIMIT)), angle(-LIMIT, F(-1, LIMIT)))
    heading("Ratios of opposite sign")
    for x, y in pairs((angle(1, 1), angle(2, -2), angle(F(-1, 3), F(1, 3))), (angle(1, 1), angle(-1, 1))):
        vector(QUOTIENT, x, y)
    heading("Unequal ratios")
    for x in angle(1), angle(0, F(-1, 3)), angle(1, 2), angle(F(5, 7), -3), angle(10**9, 1):
        for y in angle(1, 1), angle(-2, F(1, 3)), angle(F(355, 113), -1):
            vector(QUOTIENT, x, y)
    heading("Overflow in a/a', in b/b', in both, each with a neighbour")
    for x, y in [
        (angle(LIMIT, 1), angle(HALF, 1)),
        (angle(2**62 - 1, 1), angle(HALF, 1)),
        (angle(1, LIMIT), angle(1, HALF)),
        (angle(1, 2**62 - 1), angle(1, HALF)),
        (angle(F(1, LIMIT), 0), angle(2, 1)),
        (angle(0, F(1, LIMIT)), angle(1, 2)),
        (angle(LIMIT, LIMIT), angle(HALF, HALF)),
        (angle(LIMIT, 0), VANISHING),
    ]:
        vector(QUOTIENT, x, y)
    heading("Divisors whose f32 is zero: infinities, NaN; and dividends whose f32 is zero")
    assert into_float(VANISHING) == into_float(VANISHING_TOO) == 0
    for x in angle(1), angle(-1), PI, angle(F32_PI * 2, -1), angle(F32_PI * 2, -2), angle(-F32_PI, -1):
        vector(QUOTIENT, x, VANISHING)
    for x, y in pairs((VANISHING, VANISHING_TOO), repeat=2):
        vector(QUOTIENT, x, y)
        vector(QUOTIENT, negate(x), y)
    for y in PI, angle(0, -1), angle(1, 1), angle(-1, -1), angle(2):
        vector(QUOTIENT, VANISHING, y)
    heading("Unequal ratio, f32 inside and outside the range of a fraction")
    for numerator, y in pairs((2**30, 2**54), (angle(F(355, 113), -1), angle(F(-355, 113), 1))):
        vector(QUOTIENT, angle(355 * numerator), y)


def powers():
    heading("Powers with whole exponents")
    for base in 0, 1, -1, 2, -2, HALF, F(-3, 2):
        for exponent in 0, 1, -1, 62, 63, 64, 2**62, LIMIT:
            vector(POWER, angle(base), angle(exponent))
    for base in 0, -1, -2, -HALF:
        for exponent in -62, -63, -LIMIT:
            vector(POWER, angle(base), angle(exponent))
    for base in LIMIT, F(-LIMIT, LIMIT - 1):
        for exponent in 0, 1, -1, 2:
            vector(POWER, angle(base), angle(exponent))
    for base, exponent in [
        (3, 39), (3, 40), (-3, 39), (-3, -39), (7, 22), (7, 23), (F(2, 3), 39), (F(2, 3), 40), (10, 18),
        (10, 19), (3037000499, 2), (3037000500, 2), (F(-1, 3037000499), 2), (2097152, 3), (-2097151, -3),
    ]:
        vector(POWER, angle(base), angle(exponent))
    heading("Roots of 0, 1 and -1")
    for k in 2, 3, 62, 63, 64, 2**32 - 1, 2**32, LIMIT:
        for base, sign in pairs((0, 1, -1), (1, -1)):
            vector(POWER, angle(base), angle(F(sign, k)))
    heading("Other numerators over roots of 0, 1 and -1")
    for exponent in F(2, 3), F(-2, 2**32 + 1), F(LIMIT - 1, LIMIT), F(LIMIT, LIMIT - 1):
        for base in 0, 1, -1:
            vector(POWER, angle(base), angle(exponent))
    heading("Exact and inexact roots")
    for base, exponent in [
        (4, HALF), (4, -HALF), (F(4, 9), F(-3, 2)), (2, HALF), (F(4, 3), HALF), (F(3, 4), -HALF),
        (8, F(1, 3)), (9, F(1, 3)), (F(8, 27), F(-2, 3)), (F(8, 27), F(4, 3)), (2, F(2, 3)), (16, F(3, 4)),
        (2**62, F(1, 62)), (2**62, F(1, 31)), (2**62, F(1, 63)), (2**62 - 1, F(1, 62)),
        (F(1, 2**62), F(-1, 62)), (2, F(62, 3)), (4, F(31, 2)), (4, F(-31, 2)), (4, F(33, 2)),
        (2**31, F(2, 31)), (2**31, F(3, 31)), (2**62, F(1, 64)), (2**62, F(1, 2**32 - 1)),
        (2**62, F(1, 2**32)), (2, F(1, LIMIT)), (2, F(LIMIT, 2)), (HALF, F(-LIMIT, 2)),
        (3037000499**2, HALF), (3037000499**2 + 1, HALF), (2097151**3, F(1, 3)), (2097151**3 - 1, F(1, 3)),
        (LIMIT, HALF), (F(1, LIMIT), HALF),
    ]:
        vector(POWER, angle(base), angle(exponent))
    heading("Roots with negative bases")
    for base in -4, F(-1, 8):
        for exponent in HALF, F(1, 3), F(2, 3), F(-3, 2), F(-2, 3):
            vector(POWER, angle(base), angle(exponent))
    heading("Powers with a pi part")
    for x, y in [
        (PI, angle(0)), (PI, angle(1)), (PI, angle(2)), (angle(1), PI), (ZERO, PI), (ZERO, angle(-1, 1)),
        (angle(1, 1), angle(1, 1)), (angle(LIMIT), angle(LIMIT, 1)),
    ]:
        vector(POWER, x, y)


def trigonometry():
    heading("Sine, cosine and tangent at the multiples of pi/6 and pi/4 from -4 pi to 4 pi")
    multiples = sorted({F(n, 6) for n in range(-24, 25)} | {F(n, 4) for n in range(-16, 17)})
    for op, b in pairs((SINE, COSINE, TANGENT), multiples):
        vector(op, angle(0, b))
    heading("Huge numerators, with overflow in adding pi/2")
    twelves = LIMIT // 12 * 12
    for b in [
        LIMIT, -LIMIT, LIMIT - 1, F(LIMIT, 2), F(-LIMIT, 2), F(LIMIT, 6), F(twelves + 1, 6),
        F(-twelves - 1, 6), 2**62, -(2**62), 2**62 - 1, 2**62 + 1, F(2**62, 3),
    ]:
        for op in SINE, COSINE, TANGENT:
            vector(op, angle(0, b))
    heading("Huge denominators, with overflow in halving, in adding 2 and in adding pi/2")
    for b in [
        F(1, LIMIT), F(2, LIMIT), F(-2, LIMIT), F(LIMIT - 1, LIMIT), F(LIMIT, LIMIT - 1), F(-1, 2**62),
        F(1, 2**62 - 1), F(-1, 2**62 - 1), F(-2, 2**62 - 1), F(2, 2**62 + 1), F(-2, 2**62 + 1), F(-1, 2**61),
    ]:
        for op in SINE, COSINE, TANGENT:
            vector(op, angle(0, b))
    heading("With a rational part")
    for x in angle(1), angle(HALF, HALF), angle(-1, F(1, LIMIT)), angle(LIMIT, 2**62):
        for op in SINE, COSINE, TANGENT:
            vector(op, x)


def other_functions():
    heading("Exponential and logarithm")
    for x in ZERO, angle(1), angle(-1, 1), angle(LIMIT, -LIMIT):
        vector(EXPONENTIAL, x)
        vector(LOGARITHM, x)
    heading("Square roots")
    square = 3037000499**2
    for x in [
        0, 1, 2, 4, -1, -4, F(1, 4), F(-1, 4), F(9, 16), F(9, 8), F(8, 9), 2**62, 2**61, LIMIT, -LIMIT,
        square, square - 1, square + 1, F(1, square), F(square, 2**62), F(1, LIMIT), 10**18,
    ]:
        vector(SQUARE_ROOT, angle(x))
    for x in PI, angle(4, 1), angle(0, 4):
        vector(SQUARE_ROOT, x)


def into_floats():
    heading("into_float of whole numbers around 2^24, and at other ties")
    for n in [1, *range(2**24 - 1, 2**24 + 6), 2**25 + 2, 2**25 + 6, 2**62 + 2**38, LIMIT]:
        into_float_vector(angle(n))
        into_float_vector(angle(-n))
    heading("into_float of fractions, with halves between two f32")
    for value in [
        0, F(1, 3), F(2, 3), F(-1, 10), F(355, 113), F(1, LIMIT), F(LIMIT, LIMIT - 1), F(2**24 - 1, 2**24),
        F(2**24 + 1, 2), F(2**24 + 3, 2), F(-(2**24) - 1, 4), F(2**25 + 1, 2**25 + 3),
        F(2**24 + 1, 2**24 + 3), F(1, 2**24 + 1), F(2**24 + 1, 3), F(10**18, 10**9 + 7), F(1, 2**62),
    ]:
        into_float_vector(angle(value))
    heading("into_float of pi multiples")
    for b in 1, -1, 3, HALF, F(1, 3), F(-1, 4), F(5, 6), F(7, 11), LIMIT, F(-1, LIMIT), 2**24 + 1:
        into_float_vector(angle(0, b))
    heading("into_float of both parts, with ties in the last sum and cancellation")
    for a, b in pairs((1, 4, -3, 2**24), (1, -1, 3, F(5, 7))):
        into_float_vector(angle(a, b))
    for x in VANISHING, VANISHING_TOO, negate(VANISHING), angle(F(355, 113), -1), angle(LIMIT, LIMIT):
        into_float_vector(x)


def from_floats():
    heading("from_float: zeros, subnormals, infinities, NaN")
    for bits in [0, 1, 2, 0x400000, 0x555555, 0x7FFFFF, 0x800000, 0x800001, INFINITY]:
        from_float_vector(bits)
        from_float_vector(bits | SIGN)
    for bits in NAN, NAN | SIGN, 0x7F800001, 0xFF800001, 0x7FFFFFFF, 0xFFFFFFFF, 0x7FA00000:
        from_float_vector(bits)
    heading("from_float: ordinary numbers, and the large end")
    for value in 1, F(1, 10), F(-3, 2), 2**24 - 1, 2**24, -(2**24) - 2, F32_PI:
        from_float_vector(f32_round(F(value)))
    for bits in range(f32_round(F(2**63)) - 2, f32_round(F(2**63)) + 2):
        from_float_vector(bits)
        from_float_vector(bits | SIGN)
    for bits in f32_round(F(-(2**62))), INFINITY - 1, INFINITY - 1 | SIGN:
        from_float_vector(bits)
    heading("from_float: the small end, with denominators 2^62 and 2^63")
    for exponent in -38, -39, -40, -50, -61, -62, -63, -86:
        one = (exponent + 127) << 23
        from_float_vector(one)
        from_float_vector(one + 0x7FFFFF)
        from_float_vector(one + 1 | SIGN)
        for lowest in -62, -63:  # the exponent of the lowest bit set
            if 0 < exponent - lowest <= 23:
                from_float_vector(one + (1 << 23 - exponent + lowest))


def whole_numbers():
    heading("Nearest f32 of a 64-bit number")
    for n in [0, 1, 3, 10**18, LIMIT, 2**63, 2**63 + 1, 2**64 - 1, *range(2**24 - 1, 2**24 + 6)]:
        nearest_vector(n)
    for shift in 2, 20, 39, 40:
        for m in 2**23, 2**23 + 1, 2**24 - 1:  # down, up, and up with a carry
            tie = (2 * m + 1) << shift - 1
            for n in tie - 1, tie, tie + 1:
                nearest_vector(n)
    heading("Greatest common divisors")
    fibonacci = [0, 1]
    while fibonacci[-1] + fibonacci[-2] < 2**64:
        fibonacci.append(fibonacci[-1] + fibonacci[-2])
    for n, m in [
        (0, 0), (0, 1), (1, 0), (0, 2**64 - 1), (2**64 - 1, 0), (0, 12), (12, 0), (1, 2**64 - 1), (12, 18),
        (18, 12), (7, 7), (2**64 - 1, 2**64 - 1), (2**64 - 1, 2**64 - 2), (2**64 - 1, 2**32 - 1),
        (2**63, 2**62), (2**40, 2**63), (2**63, 3 * 2**61), (2**63, LIMIT), (LIMIT, 49), (10**19, 2**40),
        (fibonacci[-1], fibonacci[-2]), (fibonacci[-2], fibonacci[-1]), (fibonacci[-2], fibonacci[-3]),
        (fibonacci[90], fibonacci[60]), (fibonacci[60] * 6, fibonacci[61] * 10),
    ]:
        gcd_vector(n, m)
    heading("Whole roots near perfect powers")
    largest_roots = {2: 3037000499, 3: 2097151, 4: 55108, 5: 6208, 7: 511, 13: 28, 31: 4, 62: 2}
    for k, largest in largest_roots.items():
        assert largest**k <= LIMIT < (largest + 1) ** k
        for r in sorted({2, largest}):
            for v in r**k - 1, r**k, r**k + 1:
                root_vector(k, v)
    for k in 2, 63, 64, 2**32 - 1, 2**32, 2**64 - 1:
        for v in 0, 1, 2, LIMIT:
            root_vector(k, v)


# ------------------------------------------------------------- random part


class Numbers:
    """Random numbers of mixed sizes, drawn as 64 bits at a time."""

    def __init__(self, seed):
        self.source = Random(seed)

    def below(self, n):
        return self.source.getrandbits(64) % n

    def choice(self, options):
        return options[self.below(len(options))]

    def number(self):
        """From 1 to 2^63-1: small, of any length, or near a limit."""
        kind = self.below(4)
        if kind == 0:
            return 1 + self.below(12)
        if kind == 3:
            near = self.choice((LIMIT, LIMIT, 2**62, 2**32, 2**31, 2**24))
            return min(LIMIT, near + 4 - self.below(9))
        return 1 + self.below(2 ** (1 + self.below(62)))

    def signed(self):
        return self.number() * self.choice((1, -1))

    def small(self):
        return Fraction(self.below(25) - 12, 1 + self.below(12))

    def fraction(self):
        kind = self.below(4)
        if kind < 2:
            return self.small()
        return Fraction(self.signed(), 1 if kind == 2 else self.number())

    def angle(self):
        kind = self.below(4)
        a = self.fraction() if kind != 1 else 0
        b = self.fraction() if kind != 0 else 0
        return angle(a, b)


def random_operands(rng, op):
    """Operands for an operation on angles, chosen so that some succeed."""
    x, y = rng.angle(), rng.angle()
    easy = rng.below(2)
    if op in (SUM, DIFFERENCE):
        if easy:
            l = rng.number()
            x, y = (angle(F(rng.signed(), l), F(rng.signed(), l)) for _ in "xy")
        return x, y
    if op == PRODUCT:
        return (x, angle(rng.small())) if easy else (x, y)
    if op == QUOTIENT:
        kind = rng.below(4)
        if kind == 0:
            y = angle(rng.small(), rng.small())
            ratio = rng.small()
            x = angle(y.a * ratio, y.b * ratio)
        elif kind < 3:
            x, y = (angle(rng.small(), rng.small()) for _ in "xy")
        return x, y
    if op == POWER:
        n, d = rng.below(13) - 6, 1 + rng.below(4)
        base = rng.small() ** d if easy else rng.fraction()
        return angle(base), angle(F(n, d))
    if op in (SINE, COSINE, TANGENT):
        if easy:
            d = rng.choice((1, 2, 3, 6))
            return (angle(0, F(rng.signed(), d)),)
        return (angle(0, x.b) if rng.below(4) else x,)
    if op == SQUARE_ROOT:
        return (angle(F(1 + rng.below(2**31), 1 + rng.below(2**31)) ** 2) if easy else x,)
    return (x,)


def random_vectors(rng, rounds):
    heading("Random operands")
    arithmetic = [SUM, DIFFERENCE, PRODUCT, QUOTIENT, QUOTIENT, POWER, POWER]
    functions = [SINE, COSINE, TANGENT, SQUARE_ROOT]
    for turn in range(rounds):
        for op in arithmetic + functions:
            vector(op, *random_operands(rng, op))
        into_float_vector(rng.angle())
        into_float_vector(angle(rng.small(), rng.small()))
        from_float_vector(rng.below(2) * SIGN + (127 - 64 + rng.below(128) << 23) + rng.below(2**23))
        from_float_vector(rng.below(2**32))
        nearest_vector(rng.below(2 ** (1 + rng.below(64))))
        common = rng.below(2**20)
        gcd_vector(common * rng.below(2**44), common * rng.below(2**44))
        gcd_vector(rng.below(2**64), rng.below(2**64))
        k = 2 + rng.below(6)
        root_vector(k, (1 + rng.below(2 ** (62 // k))) ** k - rng.below(2))
        if turn % 4 == 0:
            for op in NEGATION, EXPONENTIAL, LOGARITHM:
                vector(op, *random_operands(rng, op))


def main():
    rng = Numbers(20170711)
    document_examples()
    extremes()
    sums(rng)
    products()
    quotients()
    powers()
    trigonometry()
    other_functions()
    into_floats()
    from_floats()
    whole_numbers()
    random_vectors(rng, 14)
    print("\n".join(lines))


if __name__ == "__main__":
    main()
