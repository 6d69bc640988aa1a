"""Fractions and angles: a second reading of document 01's section on them.

It was written only from document 01 ("Fractions and angles", which decides)
and from the Rust value.rs (order of operations), with no sight of the code it
tests.  It takes the plainest way throughout: fractions are fractions.Fraction
on unbounded integers, and the range is tested afterwards; an f32 is its bit
pattern, and every operation on it works out the exact rational result and
rounds that once.  The machine's own floating point is never used.

An operation that document 01 refuses raises AngleRefusal with its number: 9
division by zero, 10 float without a fraction (with the f32), 11 overflow, 13
function of floats.
"""

from collections import namedtuple
from fractions import Fraction
from math import gcd, trunc

# ---------------------------------------------------------------- binary32
# An f32 is its bit pattern, an integer below 2^32.

SIGN = 0x80000000
INFINITY = 0x7F800000
NAN = 0x7FC00000
PI_F32 = 0x40490FDB


def f32_is_nan(x):
    return x & ~SIGN > INFINITY


def f32_is_infinite(x):
    return x & ~SIGN == INFINITY


def f32_value(x):
    """The exact value of a finite f32; both zeros give 0."""
    field, mantissa = x >> 23 & 0xFF, x & 0x7FFFFF
    if field:
        mantissa += 1 << 23
    magnitude = mantissa * Fraction(2) ** (max(field, 1) - 150)
    return -magnitude if x & SIGN else magnitude


def f32_round(value):
    """The f32 nearest to a rational, ties to even; 0 gives +0."""
    if value == 0:
        return 0
    magnitude = abs(value)
    exponent = magnitude.numerator.bit_length() - magnitude.denominator.bit_length()
    if magnitude < Fraction(2) ** exponent:
        exponent -= 1
    exponent = max(exponent, -126)  # below 2^-126 the unit stays the same
    units = round(magnitude / Fraction(2) ** (exponent - 23))  # ties to even
    # The leading unit bit adds 1 to the exponent field, a carry adds another.
    bits = min(((exponent + 126) << 23) + units, INFINITY)
    return bits | SIGN if value < 0 else bits


def f32_sum(x, y):
    if f32_is_nan(x) or f32_is_nan(y):
        return NAN
    if f32_is_infinite(x):
        return NAN if f32_is_infinite(y) and x != y else x
    if f32_is_infinite(y):
        return y
    total = f32_value(x) + f32_value(y)
    return f32_round(total) if total else x & y & SIGN


def f32_product(x, y):
    sign = (x ^ y) & SIGN
    if f32_is_nan(x) or f32_is_nan(y):
        return NAN
    if f32_is_infinite(x) or f32_is_infinite(y):
        return NAN if x & ~SIGN == 0 or y & ~SIGN == 0 else INFINITY | sign
    return f32_round(abs(f32_value(x) * f32_value(y))) | sign


def f32_quotient(x, y):
    sign = (x ^ y) & SIGN
    if f32_is_nan(x) or f32_is_nan(y):
        return NAN
    if f32_is_infinite(x):
        return NAN if f32_is_infinite(y) else INFINITY | sign
    if f32_is_infinite(y):
        return sign
    if y & ~SIGN == 0:
        return NAN if x & ~SIGN == 0 else INFINITY | sign
    return f32_round(abs(f32_value(x) / f32_value(y))) | sign


# --------------------------------------------------------------- fractions

LIMIT = 2**63 - 1
PI_SQUARED = Fraction(6499908331188584841, 658578405682719844)

DIVISION_BY_ZERO, NO_FRACTION, OVERFLOW, FLOAT_FUNCTION = 9, 10, 11, 13


class AngleRefusal(Exception):
    def __init__(self, number, bits=0):
        super().__init__(number)
        self.number, self.bits = number, bits


def fits(number):
    return -LIMIT <= number <= LIMIT


def in_range(value):
    """An exact product, quotient or power: overflow if it doesn't fit reduced."""
    if not (fits(value.numerator) and fits(value.denominator)):
        raise AngleRefusal(OVERFLOW)
    return value


def sum_steps(x, y):
    """The steps l, p, q, s of the sum of two fractions."""
    a, b, c, d = x.numerator, x.denominator, y.numerator, y.denominator
    l = b // gcd(b, d) * d
    p = l // b * a
    q = l // d * c
    return {"l": l, "p": p, "q": q, "s": p + q}


def overflowing_steps(x, y):
    return "".join(name for name, number in sum_steps(x, y).items() if not fits(number))


def fraction_sum(x, y):
    if overflowing_steps(x, y):
        raise AngleRefusal(OVERFLOW)
    steps = sum_steps(x, y)
    return Fraction(steps["s"], steps["l"])


def fraction_power(base, exponent):
    """base^exponent for a whole exponent of 0 or more."""
    if exponent == 0:
        return Fraction(1)
    if base in (0, 1):
        return base
    if base == -1:
        return Fraction(-1 if exponent % 2 else 1)
    if exponent >= 64:  # numerator or denominator is 2 or more in size
        raise AngleRefusal(OVERFLOW)
    return in_range(base**exponent)


def whole_root(k, v):
    """The r with r^k = v, or None; k is 2 or more, v below 2^63."""
    if v < 2:
        return v
    if k >= 63:
        return None  # 2^63 is too large already
    low, high = 1, 2**32
    while high - low > 1:
        middle = (low + high) // 2
        if middle**k <= v:
            low = middle
        else:
            high = middle
    return low if low**k == v else None


def fraction_root(k, value):
    """The exact k-th root of a fraction; without one the Rust goes to f32."""
    if k > 2**32 - 1 or value < 0:
        raise AngleRefusal(FLOAT_FUNCTION)
    n, d = whole_root(k, value.numerator), whole_root(k, value.denominator)
    if n is None or d is None:
        raise AngleRefusal(FLOAT_FUNCTION)
    return Fraction(n, d)


# ------------------------------------------------------------------ angles

Angle = namedtuple("Angle", "a b")


def angle(a, b=0):
    return Angle(in_range(Fraction(a)), in_range(Fraction(b)))


def numbers(x):
    """The four numbers of an angle: a's n and d, then b's n and d."""
    return x.a.numerator, x.a.denominator, x.b.numerator, x.b.denominator


ZERO = angle(0)


def into_float(x):
    def part(value):
        return f32_quotient(
            f32_round(Fraction(value.numerator)), f32_round(Fraction(value.denominator))
        )

    return f32_sum(part(x.a), f32_product(PI_F32, part(x.b)))


def from_float(bits):
    if f32_is_nan(bits):
        raise AngleRefusal(NO_FRACTION, NAN)
    if f32_is_infinite(bits):
        raise AngleRefusal(NO_FRACTION, bits)
    value = f32_value(bits)
    if not (fits(value.numerator) and fits(value.denominator)):
        raise AngleRefusal(NO_FRACTION, bits)
    return angle(value)


def add(x, y):
    return Angle(fraction_sum(x.a, y.a), fraction_sum(x.b, y.b))


def subtract(x, y):
    return Angle(fraction_sum(x.a, -y.a), fraction_sum(x.b, -y.b))


def multiply(x, y):
    c = in_range(in_range(x.b * y.b) * PI_SQUARED)
    return Angle(
        fraction_sum(in_range(x.a * y.a), c),
        fraction_sum(in_range(x.b * y.a), in_range(x.a * y.b)),
    )


def divide(x, y):
    if y == ZERO:
        raise AngleRefusal(DIVISION_BY_ZERO)
    if y.b == 0:
        return Angle(in_range(x.a / y.a), in_range(x.b / y.a))
    if y.a == 0:
        if x.a == 0:
            return angle(in_range(x.b / y.b))
    else:
        ratio_a, ratio_b = in_range(x.a / y.a), in_range(x.b / y.b)
        if ratio_a == ratio_b:
            return angle(ratio_a)
    return from_float(f32_quotient(into_float(x), into_float(y)))


def power(x, y):
    if x.b != 0 or y.b != 0:
        raise AngleRefusal(FLOAT_FUNCTION)
    result = fraction_power(x.a, abs(y.a.numerator))
    if y.a.denominator != 1 and result != 1:
        result = fraction_root(y.a.denominator, result)
    if y.a < 0:
        if result == 0:
            raise AngleRefusal(DIVISION_BY_ZERO)
        result = 1 / result
    return angle(result)


def negate(x):
    return multiply(x, angle(-1))


HALF = Fraction(1, 2)
SINES = {  # of a number of pi from 0 to 2; the source's list has no 1
    Fraction(0): 0,
    Fraction(1, 6): HALF,
    Fraction(1, 2): 1,
    Fraction(5, 6): HALF,
    Fraction(7, 6): -HALF,
    Fraction(3, 2): -1,
    Fraction(11, 6): -HALF,
}


def sine(x):
    if x.a != 0:
        raise AngleRefusal(FLOAT_FUNCTION)
    half = in_range(x.b / 2)
    turn = in_range((half - trunc(half)) * 2)
    if turn < 0:
        turn = fraction_sum(turn, Fraction(2))
    if turn not in SINES:
        raise AngleRefusal(FLOAT_FUNCTION)
    return angle(SINES[turn])


def cosine(x):
    return sine(add(x, angle(0, HALF)))


def tangent(x):
    s = sine(x)  # its refusal wins
    return divide(s, cosine(x))


def float_function(x):
    raise AngleRefusal(FLOAT_FUNCTION)


def square_root(x):
    if x.b != 0:
        raise AngleRefusal(FLOAT_FUNCTION)
    return angle(fraction_root(2, x.a))
