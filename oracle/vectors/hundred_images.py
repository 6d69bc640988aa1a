"""A hundred random images by seed, each with a depth and lengths to lend.  The
makers of the runs and of the tallies both take them.

    hundred_cases()    the cases, each a random_images.Case

The cases are small.  Left out are images of many words, images whose tally has
many records and body entries, and cases with a large exponent: the drawing of a
case ends where the reference would take such a power or root, and the next case
is drawn from there on, so the bounds are a part of what the seed gives.
"""

from contextlib import contextmanager
from random import Random

from oracle.reference import angles, reference
from oracle.vectors import random_images

COUNT, SEED = 100, 2026

LARGE_EXPONENT = 300
MOST_WORK = 3000
MOST_WORDS = 260


class TooLarge(Exception):
    pass


def bounded(operation, exponent_place):
    """A power or a root, whose exponent stands at this place of its operands."""
    def checked(*operands):
        if operands[exponent_place] > LARGE_EXPONENT:
            raise TooLarge
        return operation(*operands)
    return checked


@contextmanager
def bounded_exponents():
    """The reference without large exponents."""
    power, root = angles.fraction_power, angles.fraction_root
    angles.fraction_power, angles.fraction_root = bounded(power, 1), bounded(root, 0)
    try:
        yield
    finally:
        angles.fraction_power, angles.fraction_root = power, root


def work(case):
    """Records and body entries, if the image is accepted."""
    if reference.check(case.words) is not None:
        return 0
    return sum(reference.tally(case.words, case.depth)[:reference.WORDS_FIGURE])


def small_case(rng):
    """The next case that is drawn, or TooLarge."""
    case = random_images.random_case(rng)
    if len(case.words) > MOST_WORDS or work(case) > MOST_WORK:
        raise TooLarge
    reference.run(*case)
    return case


def hundred_cases():
    rng, cases = Random(SEED), []
    with bounded_exponents():
        while len(cases) < COUNT:
            try:
                cases.append(small_case(rng))
            except TooLarge:
                pass
    return cases
