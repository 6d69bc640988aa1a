"""Prints runs of accepted images with the reference's outcomes, one a line, for
the Rust program `replay`, which compares the published linearizer with them.

    python3 -m oracle.tests.reference_runs COUNT SEED [large] | cargo run .. --bin replay

A line: depth, output words lent; number, place, second, records; how many output
words, these; how many trace words, these; the image.
"""

import sys
from random import Random

from oracle.reference import reference
from oracle.vectors import random_images


def main(count=1000, seed=1, scale=""):
    rng, left = Random(int(seed)), int(count)
    while left:
        case = random_images.random_case(rng, scale == "large")
        if reference.check(case.words):
            continue
        left -= 1
        outcome = reference.run(case.words, case.depth, case.output_length, 256)
        numbers = (
            case.depth, case.output_length, *outcome[:4], len(outcome.output), *outcome.output,
            len(outcome.trace), *outcome.trace, *case.words,
        )
        print(*numbers)


if __name__ == "__main__":
    main(*sys.argv[1:])
