"""Compares the unit's check of damaged images with the reference's.

    cargo run .. --bin damaged -- SEED COUNT | python3 -m oracle.tests.damaged_images

The lines of the Rust program `damaged` are read from standard input.
"""

import sys
from collections import Counter

from oracle.reference import reference


def main():
    counts, differences = Counter(), 0
    for line in sys.stdin:
        number, place, *words = map(int, line.split())
        expected = reference.check(words) or (0, 0)
        counts[number] += 1
        if (number, place) != expected:
            differences += 1
            print("difference:", (number, place), "not", expected, "image", *words)
    print(*(f"{number}: {counts[number]}" for number in sorted(counts)), sep="  ")
    print(f"{counts.total()} compared, {differences} differences")
    sys.exit(differences > 0)


if __name__ == "__main__":
    main()
