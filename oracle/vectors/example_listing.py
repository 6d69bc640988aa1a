"""The reference's listing of an image in decimal text, with all calls opened, printed to standard output.

    python3 -m oracle.vectors.example_listing IMAGE

What follows a '#' on a line of the image is a comment.
"""

import sys
from pathlib import Path

from oracle.reference.reference import listing, listing_input

OPEN_ALL = 2**64 - 1


def main(image):
    text = Path(image).read_text(encoding="utf-8")
    words = [int(word) for line in text.splitlines() for word in line.partition("#")[0].split()]
    sys.stdout.buffer.write(listing(listing_input(words, OPEN_ALL)))


if __name__ == "__main__":
    main(*sys.argv[1:])
