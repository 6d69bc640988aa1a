"""Images and depths with the length and the checksum of the listing, printed to standard output.

    python3 -m oracle.vectors.listing_vectors SEED COUNT

First K1 of document 01, whose listing stands in the document.  Then so many
listings of the published linearizer, which the Rust program `listing_vectors`
prints: it needs cargo, and OPENQASM_SOURCE, which names the folder of the sources.

A line that starts with '#' is a comment.  Every other line holds a listing:

    words depth length checksum  word word ..

First how many words the image has and the depth, then the length of the listing
in bytes and its checksum; the image's words close the line.
"""

import subprocess
import sys
from pathlib import Path

from oracle.vectors.entries import K1

RUST = Path(__file__).resolve().parent.parent / "rust"

K1_DEPTH = 8
K1_LISTING = b"""\
0 2 0 0 0 0 1
1 0 1 1 2 0 1 0 1 0 1 1 1 0
1 0 1 1 2 0 1 0 1 0 1 1 1 1
2 0 1
done 4
"""

# A polynomial over the bytes.
FACTOR, PRIME = 65599, 4294967291


def checksum(data):
    total = 0
    for byte in data:
        total = (total * FACTOR + byte) % PRIME
    return total


def published(seed, count):
    """The lines of the Rust program."""
    cargo = ["cargo", "run", "--manifest-path", str(RUST / "Cargo.toml")]
    program = ["--offline", "--quiet", "--release", "--jobs", "1", "--bin", "listing_vectors", "--", seed, count]
    return subprocess.run(cargo + program, stdout=subprocess.PIPE, text=True, check=True).stdout


def main(seed, count):
    print("# K1 of document 01, from its text")
    print(len(K1), K1_DEPTH, len(K1_LISTING), checksum(K1_LISTING), *K1)
    print(f"# the published linearizer: sample {seed} {count}")
    print(published(seed, count), end="")


if __name__ == "__main__":
    main(*sys.argv[1:])
