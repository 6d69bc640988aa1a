"""The listing program: python3 -m oracle.reference < INPUT

INPUT is a depth and an image, as little-endian words.
"""

import sys

from oracle.reference.reference import listing

sys.stdout.buffer.write(listing(sys.stdin.buffer.read()))
