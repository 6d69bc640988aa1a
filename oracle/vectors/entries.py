"""Images written out entry by entry, and how a line of vectors holds their words."""

from oracle.reference.reference import BARRIER, INTEGER, PI, VARIABLE

# The image of document 01's cases K1 and K2.
K1 = list(map(int, """
    54 1 0 1 2 1 4 1 5 2 1 1 1 2 1 3 0 0 0 0 2 1 2 0 0 1 3 4 0 3 0 0 0 1 0 2 0 0 2 0 0 0 2 2 0 7 0 1 3 0 0 2 0 0
""".split()))


def image(quantum=(), classical=(), gates=(), main=(), further=(), arguments=(), parameters=(), expressions=()):
    """An image of these entries; statements are filled up with zeros."""
    lists = [
        [(size,) for size in quantum],
        [(size,) for size in classical],
        gates,
        [(*statement, 0, 0, 0, 0)[:5] for statement in main],
        [(*statement, 0, 0, 0, 0)[:5] for statement in further],
        arguments,
        [(expression,) for expression in parameters],
        expressions,
    ]
    entries = [word for entries in lists for entry in entries for word in entry]
    return [9 + len(entries), *map(len, lists), *entries]


def changed(words, changes):
    """A copy of an image with other words at some places."""
    words = list(words)
    for place, word in changes.items():
        words[place] = word
    return words


PI_ENTRY = PI, 0, 0


def integer(n):
    return INTEGER, n, 0


def variable(n):
    return VARIABLE, n, 0


def opaque(parameters, arguments):
    return parameters, arguments, 0, 0, 0


def gate(parameters, arguments, first, length):
    return parameters, arguments, 1, first, length


# A barrier of no arguments.
NOTHING = BARRIER, 0, 0


def decimal_words(words):
    """Words in decimal; more than eight equal ones as k*w."""
    start = 0
    while start < len(words):
        end = start
        while end < len(words) and words[end] == words[start]:
            end += 1
        length = end - start
        yield from [f"{length}*{words[start]}"] if length > 8 else [str(words[start])] * length
        start = end
