"""Whether each quotation in the definitions is a document's own words.

    python3 -m oracle.tests.quotations DOCUMENT_01 DOCUMENT_02 [FILE ..]

A quotation is what stands between double quotes in a comment. It is of a ticket of document 02 if that stands in front
of it, as in: document 02, One: "..". Any other is of document 01. The files are those of the definitions,
crates/*/specs/*.antt, unless others are named. Whitespace is not compared. Prints each quotation that is not found in its
document or ticket; the exit status is 0 if there is none, 1 otherwise.
"""

import pathlib
import re
import sys


def words(text):
    """A text with every run of whitespace as one space."""
    return re.sub(r"\s+", " ", text).strip()


def comments(text):
    """The comments of a file, lines that follow each other as one, with the number of the first line."""
    found, start, parts = [], 0, []
    for number, line in enumerate(text.split("\n"), 1):
        stripped = line.strip()
        if stripped.startswith("--"):
            if not parts:
                start = number
            parts.append(stripped[2:])
        elif parts:
            found.append((start, words(" ".join(parts))))
            parts = []
    if parts:
        found.append((start, words(" ".join(parts))))
    return found


def tickets(text):
    """The text of each ticket of document 02, by its name: a line that begins with **NAME. begins one."""
    _, *parts = re.split(r"^\*\*(\w+)\. ", text, flags=re.MULTILINE)
    return {name: words(part) for name, part in zip(parts[::2], parts[1::2])}


def main(arguments):
    if len(arguments) < 2:
        print(__doc__)
        return 2
    first, second = (pathlib.Path(f).read_text() for f in arguments[:2])
    texts = tickets(second) | {"": words(first)}
    root = pathlib.Path(__file__).resolve().parents[2]
    files = [pathlib.Path(f) for f in arguments[2:]] or sorted(root.glob("crates/*/specs/*.antt"))
    count = of_tickets = missing = 0
    for path in files:
        for line, comment in comments(path.read_text()):
            for ticket, quotation in re.findall(r'(?:[Dd]ocument 02, (\w+): )?"([^"]*)"', comment):
                count += 1
                of_tickets += ticket != ""
                if not re.search(r"(?<!\w)" + re.escape(words(quotation)) + r"(?!\w)", texts.get(ticket, "")):
                    missing += 1
                    print(f"{path}:{line}: {quotation}")
    print(f"{count} quotations, {of_tickets} of them of tickets, {missing} not found")
    return 1 if missing else 0


if __name__ == "__main__":
    sys.exit(main(sys.argv[1:]))
