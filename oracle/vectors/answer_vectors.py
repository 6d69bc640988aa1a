"""Answers of the operations of the program `answer`, printed to standard output: crates/vectors/data/answers.

    python3 -m oracle.vectors.answer_vectors

A line: the operation (1 check, 2 tally, 3 records, 4 records with a long answer), the number of the input's bytes and of
its words, the words, and the bytes of the answer, or of a long answer its length and its sum. Words are decimal; k*w
stands for k words w. The check, the tally and the records are the reference's.

Of records that are read back the first 65,536 words are looked at, and the last line is one of three. `end` and the
number of records: they are the whole input. `more`, the word where the next record starts, and the number of records:
the input is longer, and begins with a record. Otherwise `refused 17` and the word where no record stands.
"""

from oracle.reference.reference import BARRIER, RESET, check, listed_words, next_record, tally_operation
from oracle.vectors.entries import K1, changed, decimal_words
from oracle.vectors.listing_vectors import checksum

CHECK, TALLY, RECORDS, LONG_RECORDS = 1, 2, 3, 4
NO_RECORD = 17

# The words that are looked at, and the longest answer whose bytes stand in a line.
WORDS_READ = 65536
LONGEST_ANSWER = 1000

# A record of one word, and a word that begins none.
END_OF_IF, NO_KIND = 8, 9

# Every kind of record but measure and reset, then a barrier that is cut off.
SOME_RECORDS = list(map(int, """
0 2 0 0 0 0 1  1 0 1 1 2 0 1 0 1 0 1 1 1 0  1 0 1 1 2 0 1 0 1 0 1 1 1 1  2 0 1  4 2 0 1  7 0 1 1
3 0 1 1 18446744073709551615 2 0 1 0  8  4 3 0
""".split()))


def words_in(data):
    return [int.from_bytes(data[k : k + 8], "little") for k in range(0, len(data) // 8 * 8, 8)]


def line_of(numbers):
    return (" ".join(map(str, numbers)) + "\n").encode()


def check_answer(data):
    flaw = (1, 0) if len(data) % 8 else check(words_in(data))
    return line_of(flaw or (0, 0))


def tally_answer(data):
    words = words_in(data)
    answer = ("refused", 1, 0) if len(data) % 8 or not words else tally_operation(words[1:], words[0])
    if answer[0] == "refused":
        return line_of([*answer[1:], *[0] * 9])
    return line_of([0, 0, *answer])


def records_answer(data):
    words, position, lines = words_in(data)[:WORDS_READ], 0, []
    while isinstance(found := next_record(words, position), tuple):
        record = words[position : position + found[1]]
        lines.append(line_of(listed_words(record)))
        position += found[1]
    if len(data) > 8 * WORDS_READ and lines:
        last = "more", position, len(lines)
    elif 8 * position == len(data):
        last = "end", len(lines)
    else:
        last = "refused", NO_RECORD, position
    return b"".join([*lines, line_of(last)])


ANSWERS = {CHECK: check_answer, TALLY: tally_answer, RECORDS: records_answer}
LONG_ANSWER = {RECORDS: LONG_RECORDS}


def bytes_of(words):
    return b"".join(word.to_bytes(8, "little") for word in words)


def vector(remark, operation, data):
    answer = ANSWERS[operation](data)
    whole = data + bytes(-len(data) % 8)
    words = words_in(whole)
    if len(answer) > LONGEST_ANSWER:
        operation, answer = LONG_ANSWER[operation], (len(answer), checksum(answer))
    print(f"# {remark}")
    print(operation, len(data), len(words), *decimal_words(words), *answer)


def main():
    print("# Answers of the operations that the program `answer` has.")
    vector("check of K1 of document 01", CHECK, bytes_of(K1))
    vector("check of K1 with an expression that has a word too many", CHECK, bytes_of(changed(K1, {-5: 1})))
    vector("check of K1 and a byte more", CHECK, bytes_of(K1) + b"\0")
    vector("check of no input", CHECK, b"")
    vector("tally of K1 at depth 8", TALLY, bytes_of([8, *K1]))
    vector("tally of K1 at depth 1", TALLY, bytes_of([1, *K1]))
    vector("tally of a depth alone", TALLY, bytes_of([8]))
    vector("tally of no input", TALLY, b"")
    vector("records of every kind but measure and reset, and words that are no record", RECORDS, bytes_of(SOME_RECORDS))
    vector("records of a measurement and a reset", RECORDS, bytes_of([5, 1, 0, 6, 1]))
    vector("records of no input", RECORDS, b"")
    vector("records of a record of one word, and a byte more", RECORDS, bytes_of([8]) + b"\0")
    full = bytes_of([END_OF_IF] * WORDS_READ)
    almost = bytes_of([END_OF_IF] * (WORDS_READ - 1))
    vector("records of 65,536 words, each a record", RECORDS, full)
    vector("records of 65,536 words, the last no record", RECORDS, almost + bytes_of([NO_KIND]))
    vector("records of 65,535 words, each a record, and seven bytes more", RECORDS, almost + bytes(7))
    vector("records of 65,536 words, each a record, and a byte more", RECORDS, full + b"\0")
    vector("records of 65,537 words, each a record", RECORDS, full + bytes_of([END_OF_IF]))
    vector("records of 65,537 words, of which the last two are a record", RECORDS, almost + bytes_of([RESET, 0]))
    vector("records of 65,536 words, the first no record", RECORDS, bytes_of([NO_KIND]) + almost)
    vector("records of 65,537 words, the first no record", RECORDS, bytes_of([NO_KIND]) + full)
    vector("records of 65,537 words that would be one record", RECORDS, bytes_of([BARRIER, WORDS_READ - 1]) + almost)


if __name__ == "__main__":
    main()
