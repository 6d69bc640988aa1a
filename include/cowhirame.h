/*
 * The operations of the sequence unit, from the static library of crate unit_words_c.
 *
 *     tools/build unit_words   proves them and writes target/staticlib/libunit_words.a (x86-64, Linux)
 *     cc -I include program.c target/staticlib/libunit_words.a
 *
 * A word is 64 bits. An image, an output and a trace are words one behind the other, lent by the caller: a pointer
 * to the first and how many there are. Each function takes any words and any lengths, answers in every case,
 * and keeps nothing: it allocates nothing, has no state, and may be called from several threads at once. It needs
 * memcpy and memset, and nothing else of a C library. Words that are not told as written are left as they were.
 *
 * What a caller has to see to:
 *   - A pointer is 8-byte aligned and is not NULL, also where the length is 0. Then no word is touched, and the
 *     address of any uint64_t will do. (NULL with length 0 was answered alike when it was tried, but the
 *     language's slices are never null, and a later build need not.)
 *   - The answer, the output and the trace are written. They must not overlap each other or the image, not even
 *     where lengths are such that nothing is written. The image is only read.
 *   - The answer has as many words as stated below, all of which are written.
 *   - A run has up to 1.3 MiB of stack: 0.37 MiB, and 7.2 KiB for each gate call that it is in, at most 128 of them. Check
 *     and tally have less than 0.1 MiB. (Measured with the kit that README.md names. The main thread and a thread of
 *     2 MiB are large enough.)
 *   - A run may be long and is not refused for it: document 01 has no number for that. Its time grows with the words
 *     that it writes, unless gate bodies write nothing and are called with other angles than the time before, as in
 *     g(x) { h(x/2); h(x+1); }: then each call runs a body, and every such gate doubles their number. No more bodies are
 *     run than COWHIRAME_TALLY_ENTRIES says: a caller who runs images of others can ask the tally first.
 *
 * The contract with the customer, "document 01", is what the numbers and records are taken from. What each function
 * is proved to answer stands in crates/unit_words_c/src/lib.rt.
 */
#ifndef COWHIRAME_H
#define COWHIRAME_H

#include <stddef.h>
#include <stdint.h>

#ifdef __cplusplus
extern "C" {
#endif

/* A depth that opens every gate body. Depths 0 and 1 open none. */
#define COWHIRAME_OPEN_ALL UINT64_MAX

/* The words of an image: at least and at most. */
#define COWHIRAME_IMAGE_LEAST 9
#define COWHIRAME_IMAGE_MOST 8192

/* The fewest trace words that a run accepts, and the most that it writes: 128 calls, two words each. */
#define COWHIRAME_TRACE_WORDS 256

/* ---- Answers: how many words each has, and what stands where ---- */

#define COWHIRAME_CHECK_ANSWER 2
#define COWHIRAME_TALLY_ANSWER 11
#define COWHIRAME_RUN_ANSWER 6
#define COWHIRAME_NEXT_ANSWER 2

enum cowhirame_answer {
    COWHIRAME_NUMBER = 0, /* in each answer: 0, or why it is refused (cowhirame_number) */
    COWHIRAME_PLACE = 1,  /* in the answers of check, tally and run: the index of a word of the image, or 0 */
    COWHIRAME_LENGTH = 1, /* in the answer of next: the words of the record, 0 at the end */

    /* in a run's answer */
    COWHIRAME_SECOND = 2,       /* a second place, or the bits of an f32; else 0 */
    COWHIRAME_RECORDS = 3,      /* records written, the head among them */
    COWHIRAME_OUTPUT_USED = 4,  /* output words written, from the first on */
    COWHIRAME_TRACE_USED = 5,   /* trace words written, from the first on */

    /* in a tally's answer; all 0 if it is refused */
    COWHIRAME_TALLY_U = 2,      /* records that a finished run writes, by kind */
    COWHIRAME_TALLY_CX = 3,
    COWHIRAME_TALLY_GATE = 4,
    COWHIRAME_TALLY_BARRIER = 5,
    COWHIRAME_TALLY_MEASURE = 6,
    COWHIRAME_TALLY_RESET = 7,
    COWHIRAME_TALLY_IF = 8,
    COWHIRAME_TALLY_ENTRIES = 9, /* gate bodies that are entered, run or copied */
    COWHIRAME_TALLY_WORDS = 10   /* output words: as many are always enough */
};

/* ---- Numbers: why something is refused ---- */

enum cowhirame_number {
    COWHIRAME_DONE = 0,

    /* by the check, and so by tally and run too */
    COWHIRAME_BAD_CONTENTS = 1,   /* the length, the contents, or over 128 gates; place 0 */
    COWHIRAME_BAD_REGISTER = 2,   /* place of the first bad register */
    COWHIRAME_BAD_GATE = 3,       /* place of the first bad gate entry */
    COWHIRAME_BAD_STATEMENT = 4,  /* 4 to 8: place of a bad statement. Its kind or its own words */
    COWHIRAME_BAD_ARGUMENT = 5,
    COWHIRAME_BAD_EXPRESSION = 6,
    COWHIRAME_BAD_SIZES = 7,
    COWHIRAME_CALL_UPWARD = 8,    /* a body calls its own gate or a later one */

    /* by the run, with a trace */
    COWHIRAME_DIVIDED_BY_ZERO = 9, /* 9, 10, 11, 13: place of the expression */
    COWHIRAME_NO_FRACTION = 10,    /* a float without a fraction; second: its bits */
    COWHIRAME_OVERFLOW = 11,
    COWHIRAME_OVERLAP = 12,        /* place and second: the two arguments on the same qubit */
    COWHIRAME_FLOAT_FUNCTION = 13,
    COWHIRAME_OUTPUT_FULL = 14,    /* the next record is longer than the output words left; place 0 */

    /* by the run, before anything else */
    COWHIRAME_SHORT_TRACE = 15,    /* fewer than 256 trace words lent; place 0 */

    /* by the tally, behind the check */
    COWHIRAME_TALLY_TOO_LARGE = 16, /* a figure passes 4,294,967,295; place 0 */

    /* by next */
    COWHIRAME_NO_RECORD = 17       /* the words there begin no whole record of a known kind, or are past the end */
};

/* ---- Records: the kind is the first word ----
 *
 * An angle a + b*pi has four words: a's numerator and denominator, b's numerator and denominator. Numerators may be
 * negative, in two's complement. Qubits and bits are numbered through all registers.
 */

enum cowhirame_record {
    COWHIRAME_HEAD = 0,      /* qubits, bits; register and offset of each qubit, then of each bit: 3 + 2*(qubits + bits) words */
    COWHIRAME_U = 1,         /* three angles, qubit: 14 words */
    COWHIRAME_CX = 2,        /* control, target: 3 words */
    COWHIRAME_GATE = 3,      /* an opaque gate, or one whose body is not opened: gate, p, q, p angles, q qubits: 4 + 4*p + q words */
    COWHIRAME_BARRIER = 4,   /* how many, the qubits, each once and in rising order: 2 + how many words */
    COWHIRAME_MEASURE = 5,   /* qubit, bit: 3 words */
    COWHIRAME_RESET = 6,     /* qubit: 2 words */
    COWHIRAME_IF = 7,        /* first bit, how many bits, value: 4 words. What follows up to the end is conditional */
    COWHIRAME_END_IF = 8     /* 1 word */
};

/* ---- The operations ---- */

/*
 * Whether an image is a checked program.
 *   image, words   the image and its length
 *   answer         2 words: number and place; 0 0 if it is accepted
 */
void cowhirame_check(const uint64_t *image, size_t words, uint64_t *answer);

/*
 * What a run at a depth will write.
 *   image, words   the image and its length
 *   depth          a gate body is opened if fewer calls than this are on the stack, itself among them
 *   answer         11 words: number, place, nine figures
 */
void cowhirame_tally(const uint64_t *image, size_t words, uint64_t depth, uint64_t *answer);

/*
 * Runs an image: writes its records to the output.
 *   image, words            the image and its length
 *   depth                   as for the tally
 *   output, output_words    the words lent for records. A run with as many as the tally tells is never refused by 14
 *   trace, trace_words      the words lent for the calls that a refusal was met in: at least 256. Two words a call,
 *                           outermost first: 0 for main or the calling gate + 1, and the place of the call
 *   answer                  6 words: number, place, second, records, output words and trace words written
 * A refused run has written the records before the refusal. Only 9 to 14 write a trace.
 */
void cowhirame_run(const uint64_t *image, size_t words, uint64_t depth, uint64_t *output, size_t output_words,
                   uint64_t *trace, size_t trace_words, uint64_t *answer);

/*
 * Reads records back: what stands at a position of some words. The record is at words + at.
 *   words, count   the words, as a run wrote them or any others, and how many
 *   at             the position: 0 first, then that of the last record plus its length
 *   answer         2 words: number and length. 0 and a length of 1 or more: a record; 0 0: the end; 17 0: no record
 */
void cowhirame_next(const uint64_t *words, size_t count, size_t at, uint64_t *answer);

#ifdef __cplusplus
}
#endif

#endif
