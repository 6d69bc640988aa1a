/*
 * reserve IMAGE [DEPTH]: runs an image with exactly as much memory as its tally asks for, and prints the listing.
 * IMAGE holds little-endian words of 8 bytes; `cowhirame pack` makes them from text.
 *
 * Build, at the top of the repository:
 *     tools/build unit_words
 *     gcc -std=c99 -Wall -Wextra -pedantic -I include -o target/reserve-c examples/c/reserve.c target/staticlib/libunit_words.a
 * Run:
 *     ./cowhirame pack examples/bell.image > target/bell.words
 *     target/reserve-c target/bell.words
 */
#include <errno.h>
#include <inttypes.h>
#include <stdio.h>
#include <stdlib.h>

#include "cowhirame.h"

enum { DONE = 0, REFUSED = 1, UNUSABLE = 2 };

static int unusable(const char *what, const char *name) {
    fprintf(stderr, "reserve: %s: %s\n", name, what);
    return UNUSABLE;
}

/* Memory for so many words, at least one: a pointer that is lent must not be NULL. */
static uint64_t *reserve(uint64_t words) {
    if (words > SIZE_MAX / sizeof(uint64_t)) return NULL;
    return malloc((words ? (size_t)words : 1) * sizeof(uint64_t));
}

/* The little-endian words of a file. One more than an image may have is enough to be refused. */
static int read_image(const char *name, uint64_t *image, size_t *words) {
    unsigned char bytes[8];
    FILE *file = fopen(name, "rb");
    size_t got = 8;
    if (file == NULL) return unusable("cannot be opened", name);
    *words = 0;
    while (*words <= COWHIRAME_IMAGE_MOST && (got = fread(bytes, 1, 8, file)) == 8) {
        uint64_t word = 0;
        for (int i = 7; i >= 0; i--) word = word << 8 | bytes[i];
        image[(*words)++] = word;
    }
    fclose(file);
    return got == 8 || got == 0 ? DONE : unusable("ends within a word", name);
}

static int read_depth(const char *text, uint64_t *depth) {
    char *end;
    errno = 0;
    *depth = strtoull(text, &end, 10);
    return text[0] < '0' || text[0] > '9' || *end || errno ? unusable("is no depth", text) : DONE;
}

/* Whether a word of a record belongs to an angle, and so is signed. */
static int is_signed(const uint64_t *record, uint64_t at) {
    if (record[0] == COWHIRAME_U) return at >= 1 && at < 13;
    return record[0] == COWHIRAME_GATE && at >= 4 && at < 4 + 4 * record[2];
}

static void print_record(const uint64_t *record, uint64_t words) {
    for (uint64_t at = 0; at < words; at++) {
        int minus = is_signed(record, at) && record[at] >> 63;
        printf("%s%s%" PRIu64, at ? " " : "", minus ? "-" : "", minus ? 0 - record[at] : record[at]);
    }
    printf("\n");
}

static void print_records(const uint64_t *output, uint64_t words) {
    uint64_t next[COWHIRAME_NEXT_ANSWER];
    for (size_t at = 0;; at += (size_t)next[COWHIRAME_LENGTH]) {
        cowhirame_next(output, (size_t)words, at, next);
        if (next[COWHIRAME_LENGTH] == 0) return; /* the end: a run writes whole records */
        print_record(output + at, next[COWHIRAME_LENGTH]);
    }
}

static int print_refusal(const uint64_t *trace, const uint64_t *answer) {
    for (uint64_t at = 0; at < answer[COWHIRAME_TRACE_USED]; at += 2)
        printf("from %" PRIu64 " %" PRIu64 "\n", trace[at], trace[at + 1]);
    printf("refused %" PRIu64 " %" PRIu64 " %" PRIu64 "\n", answer[COWHIRAME_NUMBER], answer[COWHIRAME_PLACE],
           answer[COWHIRAME_SECOND]);
    return REFUSED;
}

/* Runs an image into an output of so many words, and prints what it wrote and how it ended. */
static int run(const uint64_t *image, size_t words, uint64_t depth, uint64_t *output, uint64_t output_words) {
    uint64_t trace[COWHIRAME_TRACE_WORDS], answer[COWHIRAME_RUN_ANSWER];
    cowhirame_run(image, words, depth, output, (size_t)output_words, trace, COWHIRAME_TRACE_WORDS, answer);
    print_records(output, answer[COWHIRAME_OUTPUT_USED]);
    if (answer[COWHIRAME_NUMBER] != COWHIRAME_DONE) return print_refusal(trace, answer);
    printf("done %" PRIu64 "\n", answer[COWHIRAME_RECORDS]);
    return DONE;
}

int main(int argc, char **argv) {
    static uint64_t image[COWHIRAME_IMAGE_MOST + 1];
    uint64_t tally[COWHIRAME_TALLY_ANSWER], depth = COWHIRAME_OPEN_ALL;
    size_t words;
    if (argc < 2 || argc > 3) return unusable("IMAGE [DEPTH]", "usage");
    if (read_image(argv[1], image, &words) || (argc == 3 && read_depth(argv[2], &depth))) return UNUSABLE;

    cowhirame_tally(image, words, depth, tally);
    if (tally[COWHIRAME_NUMBER] != COWHIRAME_DONE) {
        printf("refused %" PRIu64 " %" PRIu64 " 0\n", tally[COWHIRAME_NUMBER], tally[COWHIRAME_PLACE]);
        return REFUSED;
    }
    uint64_t *output = reserve(tally[COWHIRAME_TALLY_WORDS]);
    if (output == NULL) return unusable("needs more memory than there is", argv[1]);
    int ended = run(image, words, depth, output, tally[COWHIRAME_TALLY_WORDS]);
    free(output);
    return ended;
}
