/* What the examples that are worked out by hand share: records, answers between guards, and comparisons that are counted. */
#ifndef EXAMPLES_H
#define EXAMPLES_H
#include "test.h"

/* comparisons of one function: one test, passed if none differs */
struct tally {
    const char *name;
    long compared, differ;
};

/* an answer between guard words, full of garbage before the call */
struct guarded {
    uint64_t before, answer[8], after;
};

extern const uint8_t example[80]; /* the specification's: {0|0} - {1|1} on two modes */
extern const uint8_t none[32];    /* no terms, on two modes */

struct guarded dirty(void);
struct guarded answer_of(uint64_t number, uint64_t operand, uint64_t len, uint64_t rows, uint64_t x, uint64_t y, uint64_t z);
void compare(struct tally *t, const void *got, const void *expected, size_t n);
void same_answer(struct tally *t, struct guarded got, struct guarded expected);
void print_tallies(const struct tally *all, size_t n, int *passed, int *failed);
#endif
