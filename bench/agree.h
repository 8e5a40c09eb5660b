/* Compares versions of the valuation with each other. */
#ifndef AGREE_H
#define AGREE_H

#include "filings.h"
#include "versions.h"

struct version {
    const char *name;
    value_function *value;
};

/* What a valuation answers: lists of two numbers more than it writes, which are left past the 568 and the 374. */
enum { NUMBERS = 570, BORROWED_NUMBERS = 376 };
struct answer {
    uint64_t number, place, numbers[NUMBERS], borrowings[BORROWED_NUMBERS];
};

/* The answer of one version, which may use the first so many of each list. */
struct lengths {
    size_t numbers, borrowings;
};
extern const struct lengths full;
void value_into(value_function *function, struct input f, struct lengths lent, struct answer *to);

/* All versions give the same answer, place and lists; the answer. Ends the program where they do not. */
uint64_t agree(const struct version *version, int versions, struct input f, struct lengths lent);

/* The same on random filings, some with lists that are too short, with what was answered. */
void compare_random(const struct version *version, int versions, int filings);

#endif
