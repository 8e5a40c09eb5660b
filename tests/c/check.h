/* What the tests of the C calls share: checks that are counted, filings read from files, and lists of numbers that no call writes. */
#ifndef CHECK_H
#define CHECK_H

#include <stddef.h>
#include <stdint.h>

/* A number that no call writes. */
#define UNTOUCHED UINT64_C(0xdeadbeefcafef00d)

struct bytes {
    uint8_t *at;
    size_t size;
};

/* A stored input of the listing, by its name, and document 01's sample. */
struct bytes stored(const char *name);
struct bytes sample(void);

/* The filings that are refused, with their answer: number and place. Ends at a name that is NULL. */
struct refusal {
    const char *name;
    uint64_t number, place;
};
extern const struct refusal refusals[];

void fill(uint64_t *list, size_t count);
int untouched(const uint64_t *list, size_t count);
int equal(const uint64_t *list, const uint64_t *wanted, size_t count);

/* Counts a check as passed or failed; `what` says what was tried. */
void count_check(int held, const char *what, const char *test, const char *file, int line);
#define CHECK(what, test) count_check((test), (what), #test, __FILE__, __LINE__)

void try_value(void);
void try_cells(void);
void try_book(void);
void try_price(void);

#endif
