/* The filings that are compared and timed. Every one is allocated anew; the caller frees its bytes. */
#ifndef FILINGS_H
#define FILINGS_H

#include <stddef.h>
#include <stdint.h>

struct input {
    const char *name;
    uint8_t *bytes;
    size_t size;
};

/*
 * A filing by name:
 *   worst        nine cells, longest terms, all 36 sub-balances, 120 distinct yields, none of them cut at 0 by a shift
 *   typical      six cells, terms of 2 to 52 months
 *   fullest      every listed cell of certificates with the longest records, shortest terms
 *   no-balances  the records of the worst filing with every balance 0: read and split, and no month priced
 *   one-balance  the same with one sub-balance of 120 months, retail without penalty
 *   no-borrowings, one-borrowing  the records of worst-borrowed with every balance 0, and with one borrowing of 120 months
 *   refused      the fullest filing, then a cell a second time
 * The first two may go on with -tiers: sixteen tiers of its own, of which a retail month reaches only the lowest; -path: retail rates by month,
 * in the worst filing up and down from month to month; -fine: coupons in thousandths. -all is all three. The worst may go on with -amended: each
 * cell amended twice, to its own value. The first three may go on with -borrowed: all 24 borrowings with the longest terms and 120 distinct LIBOR
 * yields; nine of 2, 18 and 60 months; all 24 with the shortest terms, which is the longest filing of all without amendments.
 */
struct input named(const char *name);

/* A long input: the records of fullest-borrowed or none, and then bytes `fill` that no rule allows, up to `size`. */
struct input hostile(const char *name, size_t size, int late, int fill);

/*
 * Amendments up to `size` bytes, all of value 0, and sheets before them: each cell's 65,535 numbers before the next cell's (65,535 fill 1.1 MiB), the 80
 * cells in turn, or in turn with the last record twice, which is refused; and with numbers that fall, each cell's before the next cell's, or the 80 cells in
 * turn with numbers spread over all 65,535.
 */
enum shape { ONE_CELL, IN_TURN, LAST_TWO_ALIKE, FALLING, FALLING_SPREAD };
struct input amendments(const char *name, size_t size, enum shape shape);

/* A random filing, records in any order, some with a fault and some damaged, more than half of them accepted; and where the sequence starts. */
struct input any(void);
void start_random(uint64_t seed);

/* A random number below n. */
uint64_t below(uint64_t n);

#endif
