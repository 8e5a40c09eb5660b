/*
 * Arithmetic of the fast versions, by 128-bit products (gcc, clang). No month and no factor divides: x * n / d rounded down is the upper half of x * m,
 * where m is 2^64 * n / d rounded up; rounded up it is 1 more than the upper half of x * (m - 1), for x from 1 on. Both are exact where x * d is at most
 * 2^64: balances and flows stay under 4.6 * 10^9, and d is at most 3 * 10^9.
 */
#ifndef FAST_H
#define FAST_H

#include "read.h"

#define PAR UINT64_C(1000000000)

struct pair {
    uint64_t lower, upper;
};

/* The upper half of x * m; m from 2^63 on stands for m - 2^64 in the second. */
static inline uint64_t high(uint64_t x, uint64_t m) { return (uint64_t)((unsigned __int128)x * m >> 64); }
static inline uint64_t high_signed(uint64_t x, uint64_t m) { return (uint64_t)((__int128)(int64_t)x * (int64_t)m >> 64); }

/* n * 2^64 / 10^9, n * 2^64 / (3 * 10^9) less the multiples of 2^64, and n * 2^63 / 10^9, rounded up. */
static inline uint64_t of_par(uint64_t n) { return n * 18446744073 + (n * 709551616 + PAR - 1) / PAR; }
static inline uint64_t of_three_par(uint64_t n) { return n * 6148914691 + (n * 709551616 + 3 * PAR - 1) / (3 * PAR); }
static inline uint64_t of_two_par(uint64_t n) { return n * 9223372036 + (n * 854775808 + PAR - 1) / PAR; }

static inline uint64_t shifted(uint64_t rate, int scenario)
{
    uint64_t v = rate + 100 * (uint64_t)scenario;
    return v < 300 ? 0 : v - 300;
}

/*
 * The discount factors of month t, the scenarios in step, as multipliers of twice a flow. 120,000 * floor(2^64 / (120,000 + z)) is less than 120,000
 * below 2^64 * 120,000 / (120,000 + z): near enough for factors up to 10^9. A yield of 0 leaves par; its lower multiplier would be 2^64.
 */
static inline void discount(uint64_t yield, int t, struct pair to[7][120])
{
    uint64_t m[7], lower[7], upper[7];
    for (int s = 0; s < 7; s++) {
        m[s] = UINT64_MAX / (120000 + shifted(yield, s)) * 120000;
        upper[s] = PAR;
    }
    for (int i = 0; i < t; i++)
        for (int s = 0; s < 7; s++) upper[s] = high(upper[s], m[s]) + 1;
    for (int s = 0; s < 7; s++) {
        m[s] += 120000;
        lower[s] = PAR;
    }
    for (int i = 0; i < t; i++)
        for (int s = 0; s < 7; s++) lower[s] = high(lower[s], m[s]);
    for (int s = 0; s < 7; s++) {
        to[s][t - 1].lower = of_two_par(shifted(yield, s) == 0 ? PAR : lower[s]);
        to[s][t - 1].upper = of_two_par(upper[s]) - 1;
    }
}

/* The product of a flow and a factor, lower and upper; the upper one lacks 1. */
static inline struct pair product(struct pair flow, const struct pair *factor)
{
    return (struct pair){high(2 * flow.lower, factor->lower), high(2 * flow.upper, factor->upper)};
}

static inline struct pair sum(struct pair x, struct pair y) { return (struct pair){x.lower + y.lower, x.upper + y.upper}; }

/* Lower and upper value of a balance at a price. */
static inline void put_value(uint64_t balance, struct pair price, uint64_t to[2])
{
    to[0] = balance * price.lower / 1000000;
    to[1] = (balance * price.upper + 999999) / 1000000;
}

/*
 * The 374 numbers of the borrowings; `factor` is room for their discount factors (fast_borrowings.c). Walked borrowing by borrowing and scenario by
 * scenario, or with the scenarios of a month in step, or with the months of a coupon class walked once for its three terms.
 */
typedef void borrowings_function(const struct contents *k, struct pair factor[7][120], uint64_t *numbers);
borrowings_function borrowings_walked, borrowings_in_step, borrowings_by_class;

#endif
