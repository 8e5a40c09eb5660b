/*
 * What a filing says, for the plain C versions: read.c reads its bytes as documents 01 and 02 say, contents.c tests and splits its balances. Nothing is
 * proved here and nothing is taken from the proved library.
 */
#ifndef READ_H
#define READ_H

#include <stddef.h>
#include <stdint.h>

/* Withdrawal tiers, highest edge (hundredths) first. survival[count] is that of a ratio that reaches no edge. */
struct tiers {
    int count;
    int64_t edge[16];
    uint64_t survival[17];
};

enum { FIRST_CELL = 601, LAST_CELL = 715, CELLS = LAST_CELL - FIRST_CELL + 1, BORROWINGS = 24 };

/*
 * Cells 601 to 715 as filed, 0 where absent, the coupons of certificates in thousandths of a percent a year; CD and LIBOR yields by month and retail rates
 * by column and month, in hundredths of a percent a year; whether each column has one rate for all months (kind 3).
 */
struct contents {
    uint64_t cell[CELLS];
    uint64_t yield[120], libor[120];
    uint64_t rate[3][120];
    int flat;
    struct tiers tiers;
};

/* One of the thirty-six sub-balances; its coupon in thousandths, its column 0 to 2, its penalty 0 where it is not subject to one. */
struct place {
    uint64_t balance, coupon, penalty;
    int months, column;
};

/* One of the twenty-four borrowings; its coupon in hundredths of a percent a year. */
struct borrowing {
    uint64_t balance, coupon;
    int months;
};

/* 0, or the number of the refusal with its place. */
int read_filing(const uint8_t *filing, size_t size, struct contents *k, uint64_t *place);

/* The conditions on the contents, 18, 19 and 7 to 9; the place on entry is the input's length. `libor_read` is whether there is a LIBOR sheet. */
int check_contents(const struct contents *k, int libor_read, uint64_t *place);

void split(const struct contents *k, struct place places[36]);

/* The borrowings by ascending cell; the months of the longest that has a balance, 0 where none has, and then there are none. */
int borrowed(const struct contents *k, struct borrowing to[BORROWINGS]);

#endif
