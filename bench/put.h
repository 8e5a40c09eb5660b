/* Records of every kind, valid or not, written at the end of a filing; for filings.c and random.c. */
#ifndef PUT_H
#define PUT_H

#include "filings.h"

enum { CAPACITY = 8192 };

/* Cells and rows' months by position. */
extern const unsigned balance_cell[9], coupon_cell[9], months_cell[9];
extern const uint64_t least_months[9], most_months[9];

struct input empty(const char *name, size_t capacity);

/* Kind 1, and kind 1 or 6. */
void put_cell(struct input *f, unsigned n, uint64_t v);
void put_cell_of(struct input *f, unsigned kind, unsigned n, uint64_t v);

/*
 * Balances and months by position; coupons from `coupon` hundredths up, in thousandths at the positions whose bit is set in `fine`, none where it
 * is 0; brokered and penalty balances are a third and half of each column's sum, rounded down.
 */
void put_cells(struct input *f, const uint64_t balance[9], const uint64_t months[9], uint64_t coupon, unsigned fine, uint64_t penalty);

/* Of the borrowings: the bounds of a coupon class, in hundredths, and of a term, in months; and the balance cell of the i-th of the 24. */
extern const uint64_t least_coupon[8], most_coupon[8], least_term[3], most_term[3];
unsigned borrowing_cell(unsigned i);

/* Balances of the 24 borrowings by ascending cell, coupons of the eight classes and months of the three terms, those that are not 0, and the total. */
void put_borrowings(struct input *f, const uint64_t balance[24], const uint64_t coupon[8], const uint64_t months[3]);

/* Kind 7; and two of them that give the cell of the record at `at` (kind 1 or 6) its own value, a coupon in whole hundredths. */
void put_amendment(struct input *f, unsigned n, unsigned number, unsigned state, uint64_t v);
void amend(struct input *f, size_t at);

/* Kind 2 or 8: yields from `first` up by `step` each month, and by up to ten times `swing` in no order, capped at 2,500. */
void put_yields(struct input *f, unsigned kind, unsigned first, unsigned step, unsigned swing);

/* Kind 3, and kind 5 with each month's rate up by `step`, and by up to ten times `swing` in no order. */
void put_rates(struct input *f, unsigned rate);
void put_path(struct input *f, unsigned first, unsigned step, unsigned swing);

struct tier {
    unsigned edge, withdrawal;
};

/* Kind 4: a record of `pairs` tiers that says `count`. */
void put_tiers(struct input *f, const struct tier *tiers, unsigned pairs, unsigned count);

#endif
