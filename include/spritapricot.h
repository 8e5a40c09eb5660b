/*
 * Values a filing of certificate deposits and borrowings under seven rate scenarios, turns certificates into the cells of a filing, keeps a book, and answers
 * queries on printed price lines. Link libexports.a, which `rt lib` makes in crates/exports.
 */
#ifndef SPRITAPRICOT_H
#define SPRITAPRICOT_H

#include <stddef.h>
#include <stdint.h>

#ifdef __cplusplus
extern "C" {
#endif

/*
 * Values the filing of `filing_length` bytes at `filing`. Answers 0 for acceptance: the first 568 of the `numbers_length` numbers at `numbers` are then
 * those of its certificates, the first 374 of the `borrowings_length` numbers at `borrowings` those of its borrowings, all 0 where it has none, and *place
 * is 0. Otherwise answers the refusal's number, 1 to 12, 16, 18 or 19, with its place in *place, and leaves every number of both lists as it was. A 10 is
 * answered before anything is read: at `numbers_length` where that is below 568, else at `borrowings_length` where that is below 374.
 * The 374 are fifteen for each of the 24 borrowings by ascending cell, 675, 676, 677, 679 to 705: its balance in thousands of dollars, then its lower and
 * upper value in dollars for each scenario; then the lower and the upper total for each scenario.
 * Needs no memory but the stack. The numbers of both lists and *place may be written in no other thread during the call, and may not overlap each other
 * or the filing; no pointer is null, also where its length is 0.
 */
uint64_t spritapricot_value(const uint8_t *filing, size_t filing_length, uint64_t *numbers, size_t numbers_length, uint64_t *borrowings,
    size_t borrowings_length, uint64_t *place);

/*
 * Turns certificates into cells at the valuation date `year`, `month`, `day`. The `certificates_length` numbers at `certificates` are eight for each
 * certificate: issue year, month and day, maturity year, month and day, balance in thousands of dollars, coupon in hundredths of a percent a year; a
 * last part of fewer than eight does not count. Answers 0 for acceptance: the *count cells are then in `cells`, the number and the value of each by
 * ascending number, 0 past the last, and *place is 0. Otherwise answers the refusal's number, 5 or 13 to 15, with the certificate's index from 0 in
 * *place and 0 in *count, and leaves `cells` as it was. Memory as above.
 */
uint64_t spritapricot_cells(uint64_t year, uint64_t month, uint64_t day, const uint64_t *certificates, size_t certificates_length, uint64_t cells[56],
    uint64_t *count, uint64_t *place);

/*
 * Opens a book from the filing of `filing_length` bytes at `filing` and makes the changes of a list in turn. The `changes_length` numbers at `changes`
 * are six for each change: 0 to set the place or 1 to clear it; the place, 0 to 35; balance in thousands of dollars, coupon in thousandths of a percent a
 * year, months, penalty in hundredths of a month. A clear has 0 for the last four. A last part of fewer than six does not count. Answers 0 for acceptance:
 * `totals` then holds the sum of the balances, and for each scenario the short lower, short upper, long lower and long upper total; *place is 0, and
 * *changed the number of changes. Otherwise answers the number of the first refusal with its place in *place, and leaves `totals` as it was: the filing's
 * own, with 0 in *changed, or 17 at the place that the change gives, with the number of changes made before it in *changed. 17 refuses a first number
 * above 1, a place above 35, a set balance of 0 or over 999,999,999, a coupon, months or a penalty outside the place's limits, and a clear whose last four
 * numbers are not all 0. Memory as above, but about 65 KiB of stack.
 */
uint64_t spritapricot_book(const uint8_t *filing, size_t filing_length, const uint64_t *changes, size_t changes_length, uint64_t totals[29],
    uint64_t *place, uint64_t *changed);

/*
 * The price of a month and a scenario, 0 to 6, by printed price lines: the months of each line at `months`, and seven prices for each line at `prices`, one
 * for each scenario. There are as many lines as both lists have: `months_length`, or `prices_length` divided by 7 and rounded down, whichever is less.
 * Answers 0 for a listed month, with that line's price bit for bit in *price; 1 for a month between two lines, with the price between them in *price,
 * p1 + (p2 - p1) * w, where w is m - m1 over m2 - m1, each operation rounded once; 2 for outside: a month before the first line or behind the last, a
 * scenario above 6, no lines; *place is 0. Or answers 21 for a faulty line, with the index of the first, from 0, in *place: months that do not rise, a price
 * that is not both above 0 and at most 1,000 (not a number, say), a 65th line. 2 and 21 leave *price as it was.
 * The lists may be written in no other thread during the call; *price and *place may not overlap each other or the lists; no pointer is null, also where
 * its length is 0. Needs no memory but the stack.
 */
uint64_t spritapricot_price(const uint16_t *months, size_t months_length, const double *prices, size_t prices_length, uint64_t month, uint64_t scenario,
    double *price, uint64_t *place);

#ifdef __cplusplus
}
#endif

#endif
