/*
 * The plain C versions: a recomputes discount factors, b keeps them in a table (plain.c); c multiplies by reciprocals, d has tiers in runs too, and e is c
 * with the months of the seven scenarios in step (fast.c).
 */
#ifndef VERSIONS_H
#define VERSIONS_H

#include <stddef.h>
#include <stdint.h>

/* Called as spritapricot_value is: the filing, the list of 568 numbers and that of the 374 of borrowings, each with its length, and the place. */
typedef uint64_t value_function(const uint8_t *, size_t, uint64_t *, size_t, uint64_t *, size_t, uint64_t *);

value_function value_recomputed, value_tabled, value_multiplied, value_in_runs, value_in_step;

enum { PLAIN = 5 };

/* A book after a list of changes, of versions c and d. */
typedef uint64_t book_function(const uint8_t *, size_t, const uint64_t *, size_t, uint64_t *, uint64_t *, uint64_t *);

book_function book_multiplied, book_in_runs;

/* Certificates to cells (cells.c). */
typedef uint64_t cells_function(uint64_t, uint64_t, uint64_t, const uint64_t *, size_t, uint64_t *, uint64_t *, uint64_t *);

cells_function cells_of;

#endif
