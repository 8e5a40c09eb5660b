/* Writes records at the end of a filing. */
#include "put.h"
#include <stdlib.h>

const unsigned balance_cell[9] = {601, 602, 603, 615, 616, 617, 631, 632, 641};
const unsigned coupon_cell[9] = {605, 606, 607, 619, 620, 621, 634, 635, 643};
const unsigned months_cell[9] = {608, 609, 610, 622, 623, 624, 636, 637, 644};
const uint64_t least_months[9] = {1, 1, 1, 4, 4, 4, 13, 13, 37};
const uint64_t most_months[9] = {3, 3, 3, 12, 12, 12, 36, 36, 120};
const uint64_t least_coupon[8] = {0, 500, 600, 700, 800, 900, 1000, 1100};
const uint64_t most_coupon[8] = {499, 599, 699, 799, 899, 999, 1099, 1500};
const uint64_t least_term[3] = {1, 4, 37};
const uint64_t most_term[3] = {3, 36, 120};

struct input empty(const char *name, size_t capacity)
{
    struct input f = {name, calloc(capacity, 1), 0};
    if (f.bytes == NULL) abort();
    return f;
}

static void put(struct input *f, uint64_t v, int width)
{
    for (int i = 0; i < width; i++) f->bytes[f->size++] = (uint8_t)(v >> 8 * i);
}

void put_cell_of(struct input *f, unsigned kind, unsigned n, uint64_t v)
{
    put(f, 12, 2);
    put(f, kind, 2);
    put(f, n, 2);
    put(f, v, 8);
}

void put_amendment(struct input *f, unsigned n, unsigned number, unsigned state, uint64_t v)
{
    put(f, 16, 2);
    put(f, 7, 2);
    put(f, n, 2);
    put(f, number, 2);
    put(f, state, 2);
    put(f, v, 8);
}

void put_cell(struct input *f, unsigned n, uint64_t v) { put_cell_of(f, 1, n, v); }

void put_cells(struct input *f, const uint64_t balance[9], const uint64_t months[9], uint64_t coupon, unsigned fine, uint64_t penalty)
{
    static const int column[9] = {0, 1, 2, 0, 1, 2, 1, 2, 2};
    uint64_t sum[3] = {0};
    for (int i = 0; i < 9; i++) {
        sum[column[i]] += balance[i];
        if (balance[i] == 0) continue;
        put_cell(f, balance_cell[i], balance[i]);
        if (coupon != 0 && fine >> i & 1)
            put_cell_of(f, 6, coupon_cell[i], 10 * coupon + 203 * (unsigned)i + 1);
        else if (coupon != 0)
            put_cell(f, coupon_cell[i], coupon + 20 * (unsigned)i);
        put_cell(f, months_cell[i], months[i]);
    }
    put_cell(f, 645, sum[0] + sum[1] + sum[2]);
    for (unsigned j = 0; j < 3; j++) {
        put_cell(f, 650 + j, sum[j] / 3);
        put_cell(f, 653 + j, sum[j] / 2);
        put_cell(f, 656 + j, penalty);
    }
}

unsigned borrowing_cell(unsigned i) { return 675 + 4 * (i / 3) + i % 3; }

void put_borrowings(struct input *f, const uint64_t balance[24], const uint64_t coupon[8], const uint64_t months[3])
{
    uint64_t total = 0;
    for (unsigned i = 0; i < 24; i++) {
        if (balance[i] != 0) put_cell(f, borrowing_cell(i), balance[i]);
        total += balance[i];
    }
    for (unsigned i = 0; i < 8; i++)
        if (coupon[i] != 0) put_cell(f, 678 + 4 * i, coupon[i]);
    for (unsigned j = 0; j < 3; j++)
        if (months[j] != 0) put_cell(f, 711 + j, months[j]);
    put_cell(f, 715, total);
}

/* A rate of a sheet, by the month from 0. */
static unsigned rate_of(unsigned first, unsigned step, unsigned swing, unsigned i)
{
    unsigned rate = first + step * i + swing * (37 * i % 11);
    return rate > 2500 ? 2500 : rate;
}

void put_yields(struct input *f, unsigned kind, unsigned first, unsigned step, unsigned swing)
{
    put(f, 242, 2);
    put(f, kind, 2);
    for (unsigned i = 0; i < 120; i++) put(f, rate_of(first, step, swing, i), 2);
}

void put_rates(struct input *f, unsigned rate)
{
    put(f, 8, 2);
    put(f, 3, 2);
    for (unsigned i = 0; i < 3; i++) put(f, rate + 25 * i, 2);
}

void put_path(struct input *f, unsigned first, unsigned step, unsigned swing)
{
    put(f, 722, 2);
    put(f, 5, 2);
    for (unsigned j = 0; j < 3; j++)
        for (unsigned i = 0; i < 120; i++) put(f, rate_of(first + 25 * j, step, swing, i), 2);
}

void put_tiers(struct input *f, const struct tier *tiers, unsigned pairs, unsigned count)
{
    put(f, 4 + 4 * pairs, 2);
    put(f, 4, 2);
    put(f, count, 2);
    for (unsigned i = 0; i < pairs; i++) {
        put(f, tiers[i].edge, 2);
        put(f, tiers[i].withdrawal, 2);
    }
}

static uint64_t number(const uint8_t *p, int width)
{
    uint64_t n = 0;
    for (int i = width - 1; i >= 0; i--) n = n << 8 | p[i];
    return n;
}

void amend(struct input *f, size_t at)
{
    unsigned n = (unsigned)number(f->bytes + at + 4, 2);
    uint64_t v = number(f->bytes + at + 6, 8);
    put_amendment(f, n, 2, 0, f->bytes[at + 2] == 6 ? v / 10 : v);
    put_amendment(f, n, 1, 1, 0);
}
