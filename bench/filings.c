/* Makes the named and the long filings of filings.h. */
#include "put.h"
#include <string.h>

enum { OWN_TIERS = 1, PATH = 2, FINE = 4, ALL = OWN_TIERS | PATH | FINE, AMENDED = 8, BORROWED = 16 };

/* Sixteen tiers with edges from 4,000 on: a ratio below 40 makes a month try them all. */
static void put_high_tiers(struct input *f)
{
    struct tier tiers[16];
    for (unsigned i = 0; i < 16; i++) tiers[i] = (struct tier){4000 * i, 40 + 20 * i};
    put_tiers(f, tiers, 16, 16);
}

/* A flat rate, or a path about it. */
static void put_sheets(struct input *f, unsigned yield, unsigned step, unsigned rate, unsigned swing, int features)
{
    put_yields(f, 2, yield, step, 0);
    if (features & PATH)
        put_path(f, rate - 5 * swing, 1, swing);
    else
        put_rates(f, rate);
    if (features & OWN_TIERS) put_high_tiers(f);
}

/* The 24 borrowings, their balances falling, each coupon within its class, and a LIBOR sheet. */
static void put_all_borrowings(struct input *f, uint64_t first_balance, uint64_t less, const uint64_t months[3], unsigned yield, unsigned step)
{
    uint64_t balance[24], coupon[8];
    for (unsigned i = 0; i < 24; i++) balance[i] = first_balance - less * i;
    for (unsigned i = 0; i < 8; i++) coupon[i] = 450 + 100 * i;
    put_borrowings(f, balance, coupon, months);
    put_yields(f, 8, yield, step, 0);
}

static struct input worst(const char *name, int features)
{
    static const uint64_t balance[9] = {999999999, 99999999, 9999999, 999999, 123456789, 987654321, 55555555, 777777777, 999999999};
    struct input f = empty(name, CAPACITY);
    put_cells(&f, balance, most_months, 700, features & FINE ? ~0u : 0, 180);
    if (features & AMENDED)
        for (size_t at = 0, end = f.size; at < end; at += 14) amend(&f, at);
    if (features & BORROWED) put_all_borrowings(&f, 999999999, 12345678, most_term, 305, 7);
    put_sheets(&f, 310, 7, 900, 50, features);
    return f;
}

static struct input typical(const char *name, int features)
{
    static const uint64_t balance[9] = {12500, 8300, 0, 41200, 60750, 0, 93100, 0, 22040};
    static const uint64_t months[9] = {2, 2, 0, 8, 9, 0, 21, 0, 52};
    static const uint64_t borrowed[24] = {5200, 18700, 9000, 0, 31000, 12400, 2500, 7600, 15300, 0, 0, 4100};
    static const uint64_t coupon[8] = {445, 541, 622, 705}, terms[3] = {2, 18, 60};
    struct input f = empty(name, CAPACITY);
    put_cells(&f, balance, months, 480, features & FINE ? ~0u : 0, 300);
    if (features & BORROWED) {
        put_borrowings(&f, borrowed, coupon, terms);
        put_yields(&f, 8, 465, 1, 0);
    }
    put_sheets(&f, 425, 1, 450, 0, features);
    return f;
}

static struct input fullest(const char *name, size_t capacity, int features)
{
    static const unsigned unused[7] = {604, 618, 633, 642, 659, 660, 661};
    static const uint64_t balance[9] = {1, 1, 1, 1, 1, 1, 1, 1, 1};
    struct input f = empty(name, capacity);
    put_cells(&f, balance, least_months, 300, ~0u, 100);
    for (int i = 0; i < 7; i++) put_cell(&f, unused[i], UINT64_MAX);
    if (features & BORROWED) put_all_borrowings(&f, 1, 0, least_term, 105, 10);
    put_sheets(&f, 100, 10, 300, 0, ALL);
    return f;
}

/* Gives the record of a cell another value. */
static void set_cell(struct input *f, unsigned n, uint64_t v)
{
    for (size_t at = 0; f->bytes[at] == 12; at += 14)
        if (f->bytes[at + 4] + 256u * f->bytes[at + 5] == n)
            for (int i = 0; i < 8; i++) f->bytes[at + 6 + (size_t)i] = (uint8_t)(v >> 8 * i);
}

/*
 * The records of the worst filing with other amounts: every balance 0, or only that of row 4 left, all of it retail without penalty; with borrowings, every
 * one 0, or only that of the last class and term left.
 */
static struct input worst_with(const char *name, uint64_t row_four, int features, uint64_t last_borrowing)
{
    struct input f = worst(name, features);
    for (int i = 0; i < 9; i++) set_cell(&f, balance_cell[i], 0);
    for (unsigned n = 650; n < 656; n++) set_cell(&f, n, 0);
    set_cell(&f, 641, row_four);
    set_cell(&f, 645, row_four);
    for (unsigned i = 0; i < 24; i++) set_cell(&f, borrowing_cell(i), 0);
    set_cell(&f, 705, last_borrowing);
    set_cell(&f, 715, last_borrowing);
    return f;
}

struct input named(const char *name)
{
    int features = strstr(name, "-all") != NULL ? ALL : 0;
    if (strstr(name, "-tiers") != NULL) features |= OWN_TIERS;
    if (strstr(name, "-path") != NULL) features |= PATH;
    if (strstr(name, "-fine") != NULL) features |= FINE;
    if (strstr(name, "-amended") != NULL) features |= AMENDED;
    if (strstr(name, "-borrowed") != NULL) features |= BORROWED;
    if (strcmp(name, "no-balances") == 0) return worst_with(name, 0, 0, 0);
    if (strcmp(name, "one-balance") == 0) return worst_with(name, 999999999, 0, 0);
    if (strcmp(name, "no-borrowings") == 0) return worst_with(name, 0, BORROWED, 0);
    if (strcmp(name, "one-borrowing") == 0) return worst_with(name, 0, BORROWED, 999999999);
    if (name[0] == 'w') return worst(name, features);
    if (name[0] == 't') return typical(name, features);
    struct input f = fullest(name, CAPACITY, features);
    if (name[0] == 'r') put_cell(&f, 601, 0);
    return f;
}

struct input hostile(const char *name, size_t size, int late, int fill)
{
    struct input f = late ? fullest(name, size, BORROWED) : empty(name, size);
    memset(f.bytes + f.size, fill, size - f.size);
    f.size = size;
    return f;
}

struct input amendments(const char *name, size_t size, enum shape shape)
{
    enum { LISTED = 80 };
    static const unsigned listed[LISTED] = {
        601, 602, 603, 604, 605, 606, 607, 608, 609, 610, 615, 616, 617, 618, 619, 620, 621, 622, 623, 624, 631, 632, 633, 634, 635, 636, 637,
        641, 642, 643, 644, 645, 650, 651, 652, 653, 654, 655, 656, 657, 658, 659, 660, 661, 675, 676, 677, 678, 679, 680, 681, 682, 683, 684,
        685, 686, 687, 688, 689, 690, 691, 692, 693, 694, 695, 696, 697, 698, 699, 700, 701, 702, 703, 704, 705, 706, 711, 712, 713, 715};
    struct input f = empty(name, size + 18);
    put_yields(&f, 2, 100, 1, 0);
    put_rates(&f, 300);
    unsigned step = 65535 / (unsigned)(size / 18 / LISTED + 1);
    for (unsigned i = 0; f.size + 36 <= size; i++)
        switch (shape) {
        case ONE_CELL: put_amendment(&f, listed[i / 65535], i % 65535 + 1, 0, 0); break;
        case FALLING: put_amendment(&f, listed[i / 65535], 65535 - i % 65535, 0, 0); break;
        case FALLING_SPREAD: put_amendment(&f, listed[i % LISTED], 65535 - i / LISTED * step, 0, 0); break;
        default: put_amendment(&f, listed[i % LISTED], i / LISTED + 1, 0, 0);
        }
    if (shape == LAST_TWO_ALIKE) {
        memcpy(f.bytes + f.size, f.bytes + f.size - 18, 18);
        f.size += 18;
    }
    return f;
}
