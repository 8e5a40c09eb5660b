/* Makes the random filings of filings.h. */
#include "put.h"
#include <stdlib.h>
#include <string.h>

static uint64_t random_state = 20240611;

void start_random(uint64_t seed) { random_state = 2 * seed + 1; }

uint64_t below(uint64_t n)
{
    random_state ^= random_state << 13;
    random_state ^= random_state >> 7;
    random_state ^= random_state << 17;
    return random_state % n;
}

/* Tiers of any count, edges close together or far apart; one in six records has a fault. */
static void put_any_tiers(struct input *f)
{
    static const unsigned spread[4] = {3, 25, 300, 4000};
    struct tier tiers[17] = {{0, (unsigned)below(2) * (unsigned)below(200)}};
    unsigned count = 1 + (unsigned)below(16), pairs = count, most = spread[below(4)], i = (unsigned)below(count);
    for (unsigned l = 1; l < 17; l++) {
        unsigned withdrawal = tiers[l - 1].withdrawal + (unsigned)below(80);
        tiers[l] = (struct tier){tiers[l - 1].edge + 1 + (unsigned)below(most), withdrawal > 600 ? 600 : withdrawal};
    }
    switch (below(48)) {
    case 0: count = pairs = 0; break;
    case 1: count = pairs = 17; break;
    case 2: count++; break;
    case 3: count = 16384 + pairs; break;
    case 4: tiers[0].edge = 1; break;
    case 5: tiers[i].edge = tiers[i + 1].edge, count = pairs = 16; break;
    case 6: tiers[i].withdrawal = 1 + tiers[i + 1].withdrawal, count = pairs = 16; break;
    case 7: tiers[count - 1].withdrawal = 601 + (unsigned)below(2) * 64000; break;
    }
    put_tiers(f, tiers, pairs, count);
}

/* A cell, listed or not. */
static unsigned any_cell(void) { return below(2) ? 600 + (unsigned)below(64) : 672 + (unsigned)below(46); }

/* Mostly a balance, of certificates or a borrowing. */
static unsigned some_cell(void)
{
    if (below(8) == 0) return any_cell();
    return below(2) ? balance_cell[below(9)] : borrowing_cell((unsigned)below(24));
}

/* Numbers of amendments about the bounds of what a set of them holds. */
static const unsigned some_number[9] = {1, 2, 511, 512, 513, 1023, 1024, 65024, 65535};

/* Amends some of the cells, and now and then one without regard to the rules. */
static void put_any_amendments(struct input *f)
{
    size_t cells = f->size / 14;
    for (uint64_t i = 1 + below(6); i > 0; i--) amend(f, 14 * below(cells));
    for (uint64_t i = below(3) == 0 ? 1 + below(4) : 0; i > 0; i--) put_amendment(f, some_cell(), some_number[below(9)], (unsigned)below(10) / 5, 0);
    if (below(3) == 0) put_amendment(f, some_cell(), (unsigned)below(4), (unsigned)below(3), below(2));
}

/* A number from least to most, one in four times at an end, one in 80 times one past it. */
static uint64_t within(uint64_t least, uint64_t most)
{
    switch (below(160)) {
    case 0: return most + 1;
    case 1: return least == 0 ? 0 : least - 1;
    }
    if (below(4) == 0) return below(2) ? least : most;
    return least + below(most - least + 1);
}

/*
 * Borrowings of any number, some in one class or term alone. A class or term without a balance has any coupon and any months. Their total is now and then
 * one too large; one coupon in 40 is given in thousandths besides.
 */
static void put_any_borrowings(struct input *f)
{
    uint64_t balance[24], coupon[8], months[3], most = below(2) ? 999999999 : 50;
    unsigned sparse = (unsigned)below(4), only = (unsigned)below(24);
    int held_class[8] = {0}, held_term[3] = {0};
    for (unsigned i = 0; i < 24; i++) {
        int left = sparse == 0 ? i / 3 == only / 3 : sparse == 1 ? i % 3 == only % 3 : sparse == 2 ? i == only : below(3) != 0;
        balance[i] = left ? 1 + below(most) : 0;
        if (left) held_class[i / 3] = held_term[i % 3] = 1;
    }
    for (int i = 0; i < 8; i++) coupon[i] = held_class[i] ? within(least_coupon[i], most_coupon[i]) : below(1501);
    for (int j = 0; j < 3; j++) months[j] = held_term[j] ? within(least_term[j], most_term[j]) : below(121);
    put_borrowings(f, balance, coupon, months);
    if (below(40) == 0) f->bytes[f->size - 8]++;
    if (below(40) == 0) put_cell_of(f, 6, 678 + 4 * (unsigned)below(8), below(5000));
}

enum { RECORDS = 160 };

/* Where each record begins; their number. */
static int records_of(struct input f, size_t start[RECORDS])
{
    int count = 0;
    for (size_t at = 0; at < f.size; at += 2u + f.bytes[at] + 256u * f.bytes[at + 1]) start[count++] = at;
    start[count] = f.size;
    return count;
}

/* The same records in any order, one of them twice now and then. */
static void shuffle(struct input *f)
{
    size_t start[RECORDS];
    struct input from = *f;
    int order[RECORDS], count = records_of(from, start);
    *f = empty("random", CAPACITY);
    for (int i = 0; i < count; i++) {
        int l = (int)below((uint64_t)i + 1);
        order[i] = order[l];
        order[l] = i;
    }
    if (below(8) == 0) {
        order[count] = (int)below((uint64_t)count);
        count++;
    }
    for (int i = 0; i < count; i++) {
        size_t size = start[order[i] + 1] - start[order[i]];
        memcpy(f->bytes + f->size, from.bytes + start[order[i]], size);
        f->size += size;
    }
    free(from.bytes);
}

struct input any(void)
{
    uint64_t balance[9], months[9];
    struct input f = empty("random", CAPACITY);
    for (int i = 0; i < 9; i++) {
        balance[i] = below(3) == 0 ? 0 : below(below(2) ? 1000000000 : 50);
        months[i] = least_months[i] + below(most_months[i] - least_months[i] + 1);
    }
    put_cells(&f, balance, months, below(6) == 0 ? below(3) : below(1340), below(2) ? 0 : (unsigned)below(512), below(3601));
    uint64_t borrowed = below(5);
    if (borrowed > 1) put_any_borrowings(&f);
    if (below(16) == 0) put_cell_of(&f, below(4) ? 6 : 1, below(4) ? coupon_cell[below(9)] : any_cell(), below(20000));
    if (below(3) == 0) put_any_amendments(&f);
    put_yields(&f, 2, (unsigned)below(600), (unsigned)below(18), (unsigned)below(2) * (unsigned)below(60));
    if (borrowed > 1 ? below(24) != 0 : borrowed == 1)
        put_yields(&f, 8, (unsigned)below(600), (unsigned)below(18), (unsigned)below(2) * (unsigned)below(60));
    unsigned sheets = (unsigned)below(24);
    if (sheets < 12) put_rates(&f, (unsigned)below(2400));
    if (sheets > 10 && sheets < 23) put_path(&f, (unsigned)below(1800), (unsigned)below(4), (unsigned)below(2) * (unsigned)below(80));
    if (below(2)) put_any_tiers(&f);
    shuffle(&f);
    if (below(5) == 0) f.bytes[below(f.size)] = (uint8_t)below(256);
    if (below(16) == 0) f.size = below(f.size);
    return f;
}
