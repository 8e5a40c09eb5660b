/*
 * A plain C valuation of a filing, written from the papers alone, for comparison with the proved library: 64-bit numbers and the language's
 * own division. Compiled twice: with RECOMPUTE the discount factor of a month is computed anew for each sub-balance and borrowing, without it once for
 * each sheet, scenario and month, up to the longest term that has a balance. VALUE is the function's name.
 */
#include "read.h"
#include <string.h>

#define PAR UINT64_C(1000000000)

struct pair {
    uint64_t lower, upper;
};

static uint64_t ceiling(uint64_t n, uint64_t d) { return (n + d - 1) / d; }

static uint64_t shifted(uint64_t rate, int scenario)
{
    uint64_t v = rate + 100 * (uint64_t)scenario;
    return v < 300 ? 0 : v - 300;
}

static struct pair discount(uint64_t z, int t)
{
    struct pair f = {PAR, PAR};
    for (int i = 0; i < t; i++) {
        f.lower = f.lower * 120000 / (120000 + z);
        f.upper = ceiling(f.upper * 120000, 120000 + z);
    }
    return f;
}

/* Discount factors of a sheet, in a table unless they are recomputed. */
struct factors {
    const uint64_t *yield;
#ifndef RECOMPUTE
    struct pair of[7][120];
#endif
};

static void open_factors(struct factors *f, const uint64_t *yield, int longest)
{
    f->yield = yield;
#ifdef RECOMPUTE
    (void)longest;
#else
    for (int s = 0; s < 7; s++)
        for (int t = 1; t <= longest; t++) f->of[s][t - 1] = discount(shifted(yield[t - 1], s), t);
#endif
}

static struct pair factor(const struct factors *f, int s, int t)
{
#ifdef RECOMPUTE
    return discount(shifted(f->yield[t - 1], s), t);
#else
    return f->of[s][t - 1];
#endif
}

static void add_product(struct pair *price, struct pair flow, struct pair df)
{
    price->lower += flow.lower * df.lower / PAR;
    price->upper += ceiling(flow.upper * df.upper, PAR);
}

static void add_value(uint64_t balance, struct pair price, uint64_t *to, uint64_t *total)
{
    to[0] = balance * price.lower / 1000000;
    to[1] = ceiling(balance * price.upper, 1000000);
    total[0] += to[0];
    total[1] += to[1];
}

/* The first edge from the top that the ratio of gain to cost reaches, or their number. */
static int tier(const struct tiers *tiers, int64_t gain, int64_t cost)
{
    int i = 0;
    while (i < tiers->count && 100 * gain < tiers->edge[i] * cost) i++;
    return i;
}

/* Of coupon c (thousandths), penalty p and retail rate r (hundredths), n months before the term ends. */
static uint64_t survival(const struct tiers *tiers, int brokered, int64_t c, int64_t p, int64_t r, int64_t n)
{
    if (n == 0) return PAR;
    int64_t gain = (120000000 - c * p) * r * n - 120000 * c * p;
    int64_t cost = 12000000 * c * n;
    if (brokered) return gain > cost ? 0 : PAR;
    return tiers->survival[tier(tiers, gain, cost)];
}

/* The 568 numbers. */
static void value_certificates(const struct contents *k, struct factors *f, uint64_t *numbers)
{
    struct place places[36];
    int longest = 0;
    split(k, places);
    for (int i = 0; i < 36; i++)
        if (places[i].balance != 0 && places[i].months > longest) longest = places[i].months;
    open_factors(f, k->yield, longest);
    memset(numbers + 540, 0, 28 * sizeof *numbers);
    for (int i = 0; i < 36; i++) {
        struct place d = places[i];
        int brokered = i % 4 >= 2;
        uint64_t a = brokered ? 19000 : 175000;
        numbers[15 * i] = d.balance;
        for (int s = 0; s < 7; s++) {
            struct pair b = {PAR, PAR}, price = {0, 0};
            for (int t = 1; d.balance != 0 && t <= d.months; t++) {
                uint64_t r = shifted(k->rate[d.column][t - 1], s);
                uint64_t q = survival(&k->tiers, brokered, (int64_t)d.coupon, (int64_t)d.penalty, (int64_t)r, d.months - t);
                struct pair flow = {b.lower * (a + PAR - q) / PAR, ceiling(b.upper * (a + PAR - q), PAR)};
                b.lower = b.lower * (2500 * d.coupon + 3 * q) / (3 * PAR);
                b.upper = ceiling(b.upper * (2500 * d.coupon + 3 * q), 3 * PAR);
                if (t == d.months) {
                    flow.lower += b.lower;
                    flow.upper += b.upper;
                }
                add_product(&price, flow, factor(f, s, t));
            }
            add_value(d.balance, price, numbers + 15 * i + 1 + 2 * s, numbers + 540 + 4 * s + (i < 24 ? 0 : 2));
        }
    }
}

/* The 374 numbers: each month pays 10^9 * c / 120,000, and the last one 10^9 besides. */
static void value_borrowings(const struct contents *k, struct factors *f, uint64_t *numbers)
{
    struct borrowing borrowings[BORROWINGS];
    int longest = borrowed(k, borrowings);
    memset(numbers, 0, 374 * sizeof *numbers);
    open_factors(f, k->libor, longest);
    if (longest == 0) return;
    for (int i = 0; i < BORROWINGS; i++) {
        struct borrowing b = borrowings[i];
        numbers[15 * i] = b.balance;
        for (int s = 0; s < 7; s++) {
            struct pair price = {0, 0};
            for (int t = 1; b.balance != 0 && t <= b.months; t++) {
                uint64_t paid = t == b.months ? PAR : 0;
                struct pair flow = {PAR * b.coupon / 120000 + paid, ceiling(PAR * b.coupon, 120000) + paid};
                add_product(&price, flow, factor(f, s, t));
            }
            add_value(b.balance, price, numbers + 15 * i + 1 + 2 * s, numbers + 360 + 2 * s);
        }
    }
}

uint64_t VALUE(const uint8_t *filing, size_t filing_length, uint64_t *numbers, size_t numbers_length, uint64_t *borrowings, size_t borrowings_length,
    uint64_t *place)
{
    struct contents k;
    struct factors factors;
    *place = numbers_length;
    if (numbers_length < 568) return 10;
    *place = borrowings_length;
    if (borrowings_length < 374) return 10;
    int refusal = read_filing(filing, filing_length, &k, place);
    if (refusal != 0) return (uint64_t)refusal;
    value_certificates(&k, &factors, numbers);
    value_borrowings(&k, &factors, borrowings);
    return 0;
}
