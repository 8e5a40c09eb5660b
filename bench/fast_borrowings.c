/* The 374 numbers of the borrowings (02:CR 8) by 128-bit products (fast.h), in three ways. */
#include "fast.h"
#include <string.h>

/* What 10^9 pays each month, and in the term's last month. The upper product of a flow of 0 is 0: a coupon of 0 has one product alone. */
struct flows {
    struct pair monthly, last;
    uint64_t paid;
};

static struct flows flows_of(const struct borrowing *b)
{
    struct pair monthly = {25000 * b->coupon / 3, (25000 * b->coupon + 2) / 3};
    return (struct flows){monthly, {monthly.lower + PAR, monthly.upper + PAR}, b->coupon == 0 ? 1 : (uint64_t)b->months};
}

/* The price of products that add up to `products` before the last month: the upper ones lack 1 each. */
static inline struct pair price(struct pair products, const struct flows *f, const struct pair *last_factor)
{
    struct pair all = sum(products, product(f->last, last_factor));
    return (struct pair){all.lower, all.upper + f->paid};
}

/* The borrowings, or 0 where there are none, with the discount factors of the months up to their longest term; all numbers 0. */
static int open(const struct contents *k, struct borrowing b[BORROWINGS], struct pair factor[7][120], uint64_t *numbers)
{
    int longest = borrowed(k, b);
    memset(numbers, 0, 374 * sizeof *numbers);
    for (int t = 1; t <= longest; t++) discount(k->libor[t - 1], t, factor);
    return longest;
}

/* One borrowing's balance, and its value in a scenario with the totals. */
static void put(const struct borrowing *b, int i, int s, struct pair price_of, uint64_t *numbers)
{
    uint64_t *to = numbers + 15 * i, *total = numbers + 15 * BORROWINGS + 2 * s;
    to[0] = b->balance;
    put_value(b->balance, price_of, to + 1 + 2 * s);
    total[0] += to[1 + 2 * s];
    total[1] += to[2 + 2 * s];
}

void borrowings_walked(const struct contents *k, struct pair factor[7][120], uint64_t *numbers)
{
    struct borrowing b[BORROWINGS];
    if (!open(k, b, factor, numbers)) return;
    for (int i = 0; i < BORROWINGS; i++) {
        if (b[i].balance == 0) continue;
        struct flows f = flows_of(&b[i]);
        for (int s = 0; s < 7; s++) {
            struct pair products = {0, 0};
            for (int t = 0; t < b[i].months - 1; t++) products = sum(products, product(f.monthly, &factor[s][t]));
            put(&b[i], i, s, price(products, &f, &factor[s][b[i].months - 1]), numbers);
        }
    }
}

void borrowings_in_step(const struct contents *k, struct pair factor[7][120], uint64_t *numbers)
{
    struct borrowing b[BORROWINGS];
    if (!open(k, b, factor, numbers)) return;
    for (int i = 0; i < BORROWINGS; i++) {
        if (b[i].balance == 0) continue;
        struct flows f = flows_of(&b[i]);
        struct pair products[7] = {{0, 0}};
        for (int t = 0; t < b[i].months - 1; t++)
            for (int s = 0; s < 7; s++) products[s] = sum(products[s], product(f.monthly, &factor[s][t]));
        for (int s = 0; s < 7; s++) put(&b[i], i, s, price(products[s], &f, &factor[s][b[i].months - 1]), numbers);
    }
}

/* A class pays the same in each month of its three terms, and a longer term has the shorter ones' months before its own. */
void borrowings_by_class(const struct contents *k, struct pair factor[7][120], uint64_t *numbers)
{
    struct borrowing b[BORROWINGS];
    if (!open(k, b, factor, numbers)) return;
    for (int class = 0; class < BORROWINGS; class += 3)
        for (int s = 0; s < 7; s++) {
            struct pair products = {0, 0};
            for (int i = class, t = 0; i < class + 3; i++) {
                if (b[i].balance == 0) continue;
                struct flows f = flows_of(&b[i]);
                for (; t < b[i].months - 1; t++) products = sum(products, product(f.monthly, &factor[s][t]));
                put(&b[i], i, s, price(products, &f, &factor[s][t]), numbers);
            }
        }
}
