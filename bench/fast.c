/*
 * Plain C with 128-bit products (fast.h), for the same numbers as plain.c. Compiled three times: with EACH_MONTH every month tries the tiers from the
 * top, with IN_STEP too, the seven scenarios of a month one after the other before the next month; with neither a tier is kept for as many months as it
 * holds, which is as fast as it was made here. VALUE and BOOK are the functions' names.
 */
#include "fast.h"
#include <string.h>

#ifdef IN_STEP
#define VALUE_BORROWINGS borrowings_in_step
#elif defined EACH_MONTH
#define VALUE_BORROWINGS borrowings_walked
#else
#define VALUE_BORROWINGS borrowings_by_class
#endif

/* Multipliers of a month: what is paid of the balance, and by how much the balance changes. */
struct month {
    uint64_t paid, growth;
};

/* The balances, and the sums of the flows' products. The upper sum lacks 1 a month. */
struct run {
    struct pair balance, price;
};

static const struct run at_par = {{PAR, PAR}, {0, 0}};

static inline void add_products(struct run *run, struct pair flow, const struct pair *factor) { run->price = sum(run->price, product(flow, factor)); }

static inline struct pair paid(struct pair b, struct month m) { return (struct pair){high(b.lower, m.paid), high(b.upper, m.paid - 1) + 1}; }

static inline struct pair grown(struct pair b, struct month m)
{
    return (struct pair){b.lower + high_signed(b.lower, m.growth), b.upper + high_signed(b.upper, m.growth - 1) + 1};
}

static inline void step(struct run *run, struct month m, const struct pair *factor)
{
    add_products(run, paid(run->balance, m), factor);
    run->balance = grown(run->balance, m);
}

/* A brokered month in which all of the balance is withdrawn and its interest stays. */
static inline void step_withdrawn(struct run *run, struct month m, const struct pair *factor)
{
    struct pair b = run->balance;
    add_products(run, sum(b, paid(b, m)), factor);
    run->balance = (struct pair){high(b.lower, m.growth), high(b.upper, m.growth - 1) + 1};
}

/* The term's last month; the price. */
static inline struct pair step_last(struct run *run, struct month m, const struct pair *factor, int months)
{
    add_products(run, sum(paid(run->balance, m), grown(run->balance, m)), factor);
    return (struct pair){run->price.lower, run->price.upper + (uint64_t)months};
}

/*
 * One place. With n months to come after this one its gain is scale * r * n - loss and its cost is cost * n: it reaches an edge where
 * n * (100 * scale * r - edge * cost) is at least 100 * loss. `kept` is a month without withdrawal.
 */
struct deposit {
    int months, flat, tiers;
    const uint64_t *rate;
    int64_t scale, loss, cost, edge_cost[16];
    struct month tier[17], kept;
};

static void open(struct deposit *d, const struct contents *k, const struct place *p, int is_brokered)
{
    uint64_t servicing = is_brokered ? 19000 : 175000, interest = 2500 * p->coupon;
    d->months = p->months;
#ifdef EACH_MONTH
    d->flat = 0;
#else
    d->flat = k->flat;
#endif
    d->tiers = k->tiers.count;
    d->rate = k->rate[p->column];
    d->scale = (int64_t)(120000000 - p->coupon * p->penalty);
    d->loss = (int64_t)(120000 * p->coupon * p->penalty);
    d->cost = (int64_t)(12000000 * p->coupon);
    d->kept = (struct month){of_par(servicing), of_three_par(interest + 3 * PAR)};
    if (is_brokered) return;
    for (int i = 0; i < d->tiers; i++) d->edge_cost[i] = k->tiers.edge[i] * d->cost;
    for (int i = 0; i <= d->tiers; i++) {
        uint64_t q = k->tiers.survival[i];
        d->tier[i] = (struct month){of_par(servicing + PAR - q), of_three_par(interest + 3 * q)};
    }
}

#ifdef IN_STEP

/* The prices in the seven scenarios, month by month. `walked` counts the months of a scenario that have a flow. */
static void prices(const struct deposit *d, int is_brokered, struct pair factor[7][120], struct pair to[7])
{
    struct run run[7];
    int walked[7] = {0};
    int64_t loss = is_brokered ? d->loss : 100 * d->loss;
    for (int s = 0; s < 7; s++) run[s] = at_par;
    for (int t = 0, n = d->months - 1; n > 0; t++, n--)
        for (int s = 0; s < 7; s++) {
            int64_t gain = d->scale * (int64_t)shifted(d->rate[t], s);
            int i = 0;
            if (run[s].balance.upper == 0) continue;
            walked[s]++;
            if (!is_brokered) {
                while (i < d->tiers && n * (100 * gain - d->edge_cost[i]) < loss) i++;
                step(&run[s], d->tier[i], &factor[s][t]);
            } else if (n * (gain - d->cost) > loss) {
                step_withdrawn(&run[s], d->kept, &factor[s][t]);
                if (d->cost == 0) run[s].balance = (struct pair){0, 0};
            } else
                step(&run[s], d->kept, &factor[s][t]);
        }
    for (int s = 0; s < 7; s++)
        to[s] = run[s].balance.upper == 0 ? (struct pair){run[s].price.lower, run[s].price.upper + (uint64_t)walked[s]}
                                          : step_last(&run[s], d->kept, &factor[s][d->months - 1], d->months);
}

#else

/* The least n with n * rise >= loss, for a rise above 0. */
static inline int months_to(int64_t rise, int64_t loss) { return loss <= rise ? 1 : (int)((loss + rise - 1) / rise); }

/* At one rate the tiers only fall towards the term's end: each holds for a run of months. */
static struct pair retail_flat(const struct deposit *d, int s, const struct pair *factor)
{
    struct run run = at_par;
    int64_t gain = 100 * d->scale * (int64_t)shifted(d->rate[0], s), loss = 100 * d->loss;
    int n = d->months - 1, i = 0;
    while (n > 0) {
        while (i < d->tiers && n * (gain - d->edge_cost[i]) < loss) i++;
        int stop = i < d->tiers && loss > 0 ? months_to(gain - d->edge_cost[i], loss) : 1;
        for (; n >= stop; n--) step(&run, d->tier[i], factor++);
    }
    return step_last(&run, d->kept, factor, d->months);
}

/* With a rate for each month the tier is looked for from the month before on, or from the top. */
static struct pair retail_path(const struct deposit *d, int s, const struct pair *factor)
{
    struct run run = at_par;
    const uint64_t *rate = d->rate;
    int64_t loss = 100 * d->loss;
    for (int n = d->months - 1, i = 0; n > 0; n--) {
        int64_t gain = 100 * d->scale * (int64_t)shifted(*rate++, s);
#ifdef EACH_MONTH
        i = 0;
#else
        while (i > 0 && n * (gain - d->edge_cost[i - 1]) >= loss) i--;
#endif
        while (i < d->tiers && n * (gain - d->edge_cost[i]) < loss) i++;
        step(&run, d->tier[i], factor++);
    }
    return step_last(&run, d->kept, factor, d->months);
}

static struct pair brokered(const struct deposit *d, int s, const struct pair *factor)
{
    struct run run = at_par;
    const uint64_t *rate = d->rate;
    int n = d->months - 1;
    while (n > 0) {
        int64_t rise = d->scale * (int64_t)shifted(*rate, s) - d->cost;
        int withdrawn = n * rise > d->loss;
        if (withdrawn && d->cost == 0) {
            /* No interest stays, and no month has a flow after this one. */
            step_withdrawn(&run, d->kept, factor);
            return (struct pair){run.price.lower, run.price.upper + (uint64_t)(d->months - n)};
        }
        int stop = !d->flat ? n : withdrawn ? months_to(rise, d->loss + 1) : 1;
        rate += n - stop + 1;
        if (withdrawn)
            for (; n >= stop; n--) step_withdrawn(&run, d->kept, factor++);
        else
            for (; n >= stop; n--) step(&run, d->kept, factor++);
    }
    return step_last(&run, d->kept, factor, d->months);
}

static struct pair price(const struct deposit *d, int is_brokered, int s, const struct pair *factor)
{
    if (is_brokered) return brokered(d, s, factor);
    return d->flat ? retail_flat(d, s, factor) : retail_path(d, s, factor);
}

static void prices(const struct deposit *d, int is_brokered, struct pair factor[7][120], struct pair to[7])
{
    for (int s = 0; s < 7; s++) to[s] = price(d, is_brokered, s, factor[s]);
}

#endif

/* Lower and upper value in the seven scenarios of a place that holds a balance. */
static void value_place(const struct contents *k, const struct place *p, int i, struct pair factor[7][120], uint64_t to[14])
{
    struct deposit d;
    struct pair price_of[7];
    open(&d, k, p, i % 4 >= 2);
    prices(&d, i % 4 >= 2, factor, price_of);
    for (int s = 0; s < 7; s++) put_value(p->balance, price_of[s], to + 2 * s);
}

/* The 568 numbers. */
static void value_certificates(const struct contents *k, struct pair factor[7][120], uint64_t *numbers)
{
    struct place places[36];
    int longest = 0;
    split(k, places);
    for (int i = 0; i < 36; i++)
        if (places[i].balance != 0 && places[i].months > longest) longest = places[i].months;
    for (int t = 1; t <= longest; t++) discount(k->yield[t - 1], t, factor);
    memset(numbers, 0, 568 * sizeof *numbers);
    for (int i = 0; i < 36; i++) {
        uint64_t balance = places[i].balance, *to = numbers + 15 * i, *total = numbers + 540 + (i < 24 ? 0 : 2);
        if (balance == 0) continue;
        to[0] = balance;
        value_place(k, &places[i], i, factor, to + 1);
        for (int s = 0; s < 7; s++) {
            total[4 * s] += to[1 + 2 * s];
            total[4 * s + 1] += to[2 + 2 * s];
        }
    }
}

uint64_t VALUE(const uint8_t *filing, size_t filing_length, uint64_t *numbers, size_t numbers_length, uint64_t *borrowings, size_t borrowings_length,
    uint64_t *place)
{
    struct contents k;
    struct pair factor[7][120];
    *place = numbers_length;
    if (numbers_length < 568) return 10;
    *place = borrowings_length;
    if (borrowings_length < 374) return 10;
    int refusal = read_filing(filing, filing_length, &k, place);
    if (refusal != 0) return (uint64_t)refusal;
    value_certificates(&k, factor, numbers);
    VALUE_BORROWINGS(&k, factor, borrowings);
    return 0;
}

/* A book (02:CR 7): its places, each with its values, the balance total and the totals. */
struct book {
    uint64_t balance[36], value[36][14], shown[29];
};

/* Whether a change can be made: 0 sets the place to what it takes, 1 clears it, with the last four 0. */
static int fits(const uint64_t c[6])
{
    static const uint64_t first[9] = {1, 1, 1, 4, 4, 4, 13, 13, 37}, last[9] = {3, 3, 3, 12, 12, 12, 36, 36, 120};
    if (35 < c[1]) return 0;
    if (c[0] == 1) return (c[2] | c[3] | c[4] | c[5]) == 0;
    if (c[0] != 0) return 0;
    return 1 <= c[2] && c[2] <= 999999999 && c[3] <= 15000 && first[c[1] / 4] <= c[4] && c[4] <= last[c[1] / 4] && c[5] <= (c[1] % 2 == 0 ? 3600u : 0u);
}

/* Place i holds another balance with its values; the totals move by the difference. */
static void hold(struct book *b, uint64_t i, uint64_t balance, const uint64_t value[14])
{
    uint64_t *total = b->shown + 1 + (i < 24 ? 0 : 2);
    b->shown[0] += balance - b->balance[i];
    b->balance[i] = balance;
    for (int v = 0; v < 14; v++) total[4 * (v / 2) + v % 2] += value[v] - b->value[i][v];
    memcpy(b->value[i], value, sizeof b->value[i]);
}

uint64_t BOOK(const uint8_t *filing, size_t filing_length, const uint64_t *changes, size_t changes_length, uint64_t shown[29], uint64_t *place,
    uint64_t *changed)
{
    static const int column[9] = {0, 1, 2, 0, 1, 2, 1, 2, 2};
    struct contents k;
    struct pair factor[7][120];
    struct book book = {{0}, {{0}}, {0}};
    int refusal = read_filing(filing, filing_length, &k, place);
    *changed = 0;
    if (refusal != 0) return (uint64_t)refusal;
    for (int t = 1; t <= 120; t++) discount(k.yield[t - 1], t, factor);
    for (size_t n = 0; n < changes_length / 6; n++) {
        const uint64_t *c = changes + 6 * n;
        uint64_t value[14] = {0};
        *place = c[1];
        *changed = n;
        if (!fits(c)) return 17;
        struct place p = {c[2], c[3], c[5], (int)c[4], column[c[1] / 4]};
        if (c[0] == 0) value_place(&k, &p, (int)c[1], factor, value);
        hold(&book, c[1], c[2], value);
    }
    *changed = changes_length / 6;
    *place = 0;
    memcpy(shown, book.shown, sizeof book.shown);
    return 0;
}
