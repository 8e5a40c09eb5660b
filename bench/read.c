/* Reads a filing front to back. */
#include "read.h"
#include "survival.h"
#include <stdlib.h>
#include <string.h>

/* The house's tiers: withdrawals of 550, 460, 320, 130, 75 and 50 thousandths from these edges on, and 40 below. */
static const struct tiers house = {
    6, {150, 130, 115, 100, 80, 50}, {935623330, 949947228, 968372414, 988461907, 993524263, 995734681, 996603946}};

/* Limits of cells 601 to 715, 0 where a cell is not listed: certificates to 661, borrowings from 675 on. */
#define ANY UINT64_MAX
#define BAL UINT64_C(999999999)
#define SUB UINT64_C(3999999996)
#define TOT UINT64_C(8999999991)
#define CLASS BAL, BAL, BAL, 1500
#define ALL UINT64_C(23999999976)
static const uint64_t limit[CELLS] = {
    BAL, BAL, BAL, ANY, 1500, 1500, 1500, 120, 120, 120, 0, 0, 0, 0, BAL, BAL, BAL, ANY, 1500, 1500, 1500, 120, 120, 120, 0, 0, 0, 0, 0, 0, BAL,
    BAL, ANY, 1500, 1500, 120, 120, 0, 0, 0, BAL, ANY, 1500, 120, TOT, 0, 0, 0, 0, SUB, SUB, SUB, SUB, SUB, SUB, 3600, 3600, 3600, ANY, ANY, ANY,
    0, 0, 0, 0, 0, 0, 0, 0, 0, 0, 0, 0, 0, CLASS, CLASS, CLASS, CLASS, CLASS, CLASS, CLASS, CLASS, 0, 0, 0, 0, 120, 120, 120, 0, ALL,
};

/* Of the amendments, by cell: the highest number, whether there was one, and then a bit for each number. */
struct amendments {
    uint64_t highest[CELLS];
    uint8_t begun[CELLS];
    uint64_t set[CELLS][1024];
};

/* What has been read: cells by number less 601, sheets and tiers by kind; the amendments, made with the first of them. */
struct seen {
    uint8_t cell[CELLS], kind[9];
    struct amendments *amended;
};

static uint64_t number(const uint8_t *p, int width)
{
    uint64_t n = 0;
    for (int i = width - 1; i >= 0; i--) n = n << 8 | p[i];
    return n;
}

static int is_listed(uint64_t n) { return FIRST_CELL <= n && n <= LAST_CELL && limit[n - FIRST_CELL] != 0; }

/* Whether a listed cell is the coupon of certificates, which may be given in thousandths. */
static int is_fine(uint64_t n) { return limit[n - FIRST_CELL] == 1500 && n < 675; }

/* Kind 1, or kind 6 where `fine`: coupons of certificates alone, in thousandths. */
static int read_cell(const uint8_t *body, size_t length, int fine, struct contents *k, struct seen *seen)
{
    if (length != 12) return 2;
    uint64_t n = number(body, 2), v = number(body + 2, 8);
    if (!is_listed(n) || (fine && !is_fine(n))) return 3;
    if (seen->cell[n - FIRST_CELL]) return 4;
    if (v > (fine ? 15000 : limit[n - FIRST_CELL])) return 5;
    seen->cell[n - FIRST_CELL] = 1;
    if (seen->amended == NULL || seen->amended->highest[n - FIRST_CELL] == 0) k->cell[n - FIRST_CELL] = is_fine(n) && !fine ? 10 * v : v;
    return 0;
}

/* Whether a cell and number have been read; they have then. */
static int amended_before(uint64_t cell, uint64_t number, struct seen *seen)
{
    if (seen->amended == NULL) {
        seen->amended = malloc(sizeof *seen->amended);
        if (seen->amended == NULL) abort();
        memset(seen->amended, 0, offsetof(struct amendments, set));
    }
    uint64_t *set = seen->amended->set[cell], bit = UINT64_C(1) << number % 64;
    if (!seen->amended->begun[cell]) memset(set, 0, sizeof seen->amended->set[cell]);
    seen->amended->begun[cell] = 1;
    int before = (set[number / 64] & bit) != 0;
    set[number / 64] |= bit;
    return before;
}

/* Kind 7: an amended or withdrawn cell. */
static int read_amendment(const uint8_t *body, size_t length, struct contents *k, struct seen *seen)
{
    if (length != 16) return 2;
    uint64_t n = number(body, 2), i = number(body + 2, 2), state = number(body + 4, 2), v = number(body + 6, 8);
    if (!is_listed(n)) return 3;
    if (amended_before(n - FIRST_CELL, i, seen)) return 16;
    if (i == 0 || state > 1 || v > limit[n - FIRST_CELL] || (state == 1 && v != 0)) return 5;
    if (i > seen->amended->highest[n - FIRST_CELL]) {
        seen->amended->highest[n - FIRST_CELL] = i;
        k->cell[n - FIRST_CELL] = is_fine(n) ? 10 * v : v;
    }
    return 0;
}

/* Kinds 2, 3, 5 and 8: `count` numbers. `instead` is whether a sheet has been read that leaves no room for this one. */
static int read_sheet(const uint8_t *body, size_t length, int count, uint8_t *seen, int instead, uint64_t *to)
{
    if (length != 2 + 2 * (size_t)count) return 2;
    if (*seen) return 4;
    if (instead) return 12;
    for (int i = 0; i < count; i++) {
        to[i] = number(body + 2 * i, 2);
        if (to[i] > 2500) return 5;
    }
    *seen = 1;
    return 0;
}

/* Kind 3: a flat path for each column. */
static int read_flat_rates(const uint8_t *body, size_t length, struct seen *seen, struct contents *k)
{
    uint64_t rate[3];
    int fault = read_sheet(body, length, 3, &seen->kind[3], seen->kind[5], rate);
    if (fault != 0) return fault;
    for (int j = 0; j < 3; j++)
        for (int t = 0; t < 120; t++) k->rate[j][t] = rate[j];
    return 0;
}

/* Kind 4: the filing's own tiers, lowest edge first. */
static int read_tiers(const uint8_t *body, size_t length, uint8_t *seen, struct tiers *to)
{
    if (length < 4 || length != 4 + 4 * (size_t)number(body, 2)) return 2;
    if (*seen) return 4;
    int count = (int)number(body, 2);
    if (count < 1 || count > 16) return 11;
    for (int i = 0; i < count; i++) {
        uint64_t edge = number(body + 2 + 4 * i, 2), withdrawal = number(body + 4 + 4 * i, 2);
        if (i == 0 ? edge != 0 : edge <= number(body + 4 * i - 2, 2) || withdrawal < number(body + 4 * i, 2)) return 11;
        if (withdrawal > 600) return 11;
        to->edge[count - 1 - i] = (int64_t)edge;
        to->survival[count - 1 - i] = survival_of[withdrawal];
    }
    to->count = count;
    to->survival[count] = to->survival[count - 1];
    *seen = 1;
    return 0;
}

/* Reads the records: 1 to 6, 11, 12 and 16. */
static int read_records(const uint8_t *s, size_t size, struct contents *k, struct seen *seen, uint64_t *place)
{
    size_t at = 0;
    memset(k->cell, 0, sizeof k->cell);
    k->tiers = house;
    while (at < size) {
        *place = at;
        if (size - at < 2) return 1;
        size_t length = number(s + at, 2);
        if (length < 2 || size - at - 2 < length) return 1;
        const uint8_t *body = s + at + 4;
        int fault = 2;
        switch (number(s + at + 2, 2)) {
        case 1: fault = read_cell(body, length, 0, k, seen); break;
        case 2: fault = read_sheet(body, length, 120, &seen->kind[2], 0, k->yield); break;
        case 3: fault = read_flat_rates(body, length, seen, k); break;
        case 4: fault = read_tiers(body, length, &seen->kind[4], &k->tiers); break;
        case 5: fault = read_sheet(body, length, 360, &seen->kind[5], seen->kind[3], k->rate[0]); break;
        case 6: fault = read_cell(body, length, 1, k, seen); break;
        case 7: fault = read_amendment(body, length, k, seen); break;
        case 8: fault = read_sheet(body, length, 120, &seen->kind[8], 0, k->libor); break;
        }
        if (fault != 0) return fault;
        at += 2 + length;
    }
    *place = size;
    k->flat = seen->kind[3];
    return seen->kind[2] && (seen->kind[3] || seen->kind[5]) ? 0 : 6;
}

int read_filing(const uint8_t *filing, size_t size, struct contents *k, uint64_t *place)
{
    struct seen seen = {{0}, {0}, NULL};
    int refusal = read_records(filing, size, k, &seen, place);
    free(seen.amended);
    return refusal != 0 ? refusal : check_contents(k, seen.kind[8], place);
}
