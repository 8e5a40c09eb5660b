/* Plain C: certificates to cells (02:CR 5), written from the paper. */
#include "versions.h"

struct day {
    uint64_t year, month, day;
};

static uint64_t last_day(uint64_t year, uint64_t month)
{
    static const uint8_t days[12] = {31, 28, 31, 30, 31, 30, 31, 31, 30, 31, 30, 31};
    int leap = year % 4 == 0 && (year % 100 != 0 || year % 400 == 0);
    return days[month - 1] + (uint64_t)(month == 2 && leap);
}

static int is_day(struct day d)
{
    return 1900 <= d.year && d.year <= 2199 && 1 <= d.month && d.month <= 12 && 1 <= d.day && d.day <= last_day(d.year, d.month);
}

static uint64_t whole_months(struct day d) { return 12 * d.year + d.month; }

static int after(struct day a, struct day b)
{
    uint64_t x = whole_months(a), y = whole_months(b);
    return x > y || (x == y && a.day > b.day);
}

/* The least m of at least 1 by which a, moved on m months, is on or after b. */
static uint64_t months_between(struct day a, struct day b)
{
    uint64_t from = whole_months(a), to = whole_months(b) + (a.day < b.day ? 1 : 0);
    return from < to ? to - from : 1;
}

/* Rows by remaining months, columns by original months. */
static int position(uint64_t remaining, uint64_t original)
{
    int row = remaining <= 3 ? 0 : remaining <= 12 ? 1 : remaining <= 36 ? 2 : 3;
    int column = original <= 12 ? 0 : original <= 36 ? 1 : 2;
    static const int first[4] = {0, 3, 6, 8};
    return first[row] + column - (row < 2 ? 0 : row - 1);
}

uint64_t cells_of(uint64_t year, uint64_t month, uint64_t day, const uint64_t *list, size_t length, uint64_t cells[56], uint64_t *count, uint64_t *place)
{
    enum { BALANCE = 1, COUPON, MONTHS };
    /* The cells of 601 to 644 by ascending number, with their position and what they hold. */
    static const struct {
        uint16_t cell;
        uint8_t position, holds;
    } form[27] = {
        {601, 0, BALANCE}, {602, 1, BALANCE}, {603, 2, BALANCE}, {605, 0, COUPON}, {606, 1, COUPON}, {607, 2, COUPON}, {608, 0, MONTHS},
        {609, 1, MONTHS}, {610, 2, MONTHS}, {615, 3, BALANCE}, {616, 4, BALANCE}, {617, 5, BALANCE}, {619, 3, COUPON}, {620, 4, COUPON},
        {621, 5, COUPON}, {622, 3, MONTHS}, {623, 4, MONTHS}, {624, 5, MONTHS}, {631, 6, BALANCE}, {632, 7, BALANCE}, {634, 6, COUPON},
        {635, 7, COUPON}, {636, 6, MONTHS}, {637, 7, MONTHS}, {641, 8, BALANCE}, {643, 8, COUPON}, {644, 8, MONTHS},
    };
    uint64_t balance[9] = {0}, coupon[9] = {0}, months[9] = {0}, total = 0;
    struct day valuation = {year, month, day};
    size_t certificates = length / 8;
    *count = 0;
    *place = 0;
    if (certificates < 1 || 1000 < certificates) return 5;
    for (size_t k = 0; k < certificates; k++) {
        const uint64_t *c = list + 8 * k;
        struct day issue = {c[0], c[1], c[2]}, maturity = {c[3], c[4], c[5]};
        *place = k;
        if (999999999 < c[6] || 1500 < c[7]) return 5;
        if (!is_day(valuation) || !is_day(issue) || !is_day(maturity)) return 13;
        if (after(issue, valuation) || !after(maturity, valuation)) return 14;
        uint64_t remaining = months_between(valuation, maturity);
        if (120 < remaining) return 15;
        int p = position(remaining, months_between(issue, maturity));
        if (999999999 < balance[p] + c[6]) return 5;
        balance[p] += c[6];
        coupon[p] += c[6] * c[7];
        months[p] += c[6] * remaining;
        total += c[6];
    }
    *place = 0;
    uint64_t n = 0;
    for (int i = 0; i < 27; i++) {
        uint64_t b = balance[form[i].position];
        if (b == 0) continue;
        uint64_t sum = form[i].holds == COUPON ? coupon[form[i].position] : months[form[i].position];
        cells[2 * n] = form[i].cell;
        cells[2 * n + 1] = form[i].holds == BALANCE ? b : (2 * sum + b) / (2 * b);
        n++;
    }
    cells[2 * n] = 645;
    cells[2 * n + 1] = total;
    n++;
    *count = n;
    for (uint64_t i = 2 * n; i < 56; i++) cells[i] = 0;
    return 0;
}
