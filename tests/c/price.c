/* The call on price lines: the order of its lists, *price bit for bit, *place, what is left alone, and as many lines as both lists have. */
#include "check.h"
#include "spritapricot.h"
#include <math.h>
#include <string.h>

enum { LISTED, BETWEEN, OUTSIDE, FAULTY = 21, SCENARIOS = 7, MOST = 66 };

/* Lines of 36 and 115 months. Each price stands for itself: another line or another scenario has another one. */
static const uint16_t months[] = {36, 115};
static const double prices[] = {4.42, 1.5, 2.5, 3.5, 4.5, 5.5, 58.89, 122.81, 11.5, 12.5, 13.5, 14.5, 15.5, 5.13};
enum { LINES = 2, PRICES = LINES * SCENARIOS };

static uint64_t bits(double x)
{
    uint64_t b;
    memcpy(&b, &x, sizeof b);
    return b;
}

static double of_bits(uint64_t b)
{
    double x;
    memcpy(&x, &b, sizeof x);
    return x;
}

/* What the call answers, with *price and *place beside it. The pattern that *price holds before is that of a signalling number that is none. */
static const uint64_t BEFORE = UINT64_C(0x7ff00000deadbeef);

static void answers(const char *what, const uint16_t *m, size_t m_length, const double *p, size_t p_length, uint64_t month, uint64_t scenario, uint64_t wanted,
    uint64_t wanted_price, uint64_t wanted_place)
{
    double price = of_bits(BEFORE);
    uint64_t place = UNTOUCHED;
    CHECK(what, spritapricot_price(m, m_length, p, p_length, month, scenario, &price, &place) == wanted);
    CHECK(what, bits(price) == wanted_price);
    CHECK(what, place == wanted_place);
}

static void replies(const char *what, uint64_t month, uint64_t scenario, uint64_t wanted, uint64_t wanted_price)
{
    answers(what, months, LINES, prices, PRICES, month, scenario, wanted, wanted_price, 0);
}

/* 21 for a price of the second line. */
static void faulty(const char *what, double price, size_t scenario)
{
    double list[PRICES];
    memcpy(list, prices, sizeof list);
    list[SCENARIOS + scenario] = price;
    answers(what, months, LINES, list, PRICES, 36, 0, FAULTY, BEFORE, 1);
}

static void try_many(void)
{
    uint16_t m[MOST];
    double p[MOST * SCENARIOS];
    for (size_t i = 0; i < MOST; i++) m[i] = (uint16_t)(3 * i);
    for (size_t i = 0; i < MOST * SCENARIOS; i++) p[i] = 100.0;
    p[63 * SCENARIOS + 6] = 101.25;
    answers("64 lines", m, 64, p, 64 * SCENARIOS, 189, 6, LISTED, bits(101.25), 0);
    answers("65 lines", m, 65, p, 65 * SCENARIOS, 189, 6, FAULTY, BEFORE, 64);
    answers("66 lines", m, 66, p, 66 * SCENARIOS, 0, 0, FAULTY, BEFORE, 64);
    answers("65 months, prices of 64 lines", m, 65, p, 65 * SCENARIOS - 1, 189, 6, LISTED, bits(101.25), 0);
    m[30] = m[29];
    answers("a fault before the 65th line", m, 66, p, 66 * SCENARIOS, 0, 0, FAULTY, BEFORE, 30);
}

void try_price(void)
{
    replies("the first line", 36, 0, LISTED, bits(4.42));
    replies("the last line, the last scenario", 115, 6, LISTED, bits(5.13));
    for (size_t k = 0; k < SCENARIOS; k++) replies("each scenario", 115, k, LISTED, bits(prices[SCENARIOS + k]));
    replies("a price between, rising", 51, 0, BETWEEN, UINT64_C(0x403ae62c54832cfa));
    replies("before the first line", 35, 0, OUTSIDE, BEFORE);
    replies("behind the last line", 116, 0, OUTSIDE, BEFORE);
    replies("a scenario above 6", 36, 7, OUTSIDE, BEFORE);
    replies("the largest scenario", 36, UINT64_MAX, OUTSIDE, BEFORE);
    replies("a month of more than 2 bytes", 65536 + 36, 0, OUTSIDE, BEFORE);
    answers("a price between, falling", (const uint16_t[]){19, 92}, LINES, (const double[]){1, 1, 1, 58.89, 1, 1, 1, 1, 1, 1, 5.13, 1, 1, 1}, PRICES, 80, 3,
        BETWEEN, UINT64_C(0x402bef3cbd16dd5c), 0);
    answers("no lines", months, 0, prices, PRICES, 36, 0, OUTSIDE, BEFORE, 0);
    answers("no prices", months, LINES, prices, 0, 36, 0, OUTSIDE, BEFORE, 0);
    answers("prices of one line", months, LINES, prices, PRICES - 1, 115, 0, OUTSIDE, BEFORE, 0);
    answers("months of one line", months, 1, prices, PRICES, 115, 0, OUTSIDE, BEFORE, 0);
    answers("equal months", (const uint16_t[]){36, 36}, LINES, prices, PRICES, 36, 0, FAULTY, BEFORE, 1);
    answers("falling months", (const uint16_t[]){36, 35}, LINES, prices, PRICES, 36, 0, FAULTY, BEFORE, 1);
    faulty("a price of 0", 0.0, 0);
    faulty("a price of -0", -0.0, 6);
    faulty("a negative price", -1.0, 3);
    faulty("a price above 1,000", 1000.0000000000001, 1);
    faulty("an infinity", INFINITY, 2);
    faulty("not a number", NAN, 4);
    faulty("signalling", of_bits(BEFORE), 5);
    answers("21 before the scenario", (const uint16_t[]){36, 35}, LINES, prices, PRICES, 36, 7, FAULTY, BEFORE, 1);
    try_many();
}
