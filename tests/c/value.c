/* The valuing call: where each of the 568 and of the 374 numbers stands, the rest of longer lists, lists that are too short, and refusals. */
#include "check.h"
#include "spritapricot.h"
#include <string.h>

enum { NUMBERS = 568, BORROWINGS = 374, LIST = 600 };

/* Lower and upper values of 1,000 thousand dollars in the seven scenarios: document 01's sample, and the same brokered for thirteen months at coupon 0,
 * whose servicing is 13 x 19,000 billionths where no rate is above 0. */
static const uint64_t one_month[14] = {1000019, 1000019, 1000019, 1000019, 1000019, 1000019, 1000019, 1000019,
    999186,  999187,  998355,  998356,  997525,  997526};
static const uint64_t thirteen_months[14] = {1000247, 1000247, 1000247, 1000247, 1000247, 1000247, 1000247, 1000247,
    999186,  999187,  998355,  998356,  997525,  997526};

/* The same of borrowings, by document 02 in whole numbers: one month at coupon 0 and LIBOR 0, which is 10^6 x 120,000 / (120,000 + z); one month at coupon and
 * LIBOR 6 percent; 37 months at coupon 11 percent and LIBOR 0, which pay 37 x 9,166,666.67 and 10^9 where z is 0. */
static const uint64_t borrowed_month[14] = {1000000, 1000000, 1000000, 1000000, 1000000, 1000000, 1000000, 1000000,
    999167,  999168,  998336,  998337,  997506,  997507};
static const uint64_t borrowed_at_six[14] = {1002493, 1002494, 1001661, 1001662, 1000829, 1000830, 999999, 1000001,
    999171,  999172,  998344,  998345,  997518,  997519};
static const uint64_t borrowed_37_months[14] = {1339166, 1339167, 1339166, 1339167, 1339166, 1339167, 1339166, 1339167,
    1303503, 1303504, 1268899, 1268900, 1235321, 1235322};

/* What a filing is worth, with one place of 1,000 thousand dollars in each list at most. */
struct worth {
    uint64_t numbers[NUMBERS], borrowings[BORROWINGS];
};

/* One sub-balance and the totals it makes; `at` is 540 for the short totals, 542 for the long ones. */
static void deposit(struct worth *w, size_t sub_balance, const uint64_t values[14], size_t at)
{
    w->numbers[15 * sub_balance] = 1000;
    memcpy(w->numbers + 15 * sub_balance + 1, values, 14 * sizeof *values);
    for (size_t s = 0; s < 7; s++) memcpy(w->numbers + at + 4 * s, values + 2 * s, 2 * sizeof *values);
}

/* One borrowing, and the totals, which are its values. */
static void borrowing(struct worth *w, size_t i, const uint64_t values[14])
{
    w->borrowings[15 * i] = 1000;
    memcpy(w->borrowings + 15 * i + 1, values, 14 * sizeof *values);
    memcpy(w->borrowings + 360, values, 14 * sizeof *values);
}

static void accepted(const char *what, struct bytes f, size_t numbers_length, size_t borrowings_length, const struct worth *wanted)
{
    uint64_t numbers[LIST], borrowings[LIST], place = UNTOUCHED;
    fill(numbers, LIST);
    fill(borrowings, LIST);
    CHECK(what, spritapricot_value(f.at, f.size, numbers, numbers_length, borrowings, borrowings_length, &place) == 0);
    CHECK(what, place == 0);
    CHECK(what, equal(numbers, wanted->numbers, NUMBERS));
    CHECK(what, equal(borrowings, wanted->borrowings, BORROWINGS));
    CHECK(what, untouched(numbers + NUMBERS, LIST - NUMBERS));
    CHECK(what, untouched(borrowings + BORROWINGS, LIST - BORROWINGS));
}

static void refused(const char *what, struct bytes f, size_t numbers_length, size_t borrowings_length, uint64_t number, uint64_t at)
{
    uint64_t numbers[LIST], borrowings[LIST], place = UNTOUCHED;
    fill(numbers, LIST);
    fill(borrowings, LIST);
    CHECK(what, spritapricot_value(f.at, f.size, numbers, numbers_length, borrowings, borrowings_length, &place) == number);
    CHECK(what, place == at);
    CHECK(what, untouched(numbers, LIST));
    CHECK(what, untouched(borrowings, LIST));
}

static void try_certificates(void)
{
    struct worth sample_worth = {{0}, {0}}, long_worth = {{0}, {0}};
    deposit(&sample_worth, 3, one_month, 540);
    deposit(&long_worth, 27, thirteen_months, 542);
    accepted("value of the sample", sample(), LIST, LIST, &sample_worth);
    accepted("value of the sample, a list of 568", sample(), NUMBERS, LIST, &sample_worth);
    accepted("value of the sample, a list of 374", sample(), LIST, BORROWINGS, &sample_worth);
    accepted("value of a long deposit", stored("brokered_thirteen_months"), LIST, LIST, &long_worth);
}

static void try_borrowings(void)
{
    struct worth none = {{0}, {0}}, first = none, middle = none, last = none, both = none;
    borrowing(&first, 0, borrowed_month);
    borrowing(&middle, 6, borrowed_at_six);
    borrowing(&last, 23, borrowed_37_months);
    deposit(&both, 3, one_month, 540);
    borrowing(&both, 0, borrowed_month);
    accepted("value of the first borrowing", stored("borrowing_one_month"), NUMBERS, BORROWINGS, &first);
    accepted("value of a borrowing, longer lists", stored("borrowing_one_month"), LIST, LIST, &first);
    accepted("value of a borrowing at 6 percent", stored("borrowing_at_6_percent"), LIST, LIST, &middle);
    accepted("value of the last borrowing", stored("borrowing_37_months"), LIST, LIST, &last);
    accepted("value of a borrowing beside a deposit", stored("borrowing_beside_the_sample"), LIST, LIST, &both);
    accepted("value of an amended borrowing", stored("borrowing_amended"), LIST, LIST, &first);
    accepted("value of a withdrawn borrowing", stored("borrowing_withdrawn"), LIST, LIST, &none);
    accepted("value of a LIBOR sheet alone", stored("libor_sheet_alone"), LIST, LIST, &none);
    accepted("value of no balance", stored("coupons_and_months_without_borrowings"), LIST, LIST, &none);
}

/* The first list is measured before the second, and both before the filing is read. */
static void try_short_lists(struct bytes f)
{
    refused("value, a list of 567", f, NUMBERS - 1, LIST, 10, NUMBERS - 1);
    refused("value, a list of no numbers", f, 0, LIST, 10, 0);
    refused("value, a list of 373", f, NUMBERS, BORROWINGS - 1, 10, BORROWINGS - 1);
    refused("value, a list of no borrowings", f, LIST, 0, 10, 0);
    refused("value, lists of 567 and 373", f, NUMBERS - 1, BORROWINGS - 1, 10, NUMBERS - 1);
    refused("value, lists of 374 and 567", f, BORROWINGS, NUMBERS - 1, 10, BORROWINGS);
}

void try_value(void)
{
    try_certificates();
    try_borrowings();
    try_short_lists(sample());
    try_short_lists(stored("borrowing_one_month"));
    for (const struct refusal *r = refusals; r->name != NULL; r++) {
        refused(r->name, stored(r->name), LIST, LIST, r->number, r->place);
        try_short_lists(stored(r->name));
    }
}
