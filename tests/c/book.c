/* The book's call: the order of a change's six numbers, of the 29 totals, *place, *changed, and refusals. */
#include "check.h"
#include "spritapricot.h"
#include <string.h>

enum { TOTALS = 29, NUMBERS = 6 };
enum { SET, CLEAR };

static const uint64_t empty[TOTALS] = {0};

/* The totals of a book with one place of 1,000 thousand dollars: `at` is 1 for the short totals, 3 for the long ones. */
static void totals_of(uint64_t totals[TOTALS], size_t at, const uint64_t values[14])
{
    memcpy(totals, empty, sizeof empty);
    totals[0] = 1000;
    for (size_t s = 0; s < 7; s++) {
        totals[at + 4 * s] = values[2 * s];
        totals[at + 4 * s + 1] = values[2 * s + 1];
    }
}

/* Document 01's sample; thirteen months brokered at coupon 0; and one retail month at coupon and yield 6 percent, document 01's checked figure at shift 0. */
static const uint64_t one_month[14] = {1000019, 1000019, 1000019, 1000019, 1000019, 1000019, 1000019, 1000019,
    999186,  999187,  998355,  998356,  997525,  997526};
static const uint64_t thirteen_months[14] = {1000247, 1000247, 1000247, 1000247, 1000247, 1000247, 1000247, 1000247,
    999186,  999187,  998355,  998356,  997525,  997526};
static const uint64_t six_percent[14] = {1002668, 1002669, 1001835, 1001836, 1001004, 1001005, 1000174, 1000175, 999345, 999346, 998518, 998519, 997692, 997693};

static void accepted(const char *what, struct bytes f, const uint64_t *changes, size_t length, const uint64_t wanted[TOTALS])
{
    uint64_t list[TOTALS + 2], place = UNTOUCHED, changed = UNTOUCHED;
    fill(list, TOTALS + 2);
    CHECK(what, spritapricot_book(f.at, f.size, changes, length, list + 1, &place, &changed) == 0);
    CHECK(what, place == 0);
    CHECK(what, changed == length / NUMBERS);
    CHECK(what, equal(list + 1, wanted, TOTALS));
    CHECK(what, list[0] == UNTOUCHED && list[TOTALS + 1] == UNTOUCHED);
}

static void refused(const char *what, struct bytes f, const uint64_t *changes, size_t length, uint64_t number, uint64_t at, uint64_t made)
{
    uint64_t list[TOTALS], place = UNTOUCHED, changed = UNTOUCHED;
    fill(list, TOTALS);
    CHECK(what, spritapricot_book(f.at, f.size, changes, length, list, &place, &changed) == number);
    CHECK(what, place == at);
    CHECK(what, changed == made);
    CHECK(what, untouched(list, TOTALS));
}

/* A change that is refused behind one that is made, and alone. */
static void change_refused(const char *what, const uint64_t change[NUMBERS])
{
    uint64_t changes[2 * NUMBERS] = {SET, 3, 1000, 0, 1, 0};
    memcpy(changes + NUMBERS, change, NUMBERS * sizeof *change);
    refused(what, sample(), changes, 2 * NUMBERS, 17, change[1], 1);
    refused(what, sample(), change, NUMBERS, 17, change[1], 0);
}

static void try_changes(void)
{
    uint64_t wanted[TOTALS];
    const uint64_t changes[] = {SET, 3, 1000, 0, 1, 0, CLEAR, 3, 0, 0, 0, 0, SET, 27, 1000, 0, 13, 0};
    const uint64_t coupon[] = {SET, 1, 1000, 6000, 1, 0};
    accepted("book of no change", sample(), changes, 0, empty);
    accepted("book of five numbers", sample(), changes, NUMBERS - 1, empty);
    totals_of(wanted, 1, one_month);
    accepted("book, a short place set", sample(), changes, NUMBERS, wanted);
    accepted("book, five numbers behind the last change", sample(), changes, 2 * NUMBERS - 1, wanted);
    accepted("book, a place set and cleared", sample(), changes, 2 * NUMBERS, empty);
    totals_of(wanted, 3, thirteen_months);
    accepted("book, a long place set", sample(), changes, 3 * NUMBERS, wanted);
    totals_of(wanted, 1, six_percent);
    accepted("book, a coupon of 6,000 thousandths", stored("one_month_at_6_percent"), coupon, NUMBERS, wanted);
}

/* Balance 1,000, coupon 15,000, months 13 and penalty 3,600 fit place 24 in this order alone. */
static void try_order(void)
{
    const uint64_t set[NUMBERS] = {SET, 24, 1000, 15000, 13, 3600};
    struct bytes f = sample();
    uint64_t totals[TOTALS], place = UNTOUCHED, changed = UNTOUCHED;
    CHECK("book, the order of a change", spritapricot_book(f.at, f.size, set, NUMBERS, totals, &place, &changed) == 0 && totals[0] == 1000);
    for (size_t i = 2; i < NUMBERS; i++)
        for (size_t j = i + 1; j < NUMBERS; j++) {
            uint64_t other[NUMBERS];
            memcpy(other, set, sizeof set);
            other[i] = set[j];
            other[j] = set[i];
            uint64_t number = spritapricot_book(f.at, f.size, other, NUMBERS, totals, &place, &changed);
            CHECK("book, two numbers of a change exchanged", number == 17 || totals[0] != 1000);
        }
}

void try_book(void)
{
    static const uint64_t wrong[][NUMBERS] = {
        {2, 5, 0, 0, 0, 0}, {UINT64_MAX, 5, 1, 0, 1, 0}, {2, 3, 1000, 0, 1, 0}, {CLEAR, 3, 1, 0, 0, 0}, {CLEAR, 3, 0, 1, 0, 0}, {CLEAR, 3, 0, 0, 1, 0},
        {CLEAR, 3, 0, 0, 0, 1}, {CLEAR, 3, 1000, 0, 1, 0}, {SET, 3, 0, 0, 0, 0}, {SET, 36, 1, 0, 1, 0}, {CLEAR, 36, 0, 0, 0, 0},
        {CLEAR, UINT64_MAX, 0, 0, 0, 0}, {SET, 3, 1000000000, 0, 1, 0}, {SET, 3, 1, 15001, 1, 0}, {SET, 3, 1, 0, 4, 0}, {SET, 3, 1, 0, 1, 1},
        {SET, 2, 1, 0, 1, 3601},
    };
    const uint64_t set[NUMBERS] = {SET, 3, 1000, 0, 1, 0};
    try_changes();
    try_order();
    for (size_t i = 0; i < sizeof wrong / sizeof *wrong; i++) change_refused("book, a change that is refused", wrong[i]);
    for (const struct refusal *r = refusals; r->name != NULL; r++) refused(r->name, stored(r->name), set, NUMBERS, r->number, r->place, 0);
}
