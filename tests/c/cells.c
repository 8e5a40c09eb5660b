/* The certificates' call: the order of a certificate's eight numbers, number before value of each cell, *count, *place, and refusals. */
#include "check.h"
#include "spritapricot.h"
#include <string.h>

enum { CELLS = 56, NUMBERS = 8 };

/* The example of README at 28 June 2024, worked by hand. */
static const uint64_t example[][NUMBERS] = {
    {2021, 6, 28, 2024, 9, 29, 3000, 319}, {2023, 10, 31, 2025, 2, 28, 1200, 450}, {2024, 1, 31, 2024, 7, 31, 800, 525},
    {2022, 6, 15, 2024, 12, 15, 500, 275}, {2024, 6, 28, 2029, 6, 28, 2500, 410}, {2020, 2, 29, 2026, 2, 28, 0, 1500},
};
static const uint64_t example_cells[CELLS] = {601, 800, 605, 525, 608, 2, 616, 1700, 617, 3000, 620, 399, 621, 319,
    623, 7, 624, 4, 641, 2500, 643, 410, 644, 60, 645, 8000};

/* Each number stands for itself: another order is no date, another cell or another value. */
static const uint64_t distinct[NUMBERS] = {2021, 9, 27, 2024, 9, 28, 8, 500};
static const uint64_t distinct_cells[CELLS] = {603, 8, 607, 500, 610, 3, 645, 8};

static void accepted(const char *what, const uint64_t *numbers, size_t length, const uint64_t wanted[CELLS], uint64_t wanted_count)
{
    uint64_t list[CELLS + 2], place = UNTOUCHED, count = UNTOUCHED;
    fill(list, CELLS + 2);
    CHECK(what, spritapricot_cells(2024, 6, 28, numbers, length, list + 1, &count, &place) == 0);
    CHECK(what, place == 0);
    CHECK(what, count == wanted_count);
    CHECK(what, equal(list + 1, wanted, CELLS));
    CHECK(what, list[0] == UNTOUCHED && list[CELLS + 1] == UNTOUCHED);
}

static void refused(const char *what, uint64_t day, const uint64_t *numbers, size_t length, uint64_t number, uint64_t at)
{
    uint64_t list[CELLS], place = UNTOUCHED, count = UNTOUCHED;
    fill(list, CELLS);
    CHECK(what, spritapricot_cells(2024, 6, day, numbers, length, list, &count, &place) == number);
    CHECK(what, place == at);
    CHECK(what, count == 0);
    CHECK(what, untouched(list, CELLS));
}

/* The second of two certificates with one number changed. */
static void second_refused(const char *what, size_t index, uint64_t value, uint64_t number)
{
    uint64_t two[2 * NUMBERS];
    memcpy(two, distinct, sizeof distinct);
    memcpy(two + NUMBERS, distinct, sizeof distinct);
    two[NUMBERS + index] = value;
    refused(what, 28, two, 2 * NUMBERS, number, 1);
}

void try_cells(void)
{
    static uint64_t many[1001 * NUMBERS];
    static const uint64_t many_cells[CELLS] = {603, 8000, 607, 500, 610, 3, 645, 8000};
    accepted("cells of the example", example[0], sizeof example / sizeof example[0][0], example_cells, 13);
    accepted("cells of one certificate", distinct, NUMBERS, distinct_cells, 4);
    for (size_t k = 0; k < 1001; k++) memcpy(many + NUMBERS * k, distinct, sizeof distinct);
    accepted("cells, seven numbers behind the last", many, 2 * NUMBERS - 1, distinct_cells, 4);
    accepted("cells of 1,000 certificates", many, 1000 * NUMBERS, many_cells, 4);
    refused("cells of 1,001 certificates", 28, many, 1001 * NUMBERS, 5, 0);
    refused("cells of no certificate", 28, many, 0, 5, 0);
    refused("cells of seven numbers", 28, many, NUMBERS - 1, 5, 0);
    refused("cells, the valuation date no day", 31, many, NUMBERS, 13, 0);
    second_refused("cells, a balance over its limit", 6, 1000000000, 5);
    second_refused("cells, a coupon over its limit", 7, 1501, 5);
    second_refused("cells, an issue that is no day", 2, 31, 13);
    second_refused("cells, a maturity that is no day", 5, 31, 13);
    second_refused("cells, an issue after the valuation date", 0, 2025, 14);
    second_refused("cells, a maturity before the valuation date", 3, 2022, 14);
    second_refused("cells, more than 120 months", 3, 2035, 15);
    second_refused("cells, the sum of a cell over its limit", 6, 999999999, 5);
}
