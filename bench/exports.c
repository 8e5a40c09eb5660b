/*
 * The calls of include/spritapricot.h by plain C versions, for target/bench/libplain.a: to run the tests of the C calls, or the benchmark, without the proved
 * library.
 */
#include "spritapricot.h"
#include "versions.h"

uint64_t spritapricot_value(const uint8_t *filing, size_t filing_length, uint64_t *numbers, size_t numbers_length, uint64_t *borrowings,
    size_t borrowings_length, uint64_t *place)
{
    return value_tabled(filing, filing_length, numbers, numbers_length, borrowings, borrowings_length, place);
}

uint64_t spritapricot_cells(uint64_t year, uint64_t month, uint64_t day, const uint64_t *certificates, size_t certificates_length, uint64_t cells[56],
    uint64_t *count, uint64_t *place)
{
    return cells_of(year, month, day, certificates, certificates_length, cells, count, place);
}

uint64_t spritapricot_book(const uint8_t *filing, size_t filing_length, const uint64_t *changes, size_t changes_length, uint64_t totals[29],
    uint64_t *place, uint64_t *changed)
{
    return book_multiplied(filing, filing_length, changes, changes_length, totals, place, changed);
}
