#!/usr/bin/env python3
"""The entries that the two test programs run: writes crates/test_figures/stdin and crates/test_second/stdin, the same bytes.

With the word `names` it prints the number and the name of each entry instead. An entry is four 4-byte numbers, little-endian (the number of
the call, the length of its first list, that of its second list and that of the input), and then the input. The first list has the numbers of
certificates; the second has places, or the numbers of borrowings."""
import struct
import sys
from pathlib import Path

sys.dont_write_bytecode = True

import accepted
import amendments
import book
import borrowings
import calls
import certificates
import fine_coupons
import monthly_rates
import own_tiers
import refused
import searches

CRATES = Path(__file__).resolve().parent.parent / "crates"

# The programs read an entry's input into a room of this size, a byte more than the listing takes, and lend lists of at most as many numbers, and as many places
# or numbers of borrowings.
ROOM = 65_537
MOST_NUMBERS = 600
MOST_PLACES = 40
MOST_BORROWINGS = 400


FILINGS = (
    accepted.FAMILIES + refused.FAMILIES + own_tiers.FAMILIES + monthly_rates.FAMILIES + fine_coupons.FAMILIES + amendments.FAMILIES
    + calls.FAMILIES
)


def entries():
    """Each entry's name and its bytes."""
    for family in FILINGS:
        for name, data, *lists in family():
            yield name, entry(calls.VALUE_AND_SPLIT, data, *lists)
    for family in calls.LISTINGS:
        for name, data in family():
            yield f"listing: {name}", entry(calls.LISTING_TEXT, data)
    for family in searches.FAMILIES:
        for name, data in family():
            yield name, entry(calls.SEARCH, data)
    for family in certificates.FAMILIES:
        for name, data in family():
            yield f"certificates: {name}", entry(calls.CERTIFICATES, data)
    for family in book.FAMILIES:
        for name, data in family():
            yield f"book: {name}", entry(calls.BOOK, data)
    for family in borrowings.FAMILIES:
        for name, data, *lists in family():
            yield f"borrowings: {name}", entry(calls.BOTH_LISTS, data, *(lists or (568, 374)))
    for call, name, family in borrowings.OTHER_CALLS:
        for filing, data in family():
            yield f"borrowings, {name}: {filing}", entry(call, data)
    yield "a call that is unknown", entry(calls.UNKNOWN, b"")


def entry(call, data, first=568, second=36):
    most = MOST_BORROWINGS if call == calls.BOTH_LISTS else MOST_PLACES
    assert len(data) <= ROOM and first <= MOST_NUMBERS and second <= most, "an entry that the test programs cannot hold"
    return struct.pack("<IIII", call, first, second, len(data)) + data


def print_names():
    for number, (name, _) in enumerate(entries()):
        print(number, name)


def write_corpus():
    corpus = b"".join(data for _, data in entries())
    for program in ("test_figures", "test_second"):
        (CRATES / program / "stdin").write_bytes(corpus)


if __name__ == "__main__":
    if sys.argv[1:] == ["names"]:
        print_names()
    else:
        write_corpus()
