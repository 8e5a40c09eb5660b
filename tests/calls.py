"""What the calls do with the lists lent, and the listing's text. Each entry has a name."""
from accepted import paper_figures
from monthly_rates import DOWN, NO_PATH, SAW, UP
from records import (
    LISTING, RISING, SHEETS, amended, cell, cells, deposits, filing, fine_cells, flat, middle_month, path_filing, rates, record, shared, tiers,
    withdrawn, yields,
)
from refused import refusal_table

# The numbers of the calls. UNKNOWN is of none.
VALUE_AND_SPLIT = 0
LISTING_TEXT = 1
SEARCH = 2
CERTIFICATES = 3
BOOK = 4
BOTH_LISTS = 5
UNKNOWN = 4_294_967_295

VALUES = shared(deposits(7_777, 525, middle_month), 35, 45, 300)
WHOLE = filing(VALUES, RISING, (400, 500, 600))


def lists_of_numbers():
    for numbers in (0, 1, 567, 568, 569, 600):
        yield f"list of {numbers} numbers", WHOLE, numbers
        yield f"list of {numbers} numbers, a filing that is refused", cell(600, 0), numbers


def lists_of_places():
    for places in (0, 1, 35, 36, 37, 40):
        yield f"list of {places} places", WHOLE, 568, places
        yield f"list of {places} places, a filing that is refused", cell(600, 0), 568, places


def both_lists():
    for numbers, places in ((0, 0), (567, 35), (567, 36), (568, 35), (569, 37), (600, 40)):
        yield f"lists of {numbers} numbers and {places} places", WHOLE, numbers, places
        yield f"lists of {numbers} numbers and {places} places, empty input", b"", numbers, places
        yield f"lists of {numbers} numbers and {places} places, 9 at 645", filing({601: 10, 608: 1}), numbers, places


def listed():
    yield "all positions, all four kinds", WHOLE
    yield "the same with own tiers", WHOLE + tiers((0, 0), (90, 300), (110, 600))
    yield "coupons in thousandths", fine_cells(VALUES) + yields(RISING) + rates((400, 500, 600))
    yield "amended and withdrawn cells", WHOLE + amended(605, 2, 700) + withdrawn(605, 1) + withdrawn(656, 1)
    yield "a path of retail rates", path_filing(VALUES, RISING, UP, DOWN, SAW)
    yield "sheets alone", filing({})
    yield from paper_figures()


def not_listed():
    for name, data, *lists in refusal_table():
        if not lists:
            yield name, data
    yield "no rates", cells(LISTING) + yields(flat(0))
    yield "12: rates and a path", SHEETS + NO_PATH
    yield "16: an amendment twice", amended(605, 1, 0) * 2


def long_inputs():
    """A last record of an unknown kind that fills the input: it ends where the input of 65,536 bytes does."""
    start = filing(LISTING)
    whole = start + record(11, bytes(65_536 - len(start) - 4))
    assert len(whole) == 65_536
    yield "65,536 bytes", whole
    yield "65,537 bytes", whole + b"\x00"


FAMILIES = lists_of_numbers, lists_of_places, both_lists
LISTINGS = listed, not_listed, long_inputs
