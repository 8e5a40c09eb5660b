"""Sequences of calls on a book (02:CR 7). Each has a name.

An input is the length of a filing (8 bytes), the filing that opens the book, and calls of six 8-byte numbers: 0 to set a place, 1 to clear it, 2 to show it, 3 for
the totals; the place; and for a place to set its balance, coupon in thousandths, months and penalty."""
import random
import struct

from monthly_rates import DOWN, SAW, UP
from records import LARGEST, LISTING, POSITIONS, RISING, SHEETS, amended, cell, cells, deposits, filing, flat, middle_month, path, rates, shared, tiers, yields

HOUSE = yields(RISING) + rates((400, 500, 600))
OWN = HOUSE + tiers((0, 10), (90, 200), (110, 600))
MONTHLY = yields(RISING) + path(UP, DOWN, SAW)
TOTALS = struct.pack("<QQQQQQ", 3, 0, 0, 0, 0, 0)


def put(place, balance=1_000, coupon=5_250, months=None, penalty=None):
    """Sets a place; by default the middle months of its row, and a penalty where it takes one."""
    row = POSITIONS[min(place // 4, 8)]
    months = (row.first + row.last) // 2 if months is None else months
    penalty = 0 if place % 2 else 300 if penalty is None else penalty
    return struct.pack("<QQQQQQ", 0, place, balance, coupon, months, penalty)


def put_all(place, balance, coupon, months, penalty):
    return struct.pack("<QQQQQQ", 0, place, balance, coupon, months, penalty)


def clear(place):
    return struct.pack("<QQQQQQ", 1, place, 0, 0, 0, 0)


def show(place):
    return struct.pack("<QQQQQQ", 2, place, 0, 0, 0, 0)


def book(data, *calls):
    return struct.pack("<Q", len(data)) + data + b"".join(calls)


def openings():
    values = cells(shared(deposits(7_777, 525, middle_month), 35, 45, 300))
    for name, data in {
        "sheets": HOUSE, "own tiers": OWN, "a path": MONTHLY, "balances, which do not count": values + HOUSE, "amendments": HOUSE + amended(605, 1, 7),
        "no sheets": b"", "no rates": yields(flat(0)), "a lone byte": HOUSE + b"\0", "a cell that is not listed": HOUSE + cell(600, 0),
        "tiers that do not load": HOUSE + tiers((1, 40)), "7": filing({615: 10, 622: 3}), "8": filing({601: 10, 608: 1, 650: 11}), "9": filing({601: 10, 608: 1}),
    }.items():
        yield f"opened with {name}", book(data, TOTALS, show(0), show(35), put(0), TOTALS)
    yield "opened and nothing else", book(HOUSE)


def every_place():
    for name, data in (("the house's tiers", HOUSE), ("own tiers", OWN), ("a path", MONTHLY)):
        calls = [call for place in range(36) for call in (put(place, 1_000 + place), show(place))]
        yield f"every place set, {name}", book(data, *calls, TOTALS)
    calls = [put(place, 999_999_999, 15_000, penalty=None if place % 2 else 3_600) for place in range(36)]
    yield "every place at its limits", book(SHEETS, *calls, TOTALS, *(clear(place) for place in range(0, 36, 2)), TOTALS)
    yield "every place set and cleared", book(HOUSE, *(put(place) for place in range(36)), *(clear(place) for place in range(36)), TOTALS, show(17))


def one_place():
    for place in (0, 1, 2, 3, 23, 24, 35):
        yield f"place {place} set, set again, cleared", book(
            HOUSE, put(place), TOTALS, put(place, 5_000, 14_999), show(place), TOTALS, clear(place), show(place), TOTALS, clear(place), TOTALS)
    yield "a set that is refused keeps what the place holds", book(HOUSE, put(4), show(4), put(4, 0), show(4), put(4, penalty=3_601), TOTALS)
    yield "a clearing that is refused changes nothing", book(HOUSE, put(4), clear(36), clear(LARGEST), show(4), TOTALS)


def limits():
    """Each limit and one more, at every place."""
    for place in range(36):
        row = POSITIONS[place // 4]
        most = 0 if place % 2 else 3_600
        calls = []
        for balance in (0, 1, 999_999_999, 1_000_000_000, LARGEST):
            calls += [put_all(place, balance, 500, row.first, 0), show(place)]
        for coupon in (0, 1, 15_000, 15_001, LARGEST):
            calls.append(put_all(place, 7, coupon, row.first, 0))
        for months in (0, row.first - 1, row.first, row.last, row.last + 1, 120, 121, LARGEST):
            calls.append(put_all(place, 7, 500, months, 0))
        for penalty in (0, 1, most, most + 1, LARGEST):
            calls += [put_all(place, 7, 500, row.first, penalty), show(place)]
        yield f"limits of place {place}", book(HOUSE, *calls, TOTALS)
    for place in (36, 37, 255, 256, 2**32, LARGEST):
        yield f"place {place}", book(HOUSE, struct.pack("<QQQQQQ", 0, place, 1, 1, 1, 0), clear(place), TOTALS)
    yield "2^64 - 1 everywhere", book(HOUSE, struct.pack("<QQQQQQ", 0, *[LARGEST] * 5), TOTALS)


def random_calls(r, count):
    """Calls of which about half are refused, with a place and the totals now and then."""
    for k in range(count):
        place = r.choice((*range(36), 36))
        row = POSITIONS[min(place // 4, 8)]
        if r.random() < 0.2:
            yield clear(place)
        else:
            months = r.choice((row.first, row.last, r.randint(row.first, row.last), row.last + 1))
            penalty = r.choice((0, 90, 3_600)) if place % 2 == 0 else r.choice((0, 0, 0, 1))
            yield put_all(place, r.choice((0, 1, r.randint(1, 999_999_999), 999_999_999)), r.choice((0, 5_251, 15_000, 15_001)), months, penalty)
        if k % 12 == 0:
            yield TOTALS
            yield show(min(place, 35))


def random_sequences():
    for seed, data in enumerate((HOUSE, OWN, MONTHLY)):
        yield f"120 calls at random, {seed}", book(data, *random_calls(random.Random(seed), 120), TOTALS)


def by_hand():
    """One month at yield 0 and coupon 0: par and the month's servicing, 175,000 billionths retail and 19,000 brokered (FIGURES)."""
    yield "one month", book(SHEETS, put_all(1, 1_000, 0, 1, 0), show(1), put_all(3, 1_000, 0, 1, 0), show(3), TOTALS, clear(1), TOTALS)


def shares_of_a_filing():
    """The shares of a filing whose balances are all retail, or all brokered, without penalty (TOTALS_OF)."""
    for name, kind in (("retail", 1), ("brokered", 3)):
        calls = [put_all(4 * i + kind, 5_000, 5_250, middle_month(place), 0) for i, place in enumerate(POSITIONS)]
        yield f"the shares of a {name} filing", book(HOUSE, *calls, TOTALS)


FAMILIES = openings, every_place, one_place, limits, random_sequences, by_hand, shares_of_a_filing

# 1,000,175 dollars x 120,000 / (120,000 + z), rounded down and up: z is 0 up to shift 0, then 100, 200 and 300.
FIGURES = {
    "book: one month": "place 1 1000 0 1 0 1000175 1000175 1000175 1000175 1000175 1000175 1000175 1000175 999342 999343 998510 998511 997680 997681",
}

# The book shows the totals of the filing.
TOTALS_OF = (("book: the shares of a retail filing", "all positions, retail"), ("book: the shares of a brokered filing", "all positions, brokered"))

SAME = (("book: opened with sheets", "book: opened with amendments"), ("book: opened with sheets", "book: opened with balances, which do not count"))
