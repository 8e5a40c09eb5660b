"""The form and its records: cells, sheets, tiers, and whole filings as bytes."""
import struct
from collections import namedtuple

Position = namedtuple("Position", "balance coupon months column first last")

POSITIONS = [
    Position(601, 605, 608, 1, 1, 3), Position(602, 606, 609, 2, 1, 3), Position(603, 607, 610, 3, 1, 3),
    Position(615, 619, 622, 1, 4, 12), Position(616, 620, 623, 2, 4, 12), Position(617, 621, 624, 3, 4, 12),
    Position(631, 634, 636, 2, 13, 36), Position(632, 635, 637, 3, 13, 36), Position(641, 643, 644, 3, 37, 120),
]
COLUMNS = (1, 2, 3)
TOTAL = 645

Borrowing = namedtuple("Borrowing", "balance coupon months lowest highest first last")

# The lowest and the highest coupon of each class, the first and the last month of each term.
CLASSES = ((0, 499), (500, 599), (600, 699), (700, 799), (800, 899), (900, 999), (1_000, 1_099), (1_100, 1_500))
TERMS = ((1, 3), (4, 36), (37, 120))
BORROWINGS = [
    Borrowing(675 + 4 * i + j, 678 + 4 * i, 711 + j, *coupons, *months) for i, coupons in enumerate(CLASSES) for j, months in enumerate(TERMS)
]
BORROWED = 715
UNUSED = (604, 618, 633, 642, 659, 660, 661)
LARGEST = 2**64 - 1


def brokered_cell(column):
    return 649 + column


def penalty_balance_cell(column):
    return 652 + column


def penalty_cell(column):
    return 655 + column


def limits():
    """The largest value of each cell that has a limit."""
    values = {TOTAL: 8_999_999_991}
    for place in POSITIONS:
        values |= {place.balance: 999_999_999, place.coupon: 1_500, place.months: 120}
    for n in COLUMNS:
        values |= {brokered_cell(n): 3_999_999_996, penalty_balance_cell(n): 3_999_999_996, penalty_cell(n): 3_600}
    for place in BORROWINGS:
        values |= {place.balance: 999_999_999, place.coupon: 1_500, place.months: 120}
    return dict(sorted(values.items())) | {BORROWED: 23_999_999_976}


LIMITS = limits()


def record(kind, body):
    return struct.pack("<HH", len(body) + 2, kind) + body


def cell(number, value):
    return record(1, struct.pack("<HQ", number, value))


def fine(number, value):
    """A coupon in thousandths of a percent."""
    return record(6, struct.pack("<HQ", number, value))


def amended(number, amendment, value):
    """A cell's amendment by its number."""
    return amendment_record(number, amendment, 0, value)


def withdrawn(number, amendment):
    return amendment_record(number, amendment, 1, 0)


def amendment_record(number, amendment, state, value):
    return record(7, struct.pack("<HHHQ", number, amendment, state, value))


def cells(values):
    return b"".join(cell(number, value) for number, value in values.items())


def fine_cells(values):
    """The cells with the coupons, which are thousandths here, in records of kind 6."""
    coupons = {place.coupon for place in POSITIONS}
    return b"".join((fine if number in coupons else cell)(number, value) for number, value in values.items())


def yields(values):
    return record(2, struct.pack("<120H", *values))


def libor(values):
    """LIBOR yields, by which borrowings are discounted."""
    return record(8, struct.pack("<120H", *values))


def rates(values):
    return record(3, struct.pack("<3H", *values))


def path(first, second, third):
    """Retail rates by month, 120 of each column."""
    return record(5, struct.pack("<360H", *first, *second, *third))


def tiers(*pairs):
    """An institution's own tiers, each an edge in hundredths and an annual withdrawal in thousandths."""
    return counted_tiers(len(pairs), *pairs)


def counted_tiers(count, *pairs):
    """The same with a count that may differ from the number of pairs."""
    return record(4, struct.pack("<H", count) + b"".join(struct.pack("<HH", *pair) for pair in pairs))


def flat(value):
    return [value] * 120


SHEETS = yields(flat(0)) + rates((0, 0, 0))


def filing(values, curve=flat(0), retail=(0, 0, 0)):
    return cells(values) + yields(curve) + rates(retail)


def path_filing(values, curve, *columns):
    """The same with retail rates by month."""
    return cells(values) + yields(curve) + path(*columns)


def totalled(values):
    """The cells with cell 645, the sum of the balances."""
    return values | {TOTAL: sum(values.get(place.balance, 0) for place in POSITIONS)}


def borrowed(values):
    """The cells with cell 715, the sum of the borrowings."""
    return values | {BORROWED: sum(values.get(place.balance, 0) for place in BORROWINGS)}


def borrowing(place, balance, coupon, months):
    return {place.balance: balance, place.coupon: coupon, place.months: months}


def column_sums(values):
    return {n: sum(values.get(place.balance, 0) for place in POSITIONS if place.column == n) for n in COLUMNS}


def deposit(place, balance, coupon, months):
    return {place.balance: balance, place.coupon: coupon, place.months: months}


def deposits(balance, coupon, months):
    """The same balance and coupon in all nine positions; months is a function of the position."""
    values = {}
    for place in POSITIONS:
        values |= deposit(place, balance, coupon, months(place))
    return values


def first_month(place):
    return place.first


def middle_month(place):
    return (place.first + place.last) // 2


def last_month(place):
    return place.last


def shared(values, brokered, subject, penalty):
    """A part of each column brokered and a part of it subject to penalty, both in hundredths of the column's sum."""
    for n, total in column_sums(values).items():
        values |= {brokered_cell(n): total * brokered // 100, penalty_balance_cell(n): total * subject // 100, penalty_cell(n): penalty}
    return totalled(values)


HOUSE_TIERS = ((0, 40), (50, 50), (80, 75), (100, 130), (115, 320), (130, 460), (150, 550))
LISTING = {601: 1000, 645: 1000, 650: 1000, 608: 1}
RISING = [100 + 4 * month for month in range(120)]
DISTINCT = [(37 * month + 5) % 2501 for month in range(120)]
