"""Filings with retail rates by month (02:CR 3), accepted and refused. Each has a name."""
from accepted import three_columns
from records import (
    COLUMNS, DISTINCT, LISTING, POSITIONS, RISING, SHEETS, cell, cells, deposit, deposits, filing, flat, last_month, middle_month, path,
    path_filing, rates, record, shared, tiers, totalled, yields,
)

NO_PATH = path(flat(0), flat(0), flat(0))
# Rates on both sides of every edge of the house's tiers at coupons about 500, of a different course in each column.
UP = [(13 * month) % 1_100 for month in range(120)]
DOWN = [1_100 - (17 * month) % 1_100 for month in range(120)]
SAW = [400 + 200 * (month % 3) for month in range(120)]
FLAT = {
    "retail": (shared(deposits(5_000, 525, middle_month), 0, 0, 0), (400, 500, 600)),
    "brokered": (shared(deposits(5_000, 525, middle_month), 100, 0, 0), (500, 525, 526)),
    "all four kinds": (shared(deposits(7_777, 525, middle_month), 35, 45, 300), (400, 500, 600)),
    "last months": (shared(deposits(999_999_999, 1_500, last_month), 50, 50, 3_600), (2_500, 0, 2_250)),
    "coupon 0": (shared(deposits(1_000, 0, last_month), 40, 50, 300), (0, 1, 300)),
}


def flat_paths():
    """A flat path gives what kind 3 gives (SAME)."""
    for name, (values, retail) in FLAT.items():
        yield f"flat rates: {name}", filing(values, RISING, retail)
        yield f"a flat path: {name}", path_filing(values, RISING, *(flat(rate) for rate in retail))


def only_month(month, rate, other=0):
    return [rate if t == month else other for t in range(1, 121)]


def prices_by_hand():
    """Brokered, c = 600, z = 0, p = 0, two months: withdrawn in month 1 where that month's rate is above 600, whatever the others are (FIGURES)."""
    values = totalled({601: 1_000_000, 605: 600, 608: 2, 650: 1_000_000})
    others = flat(0), flat(0)
    yield "brokered, 700 in month 1 only", path_filing(values, flat(0), only_month(1, 700), *others)
    yield "brokered, 600 in month 1, 2,500 after", path_filing(values, flat(0), only_month(1, 600, 2_500), *others)
    yield "brokered, 2,500 in the other columns", path_filing(values, flat(0), flat(600), flat(2_500), flat(2_500))
    values = totalled({602: 1_000_000, 606: 600, 609: 2, 651: 1_000_000})
    yield "brokered in column 2, 700 in its month 1 only", path_filing(values, flat(0), flat(0), only_month(1, 700), flat(0))
    yield "brokered in column 2, 700 in the months beside it", path_filing(values, flat(0), only_month(120, 700), only_month(2, 700), only_month(1, 700))
    values = totalled({603: 1_000_000, 607: 600, 610: 2, 652: 1_000_000})
    yield "brokered in column 3, 700 in its month 1 only", path_filing(values, flat(0), flat(0), flat(0), only_month(1, 700))
    yield "brokered in column 3, 700 in the months beside it", path_filing(values, flat(0), flat(0), only_month(120, 700), only_month(2, 700))


def single_months():
    """One month that differs: the month, the column and the shift show in the values."""
    values = shared(three_columns(600, 3), 30, 40, 90)
    for month in (1, 2, 3, 4):
        for column in COLUMNS:
            columns = [only_month(month, 900, 300) if n == column else flat(300) for n in COLUMNS]
            yield f"900 in month {month} of column {column}", path_filing(values, RISING, *columns)
    values = shared(deposit(POSITIONS[8], 1_000_000, 500, 120), 40, 50, 200)
    for month in (1, 60, 118, 119, 120):
        yield f"2,500 in month {month} of 120", path_filing(values, RISING, flat(0), flat(0), only_month(month, 2_500, 100))
    for rate in (299, 300, 301, 599, 600, 601):
        values = shared(three_columns(300, 3), 50, 0, 0)
        yield f"{rate} in month 1 under every shift", path_filing(values, flat(0), *(only_month(n, rate) for n in COLUMNS))


def courses():
    for name, values in (
        ("middle months", shared(deposits(7_777_777, 525, middle_month), 35, 45, 300)),
        ("last months", shared(deposits(999_999_999, 475, last_month), 20, 60, 150)),
        ("largest coupon", shared(deposits(999_999_999, 1_500, last_month), 50, 50, 3_600)),
    ):
        yield f"three courses, {name}", path_filing(values, DISTINCT, UP, DOWN, SAW)
        yield f"three courses in another order, {name}", path_filing(values, DISTINCT, SAW, UP, DOWN)
        yield f"three courses and own tiers, {name}", path_filing(values, DISTINCT, UP, DOWN, SAW) + tiers((0, 0), (70, 200), (140, 600))
    yield "every rate at its limit", path_filing(shared(deposits(999_999_999, 1_500, last_month), 0, 0, 0), flat(0), *[flat(2_500)] * 3)
    yield "every limit, brokered", path_filing(shared(deposits(999_999_999, 1_500, last_month), 100, 100, 3_600), flat(0), *[flat(2_500)] * 3)


def places():
    """Where the path stands among the records."""
    values, curve, retail = cells(LISTING), yields(RISING), path(UP, DOWN, SAW)
    yield "path first", retail + values + curve
    yield "path before yields", values + retail + curve
    yield "path between cells", values[:28] + retail + values[28:] + curve
    yield "path last", values + curve + retail
    yield "path and yields alone", retail + curve


def sheets_missing():
    yield "path and no yields", cells(LISTING) + NO_PATH
    yield "path alone", NO_PATH
    yield "yields and neither rates nor path", cells(LISTING) + yields(flat(0))
    yield "neither, and a balance without months", cell(601, 1) + yields(flat(0))
    yield "neither, and own tiers", yields(flat(0)) + tiers((0, 40))


def lengths():
    for size in (2, 3, 4, 8, 12, 242, 482, 720, 721, 723, 724, 978):
        yield f"kind 5 of length {size}", record(5, bytes(size - 2))
    for size in (4, 6, 242, 722):
        if size != 242:
            yield f"kind 2 of length {size}", record(2, bytes(size - 2))
        yield f"kind 3 of length {size}", record(3, bytes(size - 2))
    whole = cells(LISTING) + yields(flat(0)) + NO_PATH
    for size in (1, 2, 3, 4, 5, 243, 723):
        yield f"path cut by {size}", whole[:len(whole) - size]
    yield "path, and a lone last byte", whole + b"\x00"


def over_limit():
    for column in COLUMNS:
        for month in (1, 2, 60, 119, 120):
            for rate in (2_500, 2_501, 65_535):
                columns = [only_month(month, rate, 2_500) if n == column else flat(2_500) for n in COLUMNS]
                yield f"path with {rate} in month {month} of column {column}", yields(flat(0)) + path(*columns)


def both_kinds():
    """Kinds 3 and 5 in both orders, and each twice."""
    flat_rates, over_rates, over_path = rates((0, 0, 0)), rates((0, 0, 2_501)), path(flat(0), flat(0), flat(2_501))
    records = {"rates": flat_rates, "path": NO_PATH, "rates of 2,501": over_rates, "path of 2,501": over_path}
    for one, first in records.items():
        for other, second in records.items():
            yield f"{one}, then {other}", cells(LISTING) + yields(flat(0)) + first + second
    for one, other in (("rates", "path"), ("path", "rates")):
        yield f"{one}, {other}, {one}", records[one] + records[other] + records[one]
        yield f"{one}, {one}, {other}", records[one] + records[one] + records[other]
        yield f"{one}, yields, {other}", records[one] + yields(flat(0)) + records[other]
        yield f"{one}, {other}, and no yields", records[one] + records[other]
    for size in (720, 724):
        short = record(5, bytes(size - 2))
        yield f"rates, then a path of length {size}", flat_rates + short
        yield f"path, then a path of length {size}", NO_PATH + short
    yield "path, then rates of length 10", NO_PATH + record(3, bytes(8))
    yield "path, then rates cut short", NO_PATH + rates((0, 0, 0))[:9]
    yield "rates, then a path cut short", rates((0, 0, 0)) + NO_PATH[:723]


def two_faulty_records():
    """12 and each other refusal, in both orders."""
    faults = {
        1: bytes([0x01, 0x00]), 2: record(11, b""), 3: cell(600, 0), 4: cell(601, 1), 5: cell(605, 1_501), 11: tiers((1, 40)),
        "5 by a yield": yields(flat(2_501)),
    }
    for number, fault in faults.items():
        yield f"12, then {number}", cell(601, 1) + rates((0, 0, 0)) + NO_PATH + fault
        yield f"{number}, then 12", cell(601, 1) + rates((0, 0, 0)) + fault + NO_PATH
    yield "12 and 7", SHEETS + cells({615: 10, 622: 3}) + NO_PATH
    yield "12 and 8", SHEETS + cells({601: 10, 608: 1, 650: 11}) + NO_PATH
    yield "12 and 9", SHEETS + cells({601: 10, 608: 1}) + NO_PATH
    yield "12 and 10", filing(LISTING) + NO_PATH, 567, 35
    yield "5 in a path and 10", yields(flat(0)) + path(flat(0), flat(0), flat(2_501)), 567, 35
    yield "path and 7", path_filing({615: 10, 622: 3}, flat(0), UP, DOWN, SAW)
    yield "path and 8", path_filing({601: 10, 608: 1, 650: 11}, flat(0), UP, DOWN, SAW)
    yield "path and 9", path_filing({601: 10, 608: 1}, flat(0), UP, DOWN, SAW)


def noise():
    start, end = cells(LISTING) + yields(flat(0)), path(UP, DOWN, SAW)
    for offset in (0, 1, 2, 3, 4, 5, 243, 244, 483, 484, 722, 723):
        for change in (0x01, 0x0C, 0xFF):
            damaged = bytes([*end[:offset], end[offset] ^ change, *end[offset + 1:]])
            yield f"path, byte {offset} changed by {change}", start + damaged


FAMILIES = (
    flat_paths, prices_by_hand, single_months, courses, places, sheets_missing, lengths, over_limit, both_kinds, two_faulty_records, noise,
)

# Entries that print the same lines.
SAME = [(f"flat rates: {name}", f"a flat path: {name}") for name in FLAT]

# Where a price of 1,005,044,095 stands (withdrawn in month 1), and one of 1,010,063,095 (kept), at shift 0: dollars of a balance of 10^9 (01, checked figures).
WITHDRAWN = "total 0 1005044095 1005044095 0 0"
KEPT = "total 0 1010063095 1010063095 0 0"
FIGURES = {
    "brokered, 700 in month 1 only": WITHDRAWN,
    "brokered, 600 in month 1, 2,500 after": KEPT,
    "brokered, 2,500 in the other columns": KEPT,
    "brokered in column 2, 700 in its month 1 only": WITHDRAWN,
    "brokered in column 2, 700 in the months beside it": KEPT,
    "brokered in column 3, 700 in its month 1 only": WITHDRAWN,
    "brokered in column 3, 700 in the months beside it": KEPT,
}
