"""Filings with coupons in thousandths (02:CR 4), accepted and refused. Each has a name."""
import struct

from accepted import three_columns
from monthly_rates import DOWN, SAW, UP
from records import (
    DISTINCT, LARGEST, LIMITS, LISTING, POSITIONS, RISING, SHEETS, UNUSED, cell, cells, deposit, deposits, filing, fine, fine_cells, first_month,
    flat, last_month, middle_month, path, rates, record, shared, tiers, totalled, yields,
)

COUPONS = {place.coupon for place in POSITIONS}


def fine_filing(values, curve=flat(0), retail=(0, 0, 0)):
    return fine_cells(values) + yields(curve) + rates(retail)


def tenfold(values):
    return {number: 10 * value if number in COUPONS else value for number, value in values.items()}


BOTH_UNITS = {
    "retail": (shared(deposits(5_000, 525, middle_month), 0, 0, 0), RISING, (400, 500, 600)),
    "brokered": (shared(deposits(5_000, 525, middle_month), 100, 0, 0), RISING, (500, 525, 526)),
    "all four kinds": (shared(deposits(7_777, 525, middle_month), 35, 45, 300), RISING, (400, 500, 600)),
    "largest coupon": (shared(deposits(999_999_999, 1_500, last_month), 50, 50, 3_600), flat(0), (2_500, 0, 2_250)),
    "coupon 1": (shared(deposits(999, 1, last_month), 50, 50, 3_600), RISING, (0, 1, 2_500)),
    "coupon 0": (shared(deposits(1_000, 0, last_month), 40, 50, 300), RISING, (0, 1, 300)),
    "zero balances": (deposits(0, 1_500, lambda place: 120), flat(0), (0, 0, 0)),
    "the paper's retail price": (totalled({601: 1_000_000, 605: 600, 608: 1}), flat(600), (0, 0, 0)),
}


def both_units():
    """A coupon of kind 1 counts tenfold (SAME)."""
    for name, (values, curve, retail) in BOTH_UNITS.items():
        yield f"coupons in hundredths: {name}", filing(values, curve, retail)
        yield f"coupons in thousandths: {name}", fine_filing(tenfold(values), curve, retail)


def prices_by_hand():
    """Brokered, one month, z = 0: 10^9 + 2,500 x c / 3 and 19,000 of servicing (FIGURES)."""
    for coupon in (1, 2, 3, 6_000, 6_001, 6_003, 15_000):
        yield f"brokered, one month, {coupon} thousandths", fine_filing(one_month(coupon))


def one_month(coupon):
    return totalled({601: 1_000_000, 605: coupon, 608: 1, 650: 1_000_000})


def at_the_edges():
    """At p = 0 an edge k is reached where 1,000 x r is at least k x c, and brokered money is withdrawn where 10 x r is above c."""
    for coupons in (
        (3_999, 4_000, 4_001), (4_614, 4_615, 4_616), (5_216, 5_217, 5_218), (5_999, 6_000, 6_001), (7_499, 7_500, 7_501), (11_999, 12_000, 12_001),
    ):
        for brokered in (0, 100):
            yield f"coupons {coupons} at rate 600, brokered {brokered}", fine_filing(three_coupons(coupons, brokered, 0), flat(600), (600,) * 3)
        yield f"coupons {coupons} at rate 600, with penalty", fine_filing(three_coupons(coupons, 50, 100), flat(600), (600,) * 3)
    for coupon in (1, 9, 10, 11):
        values = shared(three_columns(coupon, 3), 30, 40, 3_600)
        yield f"{coupon} thousandths, edges up to 65,535", fine_filing(values, RISING, (0, 1, 700)) + tiers((0, 0), (65_000, 300), (65_535, 600))
    for penalty in (90, 300, 3_600):
        values = shared(deposits(1_000_000, 5_999, last_month), 50, 100, penalty)
        yield f"5,999 thousandths, penalty {penalty} to the last month", fine_filing(values, flat(500), (700, 900, 1_200))


def three_coupons(coupons, brokered, subject):
    values = {}
    for place, coupon in zip(POSITIONS, coupons):
        values |= deposit(place, 1_000_000, coupon, 3)
    return shared(values, brokered, subject, 90)


def any_thousandth():
    values = shared(deposits(7_777_777, 5_251, middle_month), 35, 45, 300)
    yield "5,251 thousandths", fine_filing(values, RISING, (400, 500, 600))
    yield "5,251 thousandths and own tiers", fine_filing(values, RISING, (400, 500, 600)) + tiers((0, 10), (90, 200), (110, 600))
    yield "5,251 thousandths and a path", fine_cells(values) + yields(DISTINCT) + path(UP, DOWN, SAW)
    for brokered, subject in ((0, 0), (100, 0), (0, 100), (100, 100)):
        values = shared(deposits(999_999_999, 14_999, last_month), brokered, subject, 3_600)
        yield f"14,999 thousandths, brokered {brokered}, penalty {subject} of 100", fine_filing(values, flat(0), (2_500,) * 3)
    values = shared(deposits(1_000, 3_333, first_month), 20, 30, 100)
    mixed = [fine(n, v) if n in (605, 620, 635) else cell(n, v // 10 if n in COUPONS else v) for n, v in values.items()]
    yield "both units in one filing", b"".join(mixed) + yields(RISING) + rates((300, 350, 400))
    yield "both units, sheets first", yields(RISING) + rates((300, 350, 400)) + b"".join(reversed(mixed))


def alone():
    """A coupon of a position without a balance."""
    for number in sorted(COUPONS):
        yield f"{number} = 1,234 thousandths alone", fine(number, 1_234) + SHEETS
        yield f"{number} = 1,234 hundredths alone", cell(number, 1_234) + SHEETS
    yield "15,000 thousandths beside a zero balance", fine(605, 15_000) + cell(601, 0) + cell(608, 120) + SHEETS


def every_cell():
    """Only the nine WAC cells may be of kind 6."""
    for number in sorted((*LIMITS, *UNUSED)):
        yield f"kind 6 for {number}", cells({601: 0}) + fine(number, 0)
    for number in (0, 5, 599, 600, 611, 614, 662, 674, 707, 710, 714, 716, 65_535):
        yield f"kind 6 for {number}", fine(number, 0)


def over_limit():
    for number in sorted(COUPONS):
        for value in (15_000, 15_001, 15_000 + 2**16, 2**32, LARGEST):
            yield f"kind 6, {number} = {value}", fine(number, value) + SHEETS
        yield f"kind 1, {number} = 1,501", cell(number, 1_501) + SHEETS


def twice():
    for number in (605, 621, 643):
        yield f"{number} by kind 1, then by kind 6", cell(number, 1) + fine(number, 10)
        yield f"{number} by kind 6, then by kind 1", fine(number, 10) + cell(number, 1)
        yield f"{number} by kind 6 twice", fine(number, 10) + fine(number, 10)
        yield f"{number} by kind 6 again, over its limit", fine(number, 10) + fine(number, 15_001)
        yield f"{number} by kind 1 again, over its limit", fine(number, 10) + cell(number, 1_501)
        yield f"{number} by kind 6 after kind 1, over its limit", cell(number, 1) + fine(number, 15_001)
    yield "two coupons, one by each kind", cell(605, 1) + fine(606, 10) + SHEETS
    yield "601 by kind 1, then by kind 6", cell(601, 1) + fine(601, 1)


def lengths():
    for size in (2, 3, 4, 8, 10, 11, 13, 14, 16, 268):
        yield f"kind 6 of length {size}", record(6, struct.pack("<HQ", 605, 0)[:size - 2].ljust(size - 2, b"\0"))
    whole = fine(605, 1)
    for size in range(1, 14):
        yield f"kind 6 cut at {size}", SHEETS + whole[:size]


def two_faults_in_one_record():
    yield "kind 6: 2 and 3", record(6, struct.pack("<HQB", 601, 0, 0))
    yield "kind 6: 3 and 4", cell(601, 0) + fine(601, 0)
    yield "kind 6: 3 and 5", fine(601, LARGEST)
    yield "kind 6: 3, 4 and 5", fine(605, 0) + fine(601, 0) + fine(601, LARGEST)
    yield "kind 6: 4 and 5", fine(605, 0) + fine(605, 15_001)
    yield "kind 6: 1 and 3", fine(601, 0)[:-1]


def two_faulty_records():
    faults = {
        1: bytes([0x01, 0x00]), 2: record(11, b""), 3: fine(601, 0), 4: fine(605, 10), 5: fine(606, 15_001), 11: tiers((1, 40)),
        12: path(flat(0), flat(0), flat(0)),
    }
    start = cell(605, 1) + rates((0, 0, 0))
    for first, one in faults.items():
        for second, other in faults.items():
            if first != second and {first, second} & {3, 4, 5}:
                yield f"kind 6 among the faults: {first}, then {second}", start + one + other
    for name, values in (("7", {615: 10, 622: 3}), ("8", {601: 10, 608: 1, 650: 11}), ("9", {601: 10, 608: 1})):
        yield f"kind 6 in order, and {name}", fine(605, 15_000) + filing(values)
        yield f"kind 6 over its limit, and {name}", fine(605, 15_001) + filing(values)
    yield "kind 6 in order, and 6", fine(605, 15_000)
    yield "kind 6 in order, and 10", fine(605, 15_000) + filing(LISTING), 567, 35


def noise():
    start, end = cells(LISTING), SHEETS
    whole = fine(605, 5_251)
    for offset in range(len(whole)):
        for change in (0x01, 0x40, 0xFF):
            damaged = bytes([*whole[:offset], whole[offset] ^ change, *whole[offset + 1:]])
            yield f"kind 6, byte {offset} changed by {change}", start + damaged + end


FAMILIES = (
    both_units, prices_by_hand, at_the_edges, any_thousandth, alone, every_cell, over_limit, twice, lengths, two_faults_in_one_record,
    two_faulty_records, noise,
)

# Entries that print the same lines.
SAME = [(f"coupons in hundredths: {name}", f"coupons in thousandths: {name}") for name in BOTH_UNITS]

# The price, lower and upper, at shift 0: dollars of a balance of 10^9.
FIGURES = {
    f"brokered, one month, {coupon} thousandths": f"total 0 {10**9 + 19_000 + 2_500 * coupon // 3} {10**9 + 19_000 - -2_500 * coupon // 3} 0 0"
    for coupon in (1, 2, 3, 6_000, 6_001, 6_003, 15_000)
} | {
    "coupons in thousandths: the paper's retail price": "total 0 1000174128 1000174130 0 0",
}
