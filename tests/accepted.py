"""The paper's figures, and accepted filings of every row, column and kind of sub-balance. Each has a name."""
from records import (
    DISTINCT, LARGEST, LISTING, POSITIONS, RISING, SHEETS, UNUSED, cell, deposit, deposits, filing, first_month, flat, last_month,
    middle_month, rates, shared, totalled, yields,
)


def paper_figures():
    yield "the paper's listing", filing(LISTING)
    for months in (4, 12, 3, 13):
        yield f"WARM {months} in row 2", filing({615: 10, 622: months, 645: 10})
    yield "balances 100, 50, 0, brokered 31", filing({602: 100, 609: 1, 616: 50, 623: 4, 651: 31, 645: 150})
    yield "the same with penalty 75", filing({602: 100, 609: 1, 616: 50, 623: 4, 651: 31, 654: 75, 645: 150})
    yield "balances 1, 1, 1, brokered 2", filing({602: 1, 609: 1, 616: 1, 623: 4, 631: 1, 636: 13, 651: 2, 645: 3})
    yield "retail price at T 1, c 600, z 600", filing(totalled({601: 1_000_000, 605: 600, 608: 1}), flat(600))
    yield "its value at balance 1,000", filing(totalled({601: 1_000, 605: 600, 608: 1}), flat(600))
    for rate in (700, 600):
        values = totalled({601: 1_000_000, 605: 600, 608: 2, 650: 1_000_000})
        yield f"brokered price at T 2, c 600, z 0, r {rate}", filing(values, flat(0), (rate, 0, 0))
    for rate in (600, 599):
        yield f"retail withdrawal at c 600, r {rate}", filing(totalled({601: 1_000_000, 605: 600, 608: 2}), flat(0), (rate, 0, 0))


def single_positions():
    for place in POSITIONS:
        for months in (place.first, place.last):
            values = shared(deposit(place, 1_000, 475, months), 30, 40, 250)
            yield f"{place.balance} alone, {months} months, of all four kinds", filing(values, RISING, (350, 450, 550))


def all_positions():
    yield "all positions, retail", filing(shared(deposits(5_000, 525, middle_month), 0, 0, 0), RISING, (400, 500, 600))
    yield "all positions, brokered", filing(shared(deposits(5_000, 525, middle_month), 100, 0, 0), RISING, (400, 500, 600))
    yield "all positions, all four kinds", filing(shared(deposits(7_777, 525, middle_month), 35, 45, 300), RISING, (400, 500, 600))
    yield "all positions, all with penalty", filing(shared(deposits(7_777, 525, middle_month), 35, 100, 600), RISING, (400, 700, 900))
    yield "all positions, yields distinct", filing(shared(deposits(123_456, 610, middle_month), 20, 30, 150), DISTINCT, (580, 610, 930))
    yield "all positions, last months", filing(shared(deposits(999, 300, last_month), 50, 50, 90), DISTINCT, (300, 450, 150))


def small_shares():
    for brokered in (0, 1, 2, 3):
        for subject in (1, 2, 3):
            values = {602: 1, 609: 1, 616: 1, 623: 4, 631: 1, 636: 13, 651: brokered, 654: subject, 645: 3}
            yield f"balances 1, 1, 1, brokered {brokered}, penalty {subject}", filing(values)
    values = {603: 7, 610: 2, 617: 0, 632: 11, 637: 20, 641: 13, 644: 40, 652: 10, 655: 17, 658: 100, 645: 31}
    yield "balances 7, 0, 11, 13, brokered 10, penalty 17", filing(values)
    yield "penalty balance above the retail part", filing({601: 10, 608: 1, 650: 9, 653: 10, 656: 300, 645: 10})


def three_columns(coupon, months):
    values = {}
    for place in POSITIONS[:3]:
        values |= deposit(place, 1_000_000, coupon, months)
    return values


def withdrawals():
    for retail in ((299, 300, 479), (480, 599, 600), (689, 690, 779), (780, 899, 900)):
        yield f"retail at c 600, rates {retail}", filing(shared(three_columns(600, 3), 0, 0, 0), flat(600), retail)
    for penalty in (0, 300):
        values = shared(three_columns(600, 3), 100, 100, penalty)
        yield f"brokered at c 600, rates about 600, penalty {penalty}", filing(values, flat(600), (599, 600, 601))
    for penalty in (1, 90, 300, 1_200, 3_600):
        values = shared(deposits(1_000_000, 600, last_month), 50, 100, penalty)
        yield f"penalty {penalty} to the last month", filing(values, flat(500), (700, 900, 1_200))


def coupons():
    for retail in ((0, 0, 0), (1, 100, 300), (301, 2_500, 200)):
        values = shared(deposits(1_000, 0, first_month), 40, 50, 300)
        yield f"zero coupons, rates {retail}", filing(values, flat(250), retail)
    yield "a balance without a WAC", filing({601: 10, 608: 3, 645: 10}, flat(400), (500, 0, 0))
    yield "coupon 1", filing(shared(deposit(POSITIONS[7], 999, 1, 36), 50, 50, 3_600), RISING, (0, 0, 1))
    yield "coupon 1,500", filing(shared(deposit(POSITIONS[8], 999, 1_500, 120), 50, 50, 3_600), RISING, (0, 0, 2_250))


def rates_and_yields():
    values = shared(deposits(1_000, 700, last_month), 25, 50, 200)
    for curve, retail in ((0, 0), (0, 2_500), (2_500, 0), (2_500, 2_500), (299, 300), (300, 299)):
        yield f"yields {curve}, rates {retail}", filing(values, flat(curve), (retail,) * 3)
    only_month = [0] * 119 + [2_500]
    yield "a yield in month 120 only", filing(shared(deposit(POSITIONS[8], 1_000, 700, 120), 0, 0, 0), only_month, (0, 0, 700))


def largest_figures():
    for brokered, subject in ((0, 0), (100, 0), (0, 100), (100, 100)):
        values = shared(deposits(999_999_999, 1_500, last_month), brokered, subject, 3_600)
        yield f"every limit, brokered {brokered}, penalty {subject} of 100", filing(values, flat(0), (2_500,) * 3)


def forms_of_filing():
    yield "sheets alone", SHEETS
    yield "rates before yields", rates((1, 2, 3)) + yields(flat(4))
    yield "sheets first, cells descending", SHEETS + b"".join(cell(n, LISTING[n]) for n in sorted(LISTING, reverse=True))
    first, *others = (cell(number, value) for number, value in LISTING.items())
    yield "sheets between cells", rates((0, 0, 0)) + first + yields(flat(0)) + b"".join(others)
    yield "unused cells at 0", filing(LISTING | {number: 0 for number in UNUSED})
    yield "unused cells at 2^64 - 1", filing(LISTING | {number: LARGEST for number in UNUSED})
    yield "zero balances with WAC and WARM", filing(deposits(0, 1_500, lambda place: 120))
    yield "a zero balance beside another", filing({601: 10, 608: 1, 615: 0, 622: 120, 619: 1_500, 645: 10})
    yield "zero brokered, penalty and total", filing({650: 0, 655: 0, 658: 3_600, 645: 0})


FAMILIES = (
    paper_figures, single_positions, all_positions, small_shares, withdrawals, coupons, rates_and_yields, largest_figures, forms_of_filing,
)
