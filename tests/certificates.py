"""Lists of certificates (02:CR 5), accepted and refused. Each has a name.

An input has numbers of 8 bytes: year, month and day of the valuation date; then for each certificate those of its issue and of its maturity, its balance and
its coupon."""
import struct
from datetime import date

LARGEST = 2**64 - 1
FIRST = (2024, 1, 31)


def certificates(valuation, *held):
    """Each certificate is an issue date, a maturity date, a balance and a coupon; dates are (year, month, day)."""
    numbers = [*valuation]
    for issue, maturity, balance, coupon in held:
        numbers += [*issue, *maturity, balance, coupon]
    return struct.pack(f"<{len(numbers)}Q", *numbers)


def single(valuation, issue, maturity, balance=100, coupon=525):
    return certificates(valuation, (issue, maturity, balance, coupon))


def days(years):
    """The ends and the beginnings of the months of some years."""
    for year in years:
        for month in range(1, 13):
            last = (date(year + month // 12, month % 12 + 1, 1) - date(year, month, 1)).days
            for day in (1, 28, 29, 30, 31):
                if day <= last:
                    yield year, month, day


def month_ends():
    """Every end and beginning of a month against those of the next year and a half, a list for each valuation date."""
    for valuation in days((1999, 2000)):
        later = [day for day in days((1999, 2000, 2001)) if valuation < day][:90]
        held = [((1999, 1, 1), maturity, 1, k) for k, maturity in enumerate(later)]
        yield f"month ends from {valuation}", certificates(valuation, *held)
    for valuation in ((1900, 2, 28), (1903, 11, 30), (2000, 2, 29), (2096, 2, 29), (2099, 12, 31), (2100, 2, 28), (2199, 1, 31)):
        for months in (1, 2, 3, 11, 12, 13, 36, 48):
            year, month = divmod(12 * valuation[0] + valuation[1] - 1 + months, 12)
            if year < 2200:
                for day in (28, 29, 30, 31):
                    yield f"{valuation} to {(year, month + 1, day)}", single(valuation, valuation, (year, month + 1, day))


def original_months():
    """The column by the months from issue to maturity: 12 and 13, 36 and 37."""
    for issue, maturity in (
        ((2023, 3, 31), (2024, 3, 31)), ((2023, 3, 30), (2024, 3, 31)), ((2021, 3, 31), (2024, 3, 31)), ((2021, 3, 30), (2024, 3, 31)),
        ((2023, 2, 28), (2024, 2, 28)), ((2023, 2, 28), (2024, 2, 29)), ((2021, 2, 28), (2024, 2, 29)), ((1900, 1, 1), (2024, 3, 1)),
        ((2024, 1, 31), (2024, 2, 29)), ((2024, 1, 31), (2025, 1, 31)), ((2024, 1, 31), (2025, 2, 1)), ((2024, 1, 31), (2027, 1, 31)),
        ((2024, 1, 31), (2027, 2, 1)), ((2022, 2, 28), (2026, 1, 31)), ((2015, 6, 30), (2034, 1, 31)),
    ):
        yield f"issued {issue}, matures {maturity}", single(FIRST, issue, maturity)


def remaining_months():
    """The row's ends, the certificate issued long before."""
    for months in (1, 2, 3, 4, 12, 13, 36, 37, 119, 120, 121, 122):
        year, month = divmod(12 * 2024 + months, 12)
        for day in (1, 15, 16):
            yield f"{months} months on, day {day}", single((2024, 1, 15), (2010, 1, 1), (year, month + 1, day))


def bad_dates():
    """13: a date that is no day of the years 1900 to 2199."""
    good = (2020, 5, 5), (2025, 5, 5)
    for bad in (
        (1899, 12, 31), (2200, 1, 1), (0, 0, 0), (LARGEST, 1, 1), (2024, LARGEST, 1), (2024, 1, LARGEST), (2023, 2, 29), (1900, 2, 29), (2100, 2, 29),
        (2024, 2, 30), (2024, 4, 31), (2024, 6, 31), (2024, 9, 31), (2024, 11, 31), (2024, 1, 32), (2024, 0, 1), (2024, 13, 1), (2024, 1, 0),
        (2024, 12, 0), (2**32 + 2024, 1, 1), (2024, 2**32 + 1, 1), (2024, 1, 2**32 + 1), (2024, 257, 1), (2024, 1, 257),
    ):
        yield f"13 by the valuation date {bad}", single(bad, *good)
        yield f"13 by the issue {bad}", single(FIRST, bad, good[1])
        yield f"13 by the maturity {bad}", certificates(FIRST, (*good, 1, 1), (good[0], bad, 1, 1))
    for day in ((1900, 1, 1), (2000, 2, 29), (2096, 2, 29)):
        yield f"issued {day}, a day", single((2100, 1, 1), day, (2100, 3, 1))
    yield "the last day matures", single((2199, 12, 30), (1900, 1, 1), (2199, 12, 31))
    yield "the last day is valued", single((2199, 12, 31), (1900, 1, 1), (2199, 12, 31))


def not_outstanding():
    """14 and 15."""
    yield "issued after the valuation date", single(FIRST, (2024, 2, 1), (2025, 1, 1))
    yield "issued on the valuation date", single(FIRST, FIRST, (2024, 2, 1))
    yield "matures on the valuation date", single(FIRST, (2020, 1, 1), FIRST)
    yield "matured before", single(FIRST, (2020, 1, 1), (2024, 1, 30))
    yield "issued after and matured before", single(FIRST, (2024, 2, 1), (2024, 1, 1))
    yield "120 months and a day", single(FIRST, (2020, 1, 1), (2034, 2, 1))
    yield "120 months", single(FIRST, (2020, 1, 1), (2034, 1, 31))
    yield "175 years", single((2024, 1, 31), (1900, 1, 1), (2199, 12, 31))


def limits():
    """5: balances, coupons and the sum of a cell."""
    dates = (2020, 1, 1), (2024, 3, 1)
    for balance in (0, 1, 999_999_999, 1_000_000_000, 2**32, LARGEST):
        yield f"balance {balance}", single(FIRST, *dates, balance=balance)
    for coupon in (0, 1, 1_500, 1_501, 65_536 + 1, LARGEST):
        yield f"coupon {coupon}", single(FIRST, *dates, coupon=coupon)
    for more in (0, 1):
        yield f"a cell of 999,999,999 and {more}", certificates(FIRST, (*dates, 999_999_998, 5), (*dates, 1, 7), (*dates, more, 9))
        yield f"two cells of 999,999,999 and {more}", certificates(FIRST, (*dates, 999_999_999, 5), (dates[0], (2025, 3, 1), 999_999_999, 7), (*dates, more, 9))
    nine = [((2023, 6, 1), (2024, 3, 1)), ((2022, 6, 1), (2024, 3, 1)), ((2020, 6, 1), (2024, 3, 1)), ((2023, 9, 1), (2024, 7, 1)), ((2022, 9, 1), (2024, 7, 1)),
        ((2020, 9, 1), (2024, 7, 1)), ((2023, 9, 1), (2026, 7, 1)), ((2020, 9, 1), (2026, 7, 1)), ((2020, 9, 1), (2030, 7, 1))]
    yield "every cell at its limit", certificates(FIRST, *((*pair, 999_999_999, 1_500) for pair in nine))
    yield "every cell, in another order", certificates(FIRST, *((*pair, 10 + k, 100 * k) for k, pair in enumerate(reversed(nine))))
    yield "every cell of balance 0", certificates(FIRST, *((*pair, 0, 1_500) for pair in nine))


def means():
    """Balance-weighted means, halves up; a balance of 0 weighs nothing."""
    short, long = ((2020, 1, 1), (2024, 3, 1)), ((2020, 1, 1), (2024, 4, 30))
    for name, held in {
        "coupons 1 and 2": ((*short, 1, 1), (*short, 1, 2)),
        "coupons 1, 1 and 2": ((*short, 1, 1), (*short, 1, 1), (*short, 1, 2)),
        "coupons 1, 2 and 2": ((*short, 1, 1), (*short, 2, 2)),
        "a third of 1": ((*short, 2, 0), (*short, 1, 1)),
        "months 2 and 3": ((*short, 1, 0), (*long, 1, 0)),
        "months 2 and 3, by 3 to 1": ((*short, 3, 0), (*long, 1, 0)),
        "months 2 and 3, by 2 to 1": ((*short, 2, 0), (*long, 1, 0)),
        "a balance of 0 with a high coupon": ((*short, 0, 1_500), (*short, 3, 1)),
        "a balance of 0 alone in its cell": ((*short, 0, 1_500), ((2020, 1, 1), (2030, 1, 1), 3, 1)),
        "large balances": ((*short, 500_000_000, 1_499), (*short, 499_999_999, 1_500)),
        "large balances, the other way": ((*short, 499_999_999, 1_499), (*short, 500_000_000, 1_500)),
    }.items():
        yield f"means: {name}", certificates(FIRST, *held)


def counts():
    one = (2020, 1, 1), (2024, 3, 1), 1, 100
    for count in (0, 1, 2, 999, 1_000, 1_001):
        yield f"{count} certificates", certificates(FIRST, *[one] * count)
    yield "no certificate and a bad date", certificates((2024, 2, 30))
    yield "1,001 certificates and a bad date", certificates((2024, 2, 30), *[one] * 1_001)
    yield "1,000 certificates, the last too much", certificates(FIRST, *[one] * 999, (*one[:2], 999_999_999, 1))
    yield "part of a certificate", certificates(FIRST, one, one)[:-8]
    yield "a date and no more", certificates(FIRST)
    spread = [((2000 + k % 24, 1 + k % 12, 1 + k % 28), (2024 + k % 10, 2 + k % 11, 1 + k % 27), 1_000 * k, k) for k in range(1_000)]
    yield "1,000 certificates spread over the cells", certificates(FIRST, *spread)


def two_faults():
    """Two faults in one certificate, and in two."""
    good = (2020, 1, 1), (2024, 3, 1)
    faults = {
        "5 by its balance": (*good, 1_000_000_000, 1), "5 by its coupon": (*good, 1, 1_501), "13": ((2023, 2, 29), good[1], 1, 1),
        "14": ((2024, 2, 1), (2025, 1, 1), 1, 1), "15": (good[0], (2034, 2, 1), 1, 1), "5 by the sum": (*good, 999_999_999, 1),
    }
    start = (*good, 1, 1)
    for first, one in faults.items():
        yield f"{first}, and the valuation date", certificates((2024, 2, 30), one)
        for second, other in faults.items():
            yield f"{first}, then {second}", certificates(FIRST, start, one, other)
    for name, certificate in {
        "5 and 13": ((2023, 2, 29), good[1], 1_000_000_000, 1),
        "13 and 14": ((2024, 2, 30), (2024, 1, 1), 1, 1),
        "13 and 14 by the maturity": ((2024, 2, 1), (2024, 2, 30), 1, 1),
        "14 and 15": ((2024, 2, 1), (2035, 1, 1), 1, 1),
        "5, 14 and 15": ((2024, 2, 1), (2035, 1, 1), 1, 1_501),
        "15 and 5 by the sum": (good[0], (2035, 1, 1), 999_999_999, 1),
    }.items():
        yield f"in one certificate: {name}", certificates(FIRST, start, certificate)


FAMILIES = month_ends, original_months, remaining_months, bad_dates, not_outstanding, limits, means, counts, two_faults

# Lines worked out by hand.
FIGURES = {
    "certificates: 120 months": "cell 644 120",
    "certificates: 120 months and a day": "answer 15 0",
    "certificates: issued (2022, 2, 28), matures (2026, 1, 31)": "cell 637 24",
    "certificates: issued (2021, 3, 30), matures (2024, 3, 31)": "cell 603 100",
    "certificates: issued (2021, 3, 31), matures (2024, 3, 31)": "cell 602 100",
    "certificates: means: coupons 1 and 2": "cell 607 2",
    "certificates: means: coupons 1, 1 and 2": "cell 607 1",
    "certificates: means: months 2 and 3": "cell 610 3",
    "certificates: every cell of balance 0": "cell 645 0",
    "certificates: every cell at its limit": "cell 645 8999999991",
}
