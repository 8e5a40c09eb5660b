"""Filings with borrowings (02:CR 8), accepted and refused: valued with two lists, and what other calls make of them. Each has a name.

What `answered` gives has its answer by the paper among the known figures (FIGURES)."""
import itertools

from amendments import VALUES
from book import TOTALS, book, put, show
from calls import BOOK, LISTING_TEXT, SEARCH, VALUE_AND_SPLIT
from records import (
    BORROWED, BORROWINGS, CLASSES, DISTINCT, LARGEST, LIMITS, LISTING, RISING, SHEETS, TERMS, amended, amendment_record, borrowed, borrowing, cell, cells,
    filing, fine, flat, libor, path, rates, record, tiers, withdrawn, yields,
)
from searches import search

# CD and LIBOR yields that have no month in common.
FALLING = [2_500 - 20 * month for month in range(120)]
CURVE = yields(RISING) + rates((400, 500, 600))
LIBOR = libor(flat(0))
SAME = []
CLASS_OF = {678 + 4 * i: coupons for i, coupons in enumerate(CLASSES)}
TERM_OF = {711 + j: months for j, months in enumerate(TERMS)}


def middle(place):
    return (place.first + place.last) // 2


def all_borrowings(balance, months):
    """All twenty-four, their balances apart, coupons in the middle of the classes; months is a function of the borrowing."""
    values = {}
    for k, place in enumerate(BORROWINGS):
        values |= borrowing(place, balance + k, (place.lowest + place.highest) // 2, months(place))
    return borrowed(values)


ALL = all_borrowings(10_000, middle)
WHOLE = cells(VALUES | ALL) + CURVE + libor(DISTINCT)


def alone(place, balance=1_000, coupon=None, months=None):
    """One borrowing, by default at the lowest coupon of its class and in the first month of its term."""
    return borrowed(borrowing(place, balance, place.lowest if coupon is None else coupon, place.first if months is None else months))


def sound(values, curve=flat(0)):
    return cells(values) + SHEETS + libor(curve)


def answered(name, data, number, place, *lists):
    FIGURES[f"borrowings: {name}"] = f"answer {number} {place}"
    return name, data, *lists


def single_borrowings():
    for place in BORROWINGS:
        for coupon, months in ((place.lowest, place.last), (place.highest, place.first)):
            yield f"{place.balance} alone, coupon {coupon}, {months} months", cells(alone(place, 1_000_000, coupon, months)) + CURVE + libor(DISTINCT)


def all_positions():
    yield "certificates and borrowings", WHOLE
    for name, months in (("first", lambda place: place.first), ("middle", middle), ("last", lambda place: place.last)):
        for sheet, curve in (("rising", RISING), ("falling", FALLING), ("distinct", DISTINCT)):
            yield f"all borrowings, {name} months, {sheet} yields", cells(all_borrowings(123_456, months)) + CURVE + libor(curve)
    for rate in (0, 1, 299, 300, 2_500):
        yield f"all borrowings, LIBOR {rate}, CD yields 2,500 less", sound(ALL, flat(rate)).replace(yields(flat(0)), yields(flat(2_500 - rate)))
    yield "a LIBOR yield in month 120 only", sound(all_borrowings(500, lambda place: place.last), [0] * 119 + [2_500])
    yield "a LIBOR yield in month 1 only", sound(all_borrowings(500, lambda place: place.last), [2_500] + [0] * 119)


def prices_by_hand():
    """A balance of 1,000,000 has its price as its value (FIGURES)."""
    yield "T 1, coupon 600, LIBOR 600", sound(alone(BORROWINGS[6], 1_000_000), flat(600))
    yield "T 2, coupon 600, LIBOR 0", sound(alone(BORROWINGS[6], 1_000_000, 600, 2))
    yield "T 3, coupon 1, LIBOR 0", sound(alone(BORROWINGS[0], 1_000_000, 1, 3))
    yield "T 4, coupon 0, LIBOR 0", sound(alone(BORROWINGS[1], 1_000_000, 0, 4))
    yield "T 120, coupon 1,500, LIBOR 0", sound(alone(BORROWINGS[23], 999_999_999, 1_500, 120))
    yield "T 2, coupon 500, LIBOR 600 and 1,200", sound(alone(BORROWINGS[3], 1_000_000, 500, 2), [600, 1_200] + flat(0)[2:])
    yield "totals at LIBOR 0", sound(all_borrowings(1_000, lambda place: place.first))


def classes():
    """The ends of each class, and one outside them, for each of its three balances."""
    for place in BORROWINGS:
        for coupon in (place.lowest - 1, place.lowest, place.highest, place.highest + 1):
            if 0 <= coupon <= 1_500:
                within = place.lowest <= coupon <= place.highest
                yield answered(f"{place.balance} = 1, {place.coupon} = {coupon}", sound(alone(place, 1, coupon)), *((0, 0) if within else (19, place.coupon)))
    for place in BORROWINGS[3::3]:
        yield answered(f"{place.balance} = 1, no {place.coupon}", sound({n: v for n, v in alone(place, 1).items() if n != place.coupon}), 19, place.coupon)


def terms():
    """The ends of each term, and one outside them, for each of its eight balances."""
    for place in BORROWINGS:
        for months in (place.first - 1, place.first, place.last, place.last + 1):
            if months <= 120:
                within = place.first <= months <= place.last
                yield answered(f"{place.balance} = 1, {place.months} = {months}", sound(alone(place, 1, None, months)), *((0, 0) if within else (7, place.months)))
        yield answered(f"{place.balance} = 1, no {place.months}", sound({n: v for n, v in alone(place, 1).items() if n != place.months}), 7, place.months)


def not_judged():
    """Where the balances are 0, coupons and months are held to the general limits alone."""
    wrong = {number: 1_500 if low < 1_100 else 0 for number, (low, _) in CLASS_OF.items()}
    yield "coupons outside their classes, no balance", sound(wrong)
    yield "months outside their terms, no balance", sound({711: 120, 712: 120, 713: 1})
    yield "balances of 0, coupons and months outside", sound(dict.fromkeys((place.balance for place in BORROWINGS), 0) | wrong | {711: 120, 712: 3})
    for place in (BORROWINGS[0], BORROWINGS[10], BORROWINGS[23]):
        others = {number: value for number, value in wrong.items() if number != place.coupon}
        months = {number: first - 1 for number, (first, _) in TERM_OF.items() if number != place.months}
        yield f"{place.balance} alone, the other classes and terms wrong", sound(others | months | alone(place, 7))


def sheets():
    """Kind 8 may stand without borrowings, and borrowings of 0 without it."""
    for name, data in {
        "kind 8 without borrowings": SHEETS + LIBOR,
        "no kind 8, no borrowing": SHEETS,
        "no kind 8, borrowings of 0": SHEETS + cells(dict.fromkeys((place.balance for place in BORROWINGS), 0) | {BORROWED: 0}),
        "no kind 8, coupons and months alone": SHEETS + cells({678: 100, 706: 1_500, 711: 2, 713: 60}),
        "no kind 8, a total alone": SHEETS + cells({BORROWED: 5}),
        "kind 8 first": LIBOR + cells(ALL) + SHEETS,
        "kind 8 between": cells(ALL) + yields(flat(0)) + LIBOR + rates((0, 0, 0)),
        "kind 8 twice": SHEETS + LIBOR + LIBOR,
        "kind 8 twice, the second over": SHEETS + LIBOR + libor(flat(2_501)),
        "kind 8 and a path": path(flat(0), flat(0), flat(0)) + yields(flat(0)) + LIBOR + cells(ALL),
        "kind 8 at 2,500": SHEETS + libor(flat(2_500)) + cells(ALL),
        "kind 8 but not kind 2": rates((0, 0, 0)) + LIBOR,
        "kind 8 alone": LIBOR,
        "kind 2 twice beside kind 8": SHEETS + LIBOR + yields(flat(0)),
    }.items():
        yield name, data
    for place in BORROWINGS:
        yield answered_by(f"no kind 8, {place.balance} = 1", SHEETS + cells(alone(place, 1)), "18")
    for month in (1, 60, 120):
        for value in (2_501, 65_535):
            yield f"LIBOR {value} in month {month}", SHEETS + libor([0] * (month - 1) + [value] + [2_500] * (120 - month))
    for size in (2, 3, 8, 12, 241, 243, 482, 498, 722):
        yield f"kind 8 of length {size}", SHEETS + record(8, bytes(size - 2))
    for size in (1, 2, 3, 4, 5, 242, 243):
        yield f"kind 8 cut at {size}", SHEETS + LIBOR[:size]


def limits():
    most = {place.balance: 999_999_999 for place in BORROWINGS}
    highest = {number: high for number, (_, high) in CLASS_OF.items()} | {711: 3, 712: 36, 713: 120}
    for rate in (0, 300, 2_500):
        yield f"borrowings at every limit, LIBOR {rate}", sound(most | highest | {BORROWED: 23_999_999_976}, flat(rate))
    yield "715 one over its limit", sound(most | highest | {BORROWED: 23_999_999_977})
    yield "715 one below the sum", sound(most | highest | {BORROWED: 23_999_999_975})
    for place in (BORROWINGS[0], BORROWINGS[23]):
        yield f"{place.balance} one over its limit", sound(alone(place, 1_000_000_000))
    for number in (675, 678, 711, BORROWED):
        for value in (LIMITS[number] + 1, 2**32 + LIMITS[number], LARGEST):
            yield f"{number} = {value}", sound({number: value})


def totals_differ():
    for total in (0, 11, 13):
        yield f"715 = {total}, borrowings 12", sound({675: 7, 678: 400, 705: 5, 706: 1_100, 711: 1, 713: 37, BORROWED: total})
    yield "no 715, borrowings 12", sound({675: 7, 678: 400, 705: 5, 706: 1_100, 711: 1, 713: 37})
    yield "715 = 1, no borrowing", sound({BORROWED: 1})
    yield "645 has the borrowings too", sound(LISTING | alone(BORROWINGS[4], 5) | {645: 1_005})
    yield "715 has the certificates too", sound(LISTING | alone(BORROWINGS[4], 5) | {BORROWED: 1_005})
    for place in BORROWINGS:
        yield answered(f"715 without {place.balance}", sound(ALL | {BORROWED: ALL[BORROWED] - ALL[place.balance]}), 9, 715)


# What makes a whole filing faulty, in the order of the refusals: the cells that it has, and the sheets that it lacks.
FAULTS = {
    "6": ({}, (3,)), "18": ({676: 10, 678: 0, 712: 4}, (8,)), "19 at 682": ({679: 10, 682: 499, 711: 1}, ()), "19 at 702": ({701: 10, 702: 1_100, 713: 40}, ()),
    "7 at 608": ({601: 10, 608: 4}, ()), "7 at 644": ({641: 10, 644: 36}, ()), "7 at 711": ({683: 10, 686: 650, 711: 4}, ()),
    "7 at 713": ({697: 10, 698: 950, 713: 36}, ()), "8 at 650": ({650: 1}, ()), "8 at 655": ({655: 1}, ()), "9 at 645": ({645: 999}, ()), "9 at 715": ({BORROWED: 999}, ()),
}
NEW = {"18", "19 at 682", "19 at 702", "7 at 711", "7 at 713", "9 at 715"}


def with_faults(*names, order=sorted):
    """A filing with these faults and a true total where the total is none of them."""
    values, lacking = {}, ()
    for name in names:
        values |= FAULTS[name][0]
        lacking += FAULTS[name][1]
    values = {645: sum(values.get(n, 0) for n in (601, 641))} | {BORROWED: sum(values.get(place.balance, 0) for place in BORROWINGS)} | values
    parts = {2: yields(flat(0)), 3: rates((0, 0, 0)), 8: LIBOR}
    return b"".join(cell(n, values[n]) for n in order(values)) + b"".join(data for kind, data in parts.items() if kind not in lacking)


def answered_by(name, data, fault, *lists):
    """The filing, with the answer of a fault, at the filing's length where it is a sheet's."""
    number, _, place = fault.partition(" at ")
    return answered(name, data, number, place or len(data), *lists)


def two_faults_of_the_whole():
    for name in FAULTS:
        yield answered_by(f"fault {name} alone", with_faults(name), name)
    for one, other in itertools.combinations(FAULTS, 2):
        if NEW & {one, other}:
            yield answered_by(f"faults {one} and {other}", with_faults(one, other), one)
            yield answered_by(f"faults {one} and {other}, cells descending", with_faults(one, other, order=lambda values: sorted(values, reverse=True)), one)
    for count in range(len(FAULTS) - 1):
        rest = [*FAULTS][count:]
        yield answered_by(f"every fault of the whole from {rest[0]} on", with_faults(*rest), rest[0])


def a_faulty_record_too():
    """A record's refusal stands before those of the whole, wherever the record stands."""
    records = {
        "1": b"\x01\0", "2": record(11, b""), "3": cell(707, 0), "4": cell(604, 1), "12": path(flat(0), flat(0), flat(0)), "16": amended(690, 1, 5), "5": cell(694, 1_501),
        "11": tiers((1, 40)), "4 by kind 8": LIBOR, "5 by kind 8": libor(flat(2_501)),
    }
    start = cell(604, 1) + amended(690, 1, 5)
    for name, data in records.items():
        for fault in ("18", "19 at 682", "7 at 711", "9 at 715"):
            if not (fault == "18" and "kind 8" in name):
                before = start + with_faults(fault, *(["18"] if name == "5 by kind 8" else []))
                yield answered(f"record {name}, and {fault}", before + data, name.split()[0], len(before))


def lists():
    for numbers, others in (
        (0, 0), (0, 374), (568, 0), (567, 373), (567, 374), (568, 373), (568, 374), (569, 375), (600, 400), (374, 400), (568, 1), (1, 373),
    ):
        short = numbers if numbers < 568 else others if others < 374 else None
        for name, data in {"whole": WHOLE, "no borrowing": filing(LISTING), "6": b"", "18": with_faults("18"), "9 at 715": with_faults("9 at 715")}.items():
            title, lists = f"lists of {numbers} and {others} numbers, {name}", (numbers, others)
            if short is not None:
                yield answered(title, data, 10, short, *lists)
            elif name[0].isdigit():
                yield answered_by(title, data, name, *lists)
            else:
                yield answered(title, data, 0, 0, *lists)


def survives(name, data, plain):
    """The filing that is given, and the one with only the surviving cells; both with sheets before them. They print the same lines."""
    SAME.append((f"borrowings: amended, {name}", f"borrowings: surviving, {name}"))
    yield f"amended, {name}", CURVE + libor(DISTINCT) + data
    yield f"surviving, {name}", CURVE + libor(DISTINCT) + plain


def amendments():
    later = b"".join(amended(number, 1, value) for number, value in ALL.items())
    yield from survives("every cell, over a record of kind 1", cells(dict.fromkeys(ALL, 1)) + later, cells(ALL))
    yield from survives("every cell, no record of kind 1", later, cells(ALL))
    yield from survives("every cell by 2, then 1", b"".join(amended(n, 2, v) + withdrawn(n, 1) for n, v in ALL.items()), cells(ALL))
    yield from survives("every cell withdrawn", cells(ALL) + b"".join(withdrawn(n, 9) for n in ALL), b"")
    for number in sorted(ALL):
        rest = {n: v for n, v in ALL.items() if n != number}
        yield from survives(f"{number} alone", cells(rest) + cell(number, 0) + amended(number, 7, ALL[number]), cells(ALL))
        if number in CLASS_OF or number in TERM_OF:
            yield from survives(f"{number} withdrawn", cells(ALL) + withdrawn(number, 1), cells(rest))
    yield from survives("a balance withdrawn, the total amended", cells(ALL) + withdrawn(684, 1) + amended(BORROWED, 1, ALL[BORROWED] - ALL[684]), cells(borrowed({n: v for n, v in ALL.items() if n != 684})))
    base = alone(BORROWINGS[12], 10, 850, 2)
    for name, data in {
        "19 by an amendment": amended(694, 1, 900), "19 by a withdrawal": withdrawn(694, 1), "19 that another amendment mends": amended(694, 1, 900) + amended(694, 2, 899),
        "19 that a withdrawn balance mends": amended(694, 1, 900) + withdrawn(691, 1) + withdrawn(BORROWED, 1), "7 by an amendment": amended(711, 1, 4),
        "7 by a withdrawal": withdrawn(711, 1), "9 by an amendment": amended(BORROWED, 1, 11), "9 by a withdrawal": withdrawn(BORROWED, 1),
        "9 by a withdrawn balance": withdrawn(691, 1), "a balance by an amendment alone": amended(679, 1, 3) + amended(682, 1, 555) + amended(BORROWED, 1, 13),
    }.items():
        yield f"survivors: {name}", cells(base) + data + SHEETS + LIBOR
        yield f"survivors: {name}, no kind 8", cells(base) + data + SHEETS
    yield "18 by an amended balance", SHEETS + amended(675, 1, 1) + amended(711, 1, 1) + amended(BORROWED, 1, 1)
    yield "18 that a withdrawal mends", SHEETS + cells({675: 1}) + withdrawn(675, 1)


def amendment_faults():
    for number in (675, 678, 703, 706, 711, 713, BORROWED):
        for amendment, state, value in ((0, 0, 0), (1, 2, 0), (1, 1, 1), (1, 0, LARGEST), (65_535, 1, 0)):
            yield f"{number} by number {amendment}, state {state}, value {value}", amendment_record(number, amendment, state, value) + SHEETS
        for first, second in ((1, 513), (513, 1), (511, 512), (512, 511), (65_024, 512), (65_535, 511)):
            start = amended(number, first, 0) + amended(661, first, 0) + amended(number, second, 0)
            yield f"{number} by {first}, {second}", start + SHEETS
            yield f"{number} by {first}, {second} and {first} again", start + amended(number, first, 0) + SHEETS
            yield f"{number} by {first}, {second} and {second} again, over its limit", start + amended(number, second, LARGEST) + SHEETS
    yield "numbers 1 to 40 of 706, each", b"".join(amended(706, n, n) for n in range(1, 41)) + SHEETS
    yield "two cells 512 numbers apart", amended(675, 1, 0) + amended(676, 513, 0) + amended(675, 513, 0) + amended(676, 1, 0) + SHEETS


def other_kinds():
    """Kind 6 has the coupons of certificates alone; kind 1 has a cell once."""
    for number in (675, 678, 682, 706, 711, BORROWED):
        yield f"kind 6 for {number}, which kind 1 has", cell(number, 0) + fine(number, 0)
        yield f"{number} by kinds 7 and 1", amended(number, 1, 0) + cell(number, 0) + SHEETS
        yield f"{number} by kind 1 twice and 7", cell(number, 0) + amended(number, 1, 0) + cell(number, 0) + SHEETS
    yield "kind 6 for 678, over every limit", fine(678, LARGEST)


def noise():
    whole = cells(alone(BORROWINGS[6], 1_000)) + LIBOR + SHEETS
    for offset in (*range(60), 61, 62, 64, 66, 299, 300):
        damaged = bytes([*whole[:offset], whole[offset] ^ 0x41, *whole[offset + 1:]])
        yield f"one borrowing, byte {offset} changed", damaged


FAMILIES = (
    single_borrowings, all_positions, prices_by_hand, classes, terms, not_judged, sheets, limits, totals_differ, two_faults_of_the_whole, a_faulty_record_too,
    lists, amendments, amendment_faults, other_kinds, noise,
)


def refused_by_other_calls():
    """Each refusal of borrowings holds for every call that reads a filing."""
    for name in ("18", "19 at 682", "7 at 711", "7 at 713", "9 at 715"):
        yield name, with_faults(name)
    yield "3", SHEETS + cell(714, 0)
    yield "4", SHEETS + LIBOR + LIBOR
    yield "5", SHEETS + libor(flat(2_501))


def accepted_by_other_calls():
    """The other calls have nothing of borrowings (SAME)."""
    yield "with borrowings", WHOLE
    yield "without borrowings", cells(VALUES) + CURVE


def other_calls():
    yield from refused_by_other_calls()
    yield from accepted_by_other_calls()


def searches():
    for name, data in other_calls():
        yield name, search(5, 4, ()).removesuffix(SHEETS) + data


def books():
    for name, data in other_calls():
        yield name, book(data, put(4), show(4), TOTALS)


OTHER_CALLS = (VALUE_AND_SPLIT, "split", other_calls), (LISTING_TEXT, "listing", other_calls), (SEARCH, "search", searches), (BOOK, "book", books)


def at_par(up):
    """The total of `totals at LIBOR 0`: of each balance 10^9 and the interest of its months, 1, 4 or 37; rounded up where `up` is 1."""
    total = 0
    for k, place in enumerate(BORROWINGS):
        interest = (10**9 * ((place.lowest + place.highest) // 2) + 119_999 * up) // 120_000
        total += ((1_000 + k) * (10**9 + place.first * interest) + 999_999 * up) // 10**6
    return total


SAME += [(f"borrowings, {call}: with borrowings", f"borrowings, {call}: without borrowings") for call in ("split", "listing", "search", "book")]

# A price is the sum over the months of (interest, and 10^9 in the last month) x discount factor, each product rounded down and up. Coupon 600 pays 5,000,000 a month,
# coupon 500 4,166,666 or 4,166,667, coupon 1 8,333 or 8,334; at z = 0 the factor is 1.
# One month at coupon 600: 1,005,000,000 x the factors of z = 300 to 900, 997506234 and 997506235, 996677740 and ..41, 995850622 and ..23, 995024875 and ..76,
# 994200497 and ..98, 993377483 and ..84, 992555831 and ..32.
# Two months: 5,000,000 x the first factor and 1,005,000,000 x the second: at z = 100 999167360 and ..61, 998335413 and ..15; at z = 200 998336106 and ..07,
# 996674981 and ..83; at z = 300 997506234 and ..35, 995018687 and ..89. With yields 600 and 1,200: 995024875 and ..76, then 980296048 and ..50.
FIGURES = {
    "borrowings: T 1, coupon 600, LIBOR 600": "borrowing 6 1000000 1002493765 1002493767 1001661128 1001661130 1000829875 1000829877 999999999 1000000001"
    " 999171499 999171501 998344370 998344372 997518610 997518612",
    "borrowings: T 2, coupon 600, LIBOR 0": f"borrowing 6 1000000{' 1010000000' * 8} 1008322926 1008322930 1006650035 1006650039 1004981311 1004981315",
    "borrowings: T 3, coupon 1, LIBOR 0": "borrowings 0 1000024999 1000025002",
    "borrowings: T 4, coupon 0, LIBOR 0": "borrowings 0 1000000000 1000000000",
    "borrowings: T 120, coupon 1,500, LIBOR 0": "borrowings 0 2499999997500 2499999997500",
    "borrowings: T 2, coupon 500, LIBOR 600 and 1,200": "borrowings 0 988526550 988526556",
    "borrowings: totals at LIBOR 0": f"borrowings 0 {at_par(0)} {at_par(1)}",
}
