"""Filings with amended and withdrawn cells (02:CR 6), accepted and refused. Each has a name.

`survives` gives two entries, a filing with amendments and the filing of the cells that survive, which print the same lines (SAME)."""
import itertools
import struct

from records import (
    LARGEST, LIMITS, LISTING, POSITIONS, RISING, SHEETS, UNUSED, amended, amendment_record, cell, cells, deposit, deposits, fine, first_month, flat,
    middle_month, path, rates, record, shared, tiers, totalled, withdrawn, yields,
)

CURVE = yields(RISING) + rates((400, 500, 600))
VALUES = shared(deposits(7_777, 525, middle_month), 35, 45, 300)
SAME = []


def survives(name, data, plain):
    """The filing that is given, and the one with only the surviving cells; both with sheets before them."""
    SAME.append((f"amended: {name}", f"surviving: {name}"))
    yield f"amended: {name}", CURVE + data
    yield f"surviving: {name}", CURVE + plain


def every_cell_amended():
    other = {number: 1 for number in VALUES}
    later = b"".join(amended(number, 1, value) for number, value in VALUES.items())
    twice = b"".join(amended(number, 2, value) + amended(number, 1, 0) for number, value in VALUES.items())
    yield from survives("every cell, over a record of kind 1", cells(other) + later, cells(VALUES))
    yield from survives("every cell, before a record of kind 1", later + cells(other), cells(VALUES))
    yield from survives("every cell, no record of kind 1", later, cells(VALUES))
    yield from survives("every cell by number 2, then 1", cells(other) + twice, cells(VALUES))
    for number in sorted(VALUES):
        rest = {n: v for n, v in VALUES.items() if n != number}
        yield from survives(f"{number} alone", cells(rest) + cell(number, 0) + amended(number, 7, VALUES[number]), cells(VALUES))


def numbers_in_any_order():
    base = {602: 20, 609: 2, 645: 20, 606: 500}
    for order in itertools.permutations((1, 2, 65_535)):
        data = b"".join(amended(606, n, n % 1_501) for n in order)
        yield from survives(f"606 by numbers {order}", cells(base) + data, cells(base | {606: 65_535 % 1_501}))
    for numbers in ((1,), (65_535,), (255, 256), (256, 255), (1, 32_768), (65_534, 65_535), (65_535, 65_534), (3, 300, 30, 2)):
        data = b"".join(amended(606, n, n % 1_501) for n in numbers)
        yield from survives(f"606 by numbers {numbers}", data + cells(base), cells(base | {606: max(numbers) % 1_501}))
    data = b"".join(amended(606, n, n) for n in range(1, 41))
    yield from survives("606 by numbers 1 to 40", cells(base) + data, cells(base | {606: 40}))
    data = b"".join(amended(606, n, n) for n in range(40, 0, -1))
    yield from survives("606 by numbers 40 to 1", cells(base) + data, cells(base | {606: 40}))


def withdrawn_cells():
    for number in (605, 620, 643):
        rest = {n: v for n, v in VALUES.items() if n != number}
        yield from survives(f"{number} withdrawn", cells(VALUES) + withdrawn(number, 1), cells(rest))
        yield from survives(f"{number} withdrawn, then valued", cells(VALUES) + withdrawn(number, 1) + amended(number, 2, 77), cells(VALUES | {number: 77}))
        yield from survives(f"{number} valued, then withdrawn", cells(VALUES) + amended(number, 1, 77) + withdrawn(number, 2), cells(rest))
        yield from survives(f"{number} withdrawn by the higher number before", withdrawn(number, 2) + amended(number, 1, 77) + cells(VALUES), cells(rest))
    base = totalled(deposit(POSITIONS[1], 20, 500, 2) | deposit(POSITIONS[4], 30, 400, 8))
    less = totalled(deposit(POSITIONS[1], 20, 500, 2) | {620: 400, 623: 8})
    yield from survives("a balance withdrawn, the total amended", cells(base) + withdrawn(616, 1) + amended(645, 1, 20), cells(less))
    yield from survives("everything withdrawn", cells(base) + b"".join(withdrawn(n, 9) for n in base), b"")
    yield from survives("cells that no record of kind 1 has, withdrawn", cells(base) + b"".join(withdrawn(n, 1) for n in (601, 605, 608, 650)), cells(base))
    yield from survives("the total withdrawn, no balance", cells({645: 5}) + withdrawn(645, 1), b"")
    yield from survives("unused cells amended", b"".join(amended(n, 1, LARGEST) for n in UNUSED), b"")
    yield from survives("unused cells withdrawn", b"".join(cell(n, 1) + withdrawn(n, 1) for n in UNUSED), b"")


def fine_coupons():
    """An amended coupon is in hundredths, over a kind 6 too."""
    base = totalled(deposit(POSITIONS[7], 1_000_000, 0, 30) | {652: 400_000})
    rest = {n: v for n, v in base.items() if n != 635}
    yield from survives("kind 6 amended", cells(rest) + fine(635, 5_251) + amended(635, 1, 500), cells(rest) + fine(635, 5_000))
    yield from survives("kind 6 amended before", amended(635, 1, 500) + cells(rest) + fine(635, 5_251), cells(rest | {635: 500}))
    yield from survives("kind 6 withdrawn", cells(rest) + fine(635, 5_251) + withdrawn(635, 1), cells(rest))
    yield from survives("kind 6 beside another's amendment", cells(rest) + fine(635, 5_251) + amended(634, 1, 500), cells(rest | {634: 500}) + fine(635, 5_251))
    yield from survives("1,500 by an amendment", cells(rest) + fine(635, 1) + amended(635, 1, 1_500), cells(rest) + fine(635, 15_000))
    yield "amended to 1,501 over a kind 6", cells(rest) + fine(635, 1) + amended(635, 1, 1_501)


def refused_by_what_survives():
    """7 to 9 are judged on the cells that survive."""
    base = deposit(POSITIONS[3], 10, 100, 8) | {645: 10}
    for name, data in {
        "7 by an amendment": amended(622, 1, 3),
        "7 by a withdrawal": withdrawn(622, 1),
        "7 that another amendment mends": amended(622, 1, 3) + amended(622, 2, 4),
        "7 that a withdrawn balance mends": amended(622, 1, 3) + withdrawn(615, 1) + withdrawn(645, 1),
        "8 by an amendment": amended(650, 1, 11),
        "8 by a withdrawal": amended(653, 1, 10) + withdrawn(615, 1) + withdrawn(645, 1),
        "8 that a withdrawal mends": amended(653, 1, 11) + withdrawn(653, 2),
        "9 by an amendment": amended(645, 1, 11),
        "9 by a withdrawn total": withdrawn(645, 1),
        "9 by a withdrawn balance": withdrawn(615, 1),
        "9 by an amended balance": amended(615, 1, 9),
    }.items():
        yield f"survivors: {name}", cells(base) + data + SHEETS
    yield "survivors: no sheets", cells(base) + amended(622, 1, 5)
    yield "survivors: 10", cells(base) + amended(622, 1, 5) + SHEETS, 567, 35


def beside_other_kinds():
    """Refusal 4 sees kinds 1 and 6 alone, also where an amendment supersedes them."""
    one, sixth, seventh = cell(605, 1), fine(605, 10), amended(605, 1, 1)
    for name, data in {
        "kind 1 twice, then 7": one + one + seventh,
        "kind 7, then 1 twice": seventh + one + one,
        "kinds 1, 7, 1": one + seventh + one,
        "kinds 6, 7, 6": sixth + seventh + sixth,
        "kinds 1, 7, 6": one + seventh + sixth,
        "kinds 7, 6, 1": seventh + sixth + one,
        "kinds 7, 1": seventh + one,
        "kinds 7, 6": seventh + sixth,
        "kinds 1, 7 and 7 of another number": one + seventh + amended(605, 2, 1),
        "kinds 1, 7 and 7 of the same number": one + seventh + amended(605, 1, 1),
        "kind 7 of the same number for another cell": seventh + amended(606, 1, 1),
        "kind 7 withdrawn and valued by one number": seventh + withdrawn(605, 1),
        "kind 7 valued and withdrawn by one number": withdrawn(605, 1) + seventh,
    }.items():
        yield f"amended: {name}", data + SHEETS
    for number in (1, 2, 255, 256, 65_535):
        apart = amended(601, 3, 0) + amended(602, number, 0)
        yield f"number {number} twice, apart", amended(601, number, 0) + apart + amended(601, number, 0)


def numbers_far_apart():
    """Numbers that fall, and repetitions among them, at the bounds of what is searched in one pass."""
    for first, second in ((1, 513), (513, 1), (511, 512), (512, 511), (512, 1_024), (65_024, 512), (65_535, 511)):
        yield f"numbers {first}, {second}", amended(605, first, 0) + amended(605, second, 0) + SHEETS
        yield f"numbers {first}, {second} and {first} again", amended(605, first, 0) + amended(605, second, 0) + amended(605, first, 0)
        yield f"numbers {first}, {second} and {second} again", amended(605, first, 0) + amended(605, second, 0) + amended(605, second, 0)
    for number in (511, 512, 513, 1_023, 1_024, 65_024, 65_535):
        others = b"".join(amended(n, number, 0) + amended(n, number - 1, 0) for n in (601, 602, 660, 661))
        yield f"number {number} of four cells", others + SHEETS
        yield f"number {number} of four cells, one again", others + amended(660, number, 0)
    low, high = amended(605, 1, 0), amended(605, 600, 0)
    for name, data in {"the lower first": high + low + low + high, "the higher first": high + low + high + low, "of two cells": high + amended(606, 1, 0) + low + amended(606, 1, 0) + high}.items():
        yield f"two repetitions, {name}", data + SHEETS


def values_and_states():
    for number in sorted(LIMITS):
        yield f"amendment of {number} at its limit", amended(number, 1, LIMITS[number])
        yield f"amendment of {number} over its limit", amended(number, 1, LIMITS[number] + 1)
    for number in (601, 605, 645, 604):
        for amendment, state, value in ((0, 0, 0), (0, 1, 0), (1, 2, 0), (1, 256, 0), (1, 65_535, 0), (1, 1, 1), (1, 1, LARGEST), (1, 0, LARGEST), (256, 0, 0)):
            yield f"{number} by number {amendment}, state {state}, value {value}", amendment_record(number, amendment, state, value) + SHEETS
    yield "a superseded amendment over its limit", amended(605, 2, 0) + amended(605, 1, 1_501)
    yield "a superseded amendment of state 2", amended(605, 2, 0) + amendment_record(605, 1, 2, 0)
    yield "a superseded withdrawal with a value", amended(605, 2, 0) + amendment_record(605, 1, 1, 1)
    yield "a superseded kind 1 over its limit", amended(605, 2, 0) + cell(605, 1_501)


def unlisted():
    for number in (0, 1, 599, 600, 611, 630, 646, 649, 662, 674, 707, 710, 714, 716, 65_535):
        yield f"amendment of {number}", amended(number, 1, 0)


def lengths():
    whole = struct.pack("<HHHQ", 605, 1, 0, 5)
    for size in (2, 3, 8, 12, 14, 15, 17, 18, 272):
        yield f"kind 7 of length {size}", record(7, whole[:size - 2].ljust(size - 2, b"\0"))
    for size in range(1, 18):
        yield f"kind 7 cut at {size}", SHEETS + amended(605, 1, 5)[:size]


def two_faults_in_one_record():
    before = amended(605, 1, 0)
    yield "kind 7: 1 and 3", amended(600, 1, 0)[:-1]
    yield "kind 7: 2 and 3", record(7, struct.pack("<HHHQB", 600, 1, 0, 0, 0))
    yield "kind 7: 3 and 5", amendment_record(600, 0, 2, LARGEST)
    yield "kind 7: 3 and 16", amended(605, 1, 0) + amended(600, 1, 0) + amended(600, 1, 0)
    yield "kind 7: 16 and 5 by its value", before + amended(605, 1, 1_501)
    yield "kind 7: 16 and 5 by its state", before + amendment_record(605, 1, 2, 0)
    yield "kind 7: 16 and 5 by a withdrawn value", before + amendment_record(605, 1, 1, 1)
    yield "kind 7: number 0 twice", amendment_record(605, 0, 0, 0) * 2


def two_faulty_records():
    faults = {
        1: bytes([0x01, 0x00]), 2: record(11, b""), 3: amended(600, 1, 0), 4: cell(601, 1), 5: amendment_record(606, 0, 0, 0), 11: tiers((1, 40)),
        12: path(flat(0), flat(0), flat(0)), 16: withdrawn(605, 1),
    }
    start = cell(601, 1) + rates((0, 0, 0)) + amended(605, 1, 10)
    for first, one in faults.items():
        for second, other in faults.items():
            if first != second and {first, second} & {3, 5, 16}:
                yield f"kind 7 among the faults: {first}, then {second}", start + one + other
    for name, values in (("7", {615: 10, 622: 3}), ("8", {601: 10, 608: 1, 650: 11}), ("9", {601: 10, 608: 1})):
        yield f"16 and {name}", SHEETS + cells(values) + amended(605, 1, 10) * 2
    yield "16 and 6", amended(605, 1, 10) * 2
    yield "16 and 10", SHEETS + cells(LISTING) + amended(605, 1, 10) * 2, 567, 35


def many():
    """Amendments by the hundred: one cell, all cells in turn, and the last two alike."""
    every = sorted((*LIMITS, *UNUSED))
    one = b"".join(amended(650, n, 0) for n in range(1, 101))
    turn = b"".join(amended(number, n, 0) for n in range(1, 4) for number in every)
    for name, data, last in (("one cell", one, 650), ("all cells in turn", turn, 715)):
        yield f"many amendments of {name}", SHEETS + cells(LISTING) + data
        yield f"many amendments of {name}, the last two alike", SHEETS + cells(LISTING) + data + amended(last, 3, 0)
        yield f"many amendments of {name}, withdrawn at last", SHEETS + cells(LISTING) + data + withdrawn(601, 500) + withdrawn(645, 500)


def noise():
    start, end = cells(LISTING), SHEETS
    whole = amended(605, 1, 525)
    for offset in range(len(whole)):
        for change in (0x01, 0x40, 0xFF):
            damaged = bytes([*whole[:offset], whole[offset] ^ change, *whole[offset + 1:]])
            yield f"kind 7, byte {offset} changed by {change}", start + damaged + end


FAMILIES = (
    every_cell_amended, numbers_in_any_order, withdrawn_cells, fine_coupons, refused_by_what_survives, beside_other_kinds, numbers_far_apart,
    values_and_states, unlisted, lengths, two_faults_in_one_record, two_faulty_records, many, noise,
)
