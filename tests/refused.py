"""Refused filings: the table's examples, every refusal by itself, and faults in pairs. Each has a name."""
import struct

from records import (
    COLUMNS, LARGEST, LIMITS, LISTING, POSITIONS, SHEETS, UNUSED, brokered_cell, cell, cells, deposit, filing, flat, penalty_balance_cell,
    rates, record, tiers, totalled, yields,
)


def refusal_table():
    yield "10: list of 567", filing(LISTING), 567
    yield "1: bytes 0C 00", bytes([0x0C, 0x00])
    yield "2: bytes 02 00 09 00", bytes([0x02, 0x00, 0x09, 0x00])
    yield "3: cell 600", cell(600, 0)
    yield "4: 601 twice", cell(601, 1) + cell(601, 1)
    yield "5: 605 = 1,501", cell(605, 1_501)
    yield "6: empty input", b""
    yield "7: 615 = 10, 622 = 3", filing({615: 10, 622: 3})
    yield "8: 601 = 10, 608 = 1, 650 = 11", filing({601: 10, 608: 1, 650: 11})
    yield "9: 601 = 10, 608 = 1, no 645", filing({601: 10, 608: 1})
    yield "11: no tier", tiers()


def cut_short():
    whole = cells(LISTING) + SHEETS
    for size in (*range(1, 30), 55, 57, 58, 59, 60, 61, 62, 299, 300, 301, 302, 303, 304, 308, 309):
        yield f"the paper's listing cut at {size}", whole[:size]
    yield "a lone last byte 00", whole + b"\x00"
    yield "a lone last byte 0C", whole + b"\x0c"
    yield "a last length alone", whole + b"\x02\x00"
    yield "half of a last kind", whole + b"\x02\x00\x09"


def lengths():
    for size in (0, 1, 65_535):
        head = struct.pack("<H", size)
        yield f"length {size} at the end", head
        yield f"length {size} and a kind", head + b"\x01\x00"
        yield f"length {size} before sheets", head + SHEETS
        yield f"length {size} after sheets", SHEETS + head + cell(601, 0)
    for kind, size in ((1, 12), (2, 242), (3, 8)):
        for wrong in (2, size - 1, size + 1, size + 256):
            yield f"kind {kind} of length {wrong}", record(kind, bytes(wrong - 2))


def kinds():
    for kind in (0, 11, 12, 256, 257, 513, 65_535):
        yield f"kind {kind} without a body", record(kind, b"")
        yield f"kind {kind} with the body of a cell", cell(601, 0) + record(kind, struct.pack("<HQ", 602, 0))


def unlisted_cells():
    for number in (0, 1, 345, 599, 600, 611, 614, 625, 630, 638, 640, 646, 649, 662, 674, 707, 710, 714, 716, 857, 65_535):
        yield f"cell {number}", cell(601, 0) + cell(number, 0)


def repeated():
    for number in sorted((*LIMITS, *UNUSED)):
        yield f"{number} twice", cell(number, 1) + cell(number, 0)
    yield "yields twice", yields(flat(0)) + yields(flat(0))
    yield "rates twice", SHEETS + rates((0, 0, 0))
    yield "the first and the last cell again", cell(601, 1) + cell(602, 1) + cell(661, 1) + cell(661, 1) + cell(601, 1)


def over_limit():
    yield "every cell at its limit", cells(LIMITS)
    for number, limit in LIMITS.items():
        yield f"{number} over its limit", cell(number, limit + 1)
        yield f"{number} at 2^64 - 1", cell(number, LARGEST)
        yield f"{number} at 2^32", cell(number, 2**32)
    for month in (1, 60, 120):
        for value in (2_501, 65_535):
            yield f"yield {value} in month {month}", yields([0] * (month - 1) + [value] + [2_500] * (120 - month))
    for column in COLUMNS:
        yield f"rate 2,501 in column {column}", rates([2_501 if n == column else 2_500 for n in COLUMNS])


def sheets_missing():
    yield "no rates", yields(flat(0))
    yield "no yields", rates((0, 0, 0))
    yield "no sheets", cells(LISTING)
    yield "no rates, and a balance without months", cell(601, 1) + yields(flat(0))


def months_outside():
    for place in POSITIONS:
        for months in (place.first - 1, place.last + 1):
            if months <= 120:
                yield f"{place.months} = {months}", filing(totalled(deposit(place, 1, 0, months)))
        yield f"no {place.months}", filing({place.balance: 1, 645: 1})


def above_column():
    for n in COLUMNS:
        place = POSITIONS[n - 1]
        for number in (brokered_cell(n), penalty_balance_cell(n)):
            yield f"{number} above column {n}", filing(totalled(deposit(place, 10, 0, 1) | {number: 11}))
            yield f"{number} in an empty column", filing({number: 1})


def totals_differ():
    for total in (0, 9, 11):
        yield f"645 = {total}, balances 10", filing({601: 7, 608: 1, 603: 3, 610: 3, 645: total})
    yield "645 = 1, no balance", filing({645: 1})
    yield "645 in the last position's column only", filing({601: 1, 608: 1, 641: 5, 644: 37, 645: 5})


def two_faults_in_one_record():
    yield "an unknown kind cut short", struct.pack("<HH", 12, 11)
    yield "an unlisted cell of length 13", record(1, struct.pack("<HQB", 600, 0, 0))
    yield "an unlisted cell over every limit", cell(600, LARGEST)
    yield "an unlisted cell twice", cell(604, 0) + cell(600, 0) + cell(600, 0)
    yield "a cell twice, over its limit", cell(605, 0) + cell(605, 1_501)
    yield "yields twice, over their limit", yields(flat(0)) + yields(flat(2_501))
    yield "rates twice, over their limit", rates((0, 0, 0)) + rates((0, 0, 2_501))


def two_faulty_records():
    faults = {1: bytes([0x01, 0x00]), 2: record(11, b""), 3: cell(600, 0), 4: cell(601, 1), 5: cell(605, 1_501), 11: tiers((1, 40))}
    for first, one in faults.items():
        for second, other in faults.items():
            if first != second:
                yield f"fault {first}, then {second}", cell(601, 1) + one + other
    for fault, one in faults.items():
        yield f"fault {fault} with a list of 567", cell(601, 1) + one, 567
        yield f"fault {fault} and no sheet", cell(601, 1) + cell(602, 1) + one


def two_faults_of_the_whole():
    months = {601: 10, 608: 4}
    brokered = {602: 10, 609: 1, 651: 11}
    subject = {603: 10, 610: 1, 655: 11}
    other_months = {641: 10, 644: 36}
    for name, one, other in (
        ("7 and 8", months, brokered), ("7 at 608 and at 644", months, other_months),
        ("8 at 651 and at 655", brokered, subject), ("7 at 644 and 8", other_months, subject),
    ):
        yield f"{name}, and 9", filing(one | other)
        yield f"{name}, and 9, the other first", filing(other | one)
        yield f"{name}, the total right", filing(totalled(other | one))
        yield f"{name}, no rates", cells(one | other) + yields(flat(0))
    yield "8 and 9", filing(brokered | {645: 9})
    yield "7 with a list of 567", filing(months), 567
    yield "9 with a list of 0", filing({645: 1}), 0


def noise():
    yield "every byte once", bytes(range(256))
    yield "64 bytes 00", bytes(64)
    yield "64 bytes FF", b"\xff" * 64
    yield "64 bytes 02", b"\x02" * 64
    whole = filing(LISTING)
    for offset in (0, 1, 2, 3, 4, 5, 6, 13, 56, 57, 58, 60, 300, 302, 304, 309):
        damaged = bytes([*whole[:offset], whole[offset] ^ 0xFF, *whole[offset + 1:]])
        yield f"the paper's listing, byte {offset} inverted", damaged


FAMILIES = (
    refusal_table, cut_short, lengths, kinds, unlisted_cells, repeated, over_limit, sheets_missing, months_outside, above_column, totals_differ,
    two_faults_in_one_record, two_faulty_records, two_faults_of_the_whole, noise,
)
