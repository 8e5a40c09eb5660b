"""Filings with an institution's own withdrawal tiers (02:CR 1), accepted and refused. Each has a name."""
import struct

from accepted import three_columns
from records import (
    HOUSE_TIERS, LISTING, POSITIONS, RISING, SHEETS, cell, cells, counted_tiers, deposit, deposits, filing, first_month, flat, last_month,
    middle_month, rates, shared, tiers, totalled, yields,
)

KIND = struct.pack("<H", 4)
SIXTEEN = tuple((10 * k, 40 * k) for k in range(16))
SIXTEEN_WIDE = tuple((4_369 * k, 40 * k) for k in range(16))
LOADED = {
    "one tier": ((0, 40),),
    "one tier of 0": ((0, 0),),
    "one tier of 600": ((0, 600),),
    "two tiers": ((0, 40), (100, 300)),
    "tiers of 0 and 600": ((0, 0), (100, 600)),
    "equal withdrawals": ((0, 40), (50, 40), (100, 75), (101, 75)),
    "edges 0 and 1": ((0, 40), (1, 600)),
    "edges up to 65,535": ((0, 40), (255, 50), (256, 75), (65_534, 130), (65_535, 460)),
    "sixteen tiers": SIXTEEN,
    "sixteen tiers of 600": tuple((k, 600) for k in range(16)),
    "sixteen tiers up to 65,535 and 600": SIXTEEN_WIDE,
    "the house's tiers": HOUSE_TIERS,
}


def loaded():
    """Retail and brokered, with and without penalty; rates on both sides of the edges."""
    values = shared(deposits(7_777_777, 525, middle_month), 35, 45, 300)
    for name, pairs in LOADED.items():
        yield f"own tiers: {name}", filing(values, RISING, (400, 500, 600)) + tiers(*pairs)
        yield f"own tiers: {name}, a loss by penalty", filing(shared(three_columns(1_500, 3), 0, 100, 3_600), RISING, (2_500, 0, 1)) + tiers(*pairs)
        yield f"own tiers: {name}, coupon 0", filing(shared(deposits(9_999, 0, first_month), 0, 50, 300), RISING, (0, 1, 2_500)) + tiers(*pairs)
    for penalty in (0, 300):
        values = shared(three_columns(600, 3), 100, 100, penalty)
        yield f"own tiers: all brokered, penalty {penalty}", filing(values, flat(600), (599, 600, 601)) + tiers((0, 600))


def at_the_edges():
    for retail in ((100, 103, 104), (400, 403, 404)):
        yield f"own tiers: edges 25 and 26 at c 400, rates {retail}", edges_at(400, retail, (0, 10), (25, 200), (26, 600))
    yield "own tiers: edge 65,535 at c 1", edges_at(1, (655, 656, 2_500), (0, 10), (65_500, 200), (65_535, 600))
    yield "own tiers: edge 1 at c 1,500", edges_at(1_500, (14, 15, 315), (0, 10), (1, 600))
    yield "own tiers: edges 99 to 101 at c 100", edges_at(100, (99, 100, 101), (0, 10), (99, 200), (100, 400), (101, 600))
    by_month = tuple((k, 40 * k) for k in range(16))
    for rate in (399, 400, 412, 700):
        values = shared(deposit(POSITIONS[8], 999_999_999, 1_000, 120), 0, 100, 2_000)
        yield f"own tiers: gain 0 and edges 1 to 15 in different months, rate {rate}", filing(values, RISING, (0, 0, rate)) + tiers(*by_month)
    for subject in (0, 100):
        values = shared(deposits(999_999_999, 1_500, last_month), 0, subject, 3_600)
        yield f"own tiers: every limit, penalty {subject} of 100", filing(values, flat(0), (2_500,) * 3) + tiers(*SIXTEEN_WIDE)


def edges_at(coupon, retail, *pairs):
    return filing(shared(three_columns(coupon, 3), 0, 0, 0), RISING, retail) + tiers(*pairs)


def every_withdrawal():
    """Fourteen withdrawals a filing: the seven scenarios of two rates reach its edges 0, 100, .. one by one. The yields of the last months alone
    are high, so that the values tell survivals apart."""
    values = {}
    for place, months in zip(POSITIONS[4:8], (12, 12, 30, 30)):
        values |= deposit(place, 999_999_999, 100, months)
    curve = [2_500 if month in (12, 30) else 0 for month in range(1, 121)]
    for first in range(0, 601, 14):
        pairs = tuple((100 * k, first + k) for k in range(14) if first + k <= 600)
        yield f"own tiers: withdrawals {first} on", filing(totalled(values), curve, (0, 300, 1_000)) + tiers(*pairs)


def places():
    """Where the tiers stand among the records."""
    own = tiers((0, 200), (50, 300), (100, 600))
    values = cells(shared(three_columns(600, 3), 20, 40, 90))
    curve, retail = yields(RISING), rates((300, 600, 900))
    yield "own tiers first", own + values + curve + retail
    yield "own tiers between cells", values[:28] + own + values[28:] + curve + retail
    yield "own tiers between sheets", values + curve + own + retail
    yield "own tiers last", values + curve + retail + own
    yield "own tiers and sheets alone", SHEETS + own
    yield "own tiers alone", own
    yield "own tiers and no rates", values + own + curve
    yield "own tiers, and a total that differs", cell(601, 1) + cell(608, 1) + own + SHEETS


def lengths():
    yield "kind 4 of length 2", record_of(2, b"")
    yield "kind 4 of length 2 before a 0", record_of(2, b"") + bytes(2) + SHEETS
    yield "kind 4 of length 3", record_of(3, b"\x00")
    yield "kind 4 of length 3 before a 0", record_of(3, b"\x00") + bytes(3)
    yield "kind 4 of length 4, count 0", tiers()
    for count in (1, 16, 17, 16_382, 16_383, 16_384, 16_385, 32_768, 65_535):
        yield f"kind 4 of length 4, count {count}", counted_tiers(count)
        yield f"kind 4 of length 8, count {count}", counted_tiers(count, (0, 40))
    for count in (0, 15, 17, 16_400):
        yield f"kind 4 of length 68, count {count}", counted_tiers(count, *SIXTEEN)
    for count in (0, 1, 16, 18):
        yield f"kind 4 of length 72, count {count}", counted_tiers(count, *SIXTEEN, (160, 600))
    for length in (5, 7, 9, 11, 12, 264):
        yield f"kind 4 of length {length}, count 1", record_of(length, struct.pack("<H", 1) + bytes(length - 4))
    yield "kind 4 of length 65,532, count 16,382", tiers(*((k, 0) for k in range(16_382)))
    yield "kind 4 of length 65,535, count 16,383", record_of(65_535, struct.pack("<H", 16_383) + bytes(65_531))


def record_of(length, body):
    """A record of kind 4 whose length is given, with a body that may be shorter."""
    return struct.pack("<H", length) + KIND + body


def disordered():
    for name, pairs in {
        "17 tiers": (*SIXTEEN, (160, 600)),
        "first edge 1": ((1, 40),),
        "first edge 1 of two": ((1, 40), (2, 50)),
        "first edge 256": ((256, 40), (300, 50)),
        "first edge 65,535": ((65_535, 40),),
        "edges equal": ((0, 40), (50, 50), (50, 60)),
        "edges 0 and 0": ((0, 40), (0, 50)),
        "edges falling": ((0, 40), (80, 50), (50, 60)),
        "edges falling to 0": ((0, 40), (80, 50), (0, 60)),
        "edges falling by their high byte": ((0, 40), (256, 50), (255, 60)),
        "last edges of sixteen equal": (*SIXTEEN[:15], (140, 600)),
        "withdrawals falling": ((0, 40), (50, 39)),
        "withdrawals falling to 0": ((0, 600), (50, 0)),
        "withdrawals falling by their high byte": ((0, 256), (50, 255)),
        "last withdrawal of sixteen falling": (*SIXTEEN[:15], (150, 559)),
        "withdrawal 601": ((0, 601),),
        "withdrawal 601 last": ((0, 40), (50, 601)),
        "withdrawal 601 before a lower": ((0, 40), (50, 601), (60, 600)),
        "withdrawal 1,000": ((0, 1_000),),
        "withdrawal 65,535": ((0, 40), (50, 65_535)),
        "last withdrawal of sixteen 601": (*SIXTEEN[:15], (150, 601)),
        "edge 1, edges falling, withdrawals falling and 601": ((1, 601), (0, 600)),
    }.items():
        yield f"11: {name}", cells(LISTING) + tiers(*pairs) + SHEETS


def cut_short():
    own = tiers((0, 40), (100, 300))
    for size in range(1, len(own)):
        yield f"kind 4 cut at {size}", SHEETS + own[:size]
    yield "kind 4 and a lone byte", SHEETS + own + b"\x04"


def two_faults_in_one_record():
    own, wrong_length, faulty = tiers((0, 40)), counted_tiers(2, (0, 40)), tiers((1, 40))
    short = counted_tiers(17, (1, 601))
    yield "1 and 2 of kind 4", wrong_length[:-1]
    yield "1 and 4 of kind 4", own + own[:-1]
    yield "1 and 11 of kind 4", faulty[:-1]
    yield "1, 2, 4 and 11 of kind 4", own + short[:-1]
    yield "1 by length 0, and 11, of kind 4", record_of(0, struct.pack("<H", 16_383))
    yield "2 and 4 of kind 4", own + wrong_length
    yield "2 and 11 of kind 4", short
    yield "2 and 11 of kind 4, count 0", counted_tiers(0, (1, 40))
    yield "2, 4 and 11 of kind 4", own + short
    yield "4 and 11 of kind 4", own + faulty
    yield "4 and 11 of kind 4, no tier", own + tiers()
    yield "kind 4 twice", own + SHEETS + own
    yield "kind 4 twice, different tiers", filing(LISTING) + own + tiers((0, 50), (100, 600))


def two_faulty_records():
    faulty, over_rate = tiers((1, 40)), rates((0, 0, 2_501))
    yield "11, then 5 by a rate", faulty + over_rate
    yield "5 by a rate, then 11", over_rate + faulty
    yield "11, then 4 by kind 4", faulty + tiers((0, 40))
    yield "11, then 11", faulty + tiers()
    yield "4 by kind 4, then 11", tiers((0, 40)) * 2 + faulty
    yield "4 by kind 3, then 11", SHEETS + rates((0, 0, 0)) + faulty
    yield "11, then 4 by kind 2", SHEETS + faulty + yields(flat(0))
    yield "11 and 7", filing({615: 10, 622: 3}) + faulty
    yield "11 and 8", filing({601: 10, 608: 1, 650: 11}) + faulty
    yield "11 and 9", filing({601: 10, 608: 1}) + faulty
    yield "11 and 6", faulty
    yield "11 and 10", filing(LISTING) + faulty, 567, 35


def noise():
    start, own, end = cells(LISTING), tiers((0, 40), (100, 300), (256, 600)), SHEETS
    for offset in range(len(own)):
        for change in (0x01, 0xFF):
            damaged = bytes([*own[:offset], own[offset] ^ change, *own[offset + 1:]])
            yield f"kind 4, byte {offset} changed by {change}", start + damaged + end


FAMILIES = (
    loaded, at_the_edges, every_withdrawal, places, lengths, disordered, cut_short, two_faults_in_one_record, two_faulty_records, noise,
)
