#!/usr/bin/env python3
"""Random filings, sound, faulty and damaged, some with borrowings, through the two test programs and the plain C versions, and random calls on the book of every fourth:
random_check.py [COUNT [SEED]].

Needs target/bin/test_second and target/bin/test_figures (`tests/built`) and target/bench/check (`bench/run check`); what is missing is left out. Not run by
the gate."""
import random
import struct
import subprocess
import sys
from pathlib import Path

sys.dont_write_bytecode = True

from book import TOTALS, book, random_calls
from calls import BOOK, BOTH_LISTS, VALUE_AND_SPLIT
from filings import entry
from records import (
    BORROWED, BORROWINGS, COLUMNS, LIMITS, POSITIONS, UNUSED, amended, amendment_record, brokered_cell, cell, fine, libor, path, penalty_balance_cell,
    penalty_cell, rates, record, tiers, withdrawn, yields,
)

TARGET = Path(__file__).resolve().parent.parent / "target"
PROGRAMS = "test_second", "test_figures"
PLAIN = TARGET / "bench" / "check"

# The lists of the valuing call by the plain versions' word: how many places, how many totals a scenario, and the test programs' words for a place and for the
# totals of a scenario.
LISTS = {"numbers": (36, 4, "value", "total"), "borrowings": (24, 2, "borrowing", "borrowings")}


def rate(r):
    return r.choice((0, 1, 299, 300, 600, 2_500, r.randint(0, 2_500), r.randint(200, 900)))


def months_of_rates(r):
    course = r.randrange(3)
    if course == 0:
        return [rate(r)] * 120
    if course == 1:
        first, step = r.randint(0, 900), r.randint(0, 13)
        return [first + step * month for month in range(120)]
    return [rate(r) for _ in range(120)]


def own_tiers(r):
    count, most = r.randint(1, 16), r.choice((3, 25, 300, 4_000))
    edges = [0]
    while len(edges) < count:
        edges.append(edges[-1] + r.randint(1, most))
    return tiers(*zip(edges, sorted(r.choice((0, 40, 600, r.randint(0, 600))) for _ in range(count))))


def cell_records(r):
    """Cells with a true total, brokered and penalty balances within their columns."""
    sums = dict.fromkeys(COLUMNS, 0)
    for place in POSITIONS:
        balance = 0 if r.random() < 0.3 else r.choice((1, 2, r.randint(1, 60), r.randint(1, 999_999_999), 999_999_999))
        sums[place.column] += balance
        if balance or r.random() < 0.2:
            yield cell(place.balance, balance)
            yield cell(place.months, r.choice((place.first, place.last, r.randint(place.first, place.last))))
        if r.random() < 0.9:
            yield coupon_record(r, place.coupon)
    yield cell(645, sum(sums.values()))
    for n, total in sums.items():
        if r.random() < 0.7:
            yield cell(brokered_cell(n), r.choice((0, total, r.randint(0, total))))
        if r.random() < 0.7:
            yield cell(penalty_balance_cell(n), r.choice((0, total, r.randint(0, total))))
            yield cell(penalty_cell(n), r.choice((0, 90, 3_600, r.randint(0, 3_600))))
    if r.random() < 0.2:
        yield cell(r.choice(UNUSED), r.getrandbits(64))


def borrowing_records(r):
    """Borrowings with a true total, coupons and months within their classes and terms but now and then one beside them."""
    total, used = 0, set()
    for place in BORROWINGS:
        balance = 0 if r.random() < 0.5 else r.choice((1, r.randint(1, 60), r.randint(1, 999_999_999), 999_999_999))
        total += balance
        if balance or r.random() < 0.1:
            yield cell(place.balance, balance)
            for number, low, high in ((place.coupon, place.lowest, place.highest), (place.months, place.first, place.last)):
                if number not in used:
                    used.add(number)
                    yield cell(number, max(r.choice((low, high, *[r.randint(low, high)] * 30, low - 1, min(high + 1, LIMITS[number]))), 0))
    yield cell(BORROWED, total + (r.random() < 0.02))


def coupon_record(r, number):
    coupon = r.choice((0, 1, 1_500, r.randint(0, 1_500), r.randint(300, 700)))
    if r.random() < 0.5:
        return cell(number, coupon)
    return fine(number, r.choice((10 * coupon, r.randint(0, 15_000), 15_000)))


def amendment_records(r, records):
    """Amendments that say the same as the records, or something else that a higher number undoes."""
    for data in r.sample(records, r.randint(1, min(8, len(records)))):
        kind, number, value = struct.unpack("<2xHHQ", data)
        numbers = r.sample((1, 2, 3, 4, 255, 256, 65_535, r.randint(5, 60_000)), r.randint(1, 3))
        if kind == 1:
            last = amended(number, max(numbers), value) if value or r.random() < 0.5 else withdrawn(number, max(numbers))
        else:
            last = amended(number, max(numbers), value // 10)
        yield last
        for n in sorted(numbers)[:-1]:
            yield r.choice((withdrawn(number, n), amended(number, n, 0)))


def faulty_record(r):
    """A record that may break any rule."""
    kind = r.choice((1, 1, 2, 3, 4, 5, 6, 6, 7, 7, 7, 8, 11))
    if kind == 1:
        number = r.choice((*LIMITS, *UNUSED, r.randint(595, 720)))
        limit = LIMITS.get(number, 1)
        return cell(number, r.choice((limit, limit + 1, 0, r.randint(0, limit), r.getrandbits(64))))
    if kind == 2:
        return yields([r.choice((0, 2_500, 2_501))] * 120)
    if kind == 8:
        return libor([r.choice((0, 2_500, 2_501))] * 120)
    if kind == 3:
        return rates([r.choice((0, 2_500, 2_501)) for _ in COLUMNS])
    if kind == 4:
        return tiers(*((r.randint(0, 3), r.choice((0, 600, 601))) for _ in range(r.choice((0, 1, 2, 16, 17)))))
    if kind == 5:
        return path(*([r.choice((0, 2_500, 2_501))] * 120 for _ in COLUMNS))
    if kind == 6:
        number = r.choice((*(place.coupon for place in POSITIONS), *LIMITS, r.randint(595, 720)))
        return fine(number, r.choice((0, 15_000, 15_001, r.randint(0, 15_000), r.getrandbits(64))))
    if kind == 7:
        number = r.choice((*LIMITS, *UNUSED, r.randint(595, 720)))
        value = r.choice((0, 0, LIMITS.get(number, 1), LIMITS.get(number, 1) + 1))
        return amendment_record(number, r.choice((0, 1, 2, 65_535)), r.choice((0, 0, 1, 2)), value)
    return record(kind, bytes(r.randint(0, 12)))


def random_filing(r):
    records = [*cell_records(r)]
    is_borrowed = r.random() < 0.5
    if is_borrowed:
        records += borrowing_records(r)
    if r.random() < 0.4:
        records += amendment_records(r, records)
    records.append(yields(months_of_rates(r)))
    if r.random() < (0.95 if is_borrowed else 0.1):
        records.append(libor(months_of_rates(r)))
    records.append(path(*(months_of_rates(r) for _ in COLUMNS)) if r.random() < 0.5 else rates([rate(r) for _ in COLUMNS]))
    if r.random() < 0.5:
        records.append(own_tiers(r))
    if r.random() < 0.15:
        records.append(faulty_record(r))
    if r.random() < 0.05:
        records.append(r.choice(records))
    if r.random() < 0.05:
        records.remove(r.choice(records))
    r.shuffle(records)
    data = b"".join(records)
    if r.random() < 0.1:
        at = r.randrange(len(data))
        data = data[:at] + bytes([r.randrange(256)]) + data[at + 1:]
    if r.random() < 0.04:
        data = data[:r.randrange(len(data))]
    return data


def printed(program, call, inputs):
    """What a test program prints of each input."""
    corpus = b"".join(entry(call, data, 568, 374 if call == BOTH_LISTS else 36) for data in inputs)
    text = subprocess.run([program], input=corpus, stdout=subprocess.PIPE, check=True).stdout.decode()
    return [part.split("\n", 1)[1] for part in text.split("entry ")[1:]]


def numbers_in(text, places, totals, place_word, total_word):
    """A list of the valuing call as the plain versions print it, made of a test program's lines."""
    lines = [line.split() for line in text.splitlines()]
    if lines[0][1] != "0":
        return "refused {} {}\n".format(*lines[0][1:])
    numbers = [0] * (15 * places + 7 * totals)
    for word, *line in lines:
        if word == place_word:
            at = 15 * int(line[0])
            numbers[at:at + 15] = map(int, line[1:])
        elif word == total_word:
            at = 15 * places + totals * ((int(line[0]) + 300) // 100)
            numbers[at:at + totals] = map(int, line[1:])
    return "".join(f"{number}\n" for number in numbers)


def plain(filing, word):
    return subprocess.run([PLAIN, word], input=filing, stdout=subprocess.PIPE).stdout.decode()


def differ(name, filing):
    Path("differs.filing").write_bytes(filing)
    sys.exit(f"{name} differs on the filing in differs.filing")


def same(programs, call, inputs):
    """What the test programs print of each input, which is the same."""
    texts = [printed(TARGET / "bin" / name, call, inputs) for name in programs]
    for data, *parts in zip(inputs, *texts):
        for name, part in zip(programs, parts):
            if part != parts[0]:
                differ(name, data)
    return texts[0]


def check(count, seed):
    r = random.Random(seed)
    filings = [random_filing(r) for _ in range(count)]
    programs = [name for name in PROGRAMS if (TARGET / "bin" / name).exists()]
    texts = same(programs, VALUE_AND_SPLIT, filings)
    valued = same(programs, BOTH_LISTS, filings)
    if PLAIN.exists():
        for filing, text in zip(filings, valued):
            for word, form in LISTS.items():
                if plain(filing, word) != numbers_in(text, *form):
                    differ(f"plain C ({word})", filing)
    answers = [text.split()[1] for text in texts]
    counts = ", ".join(f"{number}: {answers.count(number)}" for number in sorted(set(answers), key=int))
    print(f"{count} filings, the same from {', '.join(programs)}{' and plain C' if PLAIN.exists() else ''}; answers by number {counts}")
    books = [book(filing, *random_calls(r, r.randint(0, 60)), TOTALS) for filing in filings[::4]]
    opened = sum(text.startswith("answer 0 0\n") for text in same(programs, BOOK, books))
    print(f"{len(books)} books, the same from {', '.join(programs)}; {opened} opened")


words = [int(word) for word in sys.argv[1:]]
check(*words, *(1_000, 1)[len(words):])
