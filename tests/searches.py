"""Searches for a withdrawal tier from a gain and a cost alone (02:CR 2). Each has a name.

An input is what the gain adds, what it takes off and the cost, 8 bytes each, and a filing, whose tiers are searched."""
import struct
from pathlib import Path

from records import HOUSE_TIERS, SHEETS, cell, tiers

SIXTEEN = tuple((10 * k, 40 * k) for k in range(16))
CASES = Path(__file__).resolve().parent / "searches.txt"


def search(gain, cost, pairs, more=0):
    """The house's tiers where there are no pairs; `more` is on both sides of the gain."""
    head = struct.pack("<QQQ", max(gain, 0) + more, max(-gain, 0) + more, cost)
    return head + SHEETS + (tiers(*pairs) if pairs else b"")


def lines():
    """The lines of searches.txt: the search, and the withdrawal and the number of edges tried that it gives."""
    for line in CASES.read_text().splitlines():
        if not line.startswith("#"):
            yield line.split(" -> ")


def stored():
    for line, _ in lines():
        gain, cost, *pairs = line.split()
        own = [] if pairs == ["house"] else [tuple(map(int, pair.split(":"))) for pair in pairs]
        yield f"search: {line}", search(int(gain), int(cost), own)


def known():
    """The line that each stored search prints."""
    return {f"search: {line}": found_line(*map(int, found.split())) for line, found in lines()}


def found_line(withdrawal, tried):
    return f"tier {withdrawal} {survival(withdrawal)} {tried}"


def survival(withdrawal):
    """The largest whole q with q^12 x 1,000 <= (1,000 - w) x 10^108."""
    q = round((1 - withdrawal / 1_000) ** (1 / 12) * 10**9) + 2
    while q**12 * 1_000 > (1_000 - withdrawal) * 10**108:
        q -= 1
    return q


def around_the_edges():
    """Each edge of the house's tiers and of sixteen, reached, missed by one and passed by one, at a cost of 100 and at a large one."""
    for name, pairs, own in (("house", HOUSE_TIERS, ()), ("sixteen tiers", SIXTEEN, SIXTEEN), ("one tier", ((0, 40),), ((0, 40),))):
        for edge, _ in pairs:
            for cost in (100, 2_142_000_000_000):
                for more in (-1, 0, 1):
                    gain = edge * cost // 100 + more
                    yield f"search: {name}, gain {gain}, cost {cost}", search(gain, cost, own)


def extremes():
    for name, own in (("house", ()), ("one tier", ((0, 600),)), ("two tiers", ((0, 0), (65_535, 600))), ("sixteen tiers", SIXTEEN)):
        for gain in (-6_480_000_000, -1, 0, 1, 9_996_000_000_000):
            for cost in (0, 12_000_000, 1_428_000_000_000):
                yield f"search: {name}, gain {gain}, cost {cost}", search(gain, cost, own)
                yield f"search: {name}, gain {gain}, cost {cost}, 777 on both sides", search(gain, cost, own, 777)


def large():
    """The largest parts and cost that the call takes, and one more."""
    for gain, more, cost in ((10**16, 0, 1), (0, 10**16, 1), (5, 0, 10**14), (10**16, 0, 10**14)):
        yield f"search: large, gain {gain}, {more} on both sides, cost {cost}", search(gain, cost, ((0, 40), (65_535, 600)), more)
        for one in ((1, 0, 0), (0, 1, 0), (0, 0, 1)):
            name = f"search: one more {one}, gain {gain}, {more} on both sides, cost {cost}"
            yield name, search(gain + one[0], cost + one[2], (), more + one[1])
    yield "search: 2^64 - 1", struct.pack("<QQQ", *[2**64 - 1] * 3) + SHEETS


def refused():
    head = struct.pack("<QQQ", 1, 0, 1)
    yield "search: no sheets", head
    yield "search: no sheets, too large", struct.pack("<QQQ", *[2**64 - 1] * 3)
    yield "search: tiers that do not load", head + SHEETS + tiers((1, 40))
    yield "search: a cell that is not listed", head + cell(600, 0)


FAMILIES = stored, around_the_edges, extremes, large, refused
