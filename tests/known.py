#!/usr/bin/env python3
"""Sees that the stored output has the figures that are known beforehand, and the same lines where two entries mean the same."""
import sys

sys.dont_write_bytecode = True

import amendments
import book
import borrowings
import certificates
import filings
import fine_coupons
import monthly_rates
import searches

OUTPUT = filings.CRATES / "test_second" / "stdout"


def printed():
    """What is printed of each entry, by the entry's name."""
    names = [name for name, _ in filings.entries()]
    texts = OUTPUT.read_text().split("entry ")[1:]
    assert len(names) == len(texts) and len(names) == len(set(names)), "an entry without output, or a name twice"
    return {name: text.split("\n", 1)[1] for name, text in zip(names, texts)}


def totals(text):
    return [line for line in text.split("\n") if line.startswith("total ")]


def check():
    texts = printed()
    figures = monthly_rates.FIGURES | fine_coupons.FIGURES | certificates.FIGURES | book.FIGURES | borrowings.FIGURES | searches.known()
    pairs = {*monthly_rates.SAME, *fine_coupons.SAME, *amendments.SAME, *book.SAME, *borrowings.SAME}
    for name, line in figures.items():
        assert f"{line}\n" in texts[name], f"{name}: no line {line}"
    for one, other in pairs:
        assert texts[one] == texts[other], f"{one}, {other}: different lines"
    for one, other in book.TOTALS_OF:
        assert totals(texts[one]) == totals(texts[other]), f"{one}, {other}: different totals"
    print(f"{len(figures)} known figures, {len(pairs)} pairs of entries that mean the same")


check()
