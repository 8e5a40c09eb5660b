#!/usr/bin/env python3
"""Makes the stored inputs of the programs, each as long as it may be: what is read last counts, so a program that reads less prints something else. Price
lines may be 64; `quote` is asked for a month before the last of them."""
import pathlib
import sys

sys.dont_write_bytecode = True

import records
import run_lines

ROOT = pathlib.Path(__file__).parent.parent
FILING, INPUT, LINE = 65_536, 131_072, 1_024


def longest_filing():
    """The example filing with unused cells and amendments of its first balance, of which the last gives it back its value."""
    filing = (ROOT / "examples" / "filing").read_bytes()
    filing += b"".join(records.cell(number, 0) for number in records.UNUSED[:6])
    count = (FILING - len(filing)) // len(records.amended(601, 1, 0))
    filing += b"".join(records.amended(601, n, n) for n in range(1, count)) + records.amended(601, count, 1_000)
    return exactly(FILING, filing)


def longest_borrowings():
    """The example filing with a borrowing and amendments of its balance, of which the last gives it its value."""
    filing = (ROOT / "examples" / "filing").read_bytes() + records.libor(records.flat(0))
    filing += records.cells({675: 1, 711: 1, 715: 1_000, records.UNUSED[0]: 0})
    count = (FILING - len(filing)) // len(records.amended(675, 1, 0))
    filing += b"".join(records.amended(675, n, n) for n in range(1, count)) + records.amended(675, count, 1_000)
    return exactly(FILING, filing)


def longest_certificates():
    """The example certificates behind one without a balance, whose 0 has as many digits as there is room for."""
    date, *lines = (ROOT / "examples" / "certificates").read_bytes().splitlines(keepends=True)
    empty = lines.pop()
    rest = b"".join(lines)
    zeros = INPUT - len(date) - len(rest) - len(empty) + 1
    return exactly(INPUT, date + empty.replace(b" 0 ", b" " + b"0" * zeros + b" ") + rest)


def longest_lines():
    """The example's lines with one of the longest more and one that is a byte longer."""
    lines = (ROOT / "examples" / "changes").read_bytes()
    return lines + padded(b"place 3", LINE) + padded(b"place 3", LINE + 1)


def padded(line, size):
    """The line with zeros before its number, up to a size."""
    word, number = line.split()
    return exactly(size + 1, word + b" " + number.rjust(size - len(word) - 1, b"0") + b"\n")


def exactly(size, data):
    assert len(data) == size, (len(data), size)
    return data


def main():
    crates = ROOT / "crates"
    (crates / "listing" / "stdin").write_bytes(longest_filing())
    (crates / "borrowings" / "stdin").write_bytes(longest_borrowings())
    (crates / "book" / "data" / "filing").write_bytes(longest_filing())
    (crates / "cells" / "stdin").write_bytes(longest_certificates())
    (crates / "book" / "stdin").write_bytes(longest_lines())
    (crates / "quote" / "stdin").write_bytes(run_lines.rising(64))


if __name__ == "__main__":
    main()
