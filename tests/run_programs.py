#!/usr/bin/env python3
"""Runs `listing`, `borrowings`, `cells`, `book` and `quote`, as `tests/built` put them into target/bin, and compares what each prints, byte by byte.

The runs of tests/runs/PROGRAM: NAME.in is standard input and NAME.out what is to be printed; NAME.args holds arguments, one a line, NAME.filing is a file whose
name is the argument. A run starts in tests/runs/PROGRAM. run_filings.py makes the filings among them, run_lines.py the price lines. Runs that are too long to
be stored are made here.

Where the .out files come from: refusals and replies from documents 01 and 02 and from README, the listing `sample` from document 01; every other figure worked
apart from the programs with whole fractions, for which the filings have few months: one month is balance x (1 + coupon + servicing) x discount factor; prices
between lines with the 64-bit floats of another language. To `book` a directory, none of whose bytes can be read, is a file without bytes.

The very last line is 'N passed, M failed'; the exit status is 0 where all passed."""
import pathlib
import subprocess
import sys

sys.dont_write_bytecode = True

import programs
import run_lines

ROOT = pathlib.Path(__file__).parent.parent
RUNS = ROOT / "tests" / "runs"
TOO_LONG = b"too long\n"


def stored(program):
    """The name, the arguments, the input and the output of each stored run."""
    for path in sorted((RUNS / program).glob("*.in")):
        args, filing = path.with_suffix(".args"), path.with_suffix(".filing")
        words = args.read_text().split("\n")[:-1] if args.exists() else []
        yield path.stem, [filing.name] * filing.exists() + words, path.read_bytes(), path.with_suffix(".out").read_bytes()


def output(program, name):
    return (RUNS / program / f"{name}.out").read_bytes()


def long_filings():
    longest = programs.longest_filing()
    yield "as long as allowed", [], longest, output("listing", "sample")
    yield "one byte too long", [], longest + b"\0", TOO_LONG
    yield "as many zeros as allowed", [], bytes(65_536), b"refused 1 0\n"
    yield "one zero too many", [], bytes(65_537), TOO_LONG
    yield "a million bytes", [], bytes(1_000_000), TOO_LONG


def long_borrowings():
    longest = programs.longest_borrowings()
    yield "as long as allowed", [], longest, output("borrowings", "borrowing_one_month")
    yield "one byte too long", [], longest + b"\0", TOO_LONG
    yield "as many zeros as allowed", [], bytes(65_536), b"refused 1 0\n"
    yield "one zero too many", [], bytes(65_537), TOO_LONG
    yield "a million bytes", [], bytes(1_000_000), TOO_LONG


def long_lists():
    longest = programs.longest_certificates()
    day, one = (RUNS / "cells" / "one.in").read_bytes().splitlines(keepends=True)
    yield "as long as allowed", [], longest, output("cells", "several")
    yield "one byte too long", [], longest + b"\n", TOO_LONG
    yield "one byte too long in its first line", [], b"0" + longest, TOO_LONG
    yield "a million bytes", [], bytes(1_000_000), TOO_LONG
    yield "1,000 certificates", [], day + one * 1_000, b"601 800000\n605 525\n608 2\n645 800000\n"
    yield "1,001 certificates", [], day + one * 1_001, b"refused 5 0\n"
    yield "1,001 certificates and an empty line", [], day + one * 1_001 + b"\n", b"unreadable 1003\n"


def long_books():
    """The stored run of crates/book opens a filing as long as allowed."""
    folder = ROOT / "target" / "tests"
    folder.mkdir(parents=True, exist_ok=True)
    allowed, longer = folder / "longest_filing", folder / "filing_one_byte_too_long"
    allowed.write_bytes(programs.longest_filing())
    longer.write_bytes(programs.longest_filing() + b"\0")
    small = ["../../../examples/filing"]
    empty = b"0 0 0 0" + b" 0" * 14 + b"\n"
    line, over = programs.padded(b"place 3", programs.LINE), programs.padded(b"place 3", programs.LINE + 1)
    yield "filing as long as allowed", [str(allowed)], b"place 3\n", b"opened\n" + empty
    yield "filing one byte too long", [str(longer)], b"place 3\n", TOO_LONG
    yield "line as long as allowed", small, line, b"opened\n" + empty
    yield "line one byte too long", small, over + b"place 3\n", b"opened\nunreadable\n" + empty
    yield "longest line without its line feed", small, line[:-1], b"opened\n" + empty
    yield "too long a line without its line feed", small, over[:-1], b"opened\nunreadable\n"
    yield "line of a million bytes", small, bytes(1_000_000) + b"\nplace 3\n", b"opened\nunreadable\n" + empty
    yield "a thousand lines", small, b"clear 3\n" * 1_000, b"opened\n" + b"ok\n" * 1_000


def long_price_lines():
    """1,129 lines are the most in 65,536 bytes."""
    asked, most = ["0", "0"], 1_129
    yield "as many lines as can be read", asked, run_lines.rising(most), b"refused 21 64\n"
    yield "as many lines as can be read, the first faulty", asked, run_lines.line(0, 0.0) + run_lines.rising(most - 1), b"refused 21 0\n"
    yield "as long as allowed", asked, bytes(65_536), b"unreadable\n"
    yield "one byte too long", asked, bytes(65_537), TOO_LONG
    yield "a line too long", asked, run_lines.rising(most + 1), TOO_LONG
    yield "a million bytes", asked, bytes(1_000_000), TOO_LONG
    yield "too long, without arguments", [], bytes(65_537), TOO_LONG
    yield "argument of 4,096 digits", ["0".rjust(4_096, "0"), "0"], run_lines.rising(1), b"listed 4056800000000000\n"
    yield "argument of 4,097 digits", ["0".rjust(4_097, "0"), "0"], run_lines.rising(1), b"unreadable\n"


LONG = {"listing": long_filings, "borrowings": long_borrowings, "cells": long_lists, "book": long_books, "quote": long_price_lines}


def printed(program, args, data):
    """What a program prints, and how it ended where that was not in order."""
    try:
        done = subprocess.run([ROOT / "target" / "bin" / program, *args], input=data, stdout=subprocess.PIPE, cwd=RUNS / program, timeout=60)
    except (OSError, subprocess.TimeoutExpired) as fault:
        return f"({fault})".encode()
    return done.stdout if done.returncode == 0 else done.stdout + f"(exit status {done.returncode})".encode()


def main():
    passed = failed = 0
    for program, more in LONG.items():
        for name, args, data, wanted in [*stored(program), *more()]:
            got = printed(program, args, data)
            if got == wanted:
                passed += 1
            else:
                failed += 1
                print(f"{program}, {name}: wanted {wanted[:200]!r}, got {got[:200]!r}")
    print(f"{passed} passed, {failed} failed")
    sys.exit(1 if failed or not passed else 0)


if __name__ == "__main__":
    main()
