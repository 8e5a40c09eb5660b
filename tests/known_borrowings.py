#!/usr/bin/env python3
"""Runs the program `borrowings` on filings with known answers: known_borrowings.py FOLDER. NAME.in is a filing, NAME.out what `listing` prints of it and NAME.borrowings
its 374 numbers, one a line. Of an accepted filing the totals are wanted, the numbers from 360 on, two to a scenario; of another the same line as `listing` prints.

The very last line is 'N cases, M differ'; the exit status is 0 where all agree."""
import pathlib
import subprocess
import sys

PROGRAM = pathlib.Path(__file__).parent.parent / "target" / "bin" / "borrowings"
TOTALS, SHIFTS = 360, range(-300, 301, 100)


def wanted(path):
    listed = path.with_suffix(".out").read_bytes()
    if listed.startswith((b"refused", b"too long")):
        return listed
    numbers = path.with_suffix(".borrowings").read_text().split()
    return "".join(f"{shift} {numbers[TOTALS + 2 * i]} {numbers[TOTALS + 2 * i + 1]}\n" for i, shift in enumerate(SHIFTS)).encode()


def main(folder):
    cases = sorted(pathlib.Path(folder).glob("*.in"))
    differ = 0
    for path in cases:
        printed = subprocess.run([PROGRAM], input=path.read_bytes(), stdout=subprocess.PIPE, timeout=60).stdout
        if printed != wanted(path):
            differ += 1
            print(f"{path.stem}: wanted {wanted(path)!r}, got {printed!r}")
    print(f"{len(cases)} cases, {differ} differ")
    sys.exit(1 if differ or not cases else 0)


if __name__ == "__main__":
    main(sys.argv[1])
