#!/usr/bin/env python3
"""The public functions that ask something of their caller (`requires`), each with the crates that call it. The entry points may ask nothing: one that does,
or one that is not found, is said, and the exit status is 1. `tests/asks.py --list` prints the functions too."""
import pathlib
import re
import sys

ROOT = pathlib.Path(__file__).resolve().parent.parent
# What programs, C and other callers from outside call; with its crate where another has a function of the same name.
ENTRIES = """read split value to_cells open set clear book_of tier_for write_listing write_read text_listing::write_borrowings write_borrowings_read write_cells
    open_book open_read obey obey_read quote write_quote spritapricot_value spritapricot_cells spritapricot_book spritapricot_price""".split()
NAME = re.compile(r'^\s*pub (?:extern "C" )?fn (\w+)', re.M)
# The brace that opens the body: alone on its line behind a contract, else at the end of the signature.
BODY = re.compile(r"^\s*\{$|^(?!\s*(?:requires|ensures)\b).*\{$", re.M)


def functions():
    """Crate, name and head of each public function."""
    for path in sorted(ROOT.glob("crates/*/src/**/*.rt")):
        text = path.read_text(encoding="utf-8")
        for found in NAME.finditer(text):
            yield path.relative_to(ROOT).parts[1], found[1], text[found.start():BODY.search(text, text.rfind("\n", 0, found.end()) + 1).start()]


def callers(crate, name):
    """The other crates whose code names the function."""
    word = re.compile(r"\b%s\b" % name)
    for other in sorted((ROOT / "crates").iterdir()):
        if other.name != crate and any(crate + "::" in t and word.search(t) for t in (p.read_text(encoding="utf-8") for p in other.glob("src/**/*.rt"))):
            yield other.name


def main():
    every = list(functions())
    asking = [(crate, name) for crate, name, head in every if re.search(r"^\s*requires\b", head, re.M)]
    wrong = ["%s of %s asks something of its caller" % (name, crate) for crate, name in asking if {name, crate + "::" + name} & set(ENTRIES)]
    names = {known for crate, name, _ in every for known in (name, crate + "::" + name)}
    wrong += ["no public function is called " + entry for entry in ENTRIES if entry not in names]
    if "--list" in sys.argv[1:]:
        for crate, name in asking:
            print("%s::%s, called by %s" % (crate, name, " ".join(callers(crate, name)) or "its own crate alone"))
    for row in wrong:
        print(row)
    print("%d public functions ask something of their callers, none of them an entry point" % len(asking) if not wrong else "%d wrong" % len(wrong))
    sys.exit(1 if wrong else 0)


if __name__ == "__main__":
    main()
