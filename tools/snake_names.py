#!/usr/bin/env python3
"""Brings the repository's own definitions and lemmas to Rattle's spelling of names: words in snake case.

usage: tools/snake_names.py [ROOT]     in a tree that port.py has turned: rewrites crates/, README.md and docs/ below ROOT (this folder)

A word of a name that begins with a small letter and goes on with a capital is split there: `cdYield` becomes `cd_yield`, `table-getD` becomes
`table-get_or`. Types, constructors and modules keep their capitals, functions and strings of src/ have none of these names. Where a name would fall
together with another one that is in use beside it, FIRST gives the other one a name of its own, in the files named there.
"""
import pathlib
import re
import sys

# file (or the beginning of its path below crates/): old name, new name
FIRST = [
    ("filing_cells/proofs/SumLaws.antt", "above_at", "above_at_lem"),
    ("shares/proofs/places/row_at/Proof.antt", "above_at", "above_at_lem"),
    ("valuation/proofs/", "lower_in", "lower_in_lem"),
    ("valuation/proofs/", "upper_in", "upper_in_lem"),
    ("valuation/proofs/", "value_in", "value_in_lem"),
    ("theorem_yields/proofs/", "lower_in", "lower_in_lem"),
    ("theorem_yields/proofs/", "upper_in", "upper_in_lem"),
    ("borrowing_numbers/proofs/", "value_in", "value_in_lem"),
    ("theorem_cases/proofs/BorrowingCases.antt", "value_in", "value_of_cell"),
    ("record_kinds/proofs/ItemLaws.antt", "no_cell", "gives_no_cell"),
    ("theorem_certificates/proofs/PassLaws.antt", "no_cell", "gives_no_cell"),
    ("record_kinds/proofs/ItemLaws.antt", "same_item", "same_item_lem"),
    ("theorem_survivors/proofs/", "same_item", "same_item_lem"),
    ("text_book/proofs/CommandLaws.antt", "no_place", "not_place"),
    ("text_book/proofs/TextCases.antt", "set_word", "set_bytes"),
    ("book_values/proofs/SheetLaws.antt", "none_above", "none_above_lem"),
    ("text_input/proofs/LineLaws.antt", "with_byte", "with_byte_lem"),
    ("theorem_survivors/", "noneLeft", "nothing_left"),
    ("certificate", "remainingMonths", "months_remaining"),
    ("theorem_certificates/", "remainingMonths", "months_remaining"),
    ("withdrawal", "edgesTried", "edge_count_tried"),
    ("theorem_cases/", "edgesTried", "edge_count_tried"),
]
NAME = r"[A-Za-z0-9_ℓ₀-₉'\-·]"
WORD = re.compile(r"(?<![A-Za-z0-9_])[a-z][a-z0-9]*(?:[A-Z][a-z0-9]*)+(?![A-Za-z])")
GET = re.compile(r"(?<![A-Za-z0-9_])getD(?![A-Za-z0-9_])")
CODE = re.compile(r'"(?:[^"\\\n]|\\.)*"')


def snake(text):
    text = GET.sub("get_or", text)
    return WORD.sub(lambda w: re.sub(r"[A-Z]", lambda c: "_" + c[0].lower(), w[0]), text)


def turned(text, path):
    for where, old, new in FIRST:
        if path.startswith(where):
            text = re.sub(rf"(?<!{NAME}){re.escape(old)}(?!{NAME})", new, text)
    if path.endswith(".rt"):
        parts, at = [], 0
        for string in CODE.finditer(text):
            parts += [snake(text[at : string.start()]), string[0]]
            at = string.end()
        return "".join(parts) + snake(text[at:])
    return snake(text)


def main(root):
    count = 0
    files = [(p, str(p.relative_to(root / "crates"))) for p in sorted((root / "crates").glob("*/*/**/*")) if p.suffix in (".rt", ".antt") and "out" not in p.relative_to(root).parts]
    for path, name in files:
        before = path.read_text(encoding="utf-8")
        after = turned(before, name)
        if after != before:
            path.write_text(after, encoding="utf-8")
            count += 1
    for path in [root / "README.md", *sorted((root / "docs").glob("**/*.md"))]:
        if path.exists():
            before = path.read_text(encoding="utf-8")
            after = snake(before)
            if after != before:
                path.write_text(after, encoding="utf-8")
                count += 1
    print(f"{count} files turned")


main(pathlib.Path(sys.argv[1] if len(sys.argv) > 1 else "."))
