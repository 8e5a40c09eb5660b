#!/usr/bin/env python3
"""Holds the trace tables of docs/ARCHITECTURE.md against the house: each crate, file, definition, function, law and must-fail edit that a row names is there,
and each must-fail edit is named by a row. Prints what is not; the exit status is 1 where anything is printed."""
import pathlib
import re
import sys

ROOT = pathlib.Path(__file__).resolve().parent.parent
CRATES = {p.name: p for p in (ROOT / "crates").iterdir()}
CODE = "\n".join(p.read_text(encoding="utf-8") for p in ROOT.glob("crates/*/src/**/*.rt"))
SPECS = "\n".join(p.read_text(encoding="utf-8") for p in ROOT.glob("crates/*/specs/**/*.antt"))
EDITS = {p.stem for p in ROOT.glob("crates/*/must-fail/*.edit")}
WORDS = re.compile(r"`[^`]+`|[\w/·]+")
PLAIN = {"by", "hand", "and", "of", "the", "edits"}


def rows():
    """The rows of the trace tables: those with six cells behind the heading."""
    text = (ROOT / "docs" / "ARCHITECTURE.md").read_text(encoding="utf-8").split("\n## Trace", 1)[1]
    for line in text.split("\n"):
        cells = [cell.strip() for cell in line.split("|")[1:-1]]
        if len(cells) == 6 and cells[0] != "Line" and not cells[0].startswith("--"):
            yield cells


def files(crate, area, name):
    """The files of a name in a crate's specs or proofs, of all crates where none is named."""
    pattern = "crates/%s/%s/**/%s.antt" % (crate or "*", area, name)
    return list(ROOT.glob(pattern))


def named(cell, area):
    """What a cell names and is not there: crates, then files of the area, then what stands in them."""
    crate, found, strict = None, [], False
    for word in WORDS.findall(cell):
        if word.startswith("`"):
            name = word.strip("`")
            texts = [p.read_text(encoding="utf-8") for p in found] or ([] if area == "proofs" else [SPECS])
            if not name.endswith((".rt", "/")) and not any(re.search(r"(?<![\w-])%s(?![\w-])" % re.escape(name), t) for t in texts):
                yield "%s, which is not in %s" % (name, " ".join(str(p.relative_to(ROOT)) for p in found) or area)
        elif word.rstrip("/") in CRATES:
            crate, found, strict = word.rstrip("/"), [], True
        elif word in ("Inner", "specs", "proofs") or word.lower() == word or word in PLAIN:
            continue
        else:
            # a file behind its crate's name stands there; another may stand in a crate that is not named
            found = files(crate, area, word) or ([] if strict else files(None, area, word))
            if not found:
                yield "%s, of which there is no file in %s" % (word, area if not strict else crate)
            strict = False


def main():
    wrong, seen = [], set()
    for line, _, definition, contract, proof, edits in rows():
        told = list(named(definition, "specs")) + list(named(proof, "proofs"))
        told += ["%s, which no function is called" % n for n in re.findall(r"`([\w:]+)`", contract)
                 if not re.search(r"\b(fn|enum|struct) %s\b" % n.split("::")[-1], CODE) and not re.search(r"\b%s\b" % n, SPECS)]
        names = re.findall(r"`([\w-]+)`", edits)
        seen.update(p.stem for n in names if n in CRATES for p in CRATES[n].glob("must-fail/*.edit"))
        names = [n for n in names if n not in CRATES]
        told += ["%s, which is no must-fail edit" % n for n in names if n not in EDITS]
        seen.update(names)
        wrong += ["row %s names %s" % (line, what) for what in told]
    whole = {m[1] for m in re.finditer(r"edits of `crates/(\w+)/must-fail`", (ROOT / "docs" / "ARCHITECTURE.md").read_text(encoding="utf-8"))}
    for path in sorted(ROOT.glob("crates/*/must-fail/*.edit")):
        if path.stem not in seen and path.parts[-3] not in whole:
            wrong.append("no row names the must-fail edit %s of %s" % (path.stem, path.parts[-3]))
    print("\n".join(wrong + ["%d rows, %d wrong" % (len(list(rows())), len(wrong))]))
    sys.exit(1 if wrong else 0)


if __name__ == "__main__":
    main()
