"""Wrong programs made by machine: for each function with a contract, in the crates that are named or in all of them, two that differ from it in one line.
Each is tried as a must-fail edit in a copy of the repository. Prints those that are not refused: programs that do the same, or a contract that says too
little; and the functions of which none could be made. What is committed is tried, so nothing may be changed in the work tree."""
import os
import random
import re
import shutil
import subprocess
import sys
import tempfile

COUNT = 2
ROOT = os.path.dirname(os.path.dirname(os.path.abspath(__file__)))

# What stands in a line, and what is put there.
EXCHANGES = [
    (r" < ", " <= "), (r" <= ", " < "), (r" > ", " >= "), (r" >= ", " > "), (r" == ", " != "), (r" != ", " == "),
    (r" \+ ", " - "), (r" - ", " + "), (r" \* ", " + "), (r" / ", " % "), (r" % ", " / "), (r" \+= ", " -= "), (r" << ", " >> "), (r" >> ", " << "),
    (r"(?<=[\w)]) & (?=[\w(!])", " | "), (r"(?<=[\w)]) \| (?=[\w(!])", " & "), (r"\btrue\b", "false"), (r"\bfalse\b", "true"),
    (r"(?<![\w.])(\d+)(?![\w.])", lambda m: str(int(m.group()) + 1)), (r"(?<![\w.])([1-9]\d*)(?![\w.])", lambda m: str(int(m.group()) - 1)),
    (r"\bif ([^{]+) \{", lambda m: "if !(" + m.group(1) + ") {"), (r"([\w.]+), ([\w.]+)(?=[,)])", lambda m: m.group(2) + ", " + m.group(1)),
    (r"(?<=\()(\w+), (\w+)(?=[,)])", lambda m: m.group(1) + ", " + m.group(1)), (r"(?<=\()(\w+), (\w+)(?=[,)])", lambda m: m.group(2) + ", " + m.group(2)),
    (r"Err\(Refusal::\w+\([^()]*\)\)", "Ok(())"), (r"\{ (\w+) \}", lambda m: "{ " + m.group(1) + ": 0 }"),
    (r"^\s+[\w.\[\]* ]+ [-+|]?= [^;{]+;$", ""), (r"^\s+\w+\([^;{]*\);$", ""), (r"^    [a-z][\w.]*( as \w+|\(.*\))?$", "    0"),
]


def closed(text, start, opening, closing):
    """The index of the bracket that closes the one at `start`."""
    depth = 0
    for i in range(start, len(text)):
        depth += (text[i] == opening) - (text[i] == closing)
        if depth == 0:
            return i
    raise ValueError("a bracket is not closed")


def functions(text):
    """Name, first and last index of the body, of each function that has an `ensures`."""
    for head in re.finditer(r"\bfn (\w+)(?:<[^>]*>)?\(", text):
        at = closed(text, head.end() - 1, "(", ")")
        ensures = False
        while True:
            brace = text.index("{", at)
            clause = re.search(r"\b(ghost|requires|ensures)\b\*?(?:\s+\w+)?:?\s*$", text[at:brace])
            end = closed(text, brace, "{", "}")
            if not clause:
                break
            ensures = ensures or clause.group(1) == "ensures"
            at = end + 1
        if ensures:
            yield head.group(1), brace + 1, end


def wrong_lines(text, first, last):
    """Pairs of a line of the body, which stands once in the file, and the line in its place."""
    pairs = []
    for line in text[first:last].split("\n"):
        if text.count(line) != 1 or line.strip().startswith("//"):
            continue
        for pattern, new in EXCHANGES:
            for found in re.finditer(pattern, line):
                replaced = line[:found.start()] + (new(found) if callable(new) else new) + line[found.end():]
                if replaced != line:
                    pairs.append((line, replaced))
    return pairs


def answers(crate, repository, edits):
    """What the prover says of each edit, a file, a line and the line in its place, by its label: refused, NOT REFUSED, or BAD EDIT where it does not compile."""
    folder = os.path.join(repository, "crates", crate, "must-fail")
    os.makedirs(folder)
    for label, (file, old, new) in edits.items():
        with open(os.path.join(folder, label + ".edit"), "w") as edit:
            edit.write("file: src/%s\nold: %s\nnew: %s\n" % (file, old, new))
    said = subprocess.run(["rt", "must-fail", crate], cwd=repository, capture_output=True, text=True).stdout
    shutil.rmtree(folder)
    return dict(re.findall(r"must-fail %s/(\w+)\.edit: (refused|NOT REFUSED|BAD EDIT)" % crate, said))


def try_crate(crate, repository, choice):
    """Tries wrong programs of each function until it has so many that compile; how many are refused, and how many are not."""
    source = os.path.join(repository, "crates", crate, "src")
    left, tried = {}, {}
    for file in sorted(os.listdir(source)):
        text = open(os.path.join(source, file)).read()
        for name, first, last in functions(text):
            pairs = wrong_lines(text, first, last)
            choice.shuffle(pairs)
            left[file, name] = pairs
            tried[file, name] = 0
    counts = {"refused": 0, "NOT REFUSED": 0, "BAD EDIT": 0}
    while True:
        edits, owner = {}, {}
        for (file, name), pairs in left.items():
            for _ in range(min(len(pairs), COUNT - tried[file, name])):
                label = "edit%d" % len(edits)
                edits[label] = (file,) + pairs.pop()
                owner[label] = (file, name)
        if not edits:
            break
        for label, answer in answers(crate, repository, edits).items():
            counts[answer] += 1
            tried[owner[label]] += answer != "BAD EDIT"
            if answer == "NOT REFUSED":
                file, old, new = edits[label]
                print("not refused: %s/%s %s\n  %s\n  %s" % (crate, file, owner[label][1], old.strip(), new.strip()), flush=True)
    for (file, name), count in tried.items():
        if count == 0:
            print("none made: %s/%s %s" % (crate, file, name), flush=True)
    return counts["refused"], counts["NOT REFUSED"]


def main():
    listed = [line.split(":")[0].split()[0] for line in open(os.path.join(ROOT, "crates.txt")) if ":" in line and not line.startswith("#")]
    refused, others = 0, 0
    with tempfile.TemporaryDirectory() as folder:
        repository = os.path.join(folder, "copy")
        subprocess.run(["git", "clone", "-q", ROOT, repository], check=True)
        for crate in listed:
            shutil.rmtree(os.path.join(repository, "crates", crate, "must-fail"), ignore_errors=True)
        for crate in sys.argv[1:] or listed:
            counts = try_crate(crate, repository, random.Random(crate))
            refused, others = refused + counts[0], others + counts[1]
    print("%d refused, %d not refused" % (refused, others))


main()
