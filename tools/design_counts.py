#!/usr/bin/env python3
"""Counts the places of docs/DESIGN-PASS.md in crates/*/src: `tools/design_counts.py [FOLDER]`, one line a point; `-v` lists them.

  1  enums of two cases of which one holds a value, enums whose cases all say `Refused`, functions that answer a number of a refusal
  2  types, and functions, that stand under one name in crates NAME and NAME64
  3  `while` loops in which an index goes up or down by 1
  4  functions that compare, order, copy or convert by hand
  5  facts in the `requires` of three and more functions
  6  arrays made in a function's body
  7  tests of a number that says which step to run
  8  old walks of a function's proof (proofs/F/Proof.antt), and answers (proofs/F/Answers.antt)
"""
import re
import sys
from collections import Counter
from pathlib import Path

args = [a for a in sys.argv[1:] if a != "-v"]
verbose = "-v" in sys.argv
root = Path(args[0] if args else Path(__file__).resolve().parent.parent)
sources = sorted((root / "crates").glob("*/src/**/*.rt"))


def crate_of(path):
    return path.relative_to(root / "crates").parts[0]


def code_of(path):
    """The lines of a source without comments, with their numbers."""
    for number, line in enumerate(path.read_text().split("\n"), 1):
        text = line.split("//")[0].rstrip()
        if text:
            yield number, text


found = {}


def place(point, path, number, text):
    found.setdefault(point, []).append(f"{path.relative_to(root)}:{number}: {text.strip()}")


types, functions, asked = {}, {}, Counter()
for path in sources:
    crate = crate_of(path)
    lines = list(code_of(path))
    joined = "\n".join(text for _, text in lines)
    for match in re.finditer(r"^(?:pub )?enum (\w+)(?:<[^>]*>)? \{\n((?:    .*\n|\n)*?)\}", joined, re.M):
        cases = [c for c in re.findall(r"^    (\w+)( \{|\(|,)", match.group(2), re.M)]
        holds = [c for c in cases if c[1] != ","]
        if (len(cases) == 2 and holds) or any(c[0] == "Refused" for c in cases):
            place("1 enums of the shape of Option or Result", path, 0, f"enum {match.group(1)}")
    for k, (number, text) in enumerate(lines):
        signature = re.match(r"^(?:pub )?fn (\w+)", text)
        if signature:
            functions.setdefault(signature.group(1), set()).add(crate)
            whole = " ".join(t.strip() for _, t in lines[k:k + 14])
            answer = re.search(r"\) -> (.*?) (requires|ensures|\{)", whole)
            if answer and answer.group(1) == "u32" and re.search(r"refus|judge", signature.group(1)):
                place("1 functions that answer a refusal's number", path, number, text)
        declared = re.match(r"^(?:pub )?(?:struct|enum) (\w+)", text)
        if declared:
            types.setdefault(declared.group(1), set()).add(crate)
        if re.match(r"^\s*while ", text):
            depth = len(text) - len(text.lstrip())
            body = []
            for _, inner in lines[k + 1:]:
                if len(inner) - len(inner.lstrip()) <= depth:
                    break
                body.append(inner)
            names = set(re.findall(r"\w+", text))
            if any((m := re.match(r"^\s*(\w+) [+-]= 1;$", b)) and m.group(1) in names for b in body):
                place("3 loops that count an index", path, number, text)
        if re.match(r"^\s*(?:pub )?fn (eq|ne|cmp|partial_cmp|clone|same_words|equal\w*)\(", text):
            place("4 functions that compare, copy or convert by hand", path, number, text)
        for fact in re.findall(r"requires[^{]*\{(.*)\}", text):
            for name in set(re.findall(r"\b(Known|Ready|Formed|Squared|Fitting|PowerOfTwo)\b", fact)):
                asked[name] += 1
        if re.search(r"let mut \w+(: \[.*\])? = \[+\w+; ", text):
            place("6 arrays made in a function's body", path, number, text)
        if re.search(r"\b(kind|which|service|step) == \d", text):
            place("7 tests of a number that says which step to run", path, number, text)

crates = {p.name for p in (root / "crates").iterdir()}
for what, names in (("2 twin types", types), ("2 twin functions", functions)):
    for name, where in sorted(names.items()):
        for crate in sorted(where):
            if crate + "64" in where:
                found.setdefault(what, []).append(f"{crate}, {crate}64: {name}")
for name, count in sorted(asked.items()):
    if count >= 3:
        found.setdefault("5 facts in three and more requires", []).append(f"{name}: {count}")
for name, what in (("Proof.antt", "8 old walks"), ("Answers.antt", "8 files of answers")):
    found[what] = [str(p.relative_to(root)) for p in sorted((root / "crates").glob(f"*/proofs/**/{name}"))]

for what in sorted(found):
    print(f"{what}: {len(found[what])}")
    if verbose:
        for line in found[what]:
            print("    " + line)
