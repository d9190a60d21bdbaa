#!/usr/bin/env python3
"""Compares the clauses of docs/SPECIFICATION.md (S1, S2, ...) with the citations of them in the other files. Fails on a clause that no
file cites, on a citation of a clause that is not there, and on a number that two clauses have.

    tools/clauses.py [FOLDER]       the root of the sources; without it, the folder above this script (make check-clauses)

A citation is a capital S with a number, standing by itself. "S30 to S33" cites the clauses between as well. In .rt and .antt files only
comments count, since a name may be S1. CHANGELOG.md and docs/changes are not read: they may cite a clause that was dropped since."""
import os
import re
import sys
from pathlib import Path

SPECIFICATION = Path("docs", "SPECIFICATION.md")
READ = {".md", ".rt", ".antt", ".edit", ".py", ".c", ".h", ".sh", ".gp", ".1", ".3"}
COMMENT = {".rt": "//", ".antt": "--"}
LEFT_OUT = [SPECIFICATION] + [Path(name) for name in ("tools/clauses.py", "CHANGELOG.md", "docs/changes", "build", ".git")]
CLAUSE = re.compile(r"^\*\*S(\d+)\.", re.MULTILINE)
CITATION = re.compile(r"\bS([1-9]\d*)\b(?: to S([1-9]\d*)\b)?")


def defined(text):
    """The numbers of the clauses, and those that stand more than once."""
    numbers = [int(number) for number in CLAUSE.findall(text)]
    return set(numbers), sorted({number for number in numbers if numbers.count(number) > 1})


def sources(root):
    """Every file that may cite a clause; what rt keeps in the folders out/ of crates is passed over."""
    found = []
    for at, folders, files in os.walk(root):
        here = Path(at).relative_to(root)
        folders[:] = [name for name in folders if here / name not in LEFT_OUT and not (name == "out" and here.parent == Path("crates"))]
        found += [here / name for name in files if Path(name).suffix in READ and here / name not in LEFT_OUT]
    return sorted(found)


def citations(root, name):
    """Each citation of a file: its line, the first clause and the last one."""
    mark = COMMENT.get(name.suffix, "")
    for number, line in enumerate((root / name).read_text().split("\n"), 1):
        for first, last in CITATION.findall(line[line.find(mark):] if mark in line else ""):
            yield number, int(first), int(last or first)


def compare(root):
    """The sentences about what is wrong, and how many clauses and citations there are."""
    clauses, twice = defined((root / SPECIFICATION).read_text())
    wrong = ["%s: two clauses have the number S%d" % (SPECIFICATION, number) for number in twice]
    cited, count = set(), 0
    for name in sources(root):
        for line, first, last in citations(root, name):
            count += 1
            cited |= set(range(first, last + 1))
            wrong += ["%s:%d: there is no clause S%d" % (name, line, end) for end in sorted({first, last} - clauses)]
            if last < first:
                wrong.append("%s:%d: S%d comes before S%d" % (name, line, last, first))
    wrong += ["%s: no other file cites S%d" % (SPECIFICATION, number) for number in sorted(clauses - cited)]
    return wrong, len(clauses), count


def main():
    root = Path(sys.argv[1]) if sys.argv[1:] else Path(__file__).resolve().parent.parent
    wrong, clauses, count = compare(root)
    for sentence in wrong:
        print("FAILED: " + sentence)
    print("clauses: %d clauses, %d citations, %d wrong" % (clauses, count, len(wrong)))
    return bool(wrong or not clauses)


sys.exit(main())
