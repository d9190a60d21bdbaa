#!/usr/bin/env python3
"""Shows where the function proofs of a crate and of its 64-bit twin differ.

A pair is X and X64. What is written for each function (proofs/F/Proof.antt, Invariants.antt, Answers.antt) is compared after the names of
crates are made alike (X64 to X), comments are left out, the `use` lines are sorted and every goal's answer stands on a line of its own,
however the file breaks them. What is left may differ in the constants of the width, in the invariant and in functions that exist at one
width only.

    tools/twins.py                 one line for each pair: lines of proof at both widths, and how many answers differ
    tools/twins.py CRATE...        the answers that differ in these pairs
    tools/twins.py --shared        fails if a pair of SHARED, whose proofs are by rules, differs in more answers than stand there
    tools/twins.py --same          the pairs of SHARED that may differ in nothing
"""
import difflib
import pathlib
import re
import sys

ROOT = pathlib.Path(__file__).resolve().parent.parent
# pairs whose function proofs are written by rules that both widths share: how many answers and `use` lines may differ
SHARED = {
    "arithmetic": 36, "batch_pairs": 0, "bezout": 2, "convolution": 6, "degree_service": 4, "division_service": 2, "divisor": 18,
    "divisor_stages": 0, "divisors_service": 0, "euclid_multipliers": 8, "evaluator_matrices": 0, "evaluator_service": 2,
    "inverse_service": 4, "multiplier_steps": 0, "multiplier_words": 3, "product_law_service": 4, "product_service": 4, "reduced": 2,
    "reduced_attempt": 18, "reduced_clearing": 0, "reduced_cofactors": 4, "reduced_products": 0, "reduced_quick": 52,
    "reduced_quotients": 0, "reduced_service": 12, "reduced_stages": 0, "reduced_units": 0, "refusals": 0, "residue": 10, "resultant": 18,
    "resultant_attempt": 8, "resultant_euclid": 3, "resultant_signs": 0, "resultant_steps": 2, "resultants_service": 0,
    "unit_monic_service": 6, "window_division": 16, "window_factor": 5, "windows": 14,
}


def plain(text):
    """The `use` lines and the answers of a proof file, with the names of crates made alike."""
    text = re.sub(r"\bRattle\.([a-z_]+)64(?=\.)", r"Rattle.\1", text)
    text = re.sub(r"\bnarrow\b|\bwide\b", "WIDTH", text)
    items = []
    for line in text.splitlines():
        # a line that is indented goes on with what stands above it
        if line[:1].isspace() and line.strip() and items:
            items[-1] += " " + line.strip()
        elif line.strip() and not line.startswith("--"):
            items.append(line.strip())
    uses = sorted(item for item in items if item.startswith("use "))
    return uses + re.split(r" (?=\(λ)|\n", "\n".join(item for item in items if not item.startswith("use ")))


def pairs():
    for folder in sorted((ROOT / "crates").glob("*64")):
        crate = folder.name[:-2]
        if (ROOT / "crates" / crate / "proofs").is_dir() and (folder / "proofs").is_dir():
            yield crate


def compare(crate):
    """(lines at 32 bits, lines at 64 bits, the lines that differ)"""
    count = [0, 0]
    written = [{}, {}]
    for i, name in enumerate((crate, crate + "64")):
        for path in sorted((ROOT / "crates" / name / "proofs").glob("*/*.antt")):
            text = path.read_text()
            count[i] += len(text.splitlines())
            written[i].setdefault(path.parent.name.replace(name, crate), {})[path.name] = text
    found = []
    for function in sorted(set(written[0]) & set(written[1])):
        for name in sorted(set(written[0][function]) | set(written[1][function])):
            lines = [plain(side[function].get(name, "")) for side in written]
            found += ["%s/%s: %s" % (function, name, line) for line in difflib.ndiff(*lines) if line[0] in "+-" and line[1:].strip()]
    return count[0], count[1], found


def main(words):
    if words == ["--shared"]:
        wrong = 0
        for crate, allowed in SHARED.items():
            found = compare(crate)[2]
            if len(found) > allowed:
                wrong += 1
                print("FAILED: the proofs of %s and %s64 differ in %d lines, not %d:" % (crate, crate, len(found), allowed), *found, sep="\n    ")
        print("twins: %d pairs by rules, %d wrong" % (len(SHARED), wrong))
        return wrong != 0
    if words == ["--same"]:
        print(*(crate for crate, allowed in SHARED.items() if allowed == 0), sep="\n")
        return 0
    for crate in words or pairs():
        a, b, found = compare(crate)
        print("%-24s %5d %5d lines, %4d differ" % (crate, a, b, len(found)))
        if words:
            print(*found, sep="\n")
    return 0


if __name__ == "__main__":
    sys.exit(main(sys.argv[1:]))
