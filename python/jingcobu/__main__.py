"""The command line: python3 -m jingcobu COMMAND ... (installed: jingcobu COMMAND ...)

Polynomials are written as people write them, 3*x^2 - x + 1: blanks, minus signs, ** for ^, terms in any order, coefficients of any size,
which are reduced modulo N. Words with commas between them, constant first, are accepted too; so a zero top can be sent: 2,1,0. N is up to
9223372036854775807, and where a command has words of 32 bits only, which it says, up to 4294967295. A refusal or an error is reported on
standard error, and the exit status is 1; so it is if a claim is false.
"""
from __future__ import annotations

import argparse
import json
import re
import subprocess
import sys
from typing import Any, Callable, Dict, List, NamedTuple, Optional, Tuple

import jingcobu
from jingcobu import Claim, Ground, _library, spell

MOST_MULTIPLIER = 4096  # words of a claimed multiplier


class Said(NamedTuple):
    """What a command found: for people, for programs, and whether the exit status is 0."""

    text: str
    data: Any
    good: bool = True


def _below(n: int, x: int, name: str) -> None:
    """Says of a word what is wrong with it; a bad N is for the engine to refuse."""
    if n >= 2 and not 0 <= x < n:
        raise ValueError("%s is %d, not from 0 to %d" % (name, x, n - 1))


def _listed(n: int, text: str, name: str, most: int) -> List[int]:
    """Words with commas between them. More than so many are for the engine to refuse, before it reads one."""
    found = []
    for place, word in enumerate(text.split(",")):
        if not re.fullmatch(r"\s*[+-]?[0-9]+\s*", word):
            raise ValueError("%s: word %d is %r, not an integer" % (name, place, word))
        found.append(int(word))
    for place, x in enumerate(found if len(found) <= most else []):
        _below(n, x, "%s: word %d" % (name, place))
    return found


def _words(n: int, text: str, name: str, most: int) -> List[int]:
    """The words of a polynomial of at most so many words: written with powers of x, or with commas."""
    if "," not in text or "(" in text:
        try:
            return jingcobu.parse(text.strip(), n, most=most - 1)
        except ValueError as error:
            raise ValueError("%s: %s" % (name, error)) from None
    return _listed(n, text, name, most)


def polynomial(n: int, text: str, name: str) -> List[int]:
    """The words of a polynomial of sent degree at most 48."""
    return _words(n, text, name, 49)


def _pair(n: int, f: str, g: str) -> Tuple[int, List[int], List[int]]:
    return n, polynomial(n, f, "F"), polynomial(n, g, "G")


def _combined(n: int, constant: int, u: List[int], v: List[int]) -> str:
    return "u = %s\nv = %s\nu f + v g = %d modulo %d" % (spell(u), spell(v), constant, n)


def resultant(n: int, f: str, g: str) -> Said:
    """the resultant"""
    found = jingcobu.resultant(*_pair(n, f, g))
    return Said(str(found), {"resultant": found})


def reduced(n: int, f: str, g: str) -> Said:
    """D and its cofactors"""
    D, u, v = jingcobu.reduced_resultant(*_pair(n, f, g))
    return Said("D = %d\n%s" % (D, _combined(n, D, u, v)), {"D": D, "u": u, "v": v})


def divisor(n: int, f: str, g: str) -> Said:
    """D alone, in less time"""
    found = jingcobu.divisor(*_pair(n, f, g))
    return Said(str(found), {"D": found})


def _file_lines(file: Optional[str]) -> List[str]:
    if file is None:
        return sys.stdin.readlines()
    with open(file, encoding="utf-8") as lines:
        return lines.readlines()


def _file_pairs(n: int, file: Optional[str]) -> Tuple[List[List[int]], List[List[int]]]:
    """The pairs of a file, or of standard input: a line for each, F and G with ; between them. Empty lines are passed over."""
    first, second = [], []
    for place, line in enumerate(_file_lines(file), 1):
        if not line.strip():
            continue
        texts = line.strip().split(";")
        if len(texts) != 2:
            raise ValueError("line %d: F ; G is expected, two polynomials, not %d" % (place, len(texts)))
        try:
            _, f, g = _pair(n, texts[0].strip(), texts[1].strip())
        except ValueError as error:
            raise ValueError("line %d: %s" % (place, error)) from None
        first.append(f)
        second.append(g)
    return first, second


def resultants(n: int, file: Optional[str]) -> Said:
    """the resultants of the pairs of FILE (standard input without it), a line for each: F ; G"""
    found = jingcobu.resultants(n, *_file_pairs(n, file))
    return Said("\n".join(map(str, found)), {"resultants": found})


def divisors(n: int, file: Optional[str]) -> Said:
    """D alone of the pairs of FILE (standard input without it), a line for each: F ; G"""
    found = jingcobu.divisors(n, *_file_pairs(n, file))
    return Said("\n".join(map(str, found)), {"divisors": found})


def cofactors(n: int, f: str, g: str) -> Said:
    """the resultant and its cofactors"""
    found, u, v = jingcobu.resultant_cofactors(*_pair(n, f, g))
    return Said("resultant %d\n%s" % (found, _combined(n, found, u, v)), {"resultant": found, "u": u, "v": v})


def why(n: int, f: str, g: str) -> Said:
    """why F and G are not coprime"""
    ground, m, w = jingcobu.why(*_pair(n, f, g))
    data = {"ground": ground.name.lower(), "m": m, "w": w}
    if ground is Ground.COPRIME:
        return Said("coprime", data)
    if ground is Ground.ZERO:
        return Said("both are zero modulo %d" % m, data)
    return Said("%s divides both modulo %d" % (spell(w), m), data)


def check(n: int, f: str, g: str, d: int, u: str, v: str) -> Said:
    """whether D is the reduced resultant and U F + V G = D"""
    multipliers = [_words(n, text, name, MOST_MULTIPLIER) for text, name in ((u, "U"), (v, "V"))]
    claim = jingcobu.check_claim(*_pair(n, f, g), d, *multipliers)
    text = {
        Claim.TRUE: "true",
        Claim.NO_DIVISOR: "false: %d does not divide %d" % (d, n),
        Claim.NOT_COMBINED: "false: u f + v g is not %d modulo %d" % (d, n),
        Claim.NOT_REDUCED: "false: %d is not the reduced resultant" % d,
    }[claim]
    return Said(text, {"claim": claim.name.lower()}, claim is Claim.TRUE)


def product(n: int, f: str, g: str) -> Said:
    """the product"""
    found = jingcobu.product(*_pair(n, f, g))
    return Said(spell(found), {"product": found})


def word(n: int, f: str, g: str, k: int) -> Said:
    """word K of the product"""
    found = jingcobu.product_word(*_pair(n, f, g), k)
    return Said("none" if found is None else str(found), {"word": found})


def degree(n: int, f: str) -> Said:
    """the true degree of F"""
    found = jingcobu.true_degree(n, polynomial(n, f, "F"))
    return Said("none" if found is None else str(found), {"degree": found})


def gcd(n: int, a: int, b: int) -> Said:
    """gcd(A, B, N) with its least cofactors"""
    _below(n, a, "A")
    _below(n, b, "B")
    g, s, t = jingcobu.gcd(n, a, b)
    return Said("%d = %d * %d + %d * %d modulo %d" % (g, s, a, t, b, n), {"gcd": g, "s": s, "t": t})


def two(n: int, f: str, g: str) -> Said:
    """the resultant in y of two polynomials in y and z: rows of words of z, one row for each power of y, with ; between them"""
    found = jingcobu.resultant_two(n, _rows(n, f, "F"), _rows(n, g, "G"))
    return Said(spell(found).replace("x", "z"), {"resultant": found})


def _rows(n: int, text: str, name: str) -> List[List[int]]:
    return [_listed(n, row, "%s, row %d" % (name, i), 49) for i, row in enumerate(text.split(";"))]


def _step(n: int, held: jingcobu.Factors, step: str) -> None:
    number, equals, text = step.partition("=")
    if not equals or not re.fullmatch(r"\s*[0-9]+\s*", number):
        raise ValueError("NUMBER=F or NUMBER= is expected, not %r" % step)
    if text.strip():
        held.arrive(int(number), polynomial(n, text, "F"))
    else:
        held.leave(int(number))


def factors(n: int, h: str, steps: List[str]) -> Said:
    """the resultant with H of a product whose factors come and go, after each step: NUMBER=F arrives, NUMBER= leaves"""
    held, found = jingcobu.Factors(n, polynomial(n, h, "H")), []
    for place, step in enumerate(steps, 1):
        try:
            _step(n, held, step)
        except ValueError as error:
            raise ValueError("step %d: %s" % (place, error)) from None
        found.append(held.resultant())
    return Said("\n".join(map(str, found or [held.resultant()])), {"resultant": held.resultant(), "steps": found})


def shares(frames: int, waiting: List[int]) -> Said:
    """how many jobs of each of four groups go into a run of FRAMES frames"""
    found = jingcobu.shares(frames, waiting)
    return Said(" ".join(str(x) for x in found), {"shares": list(found)})


def text(n: int, f: str) -> Said:
    """F in the engine's own notation"""
    words = polynomial(n, f, "F")
    return Said(jingcobu.write_text(n, words), {"text": jingcobu.write_text(n, words), "words": words})


def read(n: int, text: str) -> Said:
    """the words that a text of the engine's own notation spells, constant first; no other text is read"""
    words = jingcobu.read_text(n, text)
    return Said(",".join(map(str, words)), {"words": words})


def frame(kind: str, n: int, f: str, g: str) -> Said:
    """a frame for jingcobu-desk"""
    line = jingcobu.frame(kind, *_pair(n, f, g))
    return Said(line, {"frame": line})


def answers(file: Optional[str]) -> Said:
    """answer lines of jingcobu-desk (standard input without FILE), in words"""
    if file is None:
        found = jingcobu.answers(sys.stdin)
    else:
        with open(file, encoding="ascii") as lines:
            found = jingcobu.answers(lines)
    return Said("\n".join(answer.sentence() for answer in found), [answer._asdict() for answer in found])


def _lines(file: str) -> int:
    """The lines of a file; a last one without a newline counts."""
    count, last = 0, b"\n"
    with open(file, "rb") as source:
        for block in iter(lambda: source.read(1 << 20), b""):
            count, last = count + block.count(b"\n"), block[-1:]
    return count + (last != b"\n")


def _bar(done: int, whole: int) -> str:
    """The lines done of the lines counted.

    >>> _bar(1, 4)
    '[##########                              ] 1 of 4 lines'
    """
    return "[%-40s] %d of %d lines" % ("#" * (40 * done // whole), done, whole)


def frames(file: str) -> Said:
    """the answers of jingcobu-desk to the frames of FILE, with a progress bar on standard error if that is a terminal"""
    shown, done, step, found = sys.stderr.isatty(), 0, 0, []
    whole = _lines(file) if shown else 0
    with open(file, "rb") as source, subprocess.Popen([_library.program()], stdin=source, stdout=subprocess.PIPE, text=True) as desk:
        assert desk.stdout is not None
        for line in desk.stdout:
            found.append(line.rstrip("\n"))
            done += 1
            if shown and (done == whole or done * 100 // whole > step):
                step = done * 100 // whole
                print("\r" + _bar(done, whole), end="\n" if done == whole else "", file=sys.stderr, flush=True)
    return Said("\n".join(found), [answer._asdict() for answer in jingcobu.answers(found)], desk.returncode == 0)


class Command(NamedTuple):
    work: Callable[..., Said]
    arguments: Tuple[Tuple[str, Dict[str, Any]], ...]
    example: str


_N: Tuple[str, Dict[str, Any]] = ("n", {"type": int, "metavar": "N", "help": "the modulus, 2 to 9223372036854775807"})
_N32: Tuple[str, Dict[str, Any]] = ("n", {"type": int, "metavar": "N", "help": "the modulus, 2 to 4294967295: words of 32 bits only"})
_F: Tuple[str, Dict[str, Any]] = ("f", {"metavar": "F", "help": "a polynomial, as 3*x^2 - x + 1 or 1,11,3"})
_G: Tuple[str, Dict[str, Any]] = ("g", {"metavar": "G", "help": "a polynomial"})
_STEPS: Tuple[str, Dict[str, Any]] = ("steps", {"nargs": "*", "metavar": "STEP", "help": "NUMBER=F or NUMBER="})
_PAIRS: Tuple[str, Dict[str, Any]] = ("file", {"nargs": "?", "metavar": "FILE", "help": "lines of two polynomials, 2*x + 3 ; 4*x + 1"})


def _integer(name: str, said: str) -> Tuple[str, Dict[str, Any]]:
    return name, {"type": int, "metavar": name.upper(), "help": said}


def _text(name: str, said: str) -> Tuple[str, Dict[str, Any]]:
    return name, {"metavar": name.upper(), "help": said}


COMMANDS = {
    "resultant": Command(resultant, (_N, _F, _G), "12 '2*x + 3' '4*x + 1'"),
    "reduced": Command(reduced, (_N, _F, _G), "6 2 4"),
    "divisor": Command(divisor, (_N, _F, _G), "6 'x^2 - 1' 'x + 3'"),
    "resultants": Command(resultants, (_N, _PAIRS), "12 pairs.txt"),
    "divisors": Command(divisors, (_N, _PAIRS), "12 pairs.txt"),
    "cofactors": Command(cofactors, (_N32, _F, _G), "12 '2*x + 3' '4*x + 1'"),
    "why": Command(why, (_N32, _F, _G), "7 'x^2 - 1' 'x + 1'"),
    "check": Command(check, (_N32, _F, _G, _integer("d", "the claimed D"), _text("u", "a multiplier"), _text("v", "a multiplier")),
                     "6 2 4 2 0 2"),
    "product": Command(product, (_N, _F, _G), "6 '2*x + 1' '3*x + 1'"),
    "word": Command(word, (_N32, _F, _G, _integer("k", "which word")), "6 '2*x + 1' '3*x + 1' 1"),
    "degree": Command(degree, (_N, _F), "5 2,1,0"),
    "gcd": Command(gcd, (_N, _integer("a", "a residue"), _integer("b", "a residue")), "12 8 6"),
    "two": Command(two, (_N32, _text("f", "rows of words, as 0,60;1,0 for y - z modulo 61"), _text("g", "rows of words")),
                   "61 '0,60;1,0' '0,59;1,0'"),
    "factors": Command(factors, (_N32, _text("h", "a polynomial"), _STEPS), "12 '4*x + 1' '7=2*x + 3' 8=5 7="),
    "shares": Command(shares, (_integer("frames", "1 to 1024"), ("waiting", {"type": int, "nargs": 4, "metavar": "W", "help": "jobs that wait"})),
                      "10 1 100 2 100"),
    "text": Command(text, (_N32, _F), "12 'x - 1'"),
    "read": Command(read, (_N32, _text("text", "a text, as 3*x^2+11*x+1")), "12 '3*x^3+1*x+5'"),
    "frame": Command(frame, (("kind", {"choices": ["resultant", "reduced"]}), _N32, _F, _G), "resultant 12 '2*x + 3' '4*x + 1'"),
    "frames": Command(frames, (("file", {"metavar": "FILE"}),), "frames.txt"),
    "answers": Command(answers, (("file", {"nargs": "?", "metavar": "FILE"}),), "answers.txt"),
}


def _parser() -> argparse.ArgumentParser:
    shape = argparse.RawDescriptionHelpFormatter
    parser = argparse.ArgumentParser(prog="jingcobu", description=__doc__, formatter_class=shape)
    parser.add_argument("--version", action="version", version="jingcobu " + jingcobu.__version__)
    commands = parser.add_subparsers(dest="command", required=True, metavar="COMMAND")
    for name, (work, arguments, example) in COMMANDS.items():
        said = (work.__doc__ or "").strip()
        command = commands.add_parser(name, help=said, description=said, formatter_class=shape, epilog="example: jingcobu %s %s" % (name, example))
        command.set_defaults(work=work)
        command.add_argument("--json", action="store_true", help="the answer as JSON")
        for argument, options in arguments:
            command.add_argument(argument, **options)
    return parser


def _negative(word: str) -> str:
    """A word that begins with a minus sign and is no option, as argparse takes it: with a blank before it.

    >>> _negative("-x^2+1"), _negative("-3,2"), _negative("-Mod(1,5)*x"), _negative("--json"), _negative("-h")
    (' -x^2+1', ' -3,2', ' -Mod(1,5)*x', '--json', '-h')
    """
    return " " + word if re.match(r"-\s*[0-9xM]", word) else word


def main(arguments: Optional[List[str]] = None) -> int:
    given = vars(_parser().parse_args([_negative(word) for word in (sys.argv[1:] if arguments is None else arguments)]))
    name, work, as_json = given.pop("command"), given.pop("work"), given.pop("json")
    try:
        said = work(**given)
    except (ValueError, TypeError, OSError, jingcobu.LibraryMissing) as error:
        print("jingcobu %s: %s" % (name, error), file=sys.stderr)
        return 1
    if as_json:
        print(json.dumps(said.data))
    elif said.text:
        print(said.text)
    return 0 if said.good else 1


if __name__ == "__main__":
    sys.exit(main())
