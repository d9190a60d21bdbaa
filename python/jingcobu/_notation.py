"""The notation of polynomials as text, for any number of words: the engine's own reader and writer serve 49, and multipliers of D
are longer."""
from __future__ import annotations

import re
from typing import List, Optional, Sequence, Tuple

from ._polynomials import integer, integers, shown

_TERM = re.compile(r"([1-9][0-9]*)(?:\*x(?:\^([1-9][0-9]*))?)?")


def spell(words: Sequence[int]) -> str:
    """The text of a polynomial, constant first.

    >>> spell([5, 1, 0, 3, 0])
    '3*x^3+1*x+5'
    >>> spell([]), spell([0, 0])
    ('0', '0')
    """
    terms, words = [], integers(words, "words", "spell")
    for power in reversed(range(len(words))):
        if words[power]:
            terms.append("%d%s" % (words[power], "" if power == 0 else "*x" if power == 1 else "*x^%d" % power))
    return "+".join(terms) or "0"


def unspell(text: str, most: int) -> List[int]:
    """The words that a text spells, at most so many; only the text that `spell` would write is read. Coefficients are not compared
    with a modulus.

    >>> unspell("3*x^3+1*x+5", 49)
    [5, 1, 0, 3]
    >>> unspell("x", 49)
    Traceback (most recent call last):
    ValueError: not a text of a polynomial: 'x'
    """
    if not isinstance(text, str):
        raise TypeError("unspell: text is %s, not a str" % shown(text))
    words, most = [0], integer(most, "most", "unspell")
    for term in text.split("+") if text != "0" else []:
        match = _TERM.fullmatch(term)
        if not match:
            raise ValueError("not a text of a polynomial: %r" % text)
        power = int(match[2]) if match[2] else 1 if "*" in term else 0
        if power >= most:
            raise ValueError("a power of %d is above %d" % (power, most - 1))
        words.extend([0] * (power + 1 - len(words)))
        words[power] = int(match[1])
    if spell(words) != text:
        raise ValueError("not a text of a polynomial: %r" % text)
    return words


# ---- polynomials as people and other systems write them

_POLY = re.compile(r"\s*Poly\(")
_POLY_END = re.compile(r"\s*,\s*x\s*,\s*(?:modulus\s*=\s*(?P<of>[0-9]+)|domain\s*=\s*(?:'ZZ'|ZZ))\s*\)\s*$")
_TOKEN = re.compile(
    r"\s*(?:(?P<mod>Mod\s*\(\s*(?P<residue>-?[0-9]+)\s*,\s*(?P<of>[0-9]+)\s*\)|(?P<left>[0-9]+)\s+mod\s+(?P<by>[0-9]+))|(?P<number>[0-9]+)"
    r"|(?P<power>\*\*|\^)|(?P<sign>[+-])|(?P<times>\*)|(?P<x>x)|(?P<end>$)|(?P<other>.))", re.S)


class _Reading:
    """The tokens of a text, one after the other."""

    def __init__(self, text: str, start: int, end: int) -> None:
        self.text, self.kind, self.match = text, "", _TOKEN.match("")
        self.next_at, self.end = start, end
        self.step()

    def step(self) -> None:
        self.match = _TOKEN.match(self.text, self.next_at, self.end)
        assert self.match is not None
        self.next_at = self.match.end()
        self.kind = next(k for k in ("number", "power", "sign", "times", "x", "mod", "end", "other") if self.match[k] is not None)

    def part(self, name: str) -> str:
        assert self.match is not None
        return self.match[name] or ""

    def refuse(self, what: str) -> ValueError:
        assert self.match is not None
        return ValueError("character %d of %r: %s" % (self.match.start(self.kind) + 1, self.text, what))

    def take(self, kind: str) -> bool:
        """Whether the next token is of this kind; it is then passed."""
        if self.kind != kind:
            return False
        self.step()
        return True


def _reduced(digits: str, n: int) -> int:
    """The integer that the digits spell, modulo n. Python reads no more than 4300 digits at once.

    >>> _reduced("9" * 10000, 10 ** 9 + 7) == pow(10, 10000, 10 ** 9 + 7) - 1, _reduced("-25", 12)
    (True, 11)
    """
    sign, digits, found = -1 if digits.startswith("-") else 1, digits.lstrip("-"), 0
    for at in range(0, len(digits), 4000):
        piece = digits[at:at + 4000]
        found = (found * pow(10, len(piece), n) + int(piece)) % n
    return sign * found % n


def _same(digits: str, n: int) -> bool:
    """Whether the digits spell n."""
    return (digits.lstrip("0") or "0") == str(n)


def _coefficient(reading: _Reading, n: int) -> Optional[int]:
    """A number, or a residue as PARI or sympy prints it, modulo n; None if neither is here."""
    if reading.kind == "number":
        found = _reduced(reading.part("number"), n)
    elif reading.kind == "mod":
        if not _same(reading.part("of") or reading.part("by"), n):
            raise reading.refuse("a residue of another modulus than %d" % n)
        found = _reduced(reading.part("residue") or reading.part("left"), n)
    else:
        return None
    reading.step()
    return found


def _power(reading: _Reading, most: int) -> int:
    """The power of an x that was passed: 1 if none is written."""
    if not reading.take("power"):
        return 1
    if reading.kind != "number":
        raise reading.refuse("a power is expected")
    digits = reading.part("number").lstrip("0") or "0"
    if len(digits) > len(str(most)) or int(digits) > most:
        raise reading.refuse("a power above %d" % most)
    reading.step()
    return int(digits)


def _term(reading: _Reading, n: int, most: int) -> Tuple[int, int]:
    """One term: its coefficient and its power of x."""
    found = _coefficient(reading, n)
    if found is not None and not reading.take("times"):
        return found, 0
    if not reading.take("x"):
        raise reading.refuse("x is expected" if found is not None else "a term is expected: a number, x, or both with * between them")
    return (1 if found is None else found), _power(reading, most)


def _opened(text: str, n: int) -> _Reading:
    """The tokens of a text; of `Poly(3*x**2 + 1, x, modulus=7)`, as sympy prints it, those of the polynomial inside."""
    start, end = _POLY.match(text), _POLY_END.search(text)
    if start is None or end is None:
        return _Reading(text, 0, len(text))
    if end["of"] is not None and not _same(end["of"], n):
        raise ValueError("character %d of %r: a polynomial of another modulus than %d" % (end.start("of") + 1, text, n))
    return _Reading(text, start.end(), end.start())


def parse(text: str, n: int, degree: Optional[int] = None, most: int = 48) -> List[int]:
    """The words of a polynomial in x modulo n as people and PARI, Sage and sympy write it: blanks, minus signs, `x` alone, `**` for `^`,
    terms in any order, powers that stand twice, coefficients of any size, residues `Mod(3, 12)` and `3 mod 12`, and `Poly(...)`.
    Coefficients are taken modulo n. There is no zero on top unless a sent degree is given. A text that cannot be read is a ValueError that
    says at which character.

    >>> parse("3*x^2 - x + 1", 12)
    [1, 11, 3]
    >>> parse("1 + x**2 - 13*x^2", 12), parse("x + 2", 12, degree=3)
    ([1], [2, 1, 0, 0])
    >>> parse("Poly(3*x**2 - x + 1, x, modulus=13)", 13)
    [1, 12, 3]
    >>> parse("3*x^ + 1", 12)
    Traceback (most recent call last):
    ValueError: character 6 of '3*x^ + 1': a power is expected
    """
    if not isinstance(text, str):
        raise TypeError("parse: text is %s, not a str" % shown(text))
    n, most = integer(n, "n", "parse"), integer(most, "most", "parse")
    if degree is not None:
        degree = integer(degree, "degree", "parse")
    if n < 1:
        raise ValueError("parse: n = %d is not 1 or more" % n)
    reading, words = _opened(text, n), [0] * (most + 1)
    while True:
        sign = 1
        while reading.kind == "sign":
            sign = -sign if reading.part("sign") == "-" else sign
            reading.step()
        coefficient, power = _term(reading, n, most)
        words[power] = (words[power] + sign * coefficient) % n
        if reading.take("end"):
            break
        if reading.kind != "sign":
            raise reading.refuse("+ or - is expected")
    top = max((k for k, w in enumerate(words) if w), default=0)
    if degree is not None and degree < top:
        raise ValueError("parse: %r has the degree %d, above %d" % (text, top, degree))
    return words[:(top if degree is None else degree) + 1]
