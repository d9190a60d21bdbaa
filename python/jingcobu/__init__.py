"""Resultants and reduced resultants of polynomials over Z/nZ, for any n from 2 to 2^63 - 1, prime or not.

A polynomial is a list of integers from 0 to n - 1, constant first. Its sent degree is one less than its length, at most 48; the top
word may be zero and counts: the resultant is the Sylvester determinant in the sent degrees.

>>> import jingcobu
>>> jingcobu.resultant(12, [3, 2], [1, 4])
2
>>> jingcobu.reduced_resultant(12, [3, 2], [1, 4]).D
1
>>> jingcobu.resultant(5, [2, 1, 0], [1, 1]), jingcobu.resultant(5, [2, 1], [1, 1])
(1, 4)

What the engine refuses raises `Refused`, with the refusal's number and sentence; an integer that fits no word raises ValueError, and
what is no integer TypeError; both name the function, the polynomial and the place. The functions may be called from several threads.
`resultant`, `reduced_resultant`, `divisor`, `resultants`, `divisors`, `product`, `gcd` and `true_degree` use words of 32 bits where n and
all words fit them, and words of 64 bits otherwise: both sets of the engine answer the same numbers. `product64`, `resultant64` and
`reduced_resultant64` are older names of three of them. The other functions have words of 32 bits only.

>>> jingcobu.resultant(5, [2, 7], [1, 1])
Traceback (most recent call last):
jingcobu._refusals.Refused: refused with 3: a word or a residue is n or more
"""
from __future__ import annotations

import threading
from array import array
from enum import IntEnum
from typing import Any, Dict, List, NamedTuple, Optional, Sequence, Tuple

from . import _batch, _library
from ._frames import Answer, answers, frame
from ._library import LibraryMissing
from ._notation import parse, spell, unspell
from ._refusals import MEANING, Refused
from ._polynomials import Words
from ._polynomials import integers as _integers, modulus as _modulus, number as _number, one as _one, pair as _pair, residues as _residues
from ._polynomials import room as _room, sequence as _sequence, shown as _shown, trimmed as _trimmed, words as _words

__version__ = "1.0.0"
__all__ = [
    "Answer", "Claim", "Cofactors", "Factors", "Gcd", "Ground", "LibraryMissing", "MEANING", "Reason", "Reduced", "Refused", "answers",
    "check_claim", "divisor", "divisors", "frame", "gcd", "parse", "product", "product64", "product_word", "read_text", "reduced_resultant",
    "reduced_resultant64", "resultant", "resultant64", "resultant_cofactors", "resultant_two", "resultants", "shares", "spell",
    "true_degree", "unspell", "why", "write_text",
]

class Reduced(NamedTuple):
    """The reduced resultant D, and u and v with u f + v g = D modulo n."""

    D: int
    u: List[int]
    v: List[int]


class Cofactors(NamedTuple):
    """The resultant, and u of e words and v of d words with u f + v g equal to it modulo n."""

    resultant: int
    u: List[int]
    v: List[int]


class Gcd(NamedTuple):
    """g = gcd(a, b, n) and its least cofactors: s a + t b = g modulo n."""

    g: int
    s: int
    t: int


class Ground(IntEnum):
    """Why two polynomials are not coprime: they are, both are zero modulo m, or a monic w divides both modulo m."""

    COPRIME = 0
    ZERO = 1
    DIVISOR = 2


class Reason(NamedTuple):
    """The ground, the divisor m of n (0 if the polynomials are coprime) and the words of w (none except for Ground.DIVISOR)."""

    ground: Ground
    m: int
    w: List[int]


class Claim(IntEnum):
    """The verdict on a claim: it is true, or the first test that fails."""

    TRUE = 0
    NO_DIVISOR = 1       # the claimed D does not divide n
    NOT_COMBINED = 2     # u f + v g is not the claimed D modulo n
    NOT_REDUCED = 3      # the claimed D is not the reduced resultant


# ---- the buffers that a call is lent

_own = threading.local()
_MOST32, _MOST64 = 2 ** 32 - 1, 2 ** 64 - 1


def _work(width: int = 32) -> "array[int]":
    """The working words of this thread. After an answer they are zero, after a refusal unchanged."""
    name = "work%d" % width
    if not hasattr(_own, name):
        setattr(_own, name, _room(_library.WORK if width == 32 else _library.WORK64, width))
    work: "array[int]" = getattr(_own, name)
    return work


def _call(service: str, *given: Any) -> Any:
    """The engine's answer; an array is passed as its address and its length, and `given` keeps it alive."""
    lent: List[Any] = []
    for x in given:
        if isinstance(x, array):
            lent.extend(x.buffer_info())
        elif isinstance(x, _batch.Lent):
            lent.extend((x.place, x.size))
        else:
            lent.append(x)
    return _library.service(service)(*lent)


def _accept(answer: Any) -> Any:
    if answer.status:
        raise Refused(answer.status)
    return answer


def _value(answer: Any) -> int:
    return int(_accept(answer).value)


def _named(service: str, width: int) -> str:
    return service if width == 32 else service + "64"


def _length(n: int, f: "array[int]", g: "array[int]") -> int:
    """The words of a cofactor of D: K times the larger sent degree, plus 1. One if the call is refused for n or a length."""
    longest = max(len(f), len(g))
    return (n.bit_length() - 1) * (longest - 1) + 1 if n >= 2 and 1 <= longest <= 49 else 1


# ---- resultants

def resultant(n: int, f: Words, g: Words) -> int:
    """The resultant of f and g, from 0 to n - 1, for n up to 2^63 - 1. Refusals: 1, 2, 3.

    >>> resultant(7, [1, 1], [2, 1]), resultant(7, [2, 1], [1, 1])
    (1, 6)
    >>> resultant(2 ** 62, [1, 2 ** 40], [3, 1])
    3298534883327
    """
    n, width, x, y = _pair(n, f, g, "resultant")
    return _value(_call(_named("resultant", width), n, x, y, _work(width)))


def resultants(n: int, F: Any, G: Any = None) -> List[int]:
    """The resultants of many pairs: of F[0] and G[0], F[1] and G[1] and so on. Pairs of one pair of lengths go as one call of the engine.
    Two-dimensional buffers of unsigned words, as numpy, array and memoryview have them, are lent without a copy; they must not be changed
    during the call. Without G, F holds the pairs. n is at most 2^63 - 1. Where a pair is refused, none is answered, and `Refused.place`
    says which it is. Refusals: 1, 2, 3.

    >>> resultants(12, [[3, 2], [5]], [[1, 4], [0, 1]])
    [2, 5]
    >>> resultants(12, [([3, 2], [1, 4]), ([5], [0, 1])])
    [2, 5]
    >>> rows = memoryview(array("I", [3, 2, 1, 4])).cast("B").cast("I", [2, 2])
    >>> resultants(12, rows, rows)
    [0, 0]
    """
    return _many(n, F, G, "resultants")


def divisors(n: int, F: Any, G: Any = None) -> List[int]:
    """D alone of many pairs, which are sent as to `resultants`. Refusals: 1, 2, 3.

    >>> divisors(6, [[5, 0, 1], [2]], [[3, 1], [4]])
    [2, 2]
    """
    return _many(n, F, G, "divisors")


def _many(n: int, F: Any, G: Any, service: str) -> List[int]:
    n = _modulus(n, service, _MOST64)
    if G is None:
        F, G = _batch.pairs(F, service)
    rows = _batch.buffers(n, F, G)
    if rows is not None and rows[0].number == rows[1].number:
        try:
            return _one_call(n, service, *rows)
        except Refused as refused:
            raise _placed(refused, n, _batch.listed(F), _batch.listed(G)) from None
    x, y = _batch.polynomials(F, "F", service, n), _batch.polynomials(G, "G", service, n)
    if len(x) != len(y):
        raise ValueError("%s: F has %d polynomials, and G has %d" % (service, len(x), len(y)))
    found = [0] * len(x)
    try:
        for f, g, places in _batch.groups(n, x, y, service):
            for place, value in zip(places, _one_call(n, service, f, g)):
                found[place] = value
    except Refused as refused:
        raise _placed(refused, n, x, y) from None
    return found


def _one_call(n: int, service: str, f: _batch.Rows, g: _batch.Rows) -> List[int]:
    """The numbers of all pairs of one pair of lengths. A length of 0 is sent as the largest degree, which is refused."""
    out, d, e = _room(f.number, f.width), (f.length - 1) % 2 ** 64, (g.length - 1) % 2 ** 64
    _accept(_call(_named(service, f.width), n, f.words, d, g.words, e, f.number, out, _work(f.width)))
    return out.tolist()


def _placed(refused: Refused, n: int, F: Sequence[Words], G: Sequence[Words]) -> Refused:
    """A refusal with the first pair that a single call refuses; that of n belongs to no pair."""
    number, place = _batch.refused_at(n, F, G) if refused.number != 1 else (1, None)
    return Refused(number or refused.number, place)


def reduced_resultant(n: int, f: Words, g: Words) -> Reduced:
    """The reduced resultant D of f and g with cofactors: the divisor of n whose multiples are exactly the constants that u f + v g
    can be. D = n means that only 0 is reached. The cofactors are determined for two constants only. n is at most 2^63 - 1.
    Refusals: 1, 2, 3.

    >>> reduced_resultant(6, [5, 0, 1], [3, 1]).D
    2
    >>> reduced_resultant(6, [2], [4])
    Reduced(D=2, u=[0], v=[2])
    >>> reduced_resultant(3 ** 39, [3 ** 25], [3 ** 30, 1]).D == 3 ** 25
    True
    """
    D, u, v = _reduced(*_pair(n, f, g, "reduced_resultant"))
    return Reduced(D, _trimmed(u), _trimmed(v))


def _reduced(n: int, width: int, x: "array[int]", y: "array[int]") -> Tuple[int, "array[int]", "array[int]"]:
    """D and the buffers of its cofactors, L words each."""
    count = _length(n, x, y)
    u, v = _room(count, width), _room(count, width)
    return _value(_call(_named("reduced_resultant", width), n, x, y, u, v, _work(width))), u, v


def divisor(n: int, f: Words, g: Words) -> int:
    """D alone, in less time, for n up to 2^63 - 1. Refusals: 1, 2, 3.

    >>> divisor(6, [5, 0, 1], [3, 1])
    2
    >>> divisor(3 ** 39, [3 ** 25], [3 ** 30, 1]) == 3 ** 25
    True
    """
    n, width, x, y = _pair(n, f, g, "divisor")
    return _value(_call(_named("divisor", width), n, x, y, _work(width)))


def _pair32(n: int, f: Words, g: Words, service: str) -> Tuple[int, "array[int]", "array[int]"]:
    """n and the words of both polynomials, for a service that has words of 32 bits only."""
    n = _modulus(n, service, _MOST32)
    return n, _words(f, "f", service, n), _words(g, "g", service, n)


def resultant_cofactors(n: int, f: Words, g: Words) -> Cofactors:
    """The resultant with cofactors u of e words and v of d words, where d and e are the sent degrees. Which cofactors are returned is
    not determined if there are several. Refusals: 1, 2, 3, 9 (d = e = 0).

    >>> resultant_cofactors(7, [1, 1], [2, 1])
    Cofactors(resultant=1, u=[6], v=[1])
    """
    n, x, y = _pair32(n, f, g, "resultant_cofactors")
    u, v = _room(max(len(y) - 1, 0)), _room(max(len(x) - 1, 0))
    answer = _accept(_call("resultant_cofactors", n, x, y, u, v, _work()))
    return Cofactors(answer.value, u.tolist(), v.tolist())


def why(n: int, f: Words, g: Words) -> Reason:
    """Why f and g are not coprime, that is, why D is above 1. Which m and w are returned is not determined.
    Refusals: 1, 2, 3.

    >>> why(7, [6, 0, 1], [1, 1])
    Reason(ground=<Ground.DIVISOR: 2>, m=7, w=[1, 1])
    """
    n, x, y = _pair32(n, f, g, "why")
    w = _room(_library.COMMON)
    answer = _accept(_call("why", n, x, y, w, _work()))
    ground = Ground(answer.ground)
    return Reason(ground, answer.m, w[:answer.degree + 1].tolist() if ground is Ground.DIVISOR else [])


def check_claim(n: int, f: Words, g: Words, d: int, u: Words, v: Words) -> Claim:
    """Whether d is the reduced resultant of f and g and u f + v g = d modulo n. u and v have 1 to 4096 words. Refusals: 1, 2, 16, 3.

    >>> check_claim(6, [2], [4], 2, [0], [2])
    <Claim.TRUE: 0>
    """
    n, x, y = _pair32(n, f, g, "check_claim")
    s, t = _words(u, "u", "check_claim", n), _words(v, "v", "check_claim", n)
    return Claim(_value(_call("check_claim", n, x, y, _number(d, "d", "check_claim", _MOST32), s, t, _work())))


def _grid(f: Sequence[Words], name: str, n: int) -> Tuple["array[int]", int, int]:
    """The words of a polynomial in y and z, and its sent degrees. Without a word the degrees are sent as 0, which no length fits."""
    given = _sequence(f, name, "resultant_two", "rows")
    rows = [_words(row, "%s[%d]" % (name, i), "resultant_two", n).tolist() for i, row in enumerate(given)]
    if any(len(row) != len(rows[0]) for row in rows):
        raise ValueError("resultant_two: the rows of %s have different lengths" % name)
    found = array("I", [w for row in rows for w in row])
    return found, max(len(rows) - 1, 0), max(len(rows[0]) - 1, 0) if rows else 0


def resultant_two(n: int, f: Sequence[Words], g: Sequence[Words]) -> List[int]:
    """The resultant in y of two polynomials in y and z, a polynomial in z. f[i][k] is the word of y^i z^k; the rows of one polynomial
    have one length. The answer has e a + d b + 1 words, with sent degrees d, e in y and a, b in z.
    Refusals: 1, 2, 3, 12 (e a + d b above 60), 11 (a prime up to that divides n).

    The resultant of y - z and y - 2 z is - z:

    >>> resultant_two(61, [[0, 60], [1, 0]], [[0, 59], [1, 0]])
    [0, 60, 0]
    """
    n = _modulus(n, "resultant_two", _MOST32)
    (x, d, a), (y, e, b) = _grid(f, "f", n), _grid(g, "g", n)
    out = _room(min(e * a + d * b + 1, _library.MOST_TWO))
    _accept(_call("resultant_two", n, x, d, a, y, e, b, out, _work()))
    return out.tolist()


# ---- polynomials and residues

def product(n: int, f: Words, g: Words) -> List[int]:
    """The product of f and g, of sent degree d + e, even if its top word is zero, for n up to 2^63 - 1. Refusals: 1, 2 (also
    d + e above 48), 3.

    >>> product(6, [1, 2], [1, 3])
    [1, 5, 0]
    >>> product(2 ** 62, [1, 2 ** 31], [1, 2 ** 31])
    [1, 4294967296, 0]
    """
    n, width, x, y = _pair(n, f, g, "product")
    out = _room(max(len(x) + len(y) - 1, 0), width)
    _accept(_call(_named("product", width), n, x, y, out))
    return out.tolist()


def product_word(n: int, f: Words, g: Words, k: int) -> Optional[int]:
    """Word k of that product, and None for a k above d + e. Refusals: 1, 2 (also d + e above 48), 3.

    >>> product_word(6, [1, 2], [1, 3], 1), product_word(6, [1, 2], [1, 3], 9)
    (5, None)
    """
    n, x, y = _pair32(n, f, g, "product_word")
    out, k = _room(max(len(x) + len(y) - 1, 0)), _number(k, "k", "product_word", _MOST64)
    _accept(_call("product_word", n, x, y, out, k))
    return out[k] if k < len(out) else None


def true_degree(n: int, f: Words) -> Optional[int]:
    """The place of the highest word of f that is not zero, for n up to 2^63 - 1; None where there is none. Refusals: 1, 2, 3.

    >>> true_degree(5, [2, 1, 0]), true_degree(5, [3]), true_degree(5, [0, 0])
    (1, 0, None)
    >>> true_degree(2 ** 40, [0, 2 ** 33, 0])
    1
    """
    n, width, x = _one(n, f, "true_degree")
    answer = _accept(_call(_named("true_degree", width), n, x))
    return answer.degree if answer.some else None


def gcd(n: int, a: int, b: int) -> Gcd:
    """The greatest common divisor of two residues and n, with its least cofactors, for n up to 2^63 - 1. Refusals: 1, 3.

    >>> gcd(12, 8, 6)
    Gcd(g=2, s=1, t=1)
    >>> gcd(2 ** 40, 2 ** 33, 3)
    Gcd(g=1, s=0, t=733007751851)
    """
    n, width, (a, b) = _residues(n, (a, b), ("a", "b"), "gcd")
    answer = _accept(_call(_named("gcd", width), n, a, b))
    return Gcd(answer.g, answer.s, answer.t)


# ---- older names, from when the width was not chosen

product64, resultant64, reduced_resultant64 = product, resultant, reduced_resultant


# ---- texts, shares and factors

def read_text(n: int, text: str) -> List[int]:
    """The words that a text spells, up to the top one; only the engine's own notation is read (`parse` reads more). Refusals: 1, 17.

    >>> read_text(12, "3*x^3+1*x+5")
    [5, 1, 0, 3]
    """
    if not isinstance(text, str):
        raise TypeError("read_text: text is %s, not a str" % _shown(text))
    spelled = array("B", text.encode("utf-8", "surrogateescape"))
    found = _room(_library.WORDS)
    answer = _accept(_call("read_text", _modulus(n, "read_text", _MOST32), spelled, found))
    return found[:answer.value].tolist()


def write_text(n: int, f: Words) -> str:
    """The text of f; zero top words leave no trace in it. Refusals: 1, 2, 3.

    >>> write_text(12, [5, 1, 0, 3, 0])
    '3*x^3+1*x+5'
    """
    n = _modulus(n, "write_text", _MOST32)
    text = array("B", bytes(_library.TEXT))
    answer = _accept(_call("write_text", n, _words(f, "f", "write_text", n), text))
    return text[:answer.value].tobytes().decode("ascii")


def shares(frames: int, waiting: Sequence[int]) -> Tuple[int, int, int, int]:
    """How many jobs of each of four groups go into a run of so many frames, 1 to 1024. Refusals: 15.

    >>> shares(10, [1, 100, 2, 100])
    (1, 4, 2, 3)
    """
    counts = _integers(waiting, "waiting", "shares")
    if len(counts) != 4:
        raise ValueError("shares: four groups wait, not %d" % len(counts))
    groups = (_number(w, "waiting[%d]" % i, "shares", _MOST32) for i, w in enumerate(counts))
    first, second, third, fourth = _accept(_call("shares", _number(frames, "frames", "shares", _MOST32), *groups)).share
    return first, second, third, fourth


class Factors:
    """One h, and beside it at most 16 factors under numbers from 1 to 65535, which come and go. Threads may share it.

    >>> held = Factors(12, [1, 4])
    >>> held.arrive(7, [3, 2])
    >>> held.arrive(8, [5])
    >>> held.resultant()
    10
    >>> held
    Factors(n=12, h=[1, 4], degrees={7: 1, 8: 0})
    >>> held.leave(7)
    >>> held.resultant()
    5

    A refused call leaves the factors as they were. Two are equal if n, h and, under each number, the sent degree and the resultant
    with h agree.
    """

    def __init__(self, n: int, h: Words) -> None:
        """Nothing beside h. Refusals: 1, 2, 3."""
        n = _modulus(n, "Factors", _MOST32)
        self._lock = threading.Lock()
        self._state = _accept(_call("factors_start", n, _words(h, "h", "Factors", n))).factors

    def arrive(self, number: int, f: Words) -> None:
        """Adds f under a number that is free. Refusals: 2, 3, 14 (the number), 13 (16 factors, or degrees above 48 in sum)."""
        under = _number(number, "number", "Factors.arrive", 65535)
        with self._lock:
            x = _words(f, "f", "Factors.arrive", self._state.n)
            self._state = _accept(_call("factors_arrive", self._state, under, x, _work())).factors

    def leave(self, number: int) -> None:
        """Removes the factor under that number. Refusals: 14."""
        under = _number(number, "number", "Factors.leave", 65535)
        with self._lock:
            self._state = _accept(_call("factors_leave", self._state, under)).factors

    def resultant(self) -> int:
        """The resultant with h of the product of the factors; 1 if there are none."""
        with self._lock:
            return _value(_call("factors_read", self._state))

    def copy(self) -> "Factors":
        """The same h and factors, which come and go on their own."""
        other = Factors.__new__(Factors)
        other._lock = threading.Lock()
        with self._lock:
            other._state = _library.State.from_buffer_copy(self._state)
        return other

    def _held(self) -> Tuple[int, List[int], Dict[int, Tuple[int, int]]]:
        """n, h, and under each number the sent degree and the resultant."""
        with self._lock:
            state = self._state
            slots = zip(state.number, state.degree, state.resultant)
            return state.n, list(state.h[:state.h_len]), {k: (d, r) for k, d, r in sorted(slots) if k}

    def __eq__(self, other: object) -> bool:
        if not isinstance(other, Factors):
            return NotImplemented
        return self._held() == other._held()

    __hash__ = None  # type: ignore[assignment]

    def __repr__(self) -> str:
        n, h, held = self._held()
        return "Factors(n=%d, h=%r, degrees=%r)" % (n, h, {k: d for k, (d, _) in held.items()})
