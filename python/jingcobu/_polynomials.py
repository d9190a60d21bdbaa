"""Polynomials and residues as words: what callers may send, which width serves it, and what is said of a mistake."""
from __future__ import annotations

import operator
from array import array
from collections.abc import Mapping, Set
from typing import Any, List, Sequence, Tuple

Words = Sequence[int]

CODES = {32: "I", 64: "Q"}  # the types of `array` whose items have 4 and 8 bytes
REFUSED_KINDS = (str, bytes, bytearray, Set, Mapping)  # iterable, but no sequences of integers


def room(count: int, width: int = 32) -> "array[int]":
    """So many zero words, for a result.

    >>> room(3).tolist()
    [0, 0, 0]
    """
    return array(CODES[width], bytes(count * width // 8))


def integer(x: Any, name: str, service: str) -> int:
    """x as an integer, whatever its size.

    >>> integer(1.0, "n", "parse")
    Traceback (most recent call last):
    TypeError: parse: n is 1.0 of type float, not an integer
    """
    try:
        return operator.index(x)
    except TypeError:
        raise TypeError("%s: %s is %s, not an integer" % (service, name, shown(x))) from None


def number(x: Any, name: str, service: str, most: int) -> int:
    """x as an integer from 0 to most.

    >>> number(5, "k", "product_word", 9)
    5
    >>> number(-5, "k", "product_word", 9)
    Traceback (most recent call last):
    ValueError: product_word: k = -5 is not from 0 to 9
    """
    value = integer(x, name, service)
    if not 0 <= value <= most:
        raise ValueError("%s: %s = %d is not from 0 to %d" % (service, name, value, most))
    return value


def modulus(n: Any, service: str, most: int) -> int:
    """n as an integer that fits a word; whether it is served is for the engine to say."""
    value = integer(n, "n", service)
    if value < 0 or value > most:
        only = "; this service has words of 32 bits only" if most < 2 ** 32 and value < 2 ** 64 else ""
        raise ValueError("%s: n = %d is not from 2 to %d%s" % (service, value, min(most, 2 ** 63 - 1), only))
    return value


def shown(x: Any) -> str:
    shown = repr(x)
    return "%s of type %s" % (shown if len(shown) <= 40 else shown[:37] + "...", type(x).__name__)


def words(f: Any, name: str, service: str, n: int, width: int = 32) -> "array[int]":
    """The words of a polynomial, each of at most that many bits.

    >>> words([3, 2], "f", "resultant", 12).tolist()
    [3, 2]
    >>> words([3, -2], "f", "resultant", 12)
    Traceback (most recent call last):
    ValueError: resultant: f[1] = -2 is not from 0 to 11
    >>> words(b"32", "f", "resultant", 12)
    Traceback (most recent call last):
    TypeError: resultant: f is b'32' of type bytes, not a sequence of integers
    """
    if type(f) in (list, tuple):
        try:
            return array(CODES[width], f)
        except (OverflowError, TypeError):
            pass  # told below, with its place
    items = sequence(f, name, service)
    return array(CODES[width], [_item(x, i, name, service, n, width) for i, x in enumerate(items)])


def sequence(f: Any, name: str, service: str, what: str = "integers") -> List[Any]:
    """The items of f as a list; texts, bytes, sets and dictionaries are no sequences here.

    >>> sequence({3: 2}, "waiting", "shares")
    Traceback (most recent call last):
    TypeError: shares: waiting is {3: 2} of type dict, not a sequence of integers
    """
    if not isinstance(f, REFUSED_KINDS) and not (isinstance(f, memoryview) and f.format in ("B", "b", "c")):
        try:
            return list(f)
        except TypeError:
            pass
    raise TypeError("%s: %s is %s, not a sequence of %s" % (service, name, shown(f), what))


def integers(f: Any, name: str, service: str) -> List[int]:
    """The integers of f, of any size.

    >>> integers([1, 2.5], "words", "spell")
    Traceback (most recent call last):
    TypeError: spell: words[1] is 2.5 of type float, not an integer
    """
    return [integer(x, "%s[%d]" % (name, i), service) for i, x in enumerate(sequence(f, name, service))]


def _item(x: Any, i: int, name: str, service: str, n: int, width: int) -> int:
    """Word i of a polynomial."""
    value = integer(x, "%s[%d]" % (name, i), service)
    if not 0 <= value < 2 ** width:
        raise ValueError("%s: %s[%d] = %d is not from 0 to %d" % (service, name, i, value, max(n - 1, 0)))
    return value


def _ready(f: Any, name: str, service: str) -> Sequence[Any]:
    """The items of f, in a list or a tuple."""
    found: Sequence[Any] = f if type(f) in (list, tuple) else sequence(f, name, service)
    return found


def _fits(f: Sequence[Any], bound: int) -> bool:
    """Whether every integer of f is below the bound; what is not an integer is reported when its words are made."""
    try:
        return all(x < bound for x in f)
    except TypeError:
        return all(operator.index(x) < bound for x in f if hasattr(x, "__index__"))


def pair(n: Any, f: Any, g: Any, service: str, names: Tuple[str, str] = ("f", "g")) -> Tuple[int, int, "array[int]", "array[int]"]:
    """n, the width that serves n and all words, and the words of both polynomials in that width.

    >>> pair(12, [3, 2], [1, 4], "resultant")[1], pair(2 ** 40, [3, 2], [1, 4], "resultant")[1]
    (32, 64)
    """
    value = modulus(n, service, 2 ** 64 - 1)
    f, g = _ready(f, names[0], service), _ready(g, names[1], service)
    width = 32 if value < 2 ** 32 and _fits(f, 2 ** 32) and _fits(g, 2 ** 32) else 64
    return value, width, words(f, names[0], service, value, width), words(g, names[1], service, value, width)


def one(n: Any, f: Any, service: str) -> Tuple[int, int, "array[int]"]:
    """The same for one polynomial.

    >>> one(12, [3, 2], "true_degree")[1:], one(12, array("Q", [2 ** 40]), "true_degree")[1]
    ((32, array('I', [3, 2])), 64)
    """
    value = modulus(n, service, 2 ** 64 - 1)
    f = _ready(f, "f", service)
    width = 32 if value < 2 ** 32 and _fits(f, 2 ** 32) else 64
    return value, width, words(f, "f", service, value, width)


def residues(n: Any, given: Sequence[Any], names: Sequence[str], service: str) -> Tuple[int, int, List[int]]:
    """n, the width that serves n and all residues, and the residues.

    >>> residues(12, [8, 6], ["a", "b"], "gcd"), residues(2 ** 40, [8, 6], ["a", "b"], "gcd")[1]
    ((12, 32, [8, 6]), 64)
    """
    value, found = modulus(n, service, 2 ** 64 - 1), []
    for x, name in zip(given, names):
        found.append(integer(x, name, service))
        if not 0 <= found[-1] < 2 ** 64:
            raise ValueError("%s: %s = %d is not from 0 to %d" % (service, name, found[-1], max(value - 1, 0)))
    return value, 32 if max(value, *found) < 2 ** 32 else 64, found


def trimmed(found: "array[int]") -> List[int]:
    """The words up to the highest that is not zero; one word if there is none.

    >>> trimmed(array("I", [5, 0, 7, 0, 0])), trimmed(array("I", [0, 0]))
    ([5, 0, 7], [0])
    """
    bits = int.from_bytes(found.tobytes(), "little").bit_length()  # much quicker than a walk over the words or the bytes
    return found[:max(-(-bits // (8 * found.itemsize)), 1)].tolist()
