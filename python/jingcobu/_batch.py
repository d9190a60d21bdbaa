"""Many pairs of polynomials: rows of words that stand one after the other, for one call of the engine. A buffer of rows, as numpy, array and
memoryview have it, is lent as it is; sequences of polynomials are gathered by their lengths."""
from __future__ import annotations

import ctypes
from array import array
from itertools import chain
from typing import Any, Dict, Iterator, List, NamedTuple, Optional, Sequence, Tuple

from ._polynomials import CODES, REFUSED_KINDS, sequence, shown, words

MOST = 49  # words of a polynomial
_READ = "bBhHiIlLqQnNfd?"  # formats of buffers whose items Python reads


class Lent(NamedTuple):
    """Words for the engine: the place of the first, how many they are, and what keeps them alive."""

    place: int
    size: int
    keeper: Any


class Rows(NamedTuple):
    """So many polynomials, of `length` words of `width` bits each."""

    number: int
    length: int
    width: int
    words: Lent


class Group(NamedTuple):
    """Pairs of one pair of lengths, and their places among all pairs."""

    f: Rows
    g: Rows
    places: Sequence[int]


def of_array(found: "array[int]") -> Lent:
    return Lent(*found.buffer_info(), found)


def two_dimensional(F: Any) -> Optional[memoryview]:
    """A view of F where it is a buffer of rows, otherwise None."""
    try:
        view = memoryview(F)
    except TypeError:
        return None
    return view if view.ndim == 2 else None


class _Buffer(ctypes.Structure):
    """What Python's C interface tells of a buffer (Py_buffer)."""

    _fields_ = [("place", ctypes.c_void_p), ("of", ctypes.c_void_p), ("bytes", ctypes.c_ssize_t), ("itemsize", ctypes.c_ssize_t),
                ("readonly", ctypes.c_int), ("ndim", ctypes.c_int), ("format", ctypes.c_void_p), ("shape", ctypes.c_void_p),
                ("strides", ctypes.c_void_p), ("suboffsets", ctypes.c_void_p), ("internal", ctypes.c_void_p)]


def _place(view: memoryview) -> Optional[int]:
    """Where the first word of a contiguous view stands, also where it can only be read; it stays there as long as the view is kept. None
    if this Python does not tell, or if words cannot be read there.

    >>> words = array("I", [1, 2])
    >>> _place(memoryview(words).toreadonly()) == words.buffer_info()[0]
    True
    """
    try:
        get, release = ctypes.pythonapi.PyObject_GetBuffer, ctypes.pythonapi.PyBuffer_Release
    except AttributeError:
        return None
    told = _Buffer()
    try:
        get(ctypes.py_object(view), ctypes.byref(told), 0)
    except BufferError:
        return None
    place: Optional[int] = told.place
    release(ctypes.byref(told))
    return place if place is not None and place % view.itemsize == 0 else None


def _width(view: memoryview) -> int:
    """The bits of its unsigned words in the machine's order; 0 where it holds something else."""
    plain = view.format.lstrip("@=<") in ("I", "L", "Q")
    return 8 * view.itemsize if plain and view.itemsize in (4, 8) else 0


def rows_of(view: memoryview, width: int) -> Rows:
    """The rows of a buffer of unsigned words. They are lent where they stand, and copied only where the words must become wider or the rows
    do not stand one after the other.

    >>> view = memoryview(array("I", [1, 2, 3, 4, 5, 6])).cast("B").cast("I", [2, 3])
    >>> rows_of(view, 32)[:3], rows_of(view, 64).words.keeper
    ((2, 3, 32), array('Q', [1, 2, 3, 4, 5, 6]))
    """
    (count, length), found = view.shape or (0, 0), array(CODES[_width(view)])
    place = _place(view) if width == _width(view) and view.c_contiguous and view.nbytes else None
    if place is not None:
        return Rows(count, length, width, Lent(place, count * length, view))
    found.frombytes(view.tobytes())
    return Rows(count, length, width, of_array(found if width == _width(view) else array(CODES[width], found)))


def listed(F: Any) -> List[List[int]]:
    """The rows of a buffer as lists."""
    found: Any = memoryview(F).tolist()
    return list(found)


def buffers(n: int, F: Any, G: Any) -> Optional[Tuple[Rows, Rows]]:
    """The rows of F and of G where both are buffers of unsigned words, in one width that serves them and n."""
    f, g = two_dimensional(F), two_dimensional(G)
    if f is None or g is None or not _width(f) or not _width(g):
        return None
    width = max(_width(f), _width(g), 32 if n < 2 ** 32 else 64)
    return rows_of(f, width), rows_of(g, width)


def polynomials(F: Any, name: str, service: str, n: int) -> List[Any]:
    """The polynomials of F, each a list, a tuple or an array of words."""
    view = two_dimensional(F)
    if isinstance(F, REFUSED_KINDS) or (view is not None and view.format in ("B", "b", "c")):
        raise TypeError("%s: %s is %s, not a sequence of polynomials" % (service, name, shown(F)))
    try:
        found = list(F) if view is None or view.format not in _READ else listed(view)
    except (TypeError, NotImplementedError):
        raise TypeError("%s: %s is %s, not a sequence of polynomials" % (service, name, shown(F))) from None
    if set(map(type, found)) <= {list, tuple}:
        return found
    return [words(f, "%s[%d]" % (name, i), service, n, 64) for i, f in enumerate(found)]


def pairs(given: Any, service: str) -> Tuple[List[Any], List[Any]]:
    """Pairs as two lists."""
    first, second = [], []
    for i, pair in enumerate(sequence(given, "F", service, "pairs")):
        try:
            f, g = sequence(pair, "pair", service)
        except (TypeError, ValueError):
            raise TypeError("%s: pair %d is %s, not two polynomials" % (service, i, shown(pair))) from None
        first.append(f)
        second.append(g)
    return first, second


def _gathered(F: List[Any], places: Sequence[int], name: str, service: str, n: int, width: int) -> "array[int]":
    """The words of these polynomials one after the other."""
    try:
        return array(CODES[width], chain.from_iterable([F[i] for i in places]))
    except (OverflowError, TypeError):
        found = array(CODES[width])  # what is wrong is told with its place
        for i in places:
            found.extend(words(F[i], "%s[%d]" % (name, i), service, n, width))
        return found


def _fits(F: List[Any], bound: int) -> bool:
    try:
        return all(x < bound for f in F for x in f)
    except TypeError:
        return True  # told where the words are gathered


def groups(n: int, F: List[Any], G: List[Any], service: str) -> Iterator[Group]:
    """The pairs by their lengths, in the order in which the lengths come up."""
    width = 32 if n < 2 ** 32 and _fits(F, 2 ** 32) and _fits(G, 2 ** 32) else 64
    by_lengths: Dict[Tuple[int, int], List[int]] = {}
    for i, (f, g) in enumerate(zip(F, G)):
        by_lengths.setdefault((len(f), len(g)), []).append(i)
    if not by_lengths:
        by_lengths[1, 1] = []  # the engine has n to test
    for (d, e), places in by_lengths.items():
        f, g = (of_array(_gathered(X, places, name, service, n, width)) for X, name in ((F, "F"), (G, "G")))
        yield Group(Rows(len(places), d, width, f), Rows(len(places), e, width, g), places)


def refused_at(n: int, F: Sequence[Sequence[int]], G: Sequence[Sequence[int]]) -> Tuple[int, Optional[int]]:
    """The first pair that a single call refuses for a length or a word: the number of the refusal, and the pair's place.

    >>> refused_at(5, [[1], [1]], [[1], [7]])
    (3, 1)
    """
    for i, (f, g) in enumerate(zip(F, G)):
        if not (1 <= len(f) <= MOST and 1 <= len(g) <= MOST):
            return 2, i
        if any(x >= n for x in f) or any(x >= n for x in g):
            return 3, i
    return 0, None
