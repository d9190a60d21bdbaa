"""Finds and loads the shared library, and knows what its functions take and return (include/jingcobu.h)."""
from __future__ import annotations

import ctypes
import functools
import os
import shutil
from pathlib import Path
from typing import Any, Iterator, List, Optional

WORK = 8192          # working words
COFACTOR = 1489      # words that always suffice for a cofactor of D
WORK64 = 16384       # the same two for words of 64 bits
COFACTOR64 = 2977
COMMON = 49          # words of a common divisor
WORDS = 49           # words of a polynomial read from text
TEXT = 800           # bytes of a text
MOST_TWO = 61        # words of a resultant in two variables
INTERFACE = "libjingcobu.so.1"

_word = ctypes.c_uint32
_place = ctypes.c_void_p
_size = ctypes.c_size_t


class LibraryMissing(ImportError):
    """There is no shared library, or it lacks the service that was called."""


class Answer(ctypes.Structure):
    _fields_ = [("value", _word), ("status", _word)]


class Answer64(ctypes.Structure):
    _fields_ = [("value", ctypes.c_uint64), ("status", _word)]


class Degree(ctypes.Structure):
    _fields_ = [("some", _word), ("degree", _word), ("status", _word)]


class Reason(ctypes.Structure):
    _fields_ = [("ground", _word), ("m", _word), ("degree", _word), ("status", _word)]


class Cofactors(ctypes.Structure):
    _fields_ = [("g", _word), ("s", _word), ("t", _word), ("status", _word)]


class Cofactors64(ctypes.Structure):
    _fields_ = [("g", ctypes.c_uint64), ("s", ctypes.c_uint64), ("t", ctypes.c_uint64), ("status", _word)]


class State(ctypes.Structure):
    _fields_ = [("n", _word), ("h_len", _word), ("h", _word * 49), ("number", ctypes.c_uint16 * 16), ("degree", _word * 16),
                ("resultant", _word * 16)]


class Held(ctypes.Structure):
    _fields_ = [("factors", State), ("status", _word)]


class Plan(ctypes.Structure):
    _fields_ = [("share", _word * 4), ("status", _word)]


_lent = [_place, _size]      # a buffer and its length
_pair = [_word] + _lent * 2  # n, f and g
_pair64 = [ctypes.c_uint64] + _lent * 2

_rows = (_lent + [_size]) * 2 + [_size] + _lent * 2  # f with d, g with e, the count, out and work

SIGNATURES = {
    "product": (Answer, _pair + _lent),
    "product_word": (Answer, _pair + _lent + [_size]),
    "true_degree": (Degree, [_word] + _lent),
    "resultant": (Answer, _pair + _lent),
    "reduced_resultant": (Answer, _pair + _lent * 3),
    "divisor": (Answer, _pair + _lent),
    "resultants": (Answer, [_word] + _rows),
    "divisors": (Answer, [_word] + _rows),
    "resultant_cofactors": (Answer, _pair + _lent * 3),
    "why": (Reason, _pair + _lent * 2),
    "check_claim": (Answer, _pair + [_word] + _lent * 3),
    "resultant_two": (Answer, [_word] + _lent + [_size, _size] + _lent + [_size, _size] + _lent * 2),
    "gcd": (Cofactors, [_word, _word, _word]),
    "factors_start": (Held, [_word] + _lent),
    "factors_arrive": (Held, [State, ctypes.c_uint16] + _lent * 2),
    "factors_leave": (Held, [State, ctypes.c_uint16]),
    "factors_read": (Answer, [State]),
    "read_text": (Answer, [_word] + _lent * 2),
    "write_text": (Answer, [_word] + _lent * 2),
    "shares": (Plan, [_word] * 5),
    "product64": (Answer64, _pair64 + _lent),
    "resultant64": (Answer64, _pair64 + _lent),
    "reduced_resultant64": (Answer64, _pair64 + _lent * 3),
    "divisor64": (Answer64, _pair64 + _lent),
    "resultants64": (Answer64, [ctypes.c_uint64] + _rows),
    "divisors64": (Answer64, [ctypes.c_uint64] + _rows),
    "true_degree64": (Degree, [ctypes.c_uint64] + _lent),
    "gcd64": (Cofactors64, [ctypes.c_uint64] * 3),
}


def source_tree(package: Path) -> Optional[Path]:
    """The root of the sources that hold this very package, or None if it is installed or was copied elsewhere. The sources and their
    build folder belong to the package's owner, to who runs this, or to root; so nobody else can add them around a package in a folder
    that all can write to."""
    root = package.parent.parent
    parts = [root / "python" / "pyproject.toml", root / "include" / "jingcobu.h", root / "crates.txt", root / "build"]
    if root / "python" / "jingcobu" != package or not all(part.exists() for part in parts):
        return None
    owners = {part.stat().st_uid for part in parts}
    return root if owners <= {0, os.getuid(), package.stat().st_uid} else None


def candidates() -> Iterator[str]:
    """The files that are tried, in order. JINGCOBU_LIBRARY, if it is set, is the only one. No folder is looked into that is not the
    package's own or its sources'; after them the system's loader is asked."""
    named = os.environ.get("JINGCOBU_LIBRARY")
    if named:
        yield named
        return
    here = Path(__file__).resolve().parent
    yield str(here / "libjingcobu.so")
    yield str(here / INTERFACE)
    root = source_tree(here)
    if root is not None:
        yield str(root / "build" / "libjingcobu.so")
    yield INTERFACE                                        # where the system's loader looks


def program() -> str:
    """The frame program: what JINGCOBU_DESK names, that of the sources that hold this package, or the one on the path."""
    named = os.environ.get("JINGCOBU_DESK")
    if named:
        return named
    root = source_tree(Path(__file__).resolve().parent)
    built = root / "build" / "jingcobu-desk" if root is not None else None
    found = str(built) if built is not None and built.exists() else shutil.which("jingcobu-desk")
    if found is None:
        raise LibraryMissing("the frame program jingcobu-desk is not on the path. Run `make` at the root of the sources, or `make install`, or "
                             "name it in the environment variable JINGCOBU_DESK")
    return found


@functools.lru_cache(maxsize=None)
def library() -> ctypes.CDLL:
    """The shared library."""
    tried: List[str] = []
    for name in candidates():
        if os.sep in name and not os.path.exists(name):
            tried.append(name)
            continue
        try:
            return ctypes.CDLL(name)
        except OSError as error:
            tried.append("%s (%s)" % (name, error))
    raise LibraryMissing(
        "the shared library of Jingcobu was not found. Run `make` at the root of its sources and use the package from there; or "
        "`make install`, and use the package that it puts in place, or `ldconfig` after it; or name the file in the environment variable "
        "JINGCOBU_LIBRARY. Tried: " + "; ".join(tried))


def symbol(name: str) -> str:
    """The library's name of a service: jingcobu_NAME, and jingcobu64_NAME if 64 follows the name.

    >>> symbol("product"), symbol("product64")
    ('jingcobu_product', 'jingcobu64_product')
    """
    return "jingcobu64_" + name[:-2] if name.endswith("64") else "jingcobu_" + name


def has(name: str) -> bool:
    """Whether the library has the service."""
    return hasattr(library(), symbol(name))


@functools.lru_cache(maxsize=None)
def service(name: str) -> Any:
    """The function of the service, ready to be called."""
    try:
        function = getattr(library(), symbol(name))
    except AttributeError:
        raise LibraryMissing("%s has no %s: it is older than this package" % (library()._name, symbol(name))) from None
    function.restype, function.argtypes = SIGNATURES[name]
    return function
