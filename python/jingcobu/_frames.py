"""Job frames and answer lines, as the frame program jingcobu-desk reads and writes them. Nothing here needs the shared library."""
from __future__ import annotations

import re
from typing import Iterable, List, NamedTuple, Union

from ._polynomials import Words, number, sequence, shown, words
from ._refusals import MEANING

_KINDS = {"resultant": 1, "reduced": 2}
_NAMES = {1: "resultant", 2: "reduced resultant"}
_LINE = re.compile(r"([0-9a-f]{2})([0-9a-f]{2})([0-9a-f]{8})")


class Answer(NamedTuple):
    """An answer line. kind is 1 (resultant), 2 (reduced resultant) or 255 (the line was not a frame); status is 0 or the refusal."""

    kind: int
    status: int
    value: int

    def sentence(self) -> str:
        """The answer in words.

        >>> Answer(1, 0, 2).sentence()
        'resultant 2'
        >>> Answer(255, 8, 0).sentence()
        'refused with 8: the line is not a frame'
        """
        if self.status:
            return "refused with %d: %s" % (self.status, MEANING.get(self.status, "unknown"))
        return "%s %d" % (_NAMES.get(self.kind, "kind %d" % self.kind), self.value)


def frame(kind: str, n: int, f: Words, g: Words) -> str:
    """The frame of a job, without its newline; kind is "resultant" or "reduced". f and g have 1 to 49 words each, constant first. The
    frame program refuses a frame whose top word of f or g is zero.

    >>> frame("resultant", 12, [3, 2], [1, 4])
    '010000000c010100000003000000020000000100000004'
    """
    if not isinstance(kind, str):
        raise TypeError("frame: kind is %s, not a str" % shown(kind))
    if kind not in _KINDS:
        raise ValueError("frame: kind is %r, not resultant or reduced" % kind)
    n = number(n, "n", "frame", 2 ** 32 - 1)
    x, y = words(f, "f", "frame", n), words(g, "g", "frame", n)
    for name, sent in (("f", x), ("g", y)):
        if not 1 <= len(sent) <= 49:
            raise ValueError("frame: %s has %d words, not from 1 to 49" % (name, len(sent)))
    return "%02x%08x%02x%02x" % (_KINDS[kind], n, len(x) - 1, len(y) - 1) + "".join("%08x" % w for w in x + y)


def answers(lines: Union[str, Iterable[str]]) -> List[Answer]:
    """The answers that answer lines spell, in order; the lines of one text, or of a list or an open file.

    >>> answers(["010000000002", "ff0800000000"])
    [Answer(kind=1, status=0, value=2), Answer(kind=255, status=8, value=0)]
    >>> answers("020000000001\\n")
    [Answer(kind=2, status=0, value=1)]
    """
    found = []
    for place, line in enumerate(lines.splitlines() if isinstance(lines, str) else sequence(lines, "lines", "answers", "lines"), 1):
        if not isinstance(line, str):
            raise TypeError("answers: line %d is %s, not a str" % (place, shown(line)))
        match = _LINE.fullmatch(line.rstrip("\n"))
        if not match:
            raise ValueError("line %d is not an answer line: %r" % (place, line))
        found.append(Answer(*(int(part, 16) for part in match.groups())))
    return found
