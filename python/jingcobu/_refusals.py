"""The refusals: their numbers, what they mean, and the exception that carries one."""
from __future__ import annotations

from typing import Optional

MEANING = {
    1: "n is 0 or 1, or with words of 64 bits 2^63 or more",
    2: "a polynomial has no word or more than 49, or the sent degrees do not fit",
    3: "a word or a residue is n or more",
    4: "the divisor's top word is not a unit",
    5: "not a unit polynomial times a monic one, or not a unit polynomial",
    6: "a result buffer is too short",
    7: "fewer than 8192 working words, of 64 bits fewer than 16384",
    8: "the line is not a frame",
    9: "both sent degrees are 0: the resultant has no cofactors",
    10: "the top word of f or g is zero",
    11: "a prime up to e a + d b divides n",
    12: "e a + d b is above 60",
    13: "16 factors are present, or the sent degrees would add up to more than 48",
    14: "the number is 0, or is present already, or is not present",
    15: "the number of frames is 0 or above 1024",
    16: "a multiplier has no word or more than 4096",
    17: "not a text of the notation, or a power above 48",
}


class Refused(ValueError):
    """A call that the engine refuses. `number` is the refusal's number and `sentence` what it means; `place` is the place of the
    pair in a call of `resultants`, and None elsewhere.

    >>> Refused(3)
    Refused(3, 'a word or a residue is n or more')
    """

    def __init__(self, number: int, place: Optional[int] = None) -> None:
        self.number = number
        self.sentence = MEANING.get(number, "unknown")
        self.place = place
        super().__init__(number, self.sentence)

    def __str__(self) -> str:
        where = "" if self.place is None else "pair %d " % self.place
        return "%srefused with %d: %s" % (where, self.number, self.sentence)
