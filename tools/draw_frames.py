#!/usr/bin/env python3
"""Draws frames for the tests of many jobs: tools/draw_frames.py COUNT [DEGREE]. Without DEGREE they are of both kinds, degrees 0 to 8 and
many moduli, every fiftieth line is not a frame or is refused, and the last line has no newline; with it they are of kind 01, of that
degree, modulo 4294967291."""
import random
import sys

MODULI = [2, 4, 12, 36, 210, 2147483648, 3486784401, 223092870, 4294967291, 4294967295]
WRONG = ["", "zz", "010000000101000000000000000000", "0100000005020100000002000000010000000000000001" + "00000001", "01000000050000" + "00000007" * 2,
         "01000000010000" + "00000000" * 2, "01000000050000" + "00000001" * 2 + "\r", "f" * 2000]


def frame(draw, kind, n, d, e):
    top = [1 + draw.randrange(n - 1) for _ in range(2)]
    f, g = [draw.randrange(n) for _ in range(d)] + top[:1], [draw.randrange(n) for _ in range(e)] + top[1:]
    return "%02x%08x%02x%02x" % (kind, n, d, e) + "".join("%08x" % w for w in f + g)


def main():
    count, draw = int(sys.argv[1]), random.Random(28)
    for i in range(count):
        if len(sys.argv) > 2:
            line = frame(draw, 1, 4294967291, int(sys.argv[2]), int(sys.argv[2]))
        elif i % 50 == 17:
            line = WRONG[i // 50 % len(WRONG)]
        else:
            line = frame(draw, 1 + draw.randrange(2), draw.choice(MODULI), draw.randrange(9), draw.randrange(9))
        sys.stdout.write(line + ("\n" if i + 1 < count or len(sys.argv) > 2 else ""))


main()
