#!/usr/bin/env python3
"""The trial of the frame program: writes crates/desk/stdin and crates/desk/stdout.

The answers are computed here from the specification (S64 to S69): a resultant is that of tools/reference.py, an
integer determinant by Bareiss's elimination, reduced modulo n; D is the generator of the constants in the span of the shifts of f and g
over Z/n, by elimination with row operations (small degrees), or 1 if the resultant is a unit: another way than that of
tools/ideal_constants.py.
"""
import os
import random
import re
from math import gcd
from reference import STARRED, UNSTARRED, resultant

HERE = os.path.dirname(os.path.abspath(__file__))
DESK = os.path.join(HERE, "..", "crates", "desk")
WORD = 2**32
BLOCK = 65536


def reduced(n, f, g):
    """D. The constants c in the span: columns are cleared from the highest down, keeping every combination that is 0 there."""
    d, e = len(f) - 1, len(g) - 1
    if d + e >= 1 and gcd(resultant(n, f, g), n) == 1:
        return 1
    length = (n.bit_length() - 1) * max(d, e) + 1
    width = length + max(d, e)
    rows = []
    for p in (f, g):
        for i in range(length):
            rows.append([0] * i + list(p) + [0] * (width - i - len(p)))
    for column in range(width - 1, 0, -1):
        zero, rest = [], []
        for row in rows:
            (rest if row[column] % n else zero).append(row)
        while len(rest) > 1:
            rest.sort(key=lambda r: r[column])
            pivot, others = rest[0], rest[1:]
            rest = [pivot]
            for row in others:
                q = row[column] // pivot[column]
                row = [(x - q * y) % n for x, y in zip(row, pivot)]
                (rest if row[column] else zero).append(row)
        if rest:
            m = n // gcd(n, rest[0][column])
            zero.append([m * x % n for x in rest[0]])
        rows = [r for r in zero if any(r)]
    return gcd(n, *[r[0] for r in rows]) if rows else n


def status(n, f, g):
    if n < 2:
        return 1
    if any(not 1 <= len(p) <= 49 for p in (f, g)):
        return 2
    if any(x >= n for p in (f, g) for x in p):
        return 3
    if any(p[-1] == 0 for p in (f, g)):
        return 10
    return 0


def answer(line):
    text = line.decode("latin-1")
    head = re.fullmatch(r"(01|02)([0-9a-f]{8})([0-9a-f]{2})([0-9a-f]{2})((?:[0-9a-f]{8})*)", text)
    if not head or len(text) > 798:
        return b"ff0800000000\n"
    kind, n, d, e = head[1], *(int(head[i], 16) for i in (2, 3, 4))
    words = [int(head[5][i : i + 8], 16) for i in range(0, len(head[5]), 8)]
    if len(words) != d + 1 + e + 1:
        return b"ff0800000000\n"
    f, g = words[: d + 1], words[d + 1 :]
    s = status(n, f, g)
    v = 0 if s else (resultant if kind == "01" else reduced)(n, f, g)
    return b"%s%02x%08x\n" % (kind.encode(), s, v)


def frame(kind, n, f, g):
    return ("%02x%08x%02x%02x" % (kind, n, len(f) - 1, len(g) - 1) + "".join("%08x" % x for x in f + g)).encode()


def both(n, f, g):
    return [frame(1, n, f, g), frame(2, n, f, g)]


def cut(p):
    """p in its true degree."""
    while len(p) > 1 and p[-1] == 0:
        p = p[:-1]
    return p


def lines():
    draw = random.Random(20)
    out = [
        b"010000000c010100000003000000020000000100000004",
        b"020000000c010100000003000000020000000100000004",
        b"zz",
        b"010000000101000000000000000000",
        # "A full frame of kind 01 with n = 1, d = e = 0 and two zero words"
        b"010000000100000000000000000000",
    ]
    # the pairs with their numbers
    for n, f, g in STARRED + [UNSTARRED]:
        out += both(n, f, g)
    # refusals 1, 2 and 3, and their order
    for n, f, g in (
        (0, [0], [0]),
        (1, [5, 6], [7]),
        (1, [0] * 50, [0]),
        (2, [0] * 50, [1]),
        (2, [1], [0] * 50),
        (2, [9] * 50, [9] * 48),
        (2, [0] * 97, [1]),
        (2, [1], [0] * 97),
        (7, [7], [1]),
        (7, [1], [1, 7]),
        (7, [8, 9], [10, 11]),
        (4294967295, [4294967295], [1]),
        (4294967295, [4294967294], [4294967294]),
        (4294967294, [4294967294, 1], [4294967295]),
    ):
        out += both(n, f, g)
    # 798 characters: d = e = 48. One less and one more are not frames.
    for n in (4294967291, 4294967295, 4294836225, 2147483648, 2):
        f, g = [[draw.randrange(n) for _ in range(49)] for _ in range(2)]
        if n == 4294836225:
            g = [65535 * x % n for x in g]
        full = frame(1, n, f, g)
        out += [full, full[:-1], full + b"0", full[:13] + b"2" + full[14:]]
    for n in (4294967291, 2147483647):
        f, g = [[draw.randrange(n) for _ in range(49)] for _ in range(2)]
        out += [frame(2, n, f, g)]
    # lines that are longer than anything that is read at once
    out += [b"0" * 5000, b"010000000100000000000000000000" * 300, full + b"\x00" * 4096]
    # not a frame
    good = frame(1, 12, [3, 2], [1, 4])
    out += [b"", b" ", b"\r", b"\x00", b"0", b"01", good[:13], good[:14], good[:29], good[:-1], good[:-8], good + b"0", good + b"00000000"]
    out += [good.upper(), good.replace(b"c", b"C"), b" " + good, good + b" ", good + b"\r", good + b"\x00", b"\xef\xbb\xbf" + good]
    for k in (0, 1, 9, 10, 11, 12, 13, 14, len(good) - 1):
        for c in b"/:@F`g~ \x00\r\t\x7f\x80\xff":
            out.append(good[:k] + bytes([c]) + good[k + 1 :])
    for k in (b"00", b"03", b"0a", b"10", b"12", b"20", b"21", b"ff"):
        out.append(k + good[2:])
    for d, e in ((0, 1), (1, 0), (2, 1), (1, 2), (0, 0), (96, 1), (97, 0), (255, 255)):
        out.append(good[:10] + b"%02x%02x" % (d, e) + good[14:])
    out.append(frame(1, 12, [1] * 98, [1]))
    out.append(frame(1, 12, [1] * 256, [1]))
    # drawn pairs: zero divisors, zero tops, zero polynomials
    meant = []
    for n in (2, 3, 4, 6, 8, 9, 12, 16, 30, 36, 60, 64, 72, 97, 180, 210, 1024, 2310, 65536):
        for _ in range(3):
            f, g = [[draw.randrange(n) for _ in range(draw.randrange(1, 6))] for _ in range(2)]
            for p in (f, g):
                if draw.randrange(3) == 0:
                    q = draw.choice([q for q in range(1, n + 1) if n % q == 0])
                    p[:] = [q * x % n for x in p]
                if draw.randrange(3) == 0:
                    p[-1] = 0
            out += both(n, f, g)
            if any(p[-1] == 0 for p in (f, g)):
                meant += both(n, cut(f), cut(g))
    # refusal 10: a zero top in f, in g, in both; refusals 1, 2 and 3 come before it
    for n, f, g in (
        (7, [1, 1, 0], [2, 1]),
        (7, [1, 1], [2, 1, 0]),
        (7, [1, 0], [2, 0]),
        (7, [1, 1, 0, 0, 0], [2, 1, 0, 0]),
        (4294967295, [4294967294, 0], [1]),
        # beside a word that is n or more
        (7, [1, 7, 0], [2, 1]),
        (7, [1, 0], [9, 1]),
        (7, [7, 1], [2, 0]),
        (7, [1, 0], [2, 7]),
        (7, [1, 7], [2, 0]),
        # beside n = 0 and n = 1
        (1, [0, 0], [0, 0]),
        (1, [1, 0], [1]),
        (0, [1], [1, 0]),
        # beside 50 words, and in the last of 49
        (5, [1] * 49 + [0], [1, 1]),
        (5, [1, 0], [1] * 50),
        (5, [1] * 49 + [0], [7, 0]),
        (5, [1] * 48 + [0], [1, 1]),
        (5, [1, 1], [1] * 48 + [0]),
        (5, [0] * 49, [0] * 49),
        # the single word 0
        (6, [0], [1]),
        (6, [5], [0]),
        (6, [0], [0]),
        (6, [0], [1, 1]),
        (6, [1, 1], [0]),
        # zeros below the top are answered
        (6, [0, 1], [0, 1]),
        (6, [0, 0, 0, 5], [1, 0, 5]),
        (6, [1, 0, 0, 2], [3]),
        (5, [0] * 48 + [1], [2] + [0] * 47 + [1]),
        (2, [1, 0] * 24 + [1], [1, 1, 0] * 16 + [1]),
    ):
        out += both(n, f, g)
    # the drawn pairs with a zero top in their true degrees
    out += meant
    # The last line has no newline, and its last digit, on which the value depends, is alone in the last block of 65536 that is read:
    # a line of zeros before it makes the length 1 modulo 65536.
    last = frame(1, 4294967291, [2, 3], [5, 9])
    out.append(b"0" * (-len(b"\n".join(out + [last])) % BLOCK))
    return out + [last]


def main():
    given = lines()
    assert len(b"\n".join(given)) % BLOCK == 1
    with open(os.path.join(DESK, "stdin"), "wb") as out:
        out.write(b"\n".join(given))
    with open(os.path.join(DESK, "stdout"), "wb") as out:
        out.write(b"".join(answer(line) for line in given))


main()
