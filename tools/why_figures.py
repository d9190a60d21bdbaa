#!/usr/bin/env python3
"""Writes the cases of the test program `test_why` and what it must answer, made outside the engine: crates/test_why/stdin, a case per line
(1 for a pair or 2 for a row, n, the lengths of f and g, those of the divisor and of the working words, two numbers, the words of f, and for a
pair those of g; a row has the number of its g for the length of the divisor, and the two numbers say which they are), and
crates/test_why/stdout, an answer per line.

For six moduli a row for each f and each sent degree of g, with all g; then for four moduli 200 rows of a drawn f of degree 2 with 100 g; the
pairs of document 01; every refusal, alone and with all that come after it; and the pairs of crates/vectors, with the D stored there.

Which modulus, ground and divisor are named is not determined (S46). This file finds them by the way that docs/changes/W4.md describes, over
lists of Python's integers, and compares each with what is determined: D is that of tools/ideal_constants.py, which shares nothing with the
engine; "coprime" is answered exactly if it is 1, the modulus is above 1 and divides n and D, and the divisor is monic of degree 1 or more
and leaves no remainder."""
import itertools, os, random
from math import gcd, prod
from reference import (MARK, PRIME, STARRED, UNSTARRED, cached_constant, divided, prime_powers, put_digit, put_lent, put_working,
                       refused_pair, write_cases)

HERE = os.path.dirname(os.path.abspath(__file__))
VECTORS = os.path.join(HERE, '..', 'crates', 'test_vectors')
SEED = 20261117
PAIR, ROW = 1, 2
DIVISOR, WORKING = 49, 8192


def reduced(n, f, g):
    """D modulo n, from those modulo the prime powers in n"""
    return prod(cached_constant(p, a, tuple(x % p**a for x in f), tuple(x % p**a for x in g)) for p, a in prime_powers(n))


def remainder(m, f, h):
    """f modulo m and h, whose leading word is a unit"""
    return divided(m, f, h)[1]


def stripped(m, f):
    """the modulus and the words left: a leading word that is not a unit vanishes modulo what it has in common with m"""
    f = list(f)
    while f:
        c = gcd(f[-1], m)
        if c == 1:
            break
        m = c
        f.pop()
    return m, f


def why(n, f, g, D):
    """(ground, modulus, degree, divisor)"""
    if D == 1:
        return 0, 0, 0, []
    m, a = stripped(D, f)
    m, b = stripped(m, g)
    if len(a) < len(b):
        a, b = b, a
    if not a:
        return 1, m, 0, []
    while True:
        m, b = stripped(m, b)
        if not b:
            i = pow(a[-1], -1, m)
            return 2, m, len(a) - 1, [x * i % m for x in a]
        a, b = b, remainder(m, a, b)


def held(n, f, g, D, answer):
    """the answer, once it is seen to be true"""
    ground, m, t, h = answer
    assert (ground == 0) == (D == 1), (n, f, g, D, answer)
    if ground:
        assert m > 1 and n % m == 0 and D % m == 0, (n, f, g, D, answer)
    if ground == 1:
        assert not any(x % m for x in f + g), (n, f, g, D, answer)
    if ground == 2:
        assert t >= 1 and len(h) == t + 1 and h[t] == 1, (n, f, g, D, answer)
        assert not any(remainder(m, f, h)) and not any(remainder(m, g, h)), (n, f, g, D, answer)
    return answer


# ---- rows

def counted(n, length, t):
    return [t // n**k % n for k in range(length)]


def short(n, f, g):
    D = reduced(n, f, g)
    ground, m, t, h = held(n, f, g, D, why(n, f, g, D))
    return ''.join(map(put_digit, [ground, m, t, *h[:t]][:(1, 2, 3 + t)[ground]]))


def row(n, f, length, count, first, step):
    """f with so many g of that length."""
    answers = (short(n, f, counted(n, length, (first + step * k) % PRIME)) for k in range(count))
    return [ROW, n, len(f), length, count, 0, first, step, *f], ['row', ''.join(answers)]


def all_rows():
    for n, top in ((4, 4), (6, 4), (8, 3), (9, 3), (12, 2), (30, 1)):
        for d, e in itertools.product(range(3), repeat=2):
            if d + e <= top:
                for t in range(n ** (d + 1)):
                    yield row(n, counted(n, d + 1, t), e + 1, n ** (e + 1), 0, 1)


def drawn_rows():
    for n in (8, 9, 12, 30):
        for _ in range(200):
            yield row(n, [random.randrange(n) for _ in range(3)], 3, 100, random.randrange(PRIME), random.randrange(PRIME))


# ---- pairs

def refusal(n, f, g, lw, working):
    return refused_pair(n, f, g) or (6 if lw < DIVISOR else 7 if working < WORKING else 0)


def pair(n, f, g, D=None, lw=DIVISOR + 3, working=WORKING + 8):
    sent = [PAIR, n, len(f), len(g), lw, working, 0, 0, *f, *g]
    status = refusal(n, f, g, lw, working)
    if status:
        return sent, ['why', status, 0, 0, 0, put_lent([MARK] * lw), put_working([MARK] * working)]
    D = D or reduced(n, f, g)
    ground, m, t, h = held(n, f, g, D, why(n, f, g, D))
    words = h + [0] * (DIVISOR - len(h)) + [MARK] * (lw - DIVISOR)
    return sent, ['why', 0, ground, m, t, put_lent(words), put_working([0] * working), 'holds']


def refused():
    answered = dict(n=6, f=[2], g=[4], lw=DIVISOR, working=WORKING)
    faults = [dict(n=0), dict(n=1), dict(f=[]), dict(f=[0] * 50), dict(g=[]), dict(g=[0] * 50), dict(f=[0, 6]), dict(g=[6, 1]),
              dict(lw=0), dict(lw=DIVISOR - 1), dict(working=0), dict(working=WORKING - 1)]
    yield pair(**answered)
    for k in range(len(faults)):
        for chosen in ([faults[k]], faults[k:]):
            case = dict(answered)
            for fault in reversed(chosen):
                case.update(fault)
            yield pair(**case)


def stored():
    with open(os.path.join(VECTORS, 'stdin')) as frames, open(os.path.join(VECTORS, 'stdout')) as numbers:
        for frame, line in zip(frames, numbers):
            words = [int(frame[i:i + 8], 16) for i in range(14, len(frame.strip()), 8)]
            n, d, D = int(frame[2:10], 16), int(frame[10:12], 16), int(line.split()[1], 16)
            yield pair(n, words[:d + 1], words[d + 1:], D)


def cases():
    yield from all_rows()
    yield from drawn_rows()
    for n, f, g in STARRED:
        yield pair(n, f, g)
    yield pair(*UNSTARRED, 1)
    yield from refused()
    yield from stored()


if __name__ == '__main__':
    random.seed(SEED)
    write_cases('test_why', cases())
