#!/usr/bin/env python3
"""Writes the cases of the test program `test_cofactor` and what it must answer, made outside the engine: crates/test_cofactor/stdin, a
case per line (1 for a pair or 2 for a row, n, the lengths of f and g, those of u, v and the working words, the words of f, and for a pair
those of g; a row has the number of its g for the length of u), and crates/test_cofactor/stdout, an answer per line.

For five small moduli a row for each f of sent degree 0 to 2 and each sent degree of g up to 2, with all g; if these are more than 300,000
pairs for one d and e, with the g whose constant is 0 or 1. Then drawn pairs up to full degree, and every refusal, alone and with all that
come after it.

The resultants of degrees up to 2 come from the formulas of their determinants, which are compared with determinants of Sylvester's matrix
by permutations; so are the two determinants of tools/reference.py, from which the others come."""
import itertools, random
from reference import MARK, determinant, determinant_modulo, put_short, put_working, refused_pair, sylvester, write_cases

SEED = 20261116
WORKING = 8192
PAIR, ROW = 1, 2


def resultant(f, g):
    d, e = len(f) - 1, len(g) - 1
    if d == 0:
        return f[0] ** e
    if e == 0:
        return g[0] ** d
    if d == 1 and e == 1:
        return f[1] * g[0] - f[0] * g[1]
    if d == 1:
        return g[2] * f[0] ** 2 - g[1] * f[0] * f[1] + g[0] * f[1] ** 2
    if e == 1:
        return f[2] * g[0] ** 2 - f[1] * g[0] * g[1] + f[0] * g[1] ** 2
    return (f[2] * g[0] - f[0] * g[2]) ** 2 - (f[2] * g[1] - f[1] * g[2]) * (f[1] * g[0] - f[0] * g[1])


def by_permutations(rows):
    """the determinant by its definition"""
    size, out = len(rows), 0
    for p in itertools.permutations(range(size)):
        x = (-1) ** sum(p[i] > p[j] for i in range(size) for j in range(i + 1, size))
        for i, c in enumerate(p):
            x *= rows[i][c]
        out += x
    return out


def compare():
    """The formulas and both determinants with the definition."""
    for d in range(3):
        for e in range(3):
            for words in itertools.product((-2, 1, 3), repeat=d + e + 2):
                f, g = list(words[:d + 1]), list(words[d + 1:])
                rows = sylvester(f, g)
                assert resultant(f, g) == by_permutations(rows) == determinant(rows)
                assert all(determinant_modulo(n, rows) == resultant(f, g) % n for n in (2, 12, 97))


# ---- rows

def polynomials(n, words):
    """All of so many words, in the order in which the constant changes last."""
    return [list(w) for w in itertools.product(range(n), repeat=words)]


def rows():
    for n in (4, 6, 8, 9, 12):
        for d, e in itertools.product(range(3), repeat=2):
            if d + e:
                count = n ** (e + 1) if n ** (d + e + 2) <= 300000 else 2 * n ** e
                second = polynomials(n, e + 1)[:count]
                for f in polynomials(n, d + 1):
                    answers = ''.join(put_short(0, [resultant(f, g) % n]) for g in second)
                    yield [ROW, n, d + 1, e + 1, count, 0, 0, *f], ['row', answers]


# ---- pairs

def refusal(n, f, g, lu, lv, lw):
    room = 9 if len(f) + len(g) == 2 else 6 if lu < len(g) - 1 or lv < len(f) - 1 else 7 if lw < WORKING else 0
    return refused_pair(n, f, g) or room


def pair(n, f, g, lu, lv, lw):
    s = refusal(n, f, g, lu, lv, lw)
    sent = [PAIR, n, len(f), len(g), lu, lv, lw, *f, *g]
    if s:
        return sent, ['cofactors', s, 0, lu, lv, put_working([MARK] * lw)]
    value = determinant_modulo(n, sylvester(f, g))
    return sent, ['cofactors', 0, value, lu - len(g) + 1, lv - len(f) + 1, put_working([0] * lw), 'combines']


def drawn(n, d):
    """A quarter of the words are zero, and every other top word."""
    return [random.randrange(4) and random.randrange(n) for _ in range(d)] + [random.randrange(2) and random.randrange(n)]


def drawn_pairs():
    for n in (2, 36, 30030, 2 ** 31, 3 ** 20, 65521 ** 2, 2 ** 32 - 5, 2 ** 32 - 1):
        for d, e in [(3, 5), (4, 1), (0, 6), (5, 0), (7, 7), (12, 9), (1, 20), (24, 24)] + [(48, 48)] * (n in (2 ** 31, 2 ** 32 - 1)):
            f, g = drawn(n, d), drawn(n, e)
            yield n, f, g, e + random.randrange(4), d + random.randrange(4), WORKING + random.choice([0, 3])


def refused():
    answered = dict(n=36, f=[5, 2, 3, 1], g=[7, 6, 4], lu=2, lv=3, lw=WORKING)
    faults = [dict(n=0), dict(n=1), dict(f=[]), dict(f=[1] * 50), dict(g=[]), dict(g=[1] * 50), dict(f=[5, 36, 3, 1]), dict(g=[7, 6, 36]),
              dict(f=[5], g=[7]), dict(lu=1), dict(lv=2), dict(lw=WORKING - 1)]
    yield answered
    for k in range(len(faults)):
        for chosen in ([faults[k]], faults[k:]):
            case = dict(answered)
            for change in reversed(chosen):
                case.update(change)
            yield case


compare()
random.seed(SEED)
write_cases('test_cofactor', itertools.chain(rows(), (pair(*p) for p in drawn_pairs()), (pair(**p) for p in refused())))
