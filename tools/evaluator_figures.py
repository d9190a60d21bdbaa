#!/usr/bin/env python3
"""Writes the cases of the test program `test_evaluator` and what it must answer, made outside the engine: crates/test_evaluator/stdin, a
case per line (1 for a pair or 2 for a row, n, the lengths of f and g, how many g a row has, the words of f, and for a pair those of g), and
crates/test_evaluator/stdout, an answer per line.

For n from 2 to 6 a row for each f of sent degree 0 to 2 and each sent degree of g up to 2: with all g. For eight moduli and each d + e
from 0 to 8 180 drawn pairs, many with zero words and zero tops. Then the pairs of S90, and refusals in their order.

Each value is the determinant of Sylvester's matrix over the integers, by Bareiss's elimination, reduced modulo n at the end."""
import random
from itertools import product
from reference import STARRED, UNSTARRED, put_short, resultant, write_cases

SEED = 20261116
PAIR, ROW = 1, 2


def evaluate(n, f, g):
    """status and value"""
    if n < 2:
        return 1, 0
    if not 1 <= len(f) <= 49 or not 1 <= len(g) <= 49 or len(f) + len(g) - 2 > 8:
        return 2, 0
    if any(x >= n for x in f + g):
        return 3, 0
    return 0, resultant(n, f, g)


def pair(n, f, g):
    return [PAIR, n, len(f), len(g), 0, *f, *g], ['evaluate', *evaluate(n, f, g)]


def polynomials(n, words):
    """All of so many words, in the order in which the constant changes last."""
    return [list(w) for w in product(range(n), repeat=words)]


def row(n, f, words):
    answers = [evaluate(n, f, g) for g in polynomials(n, words)]
    return [ROW, n, len(f), words, len(answers), *f], ['row', ''.join(put_short(s, [value]) for s, value in answers)]


def drawn(n, d):
    """A quarter of the words are zero."""
    return [random.randrange(4) and random.randrange(n) for _ in range(d + 1)]


FULL = STARRED + [UNSTARRED] + [
    (0, [0], [0]), (1, [0] * 50, [0]), (0, [], []), (1, [1], [2]), (7, [0] * 50, [7]), (7, [7], [0] * 50),
    (7, [1, 2, 3, 4, 5, 6, 1, 2, 3], [5]), (7, [1, 2, 3, 4, 5], [2, 0, 6, 1, 3]), (7, [5], [1, 2, 3, 4, 5, 6, 1, 2, 3]),
    (7, [1, 2, 3, 4, 5, 6, 1, 2, 3, 4], [7]), (7, [1, 2, 3, 4, 5], [2, 0, 6, 1, 3, 7]), (7, [7], [1, 2, 3, 4, 5, 6, 1, 2, 3, 4]),
    (7, [0] * 49, [0]), (7, [0], [0] * 49), (7, [], [7]), (7, [7], []), (7, [7], [0]), (7, [0], [1, 7]), (7, [6], [1, 6]),
]


def cases():
    for n in range(2, 7):
        for d in range(3):
            for f in polynomials(n, d + 1):
                for e in range(3):
                    yield row(n, f, e + 1)
    for n in (2, 4, 12, 97, 30030, 2147483648, 4294967291, 4294967295):
        for s in range(9):
            for i in range(180):
                d = i % (s + 1)
                yield pair(n, drawn(n, d), drawn(n, s - d))
    for n, f, g in FULL:
        yield pair(n, f, g)


random.seed(SEED)
write_cases('test_evaluator', cases())
