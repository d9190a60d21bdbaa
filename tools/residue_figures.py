#!/usr/bin/env python3
"""Writes the cases of the test program `test_residue` and what it must answer, made outside the engine: crates/test_residue/stdin, a case
of four numbers per line (the service, n, a, b), and crates/test_residue/stdout, an answer per line.

For each n up to 64 and each a up to n: rows of the services of two numbers, with all b up to n and all exponents up to 64, and the kind;
all residues modulo coprime n1 and n2 up to 16, joined; and the ends of the range. n = 0 and 1 and a, b = n are refused.

Every figure comes from the definitions (S4, S13, S14) and by another method than the engine's: inverses and cofactors by search or by
Python's pow, kinds by the prime factors of n, greatest common divisors by math.gcd, K by the length of n in bits, joined residues by
search. Of s and t up to n = 64: s is tried from 0 upward until some t fits, and t is then the least of all that fit; at the ends of the
range they come from Python's pow."""
import functools
from math import gcd
import reference
from reference import least_by_inverses, least_by_search, prime_powers, put_short, write_cases

SUM, DIFFERENCE, PRODUCT, POWER, GCD, KIND, JOIN = range(1, 8)
ROWS = 10
NAMES = {SUM: 'sum', DIFFERENCE: 'difference', PRODUCT: 'times', POWER: 'power', GCD: 'gcd'}
powers_of = functools.lru_cache(maxsize=None)(prime_powers)


def refusal(n, *residues):
    if n < 2:
        return 1
    return 3 if any(a >= n for a in residues) else 0


def answer(service, n, a, b):
    """The status, and the numbers that are answered."""
    status = refusal(n, a) if service == POWER else refusal(n, a, b)
    if status:
        return status, [0] * (3 if service == GCD else 1)
    if service == GCD:
        found = (least_by_search if n <= 64 else least_by_inverses)(n, a, b)
        assert found == least_by_inverses(n, a, b) and (found[1] * a + found[2] * b - found[0]) % n == 0
        return 0, list(found)
    if service == POWER:
        return 0, [pow(a, b, n)]
    return 0, [{SUM: a + b, DIFFERENCE: a - b, PRODUCT: a * b}[service] % n]


def one(service, n, a, b):
    status, values = answer(service, n, a, b)
    return (service, n, a, b), [NAMES[service], status, *values]


def row(service, n, a, count):
    short = ''.join(put_short(*answer(service, n, a, b)) for b in range(count))
    return (ROWS + service, n, a, count), [NAMES[service], short]


def kind(n, a):
    status = refusal(n, a)
    name, *numbers = ('r', status) if status else reference.kind(powers_of(n), a)
    word = {'u': 'unit', 'n': 'nilpotent', 's': 'splits', 'r': 'refused'}[name]
    return (KIND, n, a, 0), ['kind', max(n.bit_length() - 1, 0), word, *numbers]


def joined():
    for n1 in range(1, 17):
        for n2 in range(1, 17):
            if gcd(n1, n2) != 1:
                continue
            at = {(r % n1, r % n2): r for r in range(n1 * n2)}
            for x in range(n1):
                yield (JOIN, n1, n2, x), ['join', at[1 % n1, 0], *(at[x, y] for y in range(n2))]


def cases():
    for n in range(65):
        for a in range(n + 1):
            yield kind(n, a)
            for service in NAMES:
                yield row(service, n, a, 65 if service == POWER else n + 1)
    yield from joined()
    picks = lambda n: [0, 1, 2, 65536, n // 2, n - 1, n]
    ends = [2, 2147483648, 4294967294, 4294967295]
    for n in ends:
        for a in picks(n):
            yield kind(n, a)
    for n in [0, 1] + ends:
        for a in picks(n) if n > 1 else [0, 5]:
            for b in picks(n) if n > 1 else [0, 5]:
                for service in NAMES:
                    yield one(service, n, a, b)


write_cases('test_residue', cases())
