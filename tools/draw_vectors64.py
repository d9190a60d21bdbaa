#!/usr/bin/env python3
"""Draws the pairs of the test program `test_vectors64` and of tests/host64.c, words of 64 bits, and computes their numbers
independently of the engine.

Writes crates/test_vectors64/stdin (a pair per line in lower-case hexadecimal: n in 16 digits, d and e in 2, then the words of f and g in
16 each) and crates/test_vectors64/stdout (resultant and D): the table of S90, pairs of degree 48 with a common factor modulo a
part of n, and drawn pairs. The resultant is PARI's integer determinant of the Sylvester matrix in the sent degrees, modulo n. D is
that of tools/ideal_constants.py, over the prime powers of n, which PARI finds. Needs gp (PARI). It is not needed to run the gate."""
import math, os, random
from draw_vectors import asked_of_gp
from reference import STARRED, UNSTARRED, Ideal, gp, product, sylvester

SEED = 20261116
COUNT = 312
HERE = os.path.dirname(os.path.abspath(__file__))
OUT = os.path.join(HERE, '..', 'crates', 'test_vectors64')
PRIMES = [2, 3, 5, 7, 11, 13, 17, 19, 23, 29, 31, 37, 41, 43, 47]

POWERS = [2**62, 3**39, 5**27, 7**22, 6**24, 10**18, 2**31 * 3**19, 2**32, 2**33, 2**48, 3**21, 30**12]
PRODUCTS = [math.prod(PRIMES[:k]) for k in (10, 12, 13, 14, 15)] + [math.prod(PRIMES[:10]) * 2**20]
SQUARES = [3037000493**2, 2147483647**2, 65537**2, 2147483647 * 4294967291, 65537**3, 4294967291 * 5, 2097143**3]
LARGE = [2**63 - 25, 2**63 - 165, 2**61 - 1, 2**63 - 1, 2**63 - 2, 2**63 - 3, 2**32 - 1, 2**32 + 1, 2**32 + 15, 2 * (2**61 - 1)]
SMALL = [2, 3, 4, 6, 8, 9, 12, 30, 36, 64, 210]
SHAPES = [POWERS, POWERS, PRODUCTS, SQUARES, LARGE, LARGE, SMALL]


def factored(moduli):
    """The (p, a) with n the product of the p^a, of each n."""
    found = gp(['{my(m = factor(%d)); print(#m~); for(i = 1, #m~, print(m[i, 1]); print(m[i, 2]))}' % n for n in moduli])
    powers, at = {}, 0
    for n in moduli:
        count, at = found[at], at + 1
        powers[n] = [(found[at + 2 * i], found[at + 2 * i + 1]) for i in range(count)]
        at += 2 * count
        assert math.prod(p**a for p, a in powers[n]) == n
    assert at == len(found)
    return powers


def word(n, primes, full):
    """A residue; where the pair is to be full of zero divisors, most often one."""
    if not full:
        return random.randrange(n)
    x = random.choice([0, 1, n - 1, random.randrange(n), random.randrange(n), random.randrange(n)])
    for _ in range(random.randrange(4)):
        x = x * random.choice(primes) % n
    return x


def polynomial(n, primes, d, full):
    f = [word(n, primes, full) for _ in range(d + 1)]
    if full and random.random() < 0.3:
        for k in range(random.randrange(d + 2)):
            f[d - k] = 0                           # zero tops, and now and then the zero polynomial
    if full and random.random() < 0.3:
        p = random.choice(primes)
        for k in range(1, d + 1):
            f[k] = f[k] * p % n                    # a unit polynomial, or nearly
    return f


def pair(n, primes, most):
    full = random.random() < 0.6
    d, e = (48, 48) if most == 48 else (random.randrange(most + 1), random.randrange(most + 1))
    f, g = polynomial(n, primes, d, full), polynomial(n, primes, e, full)
    if random.random() < 0.2 and d >= 1 and e >= 1:
        h = polynomial(n, primes, 1, False)        # a common factor
        f, g = product(n, h, f[:d]), product(n, h, g[:e])
    return n, f, g


def common_modulo(n, c):
    """Full degree, with a common factor of degree 6 modulo c."""
    primes = [p for p in PRIMES if n % p == 0] or [c]
    h = [random.randrange(n) for _ in range(7)]
    return (n, *([(x + c * random.randrange(n)) % n for x in product(n, h, polynomial(n, primes, 42, True))] for _ in range(2)))


def main():
    random.seed(SEED)
    rows = STARRED + [UNSTARRED]
    for n, c in ((2**62, 2**20), (3**39, 3**13), (6**24, 2**9 * 3**8), (PRODUCTS[4], 230), (2**63 - 25, 2**63 - 25), (2**63 - 1, 7 * 73 * 127),
                 (3037000493**2, 3037000493)):
        rows.append(common_modulo(n, c))
    moduli = [random.choice(random.choice(SHAPES)) if random.random() < 0.85 else random.randrange(2, 2**63) for _ in range(COUNT - len(rows))]
    powers = factored(sorted(set(moduli) | {n for n, _, _ in rows}))
    for n in moduli:
        rows.append(pair(n, [p for p, _ in powers[n]], random.choice([0, 1, 2, 3, 4, 5, 5, 8, 8, 12, 20, 20, 30, 47, 48])))
    for n in (2**63 - 1, 2**63 - 25, 2**62, 3**39, 2 * 3, 2):
        assert any(row[0] == n for row in rows)
    determinants = gp(['print(%s);' % asked_of_gp(sylvester(f, g), n) for n, f, g in rows])
    assert len(determinants) == len(rows) == COUNT
    os.makedirs(OUT, exist_ok=True)
    with open(os.path.join(OUT, 'stdin'), 'w') as pairs, open(os.path.join(OUT, 'stdout'), 'w') as figures:
        for (n, f, g), r in zip(rows, determinants):
            d = math.prod(Ideal(p, a, f, g).certified().constant() for p, a in powers[n])
            pairs.write('%016x%02x%02x%s\n' % (n, len(f) - 1, len(g) - 1, ''.join('%016x' % x for x in f + g)))
            figures.write('%016x %016x\n' % (r % n, d))


if __name__ == '__main__':
    main()
