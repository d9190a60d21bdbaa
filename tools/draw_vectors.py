#!/usr/bin/env python3
"""Draws the pairs of the test program `vectors` and of tests/host.c, and computes their numbers independently of the engine.

Writes crates/test_vectors/stdin (one frame of kind 01 per line) and crates/test_vectors/stdout (resultant and D, in hexadecimal). The
resultant is PARI's integer determinant of the Sylvester matrix in the sent degrees, modulo n. D is that of tools/ideal_constants.py,
which says how it is found and proves it of each pair. Needs gp (PARI). It is not needed to run the gate."""
import os, random
from reference import STARRED, UNSTARRED, gp, product, reduced_resultant, sylvester

SEED = 20261115
random.seed(SEED)
here = os.path.dirname(os.path.abspath(__file__))
out = os.path.join(here, '..', 'crates', 'test_vectors')

MODULI = [2, 3, 4, 5, 6, 7, 8, 9, 10, 12, 16, 18, 24, 30, 36, 60, 64, 72, 210, 2310, 65536, 65537, 6**12, 2**31, 3**20, 5**13, 7**11,
          30030 * 143, 223092870, 4294967291, 4294967295, 4294967294, 65535 * 65537, 2**31 - 1, 46341**2, 2**16 * 3**10, 2 * 2147483647]
MODULI = [n for n in MODULI if 2 <= n < 2**32]


# odd and below 2^31: the engine holds the words modulo these multiplied by 2^32
HELD = [3, 9, 3**19, 2**31 - 1, 2147483645, 15, 105, 15015, 111546435, 3**5 * 5**4 * 7**3, 11**3 * 13**2 * 17, 2147483629, 2147483643]


def divisors_of(n):
    """small prime factors of n, and a few of their products"""
    found, m, p = [], n, 2
    while p * p <= m and p < 100000:
        while m % p == 0:
            found.append(p)
            m //= p
        p += 1
    return found or [1]


def word(n, full):
    if not full:
        return random.randrange(n)
    x = random.choice([0, 1, n - 1, random.randrange(n), random.randrange(n)])
    for _ in range(random.randrange(4)):
        x = x * random.choice(divisors_of(n)) % n
    return x


def polynomial(n, d, full):
    f = [word(n, full) for _ in range(d + 1)]
    if full and random.random() < 0.4:
        for k in range(random.randrange(d + 2)):
            f[d - k if d >= k else 0] = 0          # zero tops, and now and then the zero polynomial
    if full and random.random() < 0.3:
        p = random.choice(divisors_of(n))
        for k in range(1, d + 1):
            f[k] = f[k] * p % n                    # a unit polynomial, or nearly
    return f


def pair():
    n = random.choice(MODULI) if random.random() < 0.8 else random.randrange(2, 2**32)
    full = random.random() < 0.6
    most = random.choice([2, 3, 4, 5, 5, 8, 12, 20, 48])
    d, e = random.randrange(most + 1), random.randrange(most + 1)
    f, g = polynomial(n, d, full), polynomial(n, e, full)
    if full and random.random() < 0.3 and d >= 1 and e >= 1:
        h = polynomial(n, 1, False)                # a common factor
        f = [sum(h[i] * f[k - i] for i in range(2) if 0 <= k - i < d) % n for k in range(d + 1)]
        g = [sum(h[i] * g[k - i] for i in range(2) if 0 <= k - i < e) % n for k in range(e + 1)]
    return n, f, g


def asked_of_gp(m, n):
    """What gp is asked to print: the determinant, modulo n."""
    if len(m) < 2:
        return str(m[0][0] % n if m else 1)
    return 'matdet([%s])%%%d' % (';'.join(','.join(map(str, r)) for r in m), n)


def main():
    rows = [UNSTARRED]                                     # the unstarred row of document 01, and after the drawn ones the starred
    big = 0
    while len(rows) < 620:
        n, f, g = pair()
        if len(f) + len(g) > 60:
            big += 1
            if big > 40:
                continue
        rows.append((n, f, g))
    rows.append((2**32 - 1, [random.randrange(2**32 - 1) for _ in range(49)], [random.randrange(2**32 - 1) for _ in range(49)]))
    rows.append((2**31, polynomial(2**31, 48, True), polynomial(2**31, 48, True)))
    rows += STARRED
    for n, c in ((2**31, 2**10), (3**20, 3**7), (6**12, 2**5 * 3**4), (223092870, 230), (4294967291, 4294967291), (4294967295, 771)):
        h = [random.randrange(n) for _ in range(7)]        # full degree, with a common factor of degree 6 modulo c
        rows.append((n, *([(x + c * random.randrange(n)) % n for x in product(n, h, polynomial(n, 42, True))] for _ in range(2))))
    for k in range(100):                                   # every HELD modulus in turn; the first round in the greatest degrees
        n, most = HELD[k % len(HELD)], 48 if k < len(HELD) else random.choice([0, 1, 2, 3, 4, 6, 12, 24, 48])
        d, e = (48, 48) if k < 8 else (random.randrange(most + 1), random.randrange(most + 1))
        rows.append((n, polynomial(n, d, k % 2 == 1), polynomial(n, e, k % 2 == 1)))
    determinants = gp(['print(%s);' % asked_of_gp(sylvester(f, g), n) for n, f, g in rows])
    assert len(determinants) == len(rows)
    os.makedirs(out, exist_ok=True)
    with open(os.path.join(out, 'stdin'), 'w') as frames, open(os.path.join(out, 'stdout'), 'w') as figures:
        for (n, f, g), r in zip(rows, determinants):
            frames.write('01%08x%02x%02x%s\n' % (n, len(f) - 1, len(g) - 1, ''.join('%08x' % x for x in f + g)))
            figures.write('%08x %08x\n' % (r % n, reduced_resultant(n, f, g)))


if __name__ == '__main__':
    main()
