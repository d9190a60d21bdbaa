#!/usr/bin/env python3
"""Writes the cases of the test program `test_polynomial` and what it must answer, made outside the engine: crates/test_polynomial/stdin,
a case per line (the service, n, the lengths of f and g, of both results and of the working words, the words of f and of g), and
crates/test_polynomial/stdout, an answer per line.

First the worked examples of S91 and the ends of the range; then for each service every refusal, alone and with all that come after it, and
40 drawn pairs modulo each of seven n full of zero divisors. The last service makes the product word by word.

Every figure comes from whole numbers of any size and by another method than the engine's: products by convolution, quotients by long
division from the top, unit and monic part by lifting them from the radical of n, inverses by the geometric series."""
import functools, random
from reference import (MARK, divided, k_of, lead_place, prime_powers, product, put_lent, put_words, put_working, radical, unit,
                       write_cases)

SEED = 20261116
WORKING = 8192
MODULI = (4, 8, 12, 36, 2 ** 31, 3 ** 20, 2 ** 32 - 1)
PRODUCT, DIVISION, MONIC, INVERSE, DEGREE, WORDS = range(1, 7)
NAMES = {PRODUCT: 'product', DIVISION: 'division', MONIC: 'monic', INVERSE: 'inverse', WORDS: 'words'}


@functools.lru_cache(maxsize=None)
def root(n):
    return radical(prime_powers(n))


def nilpotent(n, a):
    return a % root(n) == 0


def inverse(n, f):
    """1 / (c (1 + v)) = c^-1 (1 - v + v^2 - ..), where v has nilpotent words."""
    c = pow(f[0], -1, n)
    v = [0] + [-x * c % n for x in f[1:]]
    out, term = [1], [1]
    for _ in range(k_of(n) + 1):
        term = product(n, term, v)
        while len(term) > 1 and term[-1] == 0:
            term.pop()
        if term == [0]:
            break
        out += [0] * (len(term) - len(out))
        for j, x in enumerate(term):
            out[j] = (out[j] + x) % n
    return [x * c % n for x in out]


def factors(n, f, t):
    """f = u h by lifting: modulo the radical u is f_t and h is f / f_t; a step takes what is missing to h, and divides again."""
    u, h = [f[t]], [x * pow(f[t], -1, n) % n for x in f[:t + 1]]
    for _ in range(40):
        full = product(n, u, h)
        full += [0] * (len(f) - len(full))
        e = [(a - b) % n for a, b in zip(f + [0] * (len(full) - len(f)), full)]
        while len(e) > 1 and e[-1] == 0:
            e.pop()
        if e == [0]:
            return u, h
        # h + dh with dh = e / u modulo h, and u + the exact quotient of f by the new h
        iu = inverse(n, u)
        _, dh = divided(n, product(n, e, iu), h)
        h = [(a + b) % n for a, b in zip(h, dh + [0] * (len(h) - len(dh)))]
        u, _ = divided(n, f, h)
        while len(u) > 1 and u[-1] == 0:
            u.pop()
    raise ValueError('no factors')


# ---- the services

def refusal(n, polys, multiplied=False):
    if n < 2:
        return 1
    if any(not 1 <= len(f) <= 49 for f in polys):
        return 2
    if multiplied and len(polys[0]) + len(polys[1]) - 2 > 48:
        return 2
    if any(x >= n for f in polys for x in f):
        return 3
    return 0


def put(w, x):
    w[:len(x)] = x


def product_service(n, f, g, a):
    s = refusal(n, [f, g], True)
    if s:
        return 0, s
    p = product(n, f, g)
    if len(a) < len(p):
        return 0, 6
    put(a, p)
    return 0, 0


def words_apart(n, f, g, a):
    """The product word by word, for k from 0 to d + e + 2."""
    for k in range(len(f) + len(g) + 1):
        s = refusal(n, [f, g], True) or (6 if len(a) < len(f) + len(g) - 1 else 0)
        if s == 0 and k < len(f) + len(g) - 1:
            a[k] = sum(f[i] * g[k - i] for i in range(len(f)) if 0 <= k - i < len(g)) % n
    return 0, s


def division(n, f, g, a, b):
    s = refusal(n, [f, g])
    if s:
        return 0, s
    if not unit(n, g[-1]):
        return 0, 4
    q, r = divided(n, f, g)
    if len(a) < len(q) or len(b) < len(r):
        return 0, 6
    put(a, q)
    put(b, r)
    return 0, 0


def unit_times_monic(n, f, a, b, work):
    s = refusal(n, [f])
    if s:
        return 0, s
    t = lead_place(root(n), f)
    if not unit(n, f[t]):
        return 0, 5
    if len(a) < len(f) or len(b) < len(f):
        return 0, 6
    if len(work) < WORKING:
        return 0, 7
    u, h = factors(n, f, t)
    assert product(n, u, h)[:len(f)] == (f + [0] * len(f))[:len(product(n, u, h)[:len(f)])]
    assert h[t] == 1 and unit(n, u[0]) and all(nilpotent(n, x) for x in u[1:])
    put(a, u + [0] * (len(f) - len(u)))
    put(b, h + [0] * (len(f) - len(h)))
    work[:] = [0] * len(work)
    return t, 0


def inverse_service(n, f, a, work):
    s = refusal(n, [f])
    if s:
        return 0, s
    if not unit(n, f[0]) or any(not nilpotent(n, x) for x in f[1:]):
        return 0, 5
    m = k_of(n) * (len(f) - 1) + 1
    if len(a) < m:
        return 0, 6
    if len(work) < WORKING:
        return 0, 7
    w = inverse(n, f)
    put(a, w + [0] * (m - len(w)))
    work[:] = [0] * len(work)
    return 0, 0


def extent(f):
    """The number of words up to the highest nonzero one."""
    return max([k + 1 for k, x in enumerate(f) if x] + [0])


def leading(n, f):
    return [] if refusal(n, [f]) else f[:extent(f)]


# ---- a case

class Case:
    """The service, n, f and g, and the lengths of the lent buffers."""

    def __init__(self, service, n, f, g, a, b, w):
        self.service, self.n, self.f, self.g, self.a, self.b, self.w = service, n, list(f), list(g), a, b, w

    def sent(self):
        return [self.service, self.n, len(self.f), len(self.g), self.a, self.b, self.w, *self.f, *self.g]

    def answered(self):
        n, f, g, s = self.n, self.f, self.g, self.service
        if s == DEGREE:
            refused = refusal(n, [f])
            found = ['refused', refused] if refused else [extent(f) - 1] if extent(f) else ['none']
            return ['degree', *found, put_words(leading(n, f))]
        a, b, work = [MARK] * self.a, [MARK] * self.b, [MARK] * self.w
        if s == PRODUCT:
            value, status = product_service(n, f, g, a)
        elif s == DIVISION:
            value, status = division(n, f, g, a, b)
        elif s == MONIC:
            value, status = unit_times_monic(n, f, a, b, work)
        elif s == INVERSE:
            value, status = inverse_service(n, f, a, work)
        else:
            value, status = words_apart(n, f, g, a)
        SEEN.add((s, status))
        return ([NAMES[s], status, value, put_lent(a)] + ([put_lent(b)] if s in (DIVISION, MONIC) else [])
                + ([put_working(work)] if s in (MONIC, INVERSE) else []))


SEEN = set()


# ---- what is drawn

def word(n, kind):
    """Any residue, a multiple of 6, or one more than that."""
    x = random.randrange(n)
    return (x, 6 * x % n, (1 + 6 * x) % n)[kind]


def drawn(n, l, t, pattern):
    """Pattern 0 mixes the kinds; 1 has one more than a multiple of 6 at t, and multiples of 6 above; 2 is that with t = 0."""
    kinds = ([random.randrange(3) for _ in range(l)], [0] * t + [2] + [1] * (l - 1 - t), [2] + [1] * (l - 1))
    return [word(n, kind) for kind in kinds[pattern]]


def some_length():
    return random.choices([50, 49, random.randrange(1, 27)], [2, 2, 32])[0]


def needed(service, n, l, m):
    if service in (PRODUCT, WORDS):
        return l + m - 1
    if service == DIVISION:
        return max(l - m, 0) + 1
    return l if service == MONIC else k_of(n) * (l - 1) + 1


def drawn_case(service, n):
    """Results are lent one word too few, as many as needed, or more; some words are no residues; some working buffers are short."""
    l, m = some_length(), some_length()
    f, g = drawn(n, l, random.randrange(l), random.randrange(3)), drawn(n, m, m - 1, 1)
    if random.randrange(12) == 0:
        f[0] = n
    first = needed(service, n, l, m) + random.randrange(-1, 3)
    return Case(service, n, f, g, first, 64, WORKING - 1 if random.randrange(11) == 0 else WORKING + random.choice([0, 3]))


# ---- every refusal, alone and with all that come after it

def base(service):
    """An answered case, with a modulus that has zero divisors."""
    f, g = ([5, 6, 12], []) if service == INVERSE else ([5, 2, 3, 1], [] if service in (MONIC, DEGREE) else [7, 6, 5])
    n = 36
    return Case(service, n, f, g, needed(service, n, len(f), len(g)), {DIVISION: 2, MONIC: 4}.get(service, 0), WORKING)


def faults(service):
    """What can be wrong, in the order of the refusals: each is a change of a case."""
    put = lambda name, value: lambda c: setattr(c, name, value)

    def high(name):
        def change(c):
            words = getattr(c, name)
            setattr(c, name, words[:len(words) // 2] + [36] + words[len(words) // 2 + 1:])
        return change

    two = service in (PRODUCT, DIVISION, WORDS)
    found = [put('n', n) for n in (0, 1)] + [put('f', []), put('f', [1] * 50)] + ([put('g', []), put('g', [1] * 50)] if two else [])
    if service in (PRODUCT, WORDS):
        found.append(lambda c: (put('f', [1] * 47)(c), put('g', [1, 0, 1, 0])(c)))
    found += [high('f')] + ([high('g')] if two else [])
    found += {DIVISION: [put('g', [7, 6, 2]), put('g', [1, 1, 0])],
              MONIC: [put('f', [5, 2, 3, 6]), put('f', [5, 2, 4, 18]), put('f', [6, 12, 0]), put('f', [0, 0])],
              INVERSE: [put('f', [5, 6, 2]), put('f', [2, 6]), put('f', [5, 1, 6]), put('f', [0, 0, 0])]}.get(service, [])
    short = lambda name: lambda c: setattr(c, name, getattr(base(service), name) - 1)
    if service != DEGREE:
        found.append(short('a'))
    if service in (DIVISION, MONIC):
        found.append(short('b'))
    return found + ([short('w')] if service in (MONIC, INVERSE) else [])


def refused_cases(service):
    found = faults(service)
    yield base(service)
    for k in range(len(found)):
        for chosen in ([found[k]], found[k:]):
            c = base(service)
            for change in reversed(chosen):
                change(c)
            yield c


def cases():
    yield Case(DIVISION, 12, [1, 0, 1], [1, 5], 2, 1, 0)
    yield Case(MONIC, 4, [3, 1, 2], [1], 3, 3, WORKING)
    yield Case(INVERSE, 8, [1, 2], [1], 4, 0, WORKING)
    yield Case(PRODUCT, 12, [1, 4], [1, 3], 3, 0, 0)
    yield Case(DIVISION, 12, [5, 7], [1, 0, 1], 1, 2, 0)
    yield Case(DIVISION, 12, [5, 7], [1, 2], 1, 2, 0)
    yield Case(MONIC, 12, [1, 2], [1], 2, 2, WORKING)
    yield Case(MONIC, 4, [3, 1, 2], [1], 3, 3, WORKING - 1)
    yield Case(INVERSE, 8, [1, 2], [1], 3, 0, WORKING)
    yield Case(DEGREE, 5, [0, 3, 0], [1], 0, 0, 0)
    yield Case(DEGREE, 5, [0, 0, 0], [1], 0, 0, 0)
    for l in (49, 50):
        yield Case(PRODUCT, 2 ** 32 - 1, [2 ** 32 - 2] * l, [2], 64, 0, 0)
    for service in range(PRODUCT, WORDS + 1):
        yield from refused_cases(service)
        for n in MODULI:
            for _ in range(40):
                yield drawn_case(service, n)


if __name__ == '__main__':
    random.seed(SEED)
    write_cases('test_polynomial', ((c.sent(), c.answered()) for c in cases()))
    expected = {PRODUCT: (0, 1, 2, 3, 6), DIVISION: (0, 1, 2, 3, 4, 6), MONIC: (0, 1, 2, 3, 5, 6, 7), INVERSE: (0, 1, 2, 3, 5, 6, 7),
                WORDS: (0, 1, 2, 3, 6)}
    assert SEEN == {(s, status) for s in expected for status in expected[s]}
