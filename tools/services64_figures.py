#!/usr/bin/env python3
"""Draws the calls of the test programs `test_services64` and `test_resultant64`, words of 64 bits, and what they must write, made outside
the engine: the standard library, tools/reference.py and tools/ideal_constants.py are all it needs. It is not needed to run the gate.

Writes crates/test_services64/stdin, a call per line, hexadecimal without blanks: the service in 2 digits (1 sum, 2 difference, 3 times, 4 power,
5 gcd, 6 kind, 7 product, 8 division, 9 degree, 10 leading, 11 unit times monic, 12 inverse), n in 16, the lengths of f and g in 2 each,
those of the lent buffers u and v and of the working words in 4 each, and the words of f and g; and crates/test_services64/stdout, an answer per
line. Likewise crates/test_resultant64/stdin (13 evaluator, 14 resultant, 15 reduced resultant, 16 how far the two can differ, 17 law of
products), with the length of h after those of f and g, that of p before those of u and v, and the words of h at the end; and
crates/test_resultant64/stdout.

Every figure comes from another method than the engine's. Refusals: all conditions of S29 are written down in their order, and the first
that holds counts; each is tried alone, and with all that come after it. Kinds: by the primes of n. s and t: by Python's pow, compared with
a search for small n. Quotients: by long division from the top. Unit times monic: drawn as a product of such, which determines both.
Inverses: word by word, compared with the product. Resultants: determinants of whole numbers, without fractions (Bareiss). D: by an echelon
basis of the ideal modulo each prime power."""
import math, os, random
import reference
from reference import Ideal, divided, k_of, least_by_inverses, least_by_search, product, resultant, unit

SEED = 20261116
HERE = os.path.dirname(os.path.abspath(__file__))
CRATES = os.path.join(HERE, '..', 'crates')
MARK = 12379813738877118345
TOP = 2**64 - 1
WORKING = 16384
SPARE = 3

PRIMORIAL = [(p, 1 + (p in (3, 5))) for p in (2, 3, 5, 7, 11, 13, 17, 19, 23, 29, 31, 37, 41, 43, 47)]
MODULI = [
    (2, [(2, 1)]),
    (3, [(3, 1)]),
    (12, [(2, 2), (3, 1)]),
    (2**32 - 1, [(3, 1), (5, 1), (17, 1), (257, 1), (65537, 1)]),
    (2**32, [(2, 32)]),
    (2**32 + 1, [(641, 1), (6700417, 1)]),
    (2**62, [(2, 62)]),
    (3**39, [(3, 39)]),
    (6**24, [(2, 24), (3, 24)]),
    (3037000493**2, [(3037000493, 2)]),
    (math.prod(p**a for p, a in PRIMORIAL), PRIMORIAL),
    (2**63 - 25, [(2**63 - 25, 1)]),
    (2**63 - 2, [(2, 1), (3, 1), (715827883, 1), (2147483647, 1)]),
    (2**63 - 1, [(7, 2), (73, 1), (127, 1), (337, 1), (92737, 1), (649657, 1)]),
]
POWERS = dict(MODULI)
RADICAL = {n: reference.radical(powers) for n, powers in MODULI}
SUM, DIFFERENCE, TIMES, POWER, GCD, KIND, PRODUCT, DIVISION, DEGREE, LEADING, MONIC, INVERSE, EVALUATE, RESULTANT, REDUCED, HOW_FAR, \
    LAW = range(1, 18)


def is_prime(p):
    """Miller and Rabin's test, to the bases that decide it below 2^64."""
    if p in (2, 3, 5, 7, 11, 13, 17, 19, 23, 29, 31, 37):
        return True
    if p < 2 or any(p % q == 0 for q in (2, 3, 5, 7, 11, 13, 17, 19, 23, 29, 31, 37)):
        return False
    s = ((p - 1) & (1 - p)).bit_length() - 1
    for b in (2, 3, 5, 7, 11, 13, 17, 19, 23, 29, 31, 37):
        x = pow(b, (p - 1) >> s, p)
        if x not in (1, p - 1) and all(pow(x, 2**i, p) != p - 1 for i in range(1, s)):
            return False
    return True


class Call:
    """A call: the service, n, the polynomials, and the lengths of the buffers."""

    def __init__(self, service, n, f, g=(), h=(), p=0, u=0, v=0, w=0):
        self.service, self.n, self.f, self.g, self.h = service, n, list(f), list(g), list(h)
        self.p, self.u, self.v, self.w = p, u, v, w

    def line(self):
        polynomials, lengths = [self.f, self.g, self.h], [self.p, self.u, self.v, self.w]
        if self.service <= INVERSE:         # no h, and a product in u
            assert not self.h and not (self.p and self.u)
            polynomials, lengths = [self.f, self.g], [self.p or self.u, self.v, self.w]
        return ('%02x%016x' % (self.service, self.n) + ''.join('%02x' % len(x) for x in polynomials)
                + ''.join('%04x' % x for x in lengths) + ''.join('%016x' % x for x in sum(polynomials, [])))


# ---- figures

def nilpotent(n, a):
    return a % RADICAL[n] == 0


def lead_place(n, f):
    return reference.lead_place(RADICAL[n], f)


def kind(n, a):
    name, *numbers = reference.kind(POWERS[n], a)
    return ' '.join([{'u': 'unit', 'n': 'nilpotent', 's': 'splits'}[name], *map(str, numbers)])


def inverse(n, f):
    """The inverse in K d + 1 words, from the constant up."""
    i, out = pow(f[0], -1, n), []
    for k in range(k_of(n) * (len(f) - 1) + 1):
        out.append(i * ((k == 0) - sum(f[j] * out[k - j] for j in range(1, min(k, len(f) - 1) + 1))) % n)
    assert product(n, f, out) == [1] + [0] * (len(f) + len(out) - 2)
    return out


def reduced(n, f, g):
    return math.prod(Ideal(p, a, f, g).certified().constant() for p, a in POWERS[n])


def cofactor_length(n, f, g):
    return k_of(n) * (max(len(f), len(g)) - 1) + 1


# ---- the refusals: the conditions in their order, as numbers and functions without arguments

def bad_modulus(c):
    return [(1, lambda: not 2 <= c.n < 2**63)]


def bad_lengths(*polynomials):
    return [(2, lambda f=f: not 1 <= len(f) <= 49) for f in polynomials]


def bad_words(c, *polynomials):
    return [(3, lambda f=f: any(x >= c.n for x in f)) for f in polynomials]


def short(number, length, need):
    return [(number, lambda: length < need())]


def conditions(c):
    f, g, h, s = c.f, c.g, c.h, c.service
    sent = lambda *two: bad_modulus(c) + bad_lengths(*two) + bad_words(c, *two)
    above = lambda most: [(2, lambda: len(f) + len(g) - 2 > most)]
    if s in (SUM, DIFFERENCE, TIMES, GCD):
        return bad_modulus(c) + bad_words(c, f, g)
    if s in (POWER, KIND):
        return bad_modulus(c) + bad_words(c, f)
    if s == PRODUCT:
        return bad_modulus(c) + bad_lengths(f, g) + above(48) + bad_words(c, f, g) + short(6, c.p, lambda: len(f) + len(g) - 1)
    if s == DIVISION:
        return (sent(f, g) + [(4, lambda: not unit(c.n, g[-1]))] + short(6, c.u, lambda: max(1, len(f) - len(g) + 1))
                + short(6, c.v, lambda: len(g) - 1))
    if s in (DEGREE, LEADING):
        return sent(f)
    if s == MONIC:
        return (sent(f) + [(5, lambda: not unit(c.n, f[lead_place(c.n, f)]))] + short(6, c.u, lambda: len(f))
                + short(6, c.v, lambda: len(f)) + short(7, c.w, lambda: WORKING))
    if s == INVERSE:
        return (sent(f) + [(5, lambda: not (unit(c.n, f[0]) and lead_place(c.n, f) == 0))]
                + short(6, c.u, lambda: k_of(c.n) * (len(f) - 1) + 1) + short(7, c.w, lambda: WORKING))
    if s == EVALUATE:
        return bad_modulus(c) + bad_lengths(f, g) + above(8) + bad_words(c, f, g)
    if s == RESULTANT:
        return sent(f, g) + short(7, c.w, lambda: WORKING)
    if s in (REDUCED, HOW_FAR):
        need = lambda: cofactor_length(c.n, f, g)
        return sent(f, g) + short(6, c.u, need) + short(6, c.v, need) + short(7, c.w, lambda: WORKING)
    need = lambda: cofactor_length(c.n, product(c.n, f, g), h)
    return (bad_modulus(c) + bad_lengths(f, g) + above(48) + bad_lengths(h) + bad_words(c, f, g, h)
            + short(6, c.p, lambda: len(f) + len(g) - 1) + short(6, c.u, need) + short(6, c.v, need) + short(7, c.w, lambda: WORKING))


def status(c):
    return next((number for number, holds in conditions(c) if holds()), 0)


# ---- the answers

NAMES = {SUM: 'sum', DIFFERENCE: 'difference', TIMES: 'times', POWER: 'power', GCD: 'gcd', PRODUCT: 'product', DIVISION: 'division',
         MONIC: 'monic', INVERSE: 'inverse', EVALUATE: 'evaluate', RESULTANT: 'resultant', REDUCED: 'reduced', HOW_FAR: 'how_far',
         LAW: 'law'}


def buffer(length, words):
    """A result buffer after the call: the words at its front, the rest unchanged."""
    assert len(words) <= length
    return ' [%s ]' % ''.join(' %d' % x for x in words + [MARK] * (length - len(words)))


def numbers(s, count):
    return ' %d' % s + ' 0' * count


def cofactors(c, found, f=None, g=None):
    """How many words are unchanged, and the constant to which u and v combine f and g: D, or 0 if they are unchanged."""
    if found is None:
        return ' %d %d' % (c.u, c.v) + (' 0 0' if c.n >= 2 else '')
    length = cofactor_length(c.n, f, g)
    return ' %d %d %d %d' % (c.u - length, c.v - length, found % c.n, found % c.n)


def working(c, s):
    return ' %d 0' % c.w if s else ' 0 %d' % c.w


def refused(c, s):
    if c.service == KIND:
        return 'no kind %d' % s
    if c.service == DEGREE:
        return 'no degree %d' % s
    if c.service == LEADING:
        return 'leading [ ]'
    line = NAMES[c.service] + numbers(s, {GCD: 3, HOW_FAR: 2, LAW: 6}.get(c.service, 1))
    if c.service in (PRODUCT, LAW):
        line += buffer(c.p, [])
    if c.service in (DIVISION, MONIC, INVERSE):
        line += buffer(c.u, [])
    if c.service in (DIVISION, MONIC):
        line += buffer(c.v, [])
    if c.service in (REDUCED, HOW_FAR, LAW):
        line += cofactors(c, None)
    return line + (working(c, s) if c.service in (MONIC, INVERSE, RESULTANT, REDUCED, HOW_FAR, LAW) else '')


def answer_residues(c):
    n, a, b = c.n, c.f[0], (c.g or [0])[0]
    if c.service == KIND:
        return kind(n, a)
    if c.service == GCD:
        return 'gcd 0 %d %d %d' % least_by_inverses(n, a, b)
    if c.service == POWER:
        return 'power 0 %d' % pow(a, b, n)
    return '%s 0 %d' % (NAMES[c.service], {SUM: a + b, DIFFERENCE: a - b, TIMES: a * b}[c.service] % n)


def answer_polynomials(c, known):
    n, f, g = c.n, c.f, c.g
    if c.service == PRODUCT:
        return 'product 0 0' + buffer(c.p, product(n, f, g))
    if c.service == DIVISION:
        q, r = divided(n, f, g)
        return 'division 0 0' + buffer(c.u, q) + buffer(c.v, r)
    place = max((k for k, x in enumerate(f) if x), default=None)
    if c.service == DEGREE:
        return 'degree none' if place is None else 'degree %d' % place
    if c.service == LEADING:
        return 'leading [%s ]' % ''.join(' %d' % x for x in f[:0 if place is None else place + 1])
    if c.service == INVERSE:
        return 'inverse 0 0' + buffer(c.u, inverse(n, f)) + working(c, 0)
    u, h = known
    assert unit(n, u[0]) and all(nilpotent(n, x) for x in u[1:]) and h[-1] == 1
    whole = product(n, u, h)
    assert whole[:len(f)] + [0] * (len(f) - len(whole)) == f and not any(whole[len(f):])
    words = [(x + [0] * len(f))[:len(f)] for x in (u, h)]
    return 'monic 0 %d' % (len(h) - 1) + buffer(c.u, words[0]) + buffer(c.v, words[1]) + working(c, 0)


def answer_resultants(c):
    n, f, g, h = c.n, c.f, c.g, c.h
    if c.service == EVALUATE:
        return 'evaluate 0 %d' % resultant(n, f, g)
    if c.service == RESULTANT:
        return 'resultant 0 %d' % resultant(n, f, g) + working(c, 0)
    if c.service == REDUCED:
        d = reduced(n, f, g)
        return 'reduced 0 %d' % d + cofactors(c, d, f, g) + working(c, 0)
    if c.service == HOW_FAR:
        r, d = resultant(n, f, g), reduced(n, f, g)
        if unit(n, f[-1]):
            assert r % d == 0 and d**(len(f) - 1) % math.gcd(r, n) == 0
        return 'how_far 0 %d %d' % (r, d) + cofactors(c, d, f, g) + working(c, 0)
    p = product(n, f, g)
    r, rf, rg = (resultant(n, x, h) for x in (p, f, g))
    d, df, dg = (reduced(n, x, h) for x in (p, f, g))
    assert r == rf * rg % n
    return 'law 0 %d %d %d %d %d %d' % (r, rf, rg, d, df, dg) + buffer(c.p, p) + cofactors(c, d, p, h) + working(c, 0)


def answer(c, known=None):
    s = status(c)
    if s:
        return refused(c, s)
    if c.service <= KIND:
        return answer_residues(c)
    return answer_polynomials(c, known) if c.service <= INVERSE else answer_resultants(c)


# ---- what is drawn

def residue(n):
    x = random.choice([0, 1, n - 1] + [random.randrange(n)] * 4)
    for _ in range(random.randrange(3)):
        x = x * random.choice(POWERS[n])[0] % n
    return x


def drawn(n, d, zeros=0):
    """A polynomial of sent degree d, its last words zero."""
    return [residue(n) for _ in range(d + 1 - zeros)] + [0] * zeros


def some_unit(n):
    return next(x for x in iter(lambda: random.randrange(n), None) if unit(n, x))


def with_unit_top(n, d):
    return drawn(n, d)[:d] + [some_unit(n)]


def unit_polynomial(n, d):
    return [some_unit(n)] + [random.randrange(n) * RADICAL[n] % n for _ in range(d)]


def residue_calls(n):
    pairs = [(n - 1, n - 1), (n // 2, (n + 1) // 2), (residue(n), residue(n)), (0, residue(n))]
    for a, b in pairs:
        for s in (SUM, DIFFERENCE, TIMES, GCD):
            yield Call(s, n, [a], [b])
    for a, k in ((n - 1, TOP), (residue(n), 2**32), (random.randrange(n), random.randrange(2**64)), (0, 0)):
        yield Call(POWER, n, [a], [k])
    p, a = random.choice(POWERS[n])
    for x in (0, n - 1, some_unit(n), RADICAL[n] % n, p**a % n, n // p % n):
        yield Call(KIND, n, [x])


def polynomial_calls(n):
    all_high = lambda d: [n - 1] * (d + 1)
    for f, g in ((all_high(24), all_high(24)), (drawn(n, 5, 2), drawn(n, 3)), (drawn(n, 2, 3), drawn(n, 4, 5)), (drawn(n, 0), drawn(n, 0))):
        yield Call(PRODUCT, n, f, g, p=len(f) + len(g) - 1 + SPARE)
    for f, g in ((drawn(n, 12), with_unit_top(n, 5)), (drawn(n, 7, 3), with_unit_top(n, 2)), (drawn(n, 1), with_unit_top(n, 3)),
                 (drawn(n, 3, 4), with_unit_top(n, 0)), (drawn(n, 4), drawn(n, 2))):
        yield Call(DIVISION, n, f, g, u=max(1, len(f) - len(g) + 1) + SPARE, v=len(g) - 1 + random.choice([0, SPARE]))
    for f in (drawn(n, 6, 2), drawn(n, 4, 5), [1] + [0] * 6):
        yield Call(DEGREE, n, f)
        yield Call(LEADING, n, f)
    for d in (0, 2, random.choice([3, 4])):
        f = unit_polynomial(n, d)
        yield Call(INVERSE, n, f, u=k_of(n) * d + 1 + SPARE, w=WORKING + 9)
    f = drawn(n, 3)
    yield Call(INVERSE, n, f, u=k_of(n) * 3 + 1, w=WORKING)


def monic_calls(n):
    """Calls with the parts that are known."""
    for d, t, zeros in ((0, 0, 0), (3, 4, 0), (5, 2, 2), (2, 0, 1), (0, 5, 3)):
        u, h = unit_polynomial(n, d), [random.randrange(n) for _ in range(t)] + [1]
        f = product(n, u, h) + [0] * zeros
        yield Call(MONIC, n, f, u=len(f) + SPARE, v=len(f), w=WORKING), (u, h)
    f = [random.choice(POWERS[n])[0] * x % n for x in drawn(n, 3)]
    if not unit(n, f[lead_place(n, f)]):
        yield Call(MONIC, n, f, u=9, v=9, w=WORKING), None


def pairs(n):
    h = drawn(n, 1)
    yield drawn(n, 3), drawn(n, 5)
    yield drawn(n, 4, 1), with_unit_top(n, 2)
    yield product(n, h, drawn(n, 2)), product(n, h, drawn(n, 3))
    yield drawn(n, 2, random.choice([2, 3])), drawn(n, 1, random.choice([0, 1, 2]))
    yield drawn(n, 0), drawn(n, random.choice([0, 3]))


def resultant_call(s, n, f, g, h=()):
    length = cofactor_length(n, product(n, f, g), h) if s == LAW else cofactor_length(n, f, g)
    return Call(s, n, f, g, h, p=len(f) + len(g) - 1 + SPARE, u=length + SPARE, v=length, w=WORKING + random.choice([0, 7]))


def resultant_calls(n):
    for f, g in pairs(n):
        for s in (EVALUATE, RESULTANT, REDUCED, HOW_FAR):
            yield resultant_call(s, n, f, g)
    for f, g, h in ((drawn(n, 2), drawn(n, 3), drawn(n, 4)), (drawn(n, 3, 1), with_unit_top(n, 1), drawn(n, 2, 1)),
                    (drawn(n, 0), drawn(n, 2, 3), with_unit_top(n, 3))):
        yield resultant_call(LAW, n, f, g, h)


def long_calls():
    """Full degree: the product 48, the division 48 by 24, the inverse of 48, the resultants of 48 and 48."""
    for n in (2**62, 2**63 - 1, math.prod(p**a for p, a in PRIMORIAL)):
        yield Call(PRODUCT, n, drawn(n, 48), drawn(n, 0), p=49)
        yield Call(DIVISION, n, drawn(n, 48), with_unit_top(n, 24), u=25, v=24)
        yield resultant_call(RESULTANT, n, drawn(n, 48), with_unit_top(n, 48))
        yield resultant_call(REDUCED, n, with_unit_top(n, 48), drawn(n, 48))
    n = 2**63 - 1
    f, g, h = [n - 1 - x for x in range(25)], [x * x + 1 for x in range(25)], with_unit_top(n, 48)
    yield resultant_call(LAW, n, f, g, h)
    n = 2**62
    yield Call(INVERSE, n, unit_polynomial(n, 48), u=62 * 48 + 1, w=WORKING)


# ---- every refusal, alone and with all that come after it

def base(s):
    """An answered call, with a modulus that has zero divisors."""
    n = 6**24
    f, g, h = [5, 2, 3, 1], [7, 6, 5], [1, 4]
    if s == INVERSE:
        f = [5, 6, 12]
    if s <= KIND:
        return Call(s, n, [5], [7])
    lengths = {PRODUCT: dict(p=6), DIVISION: dict(u=2, v=2), MONIC: dict(u=4, v=4, w=WORKING), INVERSE: dict(u=125, w=WORKING),
               RESULTANT: dict(w=WORKING), REDUCED: dict(u=187, v=187, w=WORKING), HOW_FAR: dict(u=187, v=187, w=WORKING),
               LAW: dict(p=6, u=311, v=311, w=WORKING)}.get(s, {})
    if s in (DEGREE, LEADING, MONIC, INVERSE):
        g = []
    return Call(s, n, f, g, h if s == LAW else [], **lengths)


def faults(s):
    """What can be wrong, in the order of the refusals: each is a change of a call."""
    def put(name, value):
        return lambda c: setattr(c, name, value(c) if callable(value) else value)

    two = s not in (POWER, KIND, DEGREE, LEADING, MONIC, INVERSE)
    found = [put('n', n) for n in (0, 1, 2**63, TOP)]
    if s > KIND:
        found += [put('f', []), put('f', [1] * 50)] + ([put('g', []), put('g', [1] * 50)] if two else [])
    if s in (PRODUCT, LAW, EVALUATE):
        most = 8 if s == EVALUATE else 48
        found.append(lambda c: (put('f', [1] * (most - 1))(c), put('g', [1, 0, 1, 0])(c)))
    if s == LAW:
        found += [put('h', []), put('h', [1] * 50)]
    high = lambda name: put(name, lambda c: [6**24 if i == len(getattr(c, name)) // 2 else x for i, x in enumerate(getattr(c, name))])
    found += [high('f')] + ([put('f', [TOP])] if s <= KIND else []) + ([high('g')] if two else []) + ([high('h')] if s == LAW else [])
    if s == DIVISION:
        found += [put('g', [7, 6, 2]), put('g', [1, 1, 0])]
    if s == MONIC:
        found += [put('f', [5, 2, 3, 6]), put('f', [6, 12, 0]), put('f', [0, 0])]
    if s == INVERSE:
        found += [put('f', [5, 6, 2]), put('f', [2, 6]), put('f', [5, 1, 6]), put('f', [0, 0, 0])]
    length = base(s)
    for name in 'puvw':
        if getattr(length, name):
            found.append(put(name, getattr(length, name) - 1))
    return found


def refused_calls(s):
    found = faults(s)
    yield base(s)
    for k in range(len(found)):
        for chosen in ([found[k]], found[k:]):
            c = base(s)
            for change in reversed(chosen):
                change(c)
            yield c


def main():
    random.seed(SEED)
    for n, powers in MODULI:
        assert 2 <= n < 2**63 and n == math.prod(p**a for p, a in powers) and all(is_prime(p) for p, _ in powers)
    assert all(least_by_inverses(n, a, b) == least_by_search(n, a, b) for n in range(2, 21) for a in range(n) for b in range(n))
    rows = []
    for n, _ in MODULI:
        for c in (*residue_calls(n), *polynomial_calls(n), *resultant_calls(n)):
            rows.append((c, answer(c)))
        for c, known in monic_calls(n):
            rows.append((c, answer(c, known)))
    for c in long_calls():
        rows.append((c, answer(c)))
    for s in range(SUM, LAW + 1):
        for c in refused_calls(s):
            rows.append((c, answer(c, ([1], c.f))))         # the polynomial of an answered call is monic
    for crate, services in (('test_services64', range(SUM, EVALUATE)), ('test_resultant64', range(EVALUATE, LAW + 1))):
        out = os.path.join(CRATES, crate)
        os.makedirs(out, exist_ok=True)
        with open(os.path.join(out, 'stdin'), 'w') as calls, open(os.path.join(out, 'stdout'), 'w') as answers:
            for call, text in rows:
                if call.service in services:
                    calls.write(call.line() + '\n')
                    answers.write(text + '\n')


if __name__ == '__main__':
    main()
