#!/usr/bin/env python3
"""The reduced resultant D of two polynomials, by a way that shares nothing with the engine's: the scripts of tools/ take their D here.

    python3 tools/ideal_constants.py          compares the numbers of this file with brute force, PARI and the stored pairs

The engine divides by monic polynomials, takes unit factors and contents out and splits n if it meets a zero divisor; it never
factors n. Here n is factored, and for each prime power q = p^a in it an echelon basis of the ideal I = (f, g) over R = Z/q is
completed, term by term, as Buchberger's algorithm does over a ring with one chain of ideals. D is the product over the q of the
p^c that generates the constants of I (q itself if only 0 is one).

A basis is some polynomials b_1, b_2, .. of falling degrees m_1 > m_2 > .. whose leading coefficients are divisible by p just
c_1 < c_2 < .. times (c_i < a). For m >= the last m_i let t(m) = x^(m - m_i) b_i with the first i such that m_i <= m: one
polynomial of each such degree. To reduce h is to take a multiple of t(deg h) off it that removes its leading term, as long as
there is one. Once the basis is complete, `certified` tests four things:

  1. each b_i is u f + v g, with a u and a v that were kept: so b_i lies in I;
  2. f and g reduce to zero;
  3. for each i >= 2, x^(m_(i-1) - m_i) b_i less the multiple of b_(i-1) with the same leading term reduces to zero;
  4. p^(a - c_i) b_i, whose leading term is gone, reduces to zero.

Then the constants of I are the multiples of b_i if the last m_i is 0, and 0 alone otherwise. For let T be the R-span of the
t(m). By 3, x t(m) is a multiple of t(m + 1) and a combination of t(k) with k <= m; so T is an ideal, by 1 and 2 it is I, and by 4
p^(a - c_i) t(m) is a combination of t(k) with k < m. An element of I is therefore a sum of r(m) t(m) in which no r(m) but 0
kills the leading coefficient of t(m): its degree is the greatest m with r(m) not 0, so that a constant is r(0) t(0).

The four tests do not depend on how the basis was found. No bound on the degrees of u and v is needed.

Three comparisons, when the file is run by itself:
  - brute force: all pairs of polynomials of degree at most 2 modulo 4, 6, 8, 9 and 12 (`by_search`);
  - PARI: the stored pairs of degrees at most 5, by the Hermite normal form over Z of their multiples (`by_hermite_form`);
  - the stored pairs: every D in crates/test_vectors/stdout."""
import functools, math, os, subprocess, sys

HERE = os.path.dirname(os.path.abspath(__file__))
VECTORS = os.path.join(HERE, '..', 'crates', 'test_vectors')


@functools.lru_cache(maxsize=None)
def prime_powers(n):
    """The (p, a) with n the product of the p^a."""
    found, p = [], 2
    while p * p <= n:
        a = 0
        while n % p == 0:
            n, a = n // p, a + 1
        if a:
            found.append((p, a))
        p += 1
    return tuple(found + [(n, 1)] if n > 1 else found)


def trimmed(f):
    f = list(f)
    while f and f[-1] == 0:
        f.pop()
    return f


def times(k, s, f):
    """k x^s f, over Z"""
    return [0] * s + [k * x for x in f]


def minus(f, g, q):
    """f - g modulo q"""
    if len(f) < len(g):
        f = f + [0] * (len(g) - len(f))
    return trimmed([(x - y) % q for x, y in zip(f, g)] + f[len(g):])


class Element:
    """h = u f + v g modulo q, with the degree m of h and the number c of times that p divides its leading coefficient"""

    def __init__(self, p, h, u, v):
        self.h, self.u, self.v, self.m, self.c = h, u, v, len(h) - 1, 0
        if h:
            x = h[-1]
            while x % p == 0:
                x, self.c = x // p, self.c + 1
            self.unit = x


class Ideal:
    def __init__(self, p, a, f, g):
        self.p, self.a, self.q = p, a, p**a
        self.f, self.g = trimmed([x % self.q for x in f]), trimmed([x % self.q for x in g])
        self.basis = []
        self.complete()

    def less(self, e, k, s, b):
        """e - k x^s b"""
        q = self.q
        return Element(self.p, minus(e.h, times(k, s, b.h), q), minus(e.u, times(k, s, b.u), q), minus(e.v, times(k, s, b.v), q))

    def without_lead(self, e, b):
        """e less the multiple of b with the same leading term; b's divides e's"""
        return self.less(e, e.h[-1] // self.p**b.c * pow(b.unit, -1, self.q), e.m - b.m, b)

    def reduced(self, e):
        while e.h:
            b = next((b for b in self.basis if b.m <= e.m and b.c <= e.c), None)
            if b is None:
                return e
            e = self.without_lead(e, b)
        return e

    def shifted(self, e, s):
        return Element(self.p, times(1, s, e.h), times(1, s, e.u), times(1, s, e.v))

    def multiple(self, e, k):
        q = self.q
        return Element(self.p, *(trimmed([k * x % q for x in w]) for w in (e.h, e.u, e.v)))

    def complete(self):
        waiting = [Element(self.p, self.f, [1], []), Element(self.p, self.g, [], [1])]
        while waiting:
            e = self.reduced(waiting.pop())
            if not e.h:
                continue
            waiting += [b for b in self.basis if e.m <= b.m and e.c <= b.c]
            self.basis = [b for b in self.basis if not (e.m <= b.m and e.c <= b.c)]
            if e.c:
                waiting.append(self.multiple(e, self.p**(self.a - e.c)))
            self.basis = sorted(self.basis + [e], key=lambda b: -b.m)
            for high, low in zip(self.basis, self.basis[1:]):
                if e in (high, low):
                    waiting.append(self.without_lead(self.shifted(low, high.m - low.m), high))

    def certified(self):
        """The four tests of the head of this file."""
        b, q = self.basis, self.q
        for x, y in zip(b, b[1:]):
            assert x.m > y.m and x.c < y.c < self.a
        for e in b:
            assert e.h and e.h[-1] == e.unit * self.p**e.c and e.unit % self.p
            assert minus(combination(q, e.u, self.f, e.v, self.g), e.h, q) == []
        for h in (self.f, self.g):
            assert not self.reduced(Element(self.p, h, [], [])).h
        for high, low in zip(b, b[1:]):
            assert not self.reduced(self.without_lead(self.shifted(low, high.m - low.m), high)).h
        for e in b:
            assert not self.reduced(self.multiple(e, self.p**(self.a - e.c))).h
        return self

    def constant(self):
        """the p^c"""
        last = self.basis[-1] if self.basis else None
        return self.p**last.c if last and last.m == 0 else self.q


def combination(q, u, f, v, g):
    w = [0] * max(len(u) + len(f), len(v) + len(g), 1)
    for a, b in ((u, f), (v, g)):
        for i, x in enumerate(a):
            for j, y in enumerate(b):
                w[i + j] += x * y
    return trimmed([x % q for x in w])


def reduced_resultant(n, f, g):
    d = 1
    for p, a in prime_powers(n):
        d *= Ideal(p, a, f, g).certified().constant()
    return d


# ---- the comparisons

@functools.lru_cache(maxsize=None)
def cached_constant(p, a, f, g):
    return Ideal(p, a, f, g).certified().constant()


def by_search(n):
    """Compares all pairs of polynomials of degree at most 2 modulo n, and answers how many there are.

    A constant c is outside I exactly when some additive map from polynomials to Z/n is 0 on I and not at c (the additive group of
    polynomials modulo I has a map to Q/Z that is not 0 at c, and n kills that group). Such a map is the sequence s of its values at
    1, x, x^2, ..; it is 0 on I when f_0 s_k + f_1 s_(k+1) + f_2 s_(k+2) = 0 for all k, and g likewise. So D is n over the greatest
    common divisor of n and all first words s_0. They are found by trying: of all pairs (s_0, s_1), those go that no third word
    continues to a pair that stays, until none goes; the triples that f allows are a set of bits."""
    bit = [[[1 << ((x * n + y) * n + z) for z in range(n)] for y in range(n)] for x in range(n)]
    polynomials = [(x, y, z) for x in range(n) for y in range(n) for z in range(n)]
    allows = []
    for f in polynomials:
        b = 0
        for x, y, z in polynomials:
            if (f[0] * x + f[1] * y + f[2] * z) % n == 0:
                b |= bit[x][y][z]
        allows.append(b)

    @functools.lru_cache(maxsize=None)
    def divisor(b):
        after = {(x, y): [z for z in range(n) if b & bit[x][y][z]] for x in range(n) for y in range(n)}
        stays = set(after)
        while True:
            kept = {(x, y) for x, y in stays if any((y, z) in stays for z in after[x, y])}
            if kept == stays:
                return n // math.gcd(n, *(x for x, _ in stays))
            stays = kept

    powers, count = prime_powers(n), 0
    parts = [[tuple(x % p**a for x in f) for f in polynomials] for p, a in powers]
    for i in range(len(polynomials)):
        for j in range(len(polynomials)):
            d = 1
            for (p, a), part in zip(powers, parts):
                d *= cached_constant(p, a, part[i], part[j])
            if d != divisor(allows[i] & allows[j]):
                sys.exit('%d %s %s: %d, by search %d' % (n, polynomials[i], polynomials[j], d, divisor(allows[i] & allows[j])))
            count += 1
    return count


def gp(script):
    """The numbers that PARI prints."""
    answer = subprocess.run(['gp', '-q', '-f', '--stacksize', '1000000000'], input='\n'.join(script) + '\n', capture_output=True, text=True)
    return [int(x) for x in answer.stdout.split()]


def by_hermite_form(pairs):
    """D of pairs of small degree: the least constant in the Hermite normal form of the multiples x^i f and x^j g and of n."""
    script = []
    for n, f, g in pairs:
        size = (n.bit_length() + 1) * max(len(f), len(g))
        columns = [[0] * i + h + [0] * (size - len(h) - i) for h in (f, g) for i in range(size - len(h) + 1)]
        script.append('print(mathnfmodid([%s]~,%d)[1,1]);' % (';'.join(','.join(map(str, c)) for c in columns), n))
    found = gp(script)
    assert len(found) == len(pairs)
    return found


def stored():
    """The stored pairs with their numbers."""
    with open(os.path.join(VECTORS, 'stdin')) as frames, open(os.path.join(VECTORS, 'stdout')) as figures:
        frames, figures = frames.read().splitlines(), figures.read().splitlines()
    assert len(frames) == len(figures) >= 633
    rows = []
    for frame, figure in zip(frames, figures):
        n, d = int(frame[2:10], 16), int(frame[10:12], 16)
        words = [int(frame[i:i + 8], 16) for i in range(14, len(frame), 8)]
        rows.append(((n, words[:d + 1], words[d + 1:]), figure))
    return rows


def main():
    for n in (4, 6, 8, 9, 12):
        print('modulo %d: %d pairs of degree at most 2 agree with brute force' % (n, by_search(n)), flush=True)
    rows = stored()
    small = [(pair, figure) for pair, figure in rows if max(len(pair[1]), len(pair[2])) <= 6]
    for ((n, f, g), _), d in zip(small, by_hermite_form([pair for pair, _ in small])):
        if reduced_resultant(n, f, g) != d:
            sys.exit('%d %s %s: %d, by PARI %d' % (n, f, g, reduced_resultant(n, f, g), d))
    print('%d stored pairs of degree at most 5 agree with PARI' % len(small), flush=True)
    for (n, f, g), figure in rows:
        if figure[9:] != '%08x' % reduced_resultant(n, f, g):
            sys.exit('%d %s %s: %08x, stored %s' % (n, f, g, reduced_resultant(n, f, g), figure))
    print('%d stored pairs have this D' % len(rows))


if __name__ == '__main__':
    main()
