#!/usr/bin/env python3
"""Writes the cases of the test program `test_bivariate` and what it must answer, made outside the engine: crates/test_bivariate/stdin, a case per
line (n, the number of words of f, its degrees d and a, the same of g, the lengths of the result and of the working words, the words of f
and of g), and crates/test_bivariate/stdout, an answer per line.

For each of eight moduli twenty pairs of drawn degrees from 0 to 3; then pairs at the edges of the degrees and of B, and every refusal, in
the order 1, 2, 3, 12, 11, 6, 7.

It needs PARI/gp, which computes the determinant of the Sylvester matrix in the sent degrees, with polynomials in z over the integers, and,
if both top coefficients in y are there, its polresultant, which must be the same. The integers are reduced modulo n here."""
import random, subprocess
from reference import MARK, put_lent, put_working, write_cases

SEED = 20261116
WORKING = 8192


def drawn(m, length):
    """Words below m; a quarter are 0."""
    return [random.randrange(4) and random.randrange(m) for _ in range(length)]


def refusal(n, f, d, a, g, e, b, lo, lw):
    B = e * a + d * b
    if n < 2:
        return 1
    for w, s, t in ((f, d, a), (g, e, b)):
        if s > 48 or t > 48 or len(w) != (s + 1) * (t + 1):
            return 2
    if any(x >= n for x in f + g):
        return 3
    if B > 60:
        return 12
    if any(n % p == 0 for p in range(2, B + 1) if all(p % q for q in range(2, p))):
        return 11
    if lo < B + 1:
        return 6
    return 7 if lw < WORKING else 0



def pair(n, m, lf, d, a, lg, e, b, lo, lw):
    """A case whose words are below m."""
    return n, drawn(m, lf), d, a, drawn(m, lg), e, b, lo, lw


def fitting(n, d, a, e, b):
    """A pair whose lengths fit the degrees, with buffers that are long enough."""
    return pair(n, n, (d + 1) * (a + 1), d, a, (e + 1) * (b + 1), e, b, 70, WORKING)


def cases():
    for n in (4294967291, 61, 3481, 4087, 300763, 25369999, 4294967295, 2):
        for _ in range(20):
            yield fitting(n, *(random.randrange(4) for _ in range(4)))
    # degrees at their edges, and B at 60; 12 before 11, and 11 for each prime at its place
    for args in (
        (4294967291, 6, 5, 6, 5), (61, 6, 5, 6, 5), (4087, 1, 30, 1, 30), (300763, 1, 48, 1, 12), (25369999, 5, 12, 5, 0),
        (3721, 12, 0, 3, 5), (3481, 1, 29, 2, 29), (4294967291, 0, 30, 2, 48), (4294967291, 0, 48, 0, 48), (30030, 7, 0, 6, 0),
        (4294967295, 48, 0, 48, 0), (3481, 1, 29, 1, 29), (3233, 1, 26, 1, 26), (3233, 1, 26, 1, 27), (3127, 6, 5, 6, 5),
        (4294967291, 1, 30, 1, 31), (2, 1, 30, 1, 31), (4294967291, 48, 48, 48, 48), (2, 1, 1, 1, 0), (2, 1, 1, 1, 1),
        (53, 6, 5, 6, 5), (59, 1, 29, 1, 29), (59, 1, 29, 1, 30),
    ):
        yield fitting(*args)
    high = 4294967295
    for args in (
        (0, 9, 4, 1, 1, 4, 49, 1, 0, 0), (1, 9, 4, 49, 1, 4, 1, 1, 0, 0), (97, 97, 50, 49, 0, 4, 1, 1, 70, WORKING),
        (97, 97, 98, 1, 49, 4, 1, 1, 70, WORKING), (97, 97, 4, 1, 1, 50, 49, 0, 70, WORKING), (97, 97, 4, 1, 1, 50, 0, 49, 70, WORKING),
        (97, 97, 5, 1, 1, 4, 1, 1, 70, WORKING), (97, 97, 4, 1, 1, 3, 1, 1, 70, WORKING), (97, 97, 0, 0, 0, 1, 0, 0, 70, WORKING),
        (97, high, 4, 1, 1, 3, 1, 1, 70, WORKING), (97, high, 62, 1, 30, 64, 1, 31, 0, 0), (97, 97, 62, 1, 30, 64, 1, 31, 0, 0),
        (6, 6, 62, 1, 30, 64, 1, 31, 0, 0), (6, 6, 4, 1, 1, 4, 1, 1, 0, 0), (97, 97, 4, 1, 1, 4, 1, 1, 2, 0),
        (97, 97, 4, 1, 1, 4, 1, 1, 3, WORKING - 1), (97, 97, 4, 1, 1, 4, 1, 1, 3, WORKING), (97, 97, 6, 2, 1, 4, 1, 1, 70, WORKING + 8),
    ):
        yield pair(*args)


GP = """
entry(f, d, i, j) = if(j < i || j > i + d, 0, f[i + d - j + 1]);
value(f, g, d, e) = matdet(matrix(d + e, d + e, r, c, if(r <= e, entry(f, d, r - 1, c - 1), entry(g, e, r - 1 - e, c - 1))));
show(f, g) = {
  my(d = #f - 1, e = #g - 1, x = if(d + e == 0, 1, value(f, g, d, e)));
  if(d + e > 0 && f[d + 1] != 0 && g[e + 1] != 0, if(polresultant(Pol(Vecrev(f), 'y), Pol(Vecrev(g), 'y), 'y) != x, error("polresultant")));
  print(Vecrev(x * z^0));
};
"""


def asked(n, f, d, a, g, e, b, lo, lw):
    group = lambda w, c, i: "+".join("%d*z^%d" % (w[i * (c + 1) + j], j) for j in range(c + 1))
    return "show([%s], [%s])" % (", ".join(group(f, a, i) for i in range(d + 1)), ", ".join(group(g, b, i) for i in range(e + 1)))


def answers(calls):
    """What gp says of the calls that are answered."""
    script = "default(parisizemax, 2000000000);\n" + GP + "\n".join(asked(*c) for c in calls if refusal(*c) == 0) + "\n"
    found = subprocess.run(["gp", "-q", "-f"], input=script, capture_output=True, text=True).stdout.split("\n")
    return iter([eval(x) for x in found if x])


def rows():
    calls = list(cases())
    found = answers(calls)
    for n, f, d, a, g, e, b, lo, lw in calls:
        s = refusal(n, f, d, a, g, e, b, lo, lw)
        out, work = [MARK] * lo, [MARK] * lw
        if s == 0:
            words, B = next(found), e * a + d * b
            assert len(words) <= B + 1
            out[:B + 1], work = [x % n for x in words] + [0] * (B + 1 - len(words)), [0] * lw
        SEEN.add(s)
        yield [n, len(f), d, a, len(g), e, b, lo, lw, *f, *g], ['two', s, 0, put_lent(out), put_working(work)]
    assert next(found, None) is None and SEEN == {0, 1, 2, 3, 6, 7, 11, 12}


SEEN = set()
random.seed(SEED)
write_cases('test_bivariate', rows())
