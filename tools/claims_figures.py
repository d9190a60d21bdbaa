#!/usr/bin/env python3
"""Writes the cases of the test program `test_claims` and what it must answer, made outside the engine: crates/test_claims/stdin, a case
per line (1 for the engine's multipliers or 2 for sent ones, n, the lengths of f and g, the number claimed, the lengths of u, v and the
working words, the change of one word, a factor or a step, how many words of u and of v are sent, the words of f, g, u and v), and
crates/test_claims/stdout, an answer per line.

For each pair of eighteen moduli and five shapes, and two of higher degree, the engine's own answer: as it is, with other numbers, with
multiples of it, and with a word of u or v changed. Then multipliers of up to 4097 words, claims that the engine had no part in, and every
refusal, alone and with all that come after it.

D is that of tools/ideal_constants.py. Which cofactors the engine finds is not determined, and they are not needed: they combine f and g to
D, so a word more in u at some place adds x times f to that, and multipliers scaled by c combine to c D. A claim with multipliers that are
known is multiplied out. Each of the four answers comes more than eighty times, and each refusal."""
import itertools, math, random
from collections import Counter
from reference import MARK, product, put_working, reduced_resultant, write_cases

SEED = 20261117
WORKING = 8192
OWN, SENT = 1, 2
COFACTOR = 1489                # words of a cofactor that always suffice
NONE, MORE_U, MORE_V, OTHER_U, OTHER_V = range(5)
seen = Counter()


# ---- what is answered

def named(n, D, claimed, combines):
    """The first of the three that fails, 0 if none does; D is the true one."""
    if claimed == 0 or n % claimed:
        return 1
    if not combines:
        return 2
    return 0 if claimed == D else 3


def answered(status, value, working):
    """The claim in words, and the case told."""
    seen[status, value] += 1
    after = put_working([MARK if status else 0] * working)
    case = ['refused', status] if status else ['fails', value] if value else ['accepted']
    return ['claim', status, value, after, *case, after]


def combination(n, f, g, u, v):
    a, b = product(n, f, u), product(n, g, v)
    return [(x + y) % n for x, y in itertools.zip_longest(a, b, fillvalue=0)]


def check(n, f, g, claimed, u, v, working):
    """Status and value of a claim whose multipliers are known."""
    if n < 2:
        return 1, 0
    if not (1 <= len(f) <= 49 and 1 <= len(g) <= 49):
        return 2, 0
    if not (1 <= len(u) <= 4096 and 1 <= len(v) <= 4096):
        return 16, 0
    if any(x >= n for w in (f, g, u, v) for x in w):
        return 3, 0
    if working < WORKING:
        return 7, 0
    sums = combination(n, f, g, u, v)
    return 0, named(n, reduced_resultant(n, f, g), claimed, sums[0] == claimed % n and not any(sums[1:]))


# ---- the engine's answers

def own(n, a, b, c):
    """f of a words and g of b, each word c times a drawn one."""
    f, g = ([c * random.randrange(n) % n for _ in range(k)] for k in (a, b))
    D = reduced_resultant(n, f, g)

    def case(claimed, status, value, change=(NONE, 0, 0), factor=1):
        return ([OWN, n, a, b, claimed, COFACTOR, COFACTOR, WORKING, *change, factor, 0, 0, *f, *g],
                ['reduced', 0, D, *answered(status, value, WORKING)])

    x = random.randrange(2**32)
    for claimed in (D, D ^ 1, 0, n, 1, x, (D + 1) % 2**32, n // D):
        yield case(claimed, 0, named(n, D, claimed, claimed % n == D % n))
    for m in (2, 3, 5):
        claimed = m * D % (2**32 - 1)
        yield case(claimed, 0, named(n, D, claimed, claimed % n == m * D % n), factor=m)
    for place, more in ((0, 1), (COFACTOR - 1, n // 2), (x % COFACTOR, x)):
        for which, h in ((MORE_U, f), (MORE_V, g)):
            yield case(D, 0, named(n, D, D, not any(more * y % n for y in h)), (which, place, more % n))
    for which, h in ((MORE_U, f), (MORE_V, g)):
        yield case(D, 0, 0, (which, 5, n // math.gcd(n, *h) % n))      # what is more times h is zero
    yield case(D, 3, 0, (OTHER_U, 700, n))
    yield case(D, 3, 0, (OTHER_V, 701, n))


def own_cases():
    for n in (2, 3, 4, 6, 8, 9, 12, 36, 60, 210, 30030, 65536, 223092870, 2**31, 6**12, 2**32 - 5, 2**32 - 2, 2**32 - 1):
        for shape in ((3, 4, 1), (1, 1, 2), (6, 2, 3), (2, 5, 6), (5, 5, 4)):
            yield from own(n, *shape)
    yield from own(36, 49, 49, 1)
    yield from own(6983776, 20, 33, 2)


# ---- multipliers that are sent

def continued(words, length, step):
    """The words, and each after them as the one a step before."""
    out = words[:length]
    while len(out) < length:
        out.append(out[len(out) - step])
    return out


def sent(n, f, g, claimed, u, v, lu, lv, step=1, change=(NONE, 0, 0), working=WORKING):
    """A case whose first words of u and v are sent; they have lu and lv."""
    which, place, x = change
    long = [continued(u, lu, step), continued(v, lv, step)]
    if which:
        w = long[(which - 1) % 2]
        w[place] = x if which > MORE_V else (w[place] + x) % n
    u, v = u[:lu], v[:lv]
    return ([SENT, n, len(f), len(g), claimed, lu, lv, working, *change, step, len(u), len(v), *f, *g, *u, *v],
            answered(*check(n, f, g, claimed, *long, working), working))


def long_claims(n, a, m, steps):
    """u = 1 - m v and g = m f, f the constant a: u f + v g is a."""
    for words, length, place, x, step in (
        (49, 4096, 0, 0, steps), (1, 4096, 0, 0, 97), (49, 1, 0, 0, 97), (49, 4096, 4095, 1, 97), (1, 4096, 4095, n // 2, 97),
        (7, 4096, 2000, m, 97), (7, 4096, 2000, n // 3, 97), (2, 1, 0, 1, 97), (2, 4097, 0, 0, 97), (2, 0, 0, 0, 97)):
        v = [random.randrange(n) for _ in range(step)]
        u = [-m * y % n for y in v + v]
        u[0] = (u[0] + 1) % n
        f, g = [a] + [0] * (words - 1), [m * a % n] + [0] * (words - 1)
        yield sent(n, f, g, a, u, v, length, length, step, (MORE_U, place, x) if length and x else (NONE, 0, 0))


def long_cases():
    for n, a, m, steps in ((2, 1, 1, 997), (12, 3, 5, 4096), (12, 4, 6, 997), (30030, 143, 29, 997), (65536, 1024, 77, 4096),
                           (2**32 - 1, 771, 2**32 - 2, 997), (2**32 - 5, 1, 1234567, 997)):
        yield from long_claims(n, a, m, steps)


def made(n, c, d):
    """f of 24 words, c times drawn ones, u of 25, g = d - u f and v = 1; then with x more at the last word of g."""
    f, u = [c * random.randrange(n) % n for _ in range(24)], [random.randrange(n) for _ in range(25)]
    g = [-x % n for x in product(n, f, u)] + [0]
    g[0] = (g[0] + d) % n
    yield sent(n, f, g, d, u, [1], 25, 1)
    g[48] = random.randrange(n)
    yield sent(n, f, g, d, u, [1], 25, 1)


def made_cases():
    for n in (12, 24, 72, 30030, 65536, 2**32 - 2, 6**12):
        for c, d in ((1, 1), (2, 2), (2, 4), (3, 3), (3, 6), (6, 12), (0, 5), (0, n), (4, n)):
            yield from made(n, c, d)


# ---- refusals

def with_fault(n, a, b, lu, lv, over, working):
    """All words of f and g are 1, all of u and v are 0; the first word of the polynomials in `over`, from 1 to 4, is n."""
    words = [[1] * a, [1] * b, [0, 0], [0, 0]]
    for k in over:
        words[k - 1][:1] = [n] * bool(words[k - 1])
    return sent(n, words[0], words[1], 0, words[2], words[3], lu, lv, working=working)


def refused():
    answered = dict(n=9, a=49, b=49, lu=4096, lv=4096, over=(), working=WORKING)
    faults = [dict(n=0), dict(n=1), dict(a=0), dict(a=50), dict(b=0), dict(b=50), dict(lu=0), dict(lu=4097), dict(lv=0), dict(lv=4097),
              dict(over=(1,)), dict(over=(2,)), dict(over=(3,)), dict(over=(4,)), dict(over=(1, 2, 3, 4)), dict(working=0), dict(working=WORKING - 1)]
    for least in (dict(), dict(a=1, b=1, lu=1, lv=1)):
        yield with_fault(**{**answered, **least})
        for k in range(len(faults)):
            for chosen in ([faults[k]], faults[k:]):
                case = {**answered, **least}
                for fault in reversed(chosen):
                    case.update(fault)
                yield with_fault(**case)


random.seed(SEED)
write_cases('test_claims', itertools.chain(own_cases(), long_cases(), made_cases(), refused()))
assert all(seen[key] > 80 for key in ((0, 0), (0, 1), (0, 2), (0, 3), (3, 0))) and {s for s, _ in seen} == {0, 1, 2, 3, 7, 16}
