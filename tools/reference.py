"""What the scripts of tools/ calculate with, each thing once, outside the engine: residues, polynomials modulo n, determinants, the ideal
of two polynomials, the rows of the table of S90, and the lines that test programs read and write.

A polynomial is the list of its words, the constant first. Nothing here is taken from the engine. tools/cofactor_figures.py compares both
determinants with their definition, tools/residue_figures.py and tools/services64_figures.py the least combinations with a search, and
tools/ideal_constants.py proves the D of each pair and compares it with brute force and with PARI."""
import functools, math, os
from ideal_constants import Ideal, cached_constant, gp, prime_powers, reduced_resultant

__all__ = ['Ideal', 'cached_constant', 'gp', 'prime_powers', 'reduced_resultant', 'STARRED', 'UNSTARRED', 'MARK', 'PRIME',
           'write_cases', 'put_digit', 'put_short', 'put_words', 'ending', 'put_lent', 'put_working', 'k_of', 'unit', 'radical',
           'lead_place', 'kind', 'least_by_inverses', 'least_by_search', 'product', 'divided', 'sylvester', 'determinant',
           'determinant_modulo', 'resultant', 'refused_pair']

# the table of document 01: the starred rows, and the one without a star
STARRED = [(7, [1, 1], [2, 1]), (7, [2, 1], [1, 1]), (12, [3, 2], [1, 4]), (4, [1, 2], [3, 2]), (6, [2], [4]), (9, [3], [1, 0, 1]),
           (5, [2, 1, 0], [1, 1]), (5, [2, 1], [1, 1]), (5, [1, 0], [2, 0]), (10, [0, 0], [0]), (6, [5, 0, 1], [3, 1])]
UNSTARRED = (4294967295, [4294967294], [0, 1])


# ---- cases and answers, as crates/test_lines reads and writes them

MARK = 2882400001
PRIME = 4294967291             # where a program counts on from a drawn number


def write_cases(crate, cases):
    """crates/CRATE/stdin and stdout: a line of numbers and a line of answers for each case."""
    folder = os.path.join(os.path.dirname(os.path.abspath(__file__)), '..', 'crates', crate)
    with open(os.path.join(folder, 'stdin'), 'w') as stdin, open(os.path.join(folder, 'stdout'), 'w') as stdout:
        for sent, answered in cases:
            print(*sent, file=stdin)
            print(*answered, file=stdout)


def put_digit(x):
    return '0123456789abcdefghijklmnopqrstuvwxyzABCDEFGHIJKLMNOPQRSTUVWXYZ+/='[x]


def put_short(status, values):
    return '!' + put_digit(status) if status else ''.join(map(put_digit, values))


def put_words(words):
    return ' '.join(['[', *map(str, words), ']'])


def ending(words, x):
    """How many words at the end are x."""
    return next((i for i, y in enumerate(reversed(words)) if y != x), len(words))


def put_lent(words):
    """A result after the call: the words up to the last that is not as found, and how many after it are."""
    same = ending(words, MARK)
    return '%s %d' % (put_words(words[:len(words) - same]), same)


def put_working(words):
    return '%d %d' % (ending(words, MARK), ending(words, 0))


# ---- residues; powers are the (p, a) of n, as prime_powers has them

def k_of(n):
    return n.bit_length() - 1


def unit(n, a):
    return math.gcd(n, a) == 1


def radical(powers):
    """The product of the primes: a residue is nilpotent where this divides it."""
    return math.prod(p for p, _ in powers)


def kind(powers, a):
    """('u', inverse), ('n',) or ('s', n1, n2); n1 has the primes that divide a."""
    n1 = math.prod(p**e for p, e in powers if a % p == 0)
    n2 = math.prod(p**e for p, e in powers if a % p)
    if n1 == 1:
        return 'u', pow(a, -1, n2)
    return ('n',) if n2 == 1 else ('s', n1, n2)


def least_by_inverses(n, a, b):
    """g, the least s for which some t fits, and the least such t: s a + t b = g modulo n."""
    m = math.gcd(b, n)
    g = math.gcd(a, m)
    s = pow(a // g, -1, m // g)
    return g, s, (g - s * a) // m * pow(b // m, -1, n // m) % (n // m)


@functools.lru_cache(maxsize=None)
def least_multipliers(n, b):
    """For each residue x the least t with t b = x modulo n."""
    out = {}
    for t in range(n):
        out.setdefault(t * b % n, t)
    return out


def least_by_search(n, a, b):
    """The same by trying: "s is the least number from 0 upward for which some t fits, and t is then the least that fits." (02, W7)"""
    g, fits = math.gcd(a, b, n), least_multipliers(n, b)
    s = next(s for s in range(n) if (g - s * a) % n in fits)
    return g, s, fits[(g - s * a) % n]


# ---- polynomials modulo n

def product(n, f, g):
    out = [0] * (len(f) + len(g) - 1)
    for i, a in enumerate(f):
        if a:
            for j, b in enumerate(g, i):
                out[j] += a * b
    return [x % n for x in out]


def divided(n, f, g):
    """Quotient and remainder of f by g, whose top word is a unit, by long division from the top."""
    r, e, i = [x % n for x in f], len(g) - 1, pow(g[-1], -1, n)
    q = [0] * max(1, len(f) - e)
    for s in range(len(f) - e - 1, -1, -1):
        q[s] = r[e + s] * i % n
        for j, b in enumerate(g, s):
            r[j] = (r[j] - q[s] * b) % n
    return q, (r + [0] * e)[:e]


def lead_place(root, f):
    """The place of the highest word that is not nilpotent, 0 where all are; root is the radical of n."""
    return max((k for k, x in enumerate(f) if x % root), default=0)


# ---- determinants, and the resultant in the sent degrees

def sylvester(f, g):
    d, e = len(f) - 1, len(g) - 1
    return [[0] * i + f[::-1] + [0] * (e - 1 - i) for i in range(e)] + [[0] * i + g[::-1] + [0] * (d - 1 - i) for i in range(d)]


def determinant(m):
    """Over the whole numbers: every division leaves no remainder (Bareiss)."""
    m, sign, last = [list(row) for row in m], 1, 1
    for k in range(len(m)):
        i = next((i for i in range(k, len(m)) if m[i][k]), None)
        if i is None:
            return 0
        if i != k:
            m[i], m[k], sign = m[k], m[i], -sign
        for row in m[k + 1:]:
            row[k + 1:] = [(m[k][k] * x - row[k] * y) // last for x, y in zip(row[k + 1:], m[k][k + 1:])]
        last = m[k][k]
    return sign * last


def determinant_modulo(n, m):
    """Modulo n, by row steps of Euclid's algorithm: for matrices that are large for whole numbers."""
    m, value = [[x % n for x in row] for row in m], 1
    for c in range(len(m)):
        for r in range(c + 1, len(m)):
            while m[r][c]:
                q = m[c][c] // m[r][c]
                m[c] = [(x - q * y) % n for x, y in zip(m[c], m[r])]
                m[c], m[r], value = m[r], m[c], -value
        value = value * m[c][c] % n
    return value % n


def resultant(n, f, g):
    return determinant(sylvester(f, g)) % n


# ---- refusals

def refused_pair(n, f, g):
    """1, 2 or 3, the refusals that all services of a pair of polynomials begin with; 0 if none of them applies."""
    if n < 2:
        return 1
    if not 1 <= len(f) <= 49 or not 1 <= len(g) <= 49:
        return 2
    return 3 if any(x >= n for x in f + g) else 0
