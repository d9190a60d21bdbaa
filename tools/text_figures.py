#!/usr/bin/env python3
"""Writes the cases of the test program `test_text` and what it must answer, made outside the engine: crates/test_text/stdin, a case per
line (1, n, how many bytes are lent and the words to be written; or 2, n, how many words are lent and the codes of the characters to be
read), and crates/test_text/stdout, an answer per line.

All polynomials of degree up to 2 over n = 2, 3, 4 and drawn ones of degree 48 at the largest n are written, and their texts read; texts
with one character left out or exchanged and chosen texts are read; and every refusal, alone and with all that come after it.

The writer joins Python's own decimals. The reader is a grammar of its own, a regular expression with those rules of S55 that no
regular expression can express tested one by one; it knows nothing of the writer."""
import itertools, random, re
from reference import MARK, put_lent, write_cases

SEED = 20261116
WRITE, READ = 1, 2
LARGEST = 4294967295
TERM = re.compile(rb'([1-9][0-9]*)(?:\*x(?:\^([1-9][0-9]*))?)?')


def write(f):
    terms = []
    for k in reversed(range(len(f))):
        if f[k]:
            terms.append(str(f[k]) + ('' if k == 0 else '*x' if k == 1 else '*x^%d' % k))
    return '+'.join(terms).encode() or b'0'


def read(n, s):
    """The words of s, or None if it is not a text of the notation."""
    if s == b'0':
        return [0]
    words, last = {}, 49
    for part in s.split(b'+'):
        m = TERM.fullmatch(part)
        if not m:
            return None
        c = int(m.group(1))
        k = int(m.group(2)) if m.group(2) else 1 if b'x' in part else 0
        if c >= n or k >= last or m.group(2) == b'1':
            return None
        words[k], last = c, k
    return [words.get(k, 0) for k in range(max(words) + 1)]


def writing(n, f, size=801):
    status = 1 if n < 2 else 2 if not 1 <= len(f) <= 49 else 3 if any(x >= n for x in f) else 6 if size < 800 else 0
    text = write(f) if status == 0 else b''
    zeros = 0 if status else 800 - len(text)
    return [WRITE, n, size, *f], ['write', status, len(text), zeros, size - len(text) - zeros, text.decode()]


def reading(n, s, size=50):
    words = None if n < 2 else read(n, s)
    status = 1 if n < 2 else 17 if words is None else 6 if size < 49 else 0
    words = [] if status else words
    lent = [MARK] * size if status else words + [0] * (49 - len(words)) + [MARK] * (size - 49)
    return [READ, n, size, *s], ['read', status, len(words), put_lent(lent), s.decode()]


def damaged():
    """A text of four words below 12 with one character left out or exchanged."""
    s = bytearray(write([random.randrange(12) for _ in range(4)]))
    at = random.randrange(len(s))
    if random.randrange(3) == 0:
        del s[at]
    else:
        s[at] = random.choice(b'0123456789+*x^ -')
    return bytes(s)


CHOSEN = (
        (12, b''), (12, b'0'), (12, b'00'), (12, b'01'), (12, b'11'), (12, b'12'), (12, b'0*x'), (12, b'1*x+0'), (12, b'1*x'),
        (12, b'01*x'), (12, b'x'), (12, b'*x'), (12, b'1*x^0'), (12, b'1*x^1'), (12, b'1*x^2'), (12, b'1*x^02'), (12, b'1*x^48'),
        (12, b'1*x^49'), (12, b'1*x^4294967298'), (12, b'1+1*x'), (12, b'1*x+1*x'), (12, b'4294967297'),
        (12, b'18446744073709551617'), (LARGEST, b'4294967294*x^48+4294967294'), (LARGEST, b'4294967295'),
        (LARGEST, b'4294967296'), (2, b'1*x^2+1*x+1'), (2, b'2*x'), (1, b'0'), (0, b'1 +'))


def cases():
    for n in (2, 3, 4):
        for l in (1, 2, 3):
            for f in itertools.product(range(n), repeat=l):
                yield writing(n, f)
                yield reading(n, write(f))
    for _ in range(12):
        f = [random.randrange(LARGEST) for _ in range(49)]
        yield writing(LARGEST, f)
        yield reading(LARGEST, write(f))
    for _ in range(100):
        yield reading(12, damaged())
    for n, s in CHOSEN:
        yield reading(n, s)
    for n, f, size in ((0, [], 0), (1, [0] * 50, 0), (1, [0], 800), (2, [0] * 50, 0), (2, [2] * 50, 800), (2, [], 800), (2, [2], 0),
                       (2, [0] * 48 + [2], 800), (2, [0] * 49, 799), (2, [0] * 49, 800), (2, [1] * 49, 800)):
        yield writing(n, f, size)
    for n, s, size in ((0, b'1 +', 0), (1, b'1*x', 49), (2, b'2*x', 0), (2, b'', 48), (2, b'1*x', 48), (2, b'1*x', 0), (2, b'1*x', 49),
                       (2, b'1*x', 52)):
        yield reading(n, s, size)


random.seed(SEED)
write_cases('test_text', cases())
