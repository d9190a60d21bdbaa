#!/usr/bin/env python3
"""Writes the cases of the test program `test_factors` and what it must answer, made outside the engine: crates/test_factors/stdin, a call
per line on the state that the line before left (1 for a start with n and h, 2 for an arrival with its number, the working words and the
factor, 3 for a leaving with its number, 4 for a state that no start made), and crates/test_factors/stdout, an answer per line.

Seven histories of a start and 160 drawn calls; eighteen factors that arrive and leave in turn; the refusals of a start; every refusal of an
arrival, alone and with all that come after it; calls on states that no start made.

The factors are kept as polynomials. For each reading they are multiplied, and the determinant of the Sylvester matrix of their product
with h is computed by row steps of Euclid's algorithm modulo n. Nothing is kept from reading to reading."""
import random
from collections import Counter
from reference import MARK, determinant_modulo, product, put_working, sylvester, write_cases

SEED = 20261117
WORKING = 8192
START, ARRIVE, LEAVE, STATE = 1, 2, 3, 4
seen = Counter()


def resultant(n, f, g):
    return determinant_modulo(n, sylvester(f, g))


class State:
    def __init__(self, n, h):
        self.n, self.h, self.held = n, h, {}

    def read(self):
        if self.n < 2:
            return 1, 0
        f = [1]
        for g in self.held.values():
            f = product(self.n, f, g)
        return 0, resultant(self.n, f, self.h)

    def arrive(self, k, f, working):
        status = self.refusal(k, f, working)
        if status == 0:
            self.held[k] = f
        return status

    def refusal(self, k, f, working):
        if self.n < 2:
            return 1
        if not 1 <= len(f) <= 49:
            return 2
        if any(x >= self.n for x in f):
            return 3
        if k == 0 or k in self.held:
            return 14
        if len(self.held) == 16 or sum(len(g) - 1 for g in self.held.values()) + len(f) - 1 > 48:
            return 13
        return 7 if working < WORKING else 0

    def leave(self, k):
        if self.n < 2:
            return 1
        if k not in self.held:
            return 14
        del self.held[k]
        return 0


class AnyState:
    """Sixteen places of any words."""

    def __init__(self, n, length, w, k, d, x):
        self.n, self.length, self.h = n, length, [w] * 49
        self.number, self.degree, self.value = [k] * 16, [d] * 16, [x] * 16

    def read(self):
        if self.n < 2:
            return 1, 0
        p = 1
        for x in self.value:
            p = p * x % self.n
        return 0, p

    def arrive(self, k, f, working):
        if self.n < 2:
            return 1
        if not 1 <= len(f) <= 49 or not 1 <= self.length <= 49:
            return 2
        h = self.h[:self.length]
        if any(x >= self.n for x in f + h):
            return 3
        if k == 0 or k in self.number:
            return 14
        if 0 not in self.number or sum(self.degree) + len(f) - 1 > 48:
            return 13
        if working < WORKING:
            return 7
        i = self.number.index(0)
        self.number[i], self.degree[i], self.value[i] = k, len(f) - 1, resultant(self.n, f, h)
        return 0

    def leave(self, k):
        if self.n < 2:
            return 1
        if k == 0 or k not in self.number:
            return 14
        i = self.number.index(k)
        self.number[i], self.degree[i], self.value[i] = 0, 0, 1
        return 0


# ---- the lines

def drawn(n, length):
    return [random.randrange(n) for _ in range(length)]


def started(n, h):
    """The state after a start, and its line."""
    status = 1 if n < 2 else 2 if not 1 <= len(h) <= 49 else 3 if any(x >= n for x in h) else 0
    s = State(0 if status else n, h)
    return s, ([START, n, 0, *h], ['start', status, *s.read()])


def arrival(s, k, f, working=WORKING):
    status = s.arrive(k, f, working)
    seen[status] += 1
    return [ARRIVE, k, working, *f], ['arrive', status, put_working([MARK if status else 0] * working), *s.read()]


def leaving(s, k):
    status = s.leave(k)
    return [LEAVE, k, 0], ['leave', status, *s.read()]


def history(n, e, long):
    s, line = started(n, drawn(n, e))
    yield line
    for _ in range(160):
        k = random.randrange(20)
        if random.randrange(8) < 3:
            yield leaving(s, k)
            continue
        length = random.randrange(4) if long else random.choice([50, 30] + 30 * [None])
        f = drawn(n, random.randrange(7) if length is None else length)
        fault = random.randrange(16)
        if fault == 1:
            f[:1] = [n] * bool(f)
        yield arrival(s, k, f, WORKING - 1 if fault == 0 else WORKING)


def crowd(n, e, length):
    """Eighteen arrivals of so many words each, one leaving after the seventeenth, and all leave."""
    s, line = started(n, drawn(n, e))
    yield line
    for k in range(1, 18):
        yield arrival(s, k, drawn(n, length))
    yield leaving(s, 5)
    yield arrival(s, 18, drawn(n, length))
    for k in range(1, 19):
        yield leaving(s, k)


def refused_start(n, h):
    s, line = started(n, h)
    yield line
    yield arrival(s, 1, drawn(2, 2))
    yield leaving(s, 1)


def refused_arrivals():
    """On a state that holds the factors 7 of degree 40 and 9 of degree 3."""
    faults = [dict(f=[]), dict(f=[1] * 50), dict(f=[12, 1]), dict(f=[1, 12]), dict(k=0), dict(k=7), dict(f=[1] * 7), dict(working=0),
              dict(working=WORKING - 1)]
    for i in range(len(faults)):
        for chosen in ([faults[i]], faults[i:]):
            s, line = started(12, [5, 1, 6])
            yield line
            yield arrival(s, 7, drawn(12, 41))
            yield arrival(s, 9, drawn(12, 4))
            call = dict(k=3, f=drawn(12, 6), working=WORKING)
            for fault in reversed(chosen):
                call.update(fault)
            yield arrival(s, **call)
            yield arrival(s, 3, drawn(12, 6))


def any_state(*words):
    s = AnyState(*words)
    yield [STATE, *words], ['state', *s.read()]
    yield arrival(s, 3, drawn(7, 3))
    yield leaving(s, 3)
    yield leaving(s, 4)
    yield leaving(s, 0)


def cases():
    for row in ((12, 3, False), (2**32 - 1, 4, False), (30030, 6, True), (65536, 2, True), (2, 5, True), (65535**2, 1, True), (6, 7, True)):
        yield from history(*row)
    for row in ((12, 3, 4), (2**32 - 1, 5, 3), (10, 4, 49)):
        yield from crowd(*row)
    for n, h in ((0, [0] * 2), (1, [0] * 2), (9, []), (9, [0] * 50), (9, [9] * 3), (1, [1] * 50), (0, []), (9, [9] * 50), (9, [0, 0, 9]), (9, [8] * 49)):
        yield from refused_start(n, h)
    yield from refused_arrivals()
    for row in ((0, 3, 0, 0, 0, 1), (1, 3, 0, 4, 0, 1), (7, 0, 0, 0, 0, 1), (7, 50, 0, 0, 0, 1), (7, 2**32 - 1, 0, 0, 0, 1),
                (7, 49, 1, 0, 3, 2**32 - 1), (7, 3, 7, 0, 0, 1), (7, 3, 6, 4, 0, 5), (7, 3, 6, 3, 2**32 - 1, 5),
                (7, 3, 6, 0, 2**32 - 1, 2**32 - 1), (2**32 - 1, 3, 6, 4, 0, 2**32 - 1)):
        yield from any_state(*row)


random.seed(SEED)
write_cases('test_factors', cases())
assert set(seen) == {0, 1, 2, 3, 7, 13, 14}
