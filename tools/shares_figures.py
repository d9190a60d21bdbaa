#!/usr/bin/env python3
"""Writes the cases of the test program `test_shares` and what it must answer, made outside the engine: crates/test_shares/stdin, a case
of five numbers per line (N, and what waits in each group), and crates/test_shares/stdout, an answer per line.

For each N up to 12 all waiting counts from 0 to 3; for twelve N and four bounds 100 drawn waiting counts below the bound; then who comes
first, who is passed over, a share kept against three groups that send all they can, and the edges of the range.

No frame is given out one at a time: every group is filled to one level, the highest that the frames reach, and what is left goes, one
each, to the first groups that wait for more."""
import random
from itertools import product
from reference import write_cases

SEED = 20261116
MOST = 4294967295


def shares(frames, waiting):
    """the status, and the four shares"""
    if not 1 <= frames <= 1024:
        return 15, 0, 0, 0, 0
    level = max(x for x in range(frames + 1) if sum(min(w, x) for w in waiting) <= frames)
    share = [min(w, level) for w in waiting]
    left = frames - sum(share)
    for i in [i for i in range(4) if waiting[i] > level][:left]:
        share[i] += 1
    return 0, *share


def cases():
    for frames in range(13):
        for waiting in product(range(4), repeat=4):
            yield frames, *waiting
    for frames in (1, 2, 3, 4, 10, 37, 256, 511, 1000, 1023, 1024, 1025):
        for bound in (8, 300, 2000, MOST):
            for _ in range(100):
                yield frames, *(random.randrange(bound) for _ in range(4))
    yield from [
        (1, 1, 1, 1, 1), (1, 0, 0, 0, 1), (3, 0, 5, 0, 5), (6, 1, 9, 0, 9), (7, 2, 1, 0, 2), (10, 1, 0, 3, 9), (1024, 0, 0, 0, 0),
        (1024, MOST, 7, MOST, MOST), (1023, MOST, MOST, MOST, 256), (1022, 255, MOST, MOST, MOST),
        (0, MOST, MOST, MOST, MOST), (1, MOST, MOST, MOST, MOST), (1024, MOST, MOST, MOST, MOST), (1024, 0, 0, MOST, 0),
        (1025, MOST, MOST, MOST, MOST), (1025, 1, 2, 3, 4), (MOST, 1, 2, 3, 4), (MOST, MOST, MOST, MOST, MOST),
    ]


random.seed(SEED)
write_cases('test_shares', ((case, ['shares', *shares(case[0], case[1:])]) for case in cases()))
