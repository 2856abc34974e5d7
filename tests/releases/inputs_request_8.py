"""The inputs of request 8, made from fixed seeds: lists whose fewest windows are asked,
of 0 to 11 copies by sizes and by counts, with sizes about the capacity and about its
parts, with windows that can be filled and that cannot, at the limits, with buffers of
many lengths; and every refusal alone and beside each other."""

import itertools
import random

from by_reference import wf
from inputs_base import HIGHER as LIMIT, MAX, MAX64, SIZES, around
from short_lists import about, drawn_until, first_fit, first_fit_decreasing, near

MOST = 65_535


def exact(capacity, sizes, counts=None, **places):
    """Without counts each size is counted once."""
    given = dict(capacity=capacity, sizes=list(sizes))
    return given | ({} if counts is None else dict(counts=list(counts))) | places


def reckoned():
    for capacity, *copies in ((10, 7, 3, 5, 5), (10, 6, 6, 6), (10, 4, 4, 4, 4, 4), (10, 4, 4, 4, 6, 6, 6),
                              (10, 4, 4, 3, 3, 3, 3), (7, 3, 3, 2, 2, 2, 2), (10, 9, 8, 7, 6, 5, 5, 4, 3, 2, 1)):
        yield exact(capacity, copies)
        yield exact(capacity, copies[::-1])


def numbers_of_copies():
    """By sizes, by one count, and by two."""
    for capacity, n in itertools.product((1, 24, 25, LIMIT), range(12)):
        for size in sorted({size for parts in (1, 2, 3) for size in about(capacity, parts)} | {1}):
            yield exact(capacity, [size] * n)
            if n > 0:
                yield exact(capacity, [size], [n])
            if n > 1:
                yield exact(capacity, [size, 1], [n - 1, 1])


def numbers_of_counts():
    for count in (1, 9, 10, 11, 255, 256, 32_768, MOST):
        yield exact(10, [6], [count])
        yield exact(10, [3, 6, 3], [1, count, 1])
    for counts in ((MOST, 1), (MOST, 5), (32_768, 32_768), (MOST, MOST, 7)):  # in 16 bits 10 or fewer
        yield exact(10, [6] * len(counts), counts)
    yield exact(10, [6] * SIZES, [MOST] * SIZES)
    yield exact(10, [6] * SIZES, [32_768] * SIZES)
    yield from (exact(12, [3, 4, 6, 7], counts) for counts in itertools.permutations((1, 2, 3, 4)))


def buffers():
    for copies, places in itertools.product(((), (7, 3, 5), (6,) * 9, (6,) * 10, (6,) * 11), (0, 1, 9, 10, 11, 40)):
        yield exact(10, copies, windows_places=places)


FAULTS = (  # each makes a refused list of the accepted one in faults()
    dict(capacity=0), dict(capacity=LIMIT + 1), dict(capacity=2**32 + 10), dict(capacity=MAX64),
    dict(sizes=[3] * (SIZES + 1), counts=[1] * (SIZES + 1)), dict(sizes=[3] * SIZES, counts=[1] * SIZES),
    dict(counts=[1] * 2), dict(counts=[1] * 4), dict(counts=[]), dict(counts=[0, 1]), dict(sizes=[]),
    dict(sizes=[0, 4, 4]), dict(sizes=[4, 4, 11]), dict(sizes=[4, MAX, 4]), dict(counts=[0, 1, 1]),
    dict(counts=[1, 1, 0]), dict(counts=[0, 11, 0]), dict(counts=[4, 4, 3]), dict(counts=[1, MOST, 1]),
    dict(windows_places=0), dict(windows_places=9))


def faults():
    for pair in itertools.combinations_with_replacement(FAULTS, 2):
        yield dict(capacity=10, sizes=[4] * 3, counts=[1, 2, 3]) | pair[0] | pair[1]


def limits():
    for capacity in around(1, 2**31, LIMIT) + [MAX, 2**32, MAX64]:
        half = capacity // 2
        for sizes in ((), (capacity,), (half, half + 1), (half,) * 3, (half + 1,) * 3, (capacity - 1, 1, 1),
                      (capacity + 1,)):
            yield exact(capacity, [min(MAX, max(0, size)) for size in sizes])
    over = 2**32 - LIMIT  # with it the limit is 0 in 32 bits
    for sizes in ((LIMIT, over), (2**31, 2**31), (LIMIT, over + 1, 5), (LIMIT // 2, LIMIT // 2, over), (LIMIT,) * 10):
        yield exact(LIMIT, sizes)


def near_parts():
    rng = random.Random(81)
    for parts, n in itertools.product((2, 3, 4), range(2, 11)):
        for capacity in (rng.randint(10, 60), rng.randint(100, 1000), rng.randint(2**31, LIMIT)):
            yield exact(capacity, near(rng, capacity, parts, n))


def is_hard(capacity, copies):
    """It needs more than its total asks for and less than first fit, or less than first fit decreasing."""
    fewest = len(wf.best_windows(capacity, copies))
    between = wf.up(sum(copies), capacity) < fewest < first_fit(capacity, copies)
    return between or fewest < first_fit_decreasing(capacity, copies)


def hard():
    rng = random.Random(82)
    for capacity in (30, 60, 100, LIMIT):
        for _ in range(10):
            yield exact(*drawn_until(lambda: (capacity, near(rng, capacity, rng.randint(2, 4), rng.randint(6, 8))),
                                     is_hard))


def random_lists():
    rng = random.Random(83)
    for _ in range(120):
        capacity = rng.choice((rng.randint(1, 12), rng.randint(10, 100), rng.randint(1000, LIMIT)))
        sizes = [rng.randint(1, capacity) for _ in range(rng.randint(0, 6))]
        yield exact(capacity, sizes, [rng.choice((1, 1, 1, 2, 3)) for _ in sizes])


def inputs():
    parts = (reckoned, numbers_of_copies, numbers_of_counts, buffers, faults, limits, near_parts, hard, random_lists)
    return dict(exact=itertools.chain(*(part() for part in parts)))
