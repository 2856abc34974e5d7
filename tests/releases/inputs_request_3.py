"""The inputs of request 3: quotients that are rounded up, exact and beside it, in images
of families 4, 6 and 7, in floors of jobs and in sweeps, from the least numbers to the
greatest."""

import itertools
import random

from inputs_base import LIMIT, around, family, image, job, least_q, passes, sweep, tabled

STEPS = (family(1, 20), family(2, 7), family(3, 7), family(4, 8), family(5, 7), family(6, 7, 9), family(7, 7, 1))


def small_images():
    """Every size of small capacities."""
    for capacity, p in itertools.product((6, 10), range(2, 11)):
        if p <= capacity:
            yield from (image(capacity, 4, p, 0, x) for x in range(capacity + 1))
        if capacity % p:
            for kind, more in itertools.product((6, 7), (0, 1)):
                q = least_q(capacity, p) + more
                yield from (image(capacity, kind, p, q, x) for x in range(0, capacity + 1, 1 + more))


def large_images():
    """Each p-th of the capacity, and sizes beside it."""
    rng = random.Random(31)
    for capacity in (1000, 12_345, 999_999, LIMIT - 1, LIMIT):
        for _ in range(8):
            p = rng.randint(2, min(capacity, LIMIT // 2 + 1))
            part = rng.randint(0, p) * capacity // p
            yield from (image(capacity, 4, p, 0, x) for x in around(part, capacity - part) if x <= capacity)
            q = least_q(capacity, p) + rng.randint(0, 40)
            for kind in (6, 7):
                if passes(capacity, kind, p, q):
                    yield from (image(capacity, kind, p, q, x) for x in around(capacity % p, capacity // 2, p - 1))


def images():
    yield from small_images()
    yield from large_images()


def totalling(capacity, total):
    """A list of this total, in the fewest sizes."""
    whole, rest = divmod(total, capacity)
    return [capacity] * whole + [rest] * (rest > 0)


def lists():
    """A capacity and lists whose totals are its multiples, and next to them; random ones behind."""
    rng = random.Random(32)
    for capacity, times in itertools.product((1, 2, 10, 96, LIMIT), (1, 2, 7)):
        yield from ((capacity, totalling(capacity, total)) for total in around(times * capacity))
    for total in (2047 * LIMIT + 1, 2048 * LIMIT - 1, 2048 * LIMIT):  # 2,048 sizes
        yield LIMIT, totalling(LIMIT, total)
    for _ in range(60):
        yield 96, [rng.randint(1, 96) for _ in range(rng.randint(1, 9))]


def texts():
    for capacity, sizes in lists():
        yield dict(job=job(1, capacity, sizes))
        if capacity == 96:
            yield from (dict(job=job(1, 96, sizes, step)) for step in STEPS)
    yield dict(job=job(1, 6, (6, 5, 1), tabled(0, 0, 2, 3, 3, 4, 6)))


def sweeps():
    for capacity, sizes in lists():
        yield from (sweep(capacity, number, sizes, p, p) for number, p in ((1, 0), (2, 1), (3, 7), (4, 8), (5, 7)))
        yield sweep(capacity, 4, sizes, 0, 96)


def inputs():
    return dict(image=images(), job=texts(), sweep=sweeps(), text=texts())
