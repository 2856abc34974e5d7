"""The inputs of request 5, made from fixed seeds: thresholds at half of odd and even
capacities, at p one below, at it and one over; in images, in jobs of all kinds, first
and behind steps that leave another capacity, the same as texts, and in sweeps."""

import itertools
import random

import inputs_request_1 as rows
import inputs_request_4 as counts
from inputs_base import LIMIT, around, family, image, job, sweep, tabled

CAPACITIES = (1, 2, 3, 4, 5, 6, 7, 10, 11, 60, 61, 96, 97, 2047, 65_535, 65_536, 2**29 - 1, LIMIT - 2, LIMIT - 1, LIMIT)
MOST = 65_535


def half(capacity):
    return (capacity + 1) // 2


def near(capacity, p):
    """Sizes where the image changes, and those next to them."""
    return [x for x in around(0, p, max(0, capacity - p), capacity) if x <= capacity]


def images():
    for capacity in CAPACITIES:
        for p in (half(capacity), half(capacity) + 1):
            yield from (image(capacity, 1, p, 0, x) for x in near(capacity, p))
    for family_byte, p, q in itertools.product((1, 3), (2, 3, 4), (0, 1)):
        yield image(5, family_byte, p, q, 3)
    yield image(5, 1, 3, 0, 6)
    yield image(LIMIT + 1, 1, LIMIT // 2 + 1, 0, 3)


# Jobs

def sizes_about(capacity):
    """Sizes of a list of this capacity: at half of it and beside it."""
    return [x for x in around(half(capacity), capacity) if 1 <= x <= capacity]


def steps_about(capacity):
    return [family(1, p) for p in around(half(capacity))]


def first_steps():
    for capacity in CAPACITIES:
        for step in steps_about(capacity):
            sizes = sizes_about(capacity)
            yield job(1, capacity, sizes, step)
            yield job(2, capacity, [0] + sizes, step)
            yield counts.counted(capacity, sizes, [300 * (i + 1) for i in range(len(sizes))], step)


def later_steps():
    """Steps that make another capacity of 11, and thresholds at half of it and of 11."""
    for before, scale in ((family(5, 3), 3), (family(5, 4), 2), (family(2, 3), 33), (family(3, 3), 6),
                          (family(4, 5), 8), (family(7, 3, 2), 9), (tabled(*[0] * 6, *[5] * 6), 5),
                          (tabled(*[0] * 11, LIMIT), LIMIT)):
        for step in steps_about(scale) + steps_about(11):
            yield job(1, 11, range(1, 12), before, step)
            yield job(2, 11, range(12), step, before)


def chains():
    """0 to 9 halves of 5, alone and beside a table."""
    table = tabled(0, 0, 0, 5, 5, 5)
    for count in range(10):
        yield job(1, 5, (1, 2, 3, 4, 5), *[family(1, 3)] * count)
        yield job(2, 5, (0, 2, 3), *([family(1, 3), table] * 5)[:count])
        yield job(1, 5, (1, 2, 3, 4, 5), *[family(1, 0)] * count, family(1, 3))
    for steps in itertools.product((family(1, 3), family(1, 4), table, family(2, 1), family(8, 1)), repeat=2):
        yield job(1, 5, (2, 3, 3), *steps)


def models():
    """Rows about a threshold: each right side can be the first that refuses it, or meets it as half."""
    for rights in itertools.permutations((4, 5, 6), 2):
        for p in (2, 3, 4):
            yield rows.model([(right, right, 3, 0) for right in rights], family(1, p))
    for right in (3, 5, 99, LIMIT - 1):
        yield rows.model([(right, half(right), 1)] * 64, family(1, half(right)))
        yield rows.model([(right, half(right)), (right - 1, 1), (right + 1,)], family(1, 0), family(1, half(right)))


def largest():
    most = [LIMIT - 1] * 2048
    yield job(1, LIMIT - 1, most, family(1, LIMIT // 2))
    yield counts.counted(LIMIT - 1, most, [MOST] * 2048, *[family(1, LIMIT // 2)] * 8)


def random_jobs():
    rng = random.Random(51)
    for _ in range(60):
        capacity = 2 * rng.randint(0, rng.choice((6, 60, LIMIT // 2 - 1))) + 1
        sizes = [rng.randint(1, capacity) for _ in range(rng.randint(0, 6))]
        steps = [family(1, half(capacity) - rng.randint(0, 1)), family(1, 0), family(2, 1), family(5, 1)]
        yield job(rng.randint(1, 2), capacity, sizes, *rng.choices(steps, k=rng.randint(1, 8)))


def texts():
    for part in (first_steps, later_steps, chains, models, random_jobs):
        yield from (dict(job=data) for data in part())


def jobs():
    yield from texts()
    yield from (dict(job=data) for data in largest())


# Sweeps

def ranges(last):
    """Ranges that end with this p, start with it and have it alone; that end before it, and start behind it."""
    first = max(0, last - 7)
    return (first, last), (last, last + 7), (last, last), (first, max(0, last - 1)), (last + 1, last + 7)


def sweeps():
    for capacity in CAPACITIES:
        for low, high in ranges(half(capacity)):
            yield sweep(capacity, 1, sizes_about(capacity), low, high)
            yield counts.sweep(capacity, 1, [half(capacity)] * 3, (1, 300, MOST), low, high)
            yield sweep(capacity, 3, sizes_about(capacity), low, high)
    for capacity in (61, 2047, 8189):
        yield sweep(capacity, 1, range(1, 2047 if capacity > 2047 else capacity), 0, 4095)
    yield counts.sweep(8189, 1, [4095] * 2048, range(1, 2049), 0, 4095)
    rng = random.Random(52)
    for _ in range(80):
        capacity = 2 * rng.randint(0, rng.choice((6, 60, 1000))) + 1
        sizes = [rng.choice((half(capacity), rng.randint(1, capacity))) for _ in range(rng.randint(0, 6))]
        low = rng.randint(0, half(capacity))
        numbers = [rng.choice((1, 2, 300, MOST)) for _ in sizes]
        yield counts.sweep(capacity, rng.randint(1, 5), sizes, numbers, low, half(capacity) + rng.randint(0, 3))


def inputs():
    return dict(image=images(), job=jobs(), sweep=sweeps(), text=texts())
