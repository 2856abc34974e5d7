"""The inputs of request 7, made from fixed seeds: capacities, parameters, scales, sizes
and entries between the old limit and the new one, at the new one and beside it, and
where doubles pass 32 bits; in images, tables, jobs of all kinds, first and behind steps
that leave another capacity, the same as texts, and in sweeps."""

import itertools
import random

import inputs_request_1 as rows
import inputs_request_4 as counts
import inputs_request_6 as blocks
from inputs_base import FAMILIES, MAX, MAX64, around, family, image, job, least_q, sweep, tabled

OLD, LIMIT = 1_000_000_000, 4_000_000_000
LARGE = around(OLD, 2**31, LIMIT) + [MAX]
WITHIN = [number for number in LARGE if number <= LIMIT]
MOST = 65_535

# (family, p, q) of scale LIMIT at capacity LIMIT.
AT_LIMIT = ((1, LIMIT // 2, 0), (2, 1, 0), (3, 2, 0), (4, LIMIT // 2 + 1, 0), (5, 1, 0),
            (6, 3 * OLD, LIMIT // 2 - 1), (7, LIMIT // 5 * 3, 4))


# Parameters

def singles(capacity, family_byte):
    """p about what is legal there, and about a scale at the limit."""
    edges = {1: (0, (capacity + 1) // 2), 2: (1, LIMIT // capacity), 3: (1, capacity // 2), 5: (1, capacity),
             4: (2, LIMIT // 2 + 1, capacity)}
    return around(*edges[family_byte])


def pairs(capacity, family_byte):
    """(p, q) about what is legal there, and about a scale at the limit."""
    for p in (2, 7, capacity - capacity // 4, capacity - 1):
        if 1 <= p <= capacity and capacity % p > 0:
            unit = 2 * (capacity // p) if family_byte == 6 else (p - capacity % p) * (capacity // p)
            yield from ((p, q) for q in around(least_q(capacity, p), max(1, LIMIT // unit) - 1) if q <= MAX)


def parameters(capacity, family_byte):
    if family_byte <= 5:
        return [(p, 0) for p in singles(capacity, family_byte) if p <= MAX]
    return list(pairs(capacity, family_byte))


def steps_about(capacity):
    for family_byte in FAMILIES:
        yield from ((family_byte, p, q) for p, q in parameters(capacity, family_byte))


# Images and tables

def images():
    for capacity in [3] + LARGE:
        for family_byte, p, q in steps_about(capacity):
            yield from (image(capacity, family_byte, p, q, x) for x in (capacity // 2, capacity // 2 + 1, 2**31))
    for family_byte, p, q in AT_LIMIT:
        yield from (image(LIMIT, family_byte, p, q, x) for x in around(LIMIT // 2, 2**31, LIMIT))
        yield from (image(10, family_byte, number, 0, 7) for number in LARGE)
        yield from (image(10, family_byte, 3, number, 7) for number in LARGE)
        yield from (image(number, family_byte, 2**63, MAX64, 7) for number in (MAX64, 2**32 + 10, LIMIT + 1))


def tables():
    for entry in LARGE:
        for entries in ((0, entry), (0, 1, entry), (0, entry, entry), (0, entry, 2 * entry), (entry, 1), (0, entry, 0),
                        (0, entry // 2, entry, entry + 1), (0, 0, entry, entry - 1)):
            yield dict(entries=[min(MAX, number) for number in entries])
        yield dict(entries=[0] * 2047 + [entry])
        yield dict(entries=[0] + [entry] * 60, working_places=70, list_places=70)


# Jobs

def sizes_about(capacity):
    return [x for x in around(1, capacity // 2, capacity) if 1 <= x <= capacity] + [2**31 - 1] * (capacity > 2**31)


def capacities():
    for capacity, size in itertools.product(LARGE, [0, 1] + LARGE):
        yield job(1, capacity, (size,))
        yield job(2, capacity, (size, 0), family(5, 1))
        yield rows.model([(10, 3), (capacity, size)])


def first_steps():
    for capacity in WITHIN:
        for step in steps_about(capacity):
            yield job(1, capacity, sizes_about(capacity), family(*step))


def later_steps():
    """Behind a table and behind family 2, which leave the capacity that is wanted."""
    for capacity in WITHIN:
        for before in (tabled(0, capacity), family(2, capacity)):
            for step in list(steps_about(capacity))[::4]:
                yield job(1, 1, (1, 1), before, family(*step), family(1, 0))
    for entry in LARGE:
        yield job(1, 1, (1,), tabled(0, entry), tabled(0, 1))
        yield job(2, 2, (0, 1, 2), tabled(0, entry, entry))
        yield rows.model([(1, 1), (1, 0)], tabled(0, entry), family(3, 2))


def chains():
    """Every family at the limit, in each order of two and all of them."""
    sizes = sizes_about(LIMIT)
    for steps in itertools.product(AT_LIMIT, repeat=2):
        yield job(1, LIMIT, sizes, *(family(*step) for step in steps))
    every = [family(*step) for step in AT_LIMIT]
    for turn in range(len(every)):
        steps = every[turn:] + every[:turn]
        yield counts.counted(LIMIT, sizes, [MOST - turn] * len(sizes), *steps)
        yield blocks.blocked(LIMIT, sizes, (turn + 1, len(sizes) - turn - 1), *steps)
        yield rows.model([(LIMIT, *sizes), (LIMIT,)], *steps)
        yield job(2, LIMIT, sizes, *steps, family(2, 2))


def random_jobs():
    rng = random.Random(71)
    for _ in range(80):
        capacity = rng.choice((LIMIT, rng.randint(OLD, LIMIT), rng.randint(2**31, LIMIT)))
        sizes = [rng.randint(1, capacity) for _ in range(rng.randint(0, 6))]
        steps = [family(1, capacity // 2), family(5, rng.randint(1, capacity)), family(4, rng.randint(2, LIMIT // 2)),
                 family(3, rng.randint(1, 9)), family(2, 1), family(1, 0)]
        yield job(rng.randint(1, 2), capacity, sizes, *rng.choices(steps, k=rng.randint(1, 8)))


def texts():
    for part in (capacities, first_steps, later_steps, chains, random_jobs):
        yield from (dict(job=data) for data in part())
    yield dict(job=blocks.counted(LIMIT, [LIMIT] * 2048, [MOST] * 2048, [32] * 64))
    yield dict(job=rows.model([(LIMIT,) * 33] * 64, *(family(*step) for step in AT_LIMIT)))


# Sweeps

def sweeps():
    for capacity in LARGE:
        for family_byte in range(1, 6):
            for p in singles(capacity, family_byte):
                yield sweep(capacity, family_byte, sizes_about(capacity)[-4:], max(0, p - 2), p + 2)
    for family_byte, p in itertools.product(range(1, 6), LARGE):
        yield sweep(10, family_byte, (6, 6, 6), p - 2, p + 2)
        yield sweep(1, family_byte, (1,), p, p + 4095)
    for family_byte, p in ((1, 0), (2, 1), (3, 2), (4, LIMIT // 2 + 1), (5, 1)):
        yield counts.sweep(LIMIT, family_byte, [LIMIT] * 2048, [MOST] * 2048, p, p + 1)
    rng = random.Random(72)
    for _ in range(80):
        capacity = rng.randint(OLD, LIMIT)
        sizes = [rng.choice((capacity // 2 + 1, rng.randint(1, capacity))) for _ in range(rng.randint(0, 6))]
        low = rng.choice((0, capacity // 2 - 3, rng.randint(0, capacity)))
        numbers = [rng.choice((1, 300, MOST)) for _ in sizes]
        yield counts.sweep(capacity, rng.randint(1, 5), sizes, numbers, low, low + 6)


def inputs():
    return dict(image=images(), table=tables(), job=texts(), sweep=sweeps(), text=texts())
