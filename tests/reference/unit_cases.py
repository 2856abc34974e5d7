"""Cases of jobs at the limit of request 7, about it, and where doubles pass 32
bits: in lists, rows, lists with counts and with blocks, and at each step of a
chain."""

import itertools
import random

import windowfloor as wf
from edges import AT_LIMIT, BEFORE, DOUBLED, EDGES, LIMIT, MAX, of_scale, parameters_about, scales_of
from job_bytes import (
    SAME, apart, blocked_job, counted_blocked_job, counted_job, family, job, make, random_groups, random_pairs,
    rows_job, table)

RANDOM = 40  # of each sort
MOST_COUNT, MOST_ROWS = 65_535, 64
LARGE = (BEFORE, BEFORE + 1, 2**31) + EDGES

STEPS = tuple(family(*parameters) for parameters in AT_LIMIT)  # each leaves the limit as it is
BAD_STEPS = (family(1, 2**31), family(2, 2), family(3, 2**31 + 1), family(4, LIMIT // 2 + 2), family(5, LIMIT + 1),
             family(6, LIMIT // 5 * 3, LIMIT // 2), family(7, LIMIT // 5 * 3, 5))


def sizes_about(capacity):
    """Sizes of interest within the capacity."""
    within = {1, capacity // 2, capacity // 2 + 1, capacity - 1, capacity} | set(DOUBLED)
    return sorted(size for size in within if 1 <= size <= capacity)


def lists():
    """Capacities, and sizes at the limit, about it and over the capacity."""
    for capacity in LARGE:
        for size in EDGES + DOUBLED:
            yield job(1, capacity, (size,))
            yield job(2, capacity, (0, size), family(5, 1))
            yield rows_job([(capacity, 0, size), (capacity - 1, size)], family(1, 0))
        yield counted_job(capacity, [(min(capacity, LIMIT), MOST_COUNT), (7, 2)])


def first_steps():
    """Each family's parameters about what is legal, by all sizes of interest."""
    for capacity in LARGE:
        sizes = sizes_about(min(capacity, LIMIT))
        for parameters in parameters_about(capacity):
            yield job(1, capacity, sizes, family(*parameters))


def scales():
    """Scales at the limit and about it, of the only step and of a later one."""
    for number in range(1, 8):
        for scale in scales_of(number):
            capacity, *parameters = of_scale(number, scale)
            step = family(number, *parameters)
            yield job(1, capacity, (1, capacity), step)
            yield job(2, capacity, (0, capacity), family(1, 0), step, family(5, 1))
            yield rows_job([(capacity, capacity), (capacity, 1)], family(5, 1), step)


def entries():
    """Entries of tables at the limit and about it, as an image and as the scale."""
    for entry in (BEFORE + 1,) + EDGES + DOUBLED:
        yield job(1, 1, (1, 1), table(0, entry))
        yield job(2, 2, (0, 1, 2), table(0, 0, entry))
        yield job(1, 2, (1, 2), table(0, entry // 2, entry), family(1, 3))
        yield job(1, 3, (1, 2, 3), table(0, 0, entry, min(MAX, entry + 1)))
        yield rows_job([(2, 2), (3, 3)], family(4, 2), table(0, 0, entry))


def later_steps():
    """Steps at a large capacity that an earlier step leaves: a table, family 2, and family 7."""
    for scale in LARGE:
        for before in ((1, table(0, scale)), (1, family(2, scale)), (3, family(7, 2, scale - 1))):
            capacity, step = before
            for parameters in list(parameters_about(scale))[::3]:
                yield job(1, capacity, (1, capacity), step, family(*parameters))


def chains():
    """Every step leaves the limit; in each order of two, all of them, and with one that is refused behind them."""
    sizes = sizes_about(LIMIT)
    for steps in itertools.product(STEPS, repeat=2):
        yield job(1, LIMIT, sizes, *steps)
    for turn in range(len(STEPS)):
        steps = STEPS[turn:] + STEPS[:turn]
        yield job(2, LIMIT, sizes, *steps)
        yield counted_job(LIMIT, [(size, MOST_COUNT - turn) for size in sizes], *steps)
        yield blocked_job(LIMIT, [sizes[:turn + 1], sizes[turn + 1:]], *steps)
        yield rows_job([(LIMIT, *sizes), (LIMIT,)], *steps)
        for bad in BAD_STEPS:
            yield job(1, LIMIT, sizes, *steps, bad)


def largest():
    """The most of everything through every family: sums, blocks, rows, and the longest texts."""
    yield counted_blocked_job(LIMIT, [[(LIMIT, MOST_COUNT)] * 32] * 64, *STEPS)
    yield rows_job([(LIMIT,) + (LIMIT,) * 32] * MOST_ROWS, *STEPS)
    yield rows_job([(SAME,) * 33] * MOST_ROWS, family(4, LIMIT // 2 + 1))


def random_step(rng, capacity):
    """A step that is accepted there, and its scale: often one that keeps it large."""
    accepted = [parameters for parameters in parameters_about(capacity)
                if wf.family_refusal(capacity, *parameters) == wf.ACCEPTED]
    parameters = rng.choice(accepted)
    return family(*parameters), wf.family_scale(capacity, *parameters)


def random_chain(rng, capacity):
    steps = []
    for _ in range(rng.randint(1, 8)):
        step, capacity = random_step(rng, capacity)
        steps.append(step)
    return steps


def random_jobs():
    rng = random.Random(70_707)
    for _ in range(RANDOM):
        capacity = rng.choice((LIMIT, LIMIT - 1, rng.randint(BEFORE, LIMIT), rng.randint(2**31, LIMIT)))
        steps = random_chain(rng, capacity)
        pairs = random_pairs(rng, capacity, rng.randint(1, 9), rng.choice((1, MOST_COUNT)))
        sizes, _ = apart(pairs)
        yield job(rng.randint(1, 2), capacity, sizes, *steps)
        yield counted_job(capacity, pairs, *steps)
        yield counted_blocked_job(capacity, random_groups(rng, pairs, 64), *steps)
        yield rows_job([(capacity, *sizes)] * rng.randint(1, 4), *steps)


def unit_cases():
    for part in (lists, first_steps, scales, entries, later_steps, chains, largest, random_jobs):
        yield from map(make, part())
