"""The inputs of request 2: jobs with tables of the present capacity and of others,
in order and refused with each of 8 to 11, in every kind, as a first and as a later
step, in rows, beside other refusals and with every buffer. The present capacity is
12 in most of them."""

import itertools
import random

import inputs_base as base
from inputs_base import LIMIT, MAX, family, job, tabled
from inputs_request_1 import KIND_3, LEAST_PLACES, model

GOOD = tabled(*range(13))
TO_12 = family(4, 7)  # has scale 12 at every capacity from 7 up


def bad_tables(capacity):
    """Refused with 8, 9, 10 and 11; capacity 1 has none with 11."""
    zeros = [0] * (capacity - 1)
    yield tabled(7, *zeros, 1)
    yield tabled(0, *zeros, 0)
    yield tabled(0, *zeros, LIMIT + 1)
    if capacity > 1:
        yield tabled(0, 1, *zeros[1:], capacity - 1)


def tables(capacity):
    """One in order, the bad ones, and two with several things wrong."""
    yield tabled(*range(capacity + 1))
    yield from bad_tables(capacity)
    yield tabled(LIMIT + 1, *[1] * (capacity - 1), 0)
    yield tabled(0, *[MAX] * capacity)


def first_steps():
    for kind, capacity in itertools.product((1, 2), (2, 11, 12, 13, 40)):
        for table in tables(capacity):
            yield job(kind, 12, (5, 12), table)
    for present, capacity in ((1, 2), (2, 1), (LIMIT, 12), (2048, 12)):
        for table in bad_tables(capacity):
            yield job(1, present, (), table)


def later_steps():
    """Behind a step of either tag whose scale is not the job's capacity, and as the last of eight."""
    for capacity in (11, 12, 13):
        for table in tables(capacity):
            yield job(1, 6, (5, 1), family(2, 2), table)
            yield job(2, 11, (5, 0), tabled(*[0] * 11, 12), table)
            yield job(1, 12, (5, 12), *[family(1, 3)] * 7, table)
    for table in itertools.chain(bad_tables(6), bad_tables(24)):
        yield job(1, 6, (5, 1), family(2, 2), table)
        yield job(2, 6, (5, 1), family(2, 2), tabled(*[0] * 12, 24), table, TO_12)


def in_rows():
    """Tables of row 1's capacity, of a later row's and of none; good ones that a later row does not fit."""
    models = [(12, 5), (12, 12, 0)], [(12, 5), (13,)], [(13,), (12, 5)], [(12, 1), (12, 13)]
    for capacity in (11, 12, 13):
        for table in tables(capacity):
            for rows in models:
                yield model(rows, table)
            yield model([(11, 5), (13, 13, 0)], TO_12, table)
        yield model([(12, 3)] * 63 + [(capacity, 3)], GOOD, TO_12)
    for table in bad_tables(13):
        yield model([(12, 3)] * 63 + [(13, 3)], GOOD, table)


def several_tables():
    """A bad one of the present capacity and a bad one of another, in both orders, alone and behind a good one."""
    for right, other in zip(bad_tables(12), bad_tables(5)):
        for steps in ((right, other), (other, right)):
            yield job(1, 12, (5,), *steps)
            yield job(2, 12, (5,), GOOD, *steps)
            yield model([(12, 5), (5, 5)], *steps)


def beside_others():
    """What goes before the table, and a step behind it that is not judged."""
    for table in bad_tables(3):
        yield job(1, 12, (13,), table)
        yield job(1, 12, (0, 5), table)
        yield job(1, 0, (), table)
        yield job(4, 12, (5,), table)
        yield job(1, 12, (5,), family(1, 7), table)
        yield job(1, 12, (5,), table, family(8, 1))
        yield job(1, 12, (5,), *[family(1, 3)] * 8, table)
        yield job(1, 12, (5,), table)[:-1]
        yield job(1, 12, (5,), table) + b"\4"
        yield KIND_3 + table
        yield model([(12,)] * 65, table)
        yield model([(12, 13)], table)
        yield model([(12, 5)], family(1, 7), table)


def longest_lists():
    full = tabled(0, 1, *[0] * 2045, 2045)
    for present in (2046, 2047, 2048):
        yield job(2, present, (3,), full)
        yield model([(present, 3), (2047, 3)], full)


def random_steps(rng, capacity):
    """Accepted steps, and behind them a table about the present capacity, often bad."""
    steps = []
    for _ in range(rng.randint(0, 3)):
        step, scale = base.random_family(rng, capacity)
        if scale <= 60:
            steps.append(step)
            capacity = scale
    entries = base.some_entries(rng, max(1, capacity + rng.choice((-1, 0, 1, 4))))
    return steps + [tabled(*(base.spoiled(rng, entries) if rng.randint(0, 1) else entries))]


def random_jobs():
    rng = random.Random(21)
    for _ in range(25):
        capacity = rng.randint(2, 30)
        sizes = [rng.randint(1, capacity) for _ in range(rng.randint(0, 3))]
        yield job(1, capacity, sizes, *random_steps(rng, capacity))
        yield job(2, capacity, sizes, *random_steps(rng, capacity))
        yield model([(capacity, *sizes), (capacity + rng.randint(0, 1),)], *random_steps(rng, capacity))


PARTS = (first_steps, later_steps, in_rows, several_tables, beside_others, longest_lists, random_jobs)


def short_and_long_buffers():
    """Each buffer too short and longer, for tables of another capacity and of the present one."""
    changes = (-1, 0, 0, 0), (0, -1, 0, 0), (0, 0, -1, 0), (0, 0, 0, -1), (2, 0, 0, 0), (0, 0, 9, 0), (9, 9, 9, 9)
    for capacity, change in itertools.product((11, 12), changes):
        places = {name: LEAST_PLACES[name] + more for name, more in zip(LEAST_PLACES, change) if more}
        *_, not_feasible = bad_tables(capacity)
        yield dict(job=job(1, 12, (5,), not_feasible), **places)
        yield dict(job=model([(12, 5)], not_feasible), **places)


def texts():
    for part in PARTS:
        for data in part():
            yield dict(job=data)


def jobs():
    yield from texts()
    yield from short_and_long_buffers()


def inputs():
    return dict(job=jobs(), text=texts())
