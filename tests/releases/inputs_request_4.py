"""The inputs of request 4, made from fixed seeds: jobs with counts (tag 7), whole, cut
short, damaged and out of place, the same as texts, and sweeps with counts. In most of
them the capacity is 10 and the sizes are 7, 5 and 4.

Counts have one byte, two and the most; 0 stands in each place, alone and beside what
goes before it and behind it; lengths and numbers of counts are right and wrong; sums
reach the largest one."""

import itertools
import random

import inputs_base as base
from inputs_base import IDENTITY, LIMIT, MAX, MAX64, family, field, halves, head, job, row, tabled
from inputs_request_1 import KIND_3, LEAST_PLACES

MOST = 65_535
COUNTS = (1, 2, 255, 256, MOST)
LIST = (7, 5, 4)
FULL = [LIMIT] * base.SIZES
COUNTED = halves(7, 300, 1, MOST)
GOOD = head(1, 10, LIST) + [COUNTED, family(1, 4), family(3, 3), tabled(0, 0, 2, 3, 3, 4, 6)]


def counted(capacity, sizes, counts, *steps):
    return job(1, capacity, sizes, halves(7, *counts), *steps)


# Jobs

def single_counts():
    for count, capacity in itertools.product(COUNTS, (1, 10, LIMIT)):
        for size in sorted({1, capacity // 2 + 1, capacity}):
            yield counted(capacity, (size,), (count,))
    for count in COUNTS:
        yield counted(10, (6,), (count,), family(1, 5))
        yield counted(10, (6,), (count,), tabled(*[0] * 6, *[9] * 5))
    for count in (1, 2, 255, 256, 300):  # as many sizes, and one with that count
        yield job(1, 10, (6,) * count, family(1, 5))
        yield counted(10, (6,), (count,), family(1, 5))


def mixtures():
    for counts in itertools.combinations_with_replacement(COUNTS, 3):
        yield counted(10, LIST, counts)
        yield counted(10, LIST[::-1], counts, family(1, 4))
    for counts, step in itertools.product(((1, 1, 1), (300, 2, 65_000), (MOST, 256, 255)), base.STEPS):
        yield counted(10, LIST, counts, step)


def exact_quotients():
    """Sums at multiples of the scale, and one below and above."""
    for scale, count in itertools.product((7, 256, 65_534), (1, 300, MOST - 1)):
        for more in (-1, 0, 1):
            yield counted(scale, (scale, 1), (count, scale + more))


def chains():
    """0 to 9 steps of both tags behind the counts."""
    for count in range(10):
        for steps in ((family(1, 3), family(5, 5)), (IDENTITY, tabled(*[0] * 6, *[10] * 5))):
            yield counted(10, (1, 3, 6, 8, 10), (MOST, 300, 1, 256, 2), *(steps * 5)[:count])


def zeros():
    for place in range(3):
        for other in COUNTS:
            yield counted(10, LIST, [0 if i == place else other for i in range(3)])
    yield counted(10, LIST, (0, 0, 0))
    for place in (0, 1023, 2047):
        yield counted(10, [5] * base.SIZES, [int(i != place) for i in range(base.SIZES)])


def beside_other_refusals():
    """A count of 0 beside each number before it and behind it, and counts in order beside them."""
    for sizes in ((0, 5), (11, 5), (5, 0), (5, 11)):
        for counts in ((0, 1), (1, 0), (1, 1)):
            yield counted(10, sizes, counts)
            yield counted(0, sizes, counts)
    for capacity in (0, LIMIT + 1, MAX):
        yield counted(capacity, (5,), (0,))
        yield counted(capacity, (5,), (1,))
    for step, count in itertools.product(base.BAD_STEPS + base.OTHER_TABLES[::4], (0, 300)):
        yield counted(10, (3, 8), (2, count), step)
    for end in (b"\7", b"\4\0\x09", field(4, bytes(8)), field(5, bytes(4)), row(10, 3), COUNTED, field(9, b"")):
        yield counted(10, (0,), (0,)) + end


def lengths():
    """Every short length, right ones of other lists, and headers that say another one."""
    for n, length in itertools.product(range(4), range(10)):
        yield job(1, 10, LIST[:n], field(7, (b"\0\2" * 5)[:length]))
    for n in (base.SIZES - 1, base.SIZES):
        for more in (-1, 0, 1):
            yield counted(10, [5] * n, [300] * (n + more))
    for length in (0, 4, 5, 7, 8, 256, MOST):
        yield job(1, 10, LIST, field(7, COUNTED[3:], length))
        yield job(1, 10, LIST, field(7, COUNTED[3:], length), family(1, 4))
    for length in (12, 24):  # a count of as many bytes as a size, and of more
        yield job(1, 10, LIST, field(7, bytes(length)))


def places():
    """Tag 7 at every place of a job of each kind, twice, and in the place of another field."""
    for kind in (0, 1, 2, 4, 255):
        fields = head(kind, 10, LIST) + [family(1, 4), IDENTITY]
        for place in range(len(fields) + 1):
            yield b"".join(fields[:place] + [COUNTED] + fields[place:])
        yield b"".join(fields[:3] + [COUNTED] * 2 + fields[3:])
        yield b"".join(fields[:3] + [COUNTED, fields[3], COUNTED])
        yield b"".join(head(kind, 10, ()) + [field(7, b"")])
        yield b"".join(fields[:3] + [halves(7, 1, 0, 1)])
        yield b"".join(fields[:3] + [halves(7, 1)])
    for fields in ([COUNTED], [row(10, *LIST), COUNTED], [COUNTED, row(10, *LIST)], [row(10), field(7, b"")],
                   [row(10, *LIST), family(1, 4), COUNTED], head(1, 10, LIST)[1:] + [COUNTED]):
        yield KIND_3 + b"".join(fields)
    for place in range(len(GOOD)):
        yield b"".join(GOOD[:place] + [COUNTED] + GOOD[place + 1:])
        yield b"".join(GOOD[:place] + GOOD[place + 1:])


def no_sizes():
    yield counted(10, (), ())
    yield counted(0, (), ())
    yield counted(10, (), (), family(1, 4))
    yield counted(10, (), (), family(1, 6))
    yield counted(10, (), ()) + field(7, b"")
    yield counted(10, (), (1,))


def cut_short():
    """Within the counts and the step behind them."""
    before, data = b"".join(GOOD[:3]), b"".join(GOOD[:5])
    for end in range(len(before), len(data) + 1):
        yield data[:end]


def longest():
    """A job of 65,535 bytes, cut short, longer, and with a count of 0."""
    steps = [tabled(*[0] * 2047, 2047)] * 6 + [tabled(*[0] * 2047, 88), tabled(*range(89))]
    sizes = [2047] * 100 + [1] * 1199
    data = counted(2047, sizes, [300] * 1299, *steps)
    yield from (data, data[:-1], data + b"\0")
    yield counted(2047, sizes, [300] * 1298 + [0], *steps)


def random_counts(rng, n):
    return [rng.choice(COUNTS + (3, 300, rng.randint(1, MOST))) for _ in range(n)]


def random_fields(rng):
    """A job of kind 1 with a count for each size."""
    fields = base.random_fields(rng)
    while fields[0][3] != 1:
        fields = base.random_fields(rng)
    n = len(fields[2][3:]) // 4
    return fields[:3] + [halves(7, *random_counts(rng, n))] + fields[3:]


def random_jobs():
    rng = random.Random(41)
    for _ in range(20):
        yield b"".join(random_fields(rng))
        yield base.damaged(rng, random_fields(rng))
        yield base.changed_value(rng, random_fields(rng))


PARTS = (single_counts, mixtures, exact_quotients, chains, zeros, beside_other_refusals, lengths, places, no_sizes,
         cut_short, longest, random_jobs)


def largest_sums():
    most = [MOST] * base.SIZES
    for steps in ((), (family(1, LIMIT // 2),), (family(5, LIMIT // 2 + 1),), (family(1, 0),) * 8):
        yield counted(LIMIT, FULL, most, *steps)
    yield counted(LIMIT, FULL[1:] + [1], most)
    yield counted(1, [1] * base.SIZES, most, family(2, LIMIT))
    yield counted(1, [1] * base.SIZES, most, tabled(0, LIMIT))
    yield counted(LIMIT, [400_000 * i + 1 for i in range(base.SIZES)], range(1, base.SIZES + 1), family(1, 7))


def texts():
    """Every job but the longest texts, of which one has the largest sum."""
    for part in PARTS:
        for data in part():
            yield dict(job=data)
    yield dict(job=next(largest_sums()))


def short_and_long_buffers():
    """Each buffer too short and longer, for counts that are accepted, of wrong length and 0."""
    for counts, (name, least) in itertools.product(((1, 2, 300), (1, 2), (1, 0, 2)), LEAST_PLACES.items()):
        for more in (-1, 9):
            yield {"job": counted(10, LIST, counts), name: least + more}


def jobs():
    yield from texts()
    for data in largest_sums():
        yield dict(job=data)
    yield from short_and_long_buffers()


# Sweeps

def sweep(capacity, number, sizes, counts, low, high):
    return dict(capacity=capacity, family=number, sizes=list(sizes), counts=list(counts), low=low, high=high)


def counted_lists():
    """Each count alone and between others, and one size with the count of as many sizes."""
    for number, count in itertools.product(range(1, 6), COUNTS):
        yield sweep(10, number, (6,), (count,), 1, 5)
        yield sweep(60, number, (31, 24, 15), (2, count, 300), 0, 60)
        yield sweep(97, number, (33, 40, 96), (count, 1, 256), 0, 97)
    for number in range(1, 6):
        yield sweep(10, number, (6,) * 300, (1,) * 300, 1, 5)
        yield sweep(10, number, (6,), (300,), 1, 5)


def best_by_counts():
    """Lists whose best p goes by the counts, and floors that many p share."""
    for number in range(1, 6):
        for counts in itertools.permutations((1, 20, 400)):
            yield sweep(60, number, (21, 31, 45), counts, 0, 60)
        yield sweep(60, number, (60, 60), (300, MOST), 0, 60)
        yield sweep(60, number, (1,), (60,), 0, 60)
        yield sweep(60, number, (1, 59), (MOST, MOST), 0, 4095)


def exact_floors():
    """Sums at multiples of the scale, and one below and above."""
    for (number, p), more in itertools.product(((1, 0), (2, 1), (3, 1), (4, 97), (5, 96)), (-1, 0, 1)):
        yield sweep(96, number, (96, 1), (300, 96 + more), p, p)
        yield sweep(96, number, (96, 48), (MOST, 2 + more), p, p)


def largest_sweeps():
    for number in range(1, 6):
        yield sweep(LIMIT, number, FULL, [MOST] * base.SIZES, 1, 3)
        yield sweep(LIMIT, number, [1 + 400_000 * i for i in range(base.SIZES)], range(1, base.SIZES + 1), 2, 4)
        yield sweep(1, number, [1] * base.SIZES, [MOST] * base.SIZES, LIMIT - 1, LIMIT + 1)
        yield sweep(LIMIT, number, FULL, [MOST] * (base.SIZES - 1) + [0], 1, 3)


def other_lengths():
    """Fewer and more counts than sizes, about the most of both, and counts of 0 that are not looked at."""
    for n, more in itertools.product((0, 1, 3, 2047, 2048, 2049), (-2, -1, 0, 1)):
        if n + more >= 0:
            yield sweep(10, 1, [6] * n, [2] * (n + more), 1, 5)
            yield sweep(10, 5, [6] * n, [0] * (n + more), 1, 5)
    yield sweep(10, 2, [0] * 3, [1] * 2, 1, 5)
    yield sweep(10, 3, [6] * 3, [], 1, 5)
    yield sweep(10, 4, [], [1] * 2048, 1, 5)


def zero_counts():
    for number, place in itertools.product(range(1, 6), range(3)):
        yield sweep(10, number, LIST, [0 if i == place else 300 for i in range(3)], 2, 5)
    for place in (0, 1023, 2047):
        yield sweep(10, 1, [5] * base.SIZES, [int(i != place) for i in range(base.SIZES)], 1, 5)


FAULTS = (  # of an accepted sweep with three sizes, beside each fault of the counts
    dict(), dict(capacity=0), dict(capacity=LIMIT + 1), dict(family=0), dict(family=6), dict(sizes=[4, 4, 0]),
    dict(sizes=[0, 4, 4]), dict(sizes=[11, 4, 4]), dict(sizes=[4] * 4), dict(sizes=[4] * 2049), dict(low=6, high=5),
    dict(low=0, high=4096), dict(low=MAX64, high=MAX64))
FAULTS_OF_COUNTS = [300] * 2, [300] * 4, [], [300, 0, 1], [0, 1, 1], [1, 1, 0], [0, 0], [0] * 4


def two_faults():
    for fault, counts in itertools.product(FAULTS, FAULTS_OF_COUNTS):
        yield sweep(10, 1, (4, 4, 4), counts, 1, 3) | fault
    for fault in FAULTS[1:]:
        yield sweep(10, 1, (4, 4, 4), (300, 1, MOST), 1, 3) | fault


def random_sweeps():
    rng = random.Random(42)
    for _ in range(100):
        capacity = rng.randint(1, rng.choice((12, 60, 1000, LIMIT)))
        low = rng.choice((0, 1, rng.randint(0, capacity), capacity // rng.randint(1, 9)))
        near = capacity // rng.randint(1, 5)
        sizes = [min(capacity, rng.choice((near + rng.randint(1, 3), rng.randint(1, capacity))))
                 for _ in range(rng.randint(0, 6))]
        counts = random_counts(rng, len(sizes))
        yield sweep(capacity, rng.randint(1, 5), sizes, counts, low, low + rng.choice((0, 1, 7, 40)))


def sweeps():
    for part in (counted_lists, best_by_counts, exact_floors, largest_sweeps, other_lengths, zero_counts, two_faults,
                 random_sweeps):
        yield from part()


def inputs():
    return dict(job=jobs(), sweep=sweeps(), text=texts())
