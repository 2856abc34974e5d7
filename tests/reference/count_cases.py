"""Cases of jobs with counts, and of tag 7 where it is out of place. A pair is a
size and its count."""

import itertools
import random

import windowfloor as wf
from edges import LIMIT, MAX
from job_bytes import (
    BAD_STEPS, SAME, counted_fields, counted_job, counts, cut_short, damaged, family, field, head, job, leaving, make,
    make_both, moved, other_lengths_at, other_tags_at, other_value, random_pairs, random_steps, row, table, tables_of,
    word, written_out)
from table_cases import FAMILY_STEPS, MOST_PLACES

RANDOM = 20  # of each kind
SIZES, MOST_COUNT = 2048, 65_535
IDENTITY = table(*range(11))
TO_LIMIT = family(4, LIMIT // 2 + 1)  # of scale LIMIT at every capacity where it is legal
PLACE = 3  # of the counts among a job's fields

# An accepted job with steps of both tags.
SMALL = counted_fields(10, [(7, 2), (3, 300), (10, 1)], family(4, 3), table(0, 0, 1, 1, 2))
COUNT_OF_0 = counted_job(10, [(7, 2), (3, 0), (10, 1)])


def reckoned():
    """The jobs of 01, their equal sizes counted, and a block of identical meters."""
    yield counted_job(10, [(7, 2), (5, 3)], family(1, 4), family(3, 3))
    yield counted_job(10, [(6, 3)])
    yield counted_job(10, [(6, 3)], family(1, 5))
    yield counted_job(10, [(6, 1), (6, 2)], family(1, 5))
    yield counted_job(10, [(5, 300)])


def limits():
    """Counts at their limits and about a byte's, alone and two together."""
    for count in (1, 2, 3, 127, 128, 254, 255, 256, 257, 32_767, 32_768, MOST_COUNT - 1, MOST_COUNT):
        yield counted_job(10, [(7, count)])
        yield counted_job(LIMIT, [(LIMIT, count)], family(5, 7))
    for first, second in itertools.product((1, 2, MOST_COUNT), repeat=2):
        for steps in ((), (family(1, 4),), (IDENTITY, family(5, 4))):
            yield counted_job(10, [(7, first), (4, second)], *steps)


def byte_orders():
    """Counts whose two bytes change places with one another."""
    for first, second in ((1, 256), (255, 65_280), (258, 513), (0x1234, 0x3412), (0x00FF, 0x0100)):
        yield counted_job(10, [(7, first), (3, second)])
        yield counted_job(10, [(7, second), (3, first)], family(3, 3))


def neighbours():
    """Counts that differ from size to size, so that one of another size shows."""
    numbers = (1, 10, 100, 1000, 10_000)
    for turn in range(5):
        pairs = list(zip((1, 3, 6, 8, 10), numbers[turn:] + numbers[:turn]))
        for steps in ((), (family(5, 4),), (IDENTITY, family(1, 3))):
            yield counted_job(10, pairs, *steps)
    for step in FAMILY_STEPS:
        yield counted_job(10, [(size, 2**size) for size in range(1, 11)], family(*step))
    yield counted_job(600, [(size, 601 - size) for size in range(1, 601)])
    yield counted_job(600, [(size, 3 * size) for size in range(1, 601)], family(1, 200))


def no_sizes():
    """Counts of length 0: no size, and so no count that is 0."""
    for steps in ((), (family(1, 3),), (IDENTITY,), (family(8, 1),), (table(0, 1),), (family(1, 3),) * 8,
                  (family(1, 3),) * 9):
        yield counted_job(10, [], *steps)
    for capacity in (0, 1, LIMIT, LIMIT + 1, MAX):
        yield counted_job(capacity, [])


def chains():
    """0 to 9 steps of families, of tables and of both."""
    for count in range(10):
        for steps in ((family(1, 3), family(5, 5)), (IDENTITY, table(*[0] * 6, *[10] * 5)), (family(1, 2), IDENTITY)):
            yield counted_job(10, [(3, 4), (8, 500), (10, 7)], *(steps * 5)[:count])


def refused_steps():
    """Each refused step behind counts that are in order, first or later."""
    for before, step in zip(itertools.cycle(range(8)), BAD_STEPS):
        yield counted_job(10, [(3, 4), (8, 500)], *[family(1, 3)] * before, step)


def zeros():
    """A count of 0 at every place of a few, at the first, middle and last of many, and at all."""
    for n in (1, 2, 3):
        for place in range(n):
            numbers = [5] * place + [0] + [5] * (n - 1 - place)
            yield counted_job(10, list(zip((7, 3, 10), numbers)))
            yield counted_job(10, list(zip((7, 3, 10), numbers)), family(1, 3))
    for place in (0, SIZES // 2, SIZES - 1):
        yield counted_job(LIMIT, [(SAME, 257)] * place + [(SAME, 0)] + [(SAME, 257)] * (SIZES - 1 - place))
    yield counted_job(LIMIT, [(SAME, 0)] * SIZES)
    yield counted_job(10, [(7, 256), (3, 1)])  # bytes of 0 that are no counts of 0
    yield counted_job(10, [(7, 256), (3, 0), (10, 1)])


def sizes_and_zeros():
    """22 with what goes before it: 17 in every place of both, and 1 with and without 17."""
    for wrong, place, zero in itertools.product((0, 11, MAX), range(3), range(3)):
        sizes, numbers = [7, 3, 10], [2, 300, 1]
        sizes[place], numbers[zero] = wrong, 0
        yield counted_job(10, list(zip(sizes, numbers)))
    for capacity, size in itertools.product((0, LIMIT + 1, MAX), (0, 1, MAX)):
        yield counted_job(capacity, [(size, 0), (1, 5)], family(8, 1))


def steps_and_zeros():
    """22 with what comes behind it: every refused step, and one behind another."""
    for step in BAD_STEPS:
        yield COUNT_OF_0 + step
    yield COUNT_OF_0 + family(1, 3) + family(8, 1)
    yield COUNT_OF_0 + IDENTITY * 8


def later_fields():
    """13, 14 and 15 in a field behind the counts: they go before 22."""
    step = family(1, 3)
    for start in (counted_job(10, [(7, 2)]), COUNT_OF_0):
        for end in (b"\4", b"\5\0", b"\7", b"\7\0", b"\7\0\2\0", b"\4\0\x09" + bytes(8), b"\5\0\x08" + bytes(7),
                    field(1, b"\1"), field(2, word(10)), field(3, word(5)), row(10, 3), b"\0\0\0", b"\x09\0\0",
                    counts(1), counts(2, 3, 4), counts(), step + counts(1), step * 9, step * 8 + b"\4",
                    field(4, bytes(8)), field(5, bytes(4)), field(5, bytes(9)), step + field(4, b"")):
            yield start + end


def out_of_place():
    """Tag 7 at every place of every kind, past the end, as the last field, and other tags in its place."""
    for kind in (0, 1, 2, 3, 4, 255):
        fields = head(kind, 10, (3,)) + [family(1, 3)]
        for place, part in itertools.product(range(5), (counts(5), counts())):
            yield b"".join(fields[:place] + [part] + fields[place:])
        yield b"".join(fields[:3] + [counts(5)[:-1]])
        yield b"".join(fields[:2] + [counts(5)])
    for chosen in itertools.product((counts(5), family(1, 3), IDENTITY), repeat=2):
        yield job(1, 10, (3,), *chosen)
    yield from other_tags_at(SMALL, PLACE)


def among_rows():
    """Tag 7 in every place of a job of kind 3."""
    fields = [field(1, b"\3"), row(10, 7), row(12, 5, 5), family(1, 3)]
    for place in range(5):
        for part in (counts(5), counts()):
            yield b"".join(fields[:place] + [part] + fields[place:])


def lengths():
    """Lengths about twice the number of sizes, and others."""
    for n in (0, 1, 2, 127, 128, SIZES):
        for length in sorted({0, 2, n, 2 * n - 2, 2 * n - 1, 2 * n, 2 * n + 1, 2 * n + 2, 2 * n + 256, 4 * n}):
            if length >= 0:
                yield job(1, LIMIT, (SAME,) * n, field(7, b"\1" * length), family(1, 0))
    yield from other_lengths_at(SMALL, PLACE)


def truncated():
    """Counts and steps cut at every byte."""
    for end in cut_short(b"".join(SMALL[PLACE:])):
        yield b"".join(SMALL[:PLACE]) + end


def largest():
    """The largest sums, without a step and with images at the limit, and sums next to them."""
    yield counted_job(LIMIT, [(LIMIT, MOST_COUNT)] * SIZES)
    yield counted_job(1, [(1, MOST_COUNT)] * SIZES, table(0, LIMIT))
    most = [(SAME, MOST_COUNT)] * (SIZES - 1)
    for last in ((SAME, MOST_COUNT), (SAME, MOST_COUNT - 1), (SAME, 1), (1, MOST_COUNT), (SAME, 0)):
        yield counted_job(SAME, most + [last])
        yield counted_job(SAME, most + [last], TO_LIMIT)
    yield counted_job(SAME, most, TO_LIMIT, *[family(1, 0)] * 7)
    rng = random.Random(70_000)
    yield counted_job(250, random_pairs(rng, 250, SIZES, MOST_COUNT), family(7, 13, 30), family(5, 9))


def roundings():
    """Floors of sums that are a multiple of E, and next to one."""
    rng = random.Random(80_000)
    for capacity, *steps in ((96,), (96, family(3, 7)), (6, table(0, 0, 2, 3, 3, 4, 6), family(5, 4))):
        for left in (0, 1, -1):
            yield leaving(lambda: counted_job(capacity, random_pairs(rng, capacity, 4, MOST_COUNT), *steps), left)
    for last in (1, SAME - 1):
        yield counted_job(SAME, [(SAME, MOST_COUNT)] * (SIZES - 1) + [(last, 1)])


def longest():
    """Jobs of 65,535 bytes with few sizes and with many, and next to it."""
    for lengths, small in (((2036,) + (2048,) * 7, 0), ((500, 515) + (2048,) * 6, 2046)):
        capacity = lengths[0] - 1
        data = counted_job(capacity, [(capacity, 1000)] + [(5, 257)] * small, *tables_of(*lengths))
        assert len(data) == wf.MOST_JOB_BYTES
        yield from (data, data[:-1], data + b"\0", data + b"\7")


# Random jobs

def random_parts(rng, most):
    """Capacity, pairs with counts up to the most, and steps, of an accepted job."""
    capacity = rng.choice((1, 7, 10, 24, 100, 12_345, LIMIT, rng.randint(1, 30), rng.randint(1, LIMIT)))
    return capacity, random_pairs(rng, capacity, rng.randint(0, 7), most), random_steps(rng, capacity)


def random_fields(rng):
    capacity, pairs, steps = random_parts(rng, rng.choice((3, 300, MOST_COUNT)))
    return counted_fields(capacity, pairs, *steps)


def counted_and_written_out():
    """A job with counts, and the same job with the copies that it counts."""
    rng = random.Random(90_000)
    for _ in range(RANDOM):
        capacity, pairs, steps = random_parts(rng, 9)
        yield counted_job(capacity, pairs, *steps)
        yield job(1, capacity, written_out(pairs), *steps)


def random_jobs():
    rng = random.Random(60_000)
    for _ in range(RANDOM):
        yield b"".join(random_fields(rng))
        yield damaged(rng, random_fields(rng))
        yield moved(rng, random_fields(rng), PLACE)
        yield other_value(rng, random_fields(rng), PLACE)


def buffers():
    """Each buffer too short, exact and longer."""
    jobs = (b"".join(SMALL), COUNT_OF_0, counted_job(10, [(7, 300)], table(*range(10), 9)))
    for data in jobs:
        for room in ((2047, 2048, 2047, 64), (2048, 2047, 2047, 64), (2048, 2048, 2046, 64), (2048, 2048, 2047, 63),
                     (2048, 2048, 2047, 64), (MOST_PLACES,) * 4):
            yield from make_both(data, *room)


def count_cases():
    for part in (reckoned, limits, byte_orders, neighbours, no_sizes, chains, refused_steps, zeros, sizes_and_zeros,
                 steps_and_zeros, later_fields, out_of_place, among_rows, lengths, truncated, largest, roundings,
                 longest, counted_and_written_out, random_jobs):
        yield from map(make, part())
    yield from buffers()
