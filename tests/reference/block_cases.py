"""Cases of jobs with blocks, and of tag 8 where it is out of place. A group has
the sizes of one block, or its pairs of a size and a count."""

import itertools
import random

import windowfloor as wf
from edges import LIMIT, MAX
from job_bytes import (
    BAD_STEPS, MOST_ONES, ONES, SAME, blocked_job, blocks, blocks_of, counted_blocked_job, counted_fields, counted_job,
    counts, cut_short, damaged, family, field, groups_at, halfwords, head, job, make, make_both, moved,
    other_lengths_at, other_tags_at, other_value, random_groups, random_pairs, random_steps, row, rows_job, table,
    tables_of, together, with_early_faults, word, written_out)
from table_cases import FAMILY_STEPS, MOST_PLACES

RANDOM = 24  # of each kind
SIZES, MOST, MOST_COUNT = 2048, 64, 65_535  # the most sizes, blocks, and copies of a size
IDENTITY = table(*range(11))
TO_SIX = family(1, 4), family(3, 3)  # the images 6 of 7 and 3 of 5 at capacity 10
TO_LIMIT = family(4, LIMIT // 2 + 1)  # of scale LIMIT at every capacity where it is legal
PLACE = 4  # of the blocks among the fields of SMALL

# An accepted job of three sizes with counts, blocks and steps of both tags.
SMALL = counted_fields(10, [(7, 2), (3, 300), (10, 1)], blocks(1, 2), family(4, 3), table(0, 0, 1, 1, 2))

# What 23 is for: no block, a block of 0, one size less and one more, 65,536 more, and too many blocks.
WRONG = (), (3, 0), (0, 3), (1, 1), (2, 2), (65_535, 4), (1,) * (MOST + 1)


def wrong_job(numbers, *steps):
    """The sizes and counts of SMALL in these blocks."""
    return b"".join(SMALL[:PLACE] + [blocks(*numbers)] + list(steps))


def reckoned():
    """A list cut into blocks in every way, also with a count for each size, and the lists of 01."""
    for cuts in itertools.chain(*(itertools.combinations(range(1, 5), count) for count in range(5))):
        yield blocked_job(10, groups_at((7, 5, 7, 5, 5), cuts), *TO_SIX)
        yield counted_blocked_job(10, groups_at(((7, 1), (5, 2), (7, 3), (5, 1), (5, 4)), cuts), *TO_SIX)
    yield counted_blocked_job(10, [[(7, 2)], [(5, 3)]], *TO_SIX)
    for groups in ([[6, 6, 6]], [[6, 6], [6]], [[6], [6], [6]]):
        yield blocked_job(10, groups)
        yield blocked_job(10, groups, family(1, 5))


def numbers_of_blocks():
    """As many blocks as may be and more, of one size each and of more; 256 and 320 are 0 and 64 in one byte."""
    for count in (0, 1, 2, 63, 64, 65, 66, 256, 320):
        yield blocked_job(LIMIT, [[SAME]] * count)
    for count in (0, 1, 2, 63, 64, 65):
        yield counted_blocked_job(LIMIT, [[(SAME, 257)]] * count, family(1, LIMIT // 2))
        yield job(1, LIMIT, (SAME,) * 64, blocks(*[1] * count))
    for count, each in itertools.product((1, 2, 63, 64, 65), (2, 31)):
        yield blocked_job(SAME, [[SAME] * (each - 1) + [(i % MOST_ONES + 1) * ONES] for i in range(count)])
    for length in (65_516, 65_517, 65_518, 65_519):  # to the longest job and over it
        for byte in (0, 1):
            yield job(1, 10, (), field(8, bytes([byte]) * length))
            yield job(1, 10, (), field(8, bytes([byte]) * (length - 1), length))


def no_sizes():
    """No blocks where there are no sizes, and blocks there; no blocks where there are sizes."""
    for steps in ((), (family(1, 3),), (IDENTITY,), (family(8, 1),), (table(0, 1),), (IDENTITY,) * 8, (IDENTITY,) * 9):
        yield job(1, 10, (), blocks(), *steps)
        yield counted_job(10, (), blocks(), *steps)
    for capacity, numbers in itertools.product((0, 1, LIMIT, LIMIT + 1, MAX), ((), (0,), (1,))):
        yield job(1, capacity, (), blocks(*numbers))
    for numbers in ((0, 0), (0,) * 64, (0,) * 65, (1, 0), (256,), (65_535,)):
        yield job(1, 10, (), blocks(*numbers))
    for n in (1, 2, 3, 256, SIZES):
        yield job(1, LIMIT, (SAME,) * n, blocks())
        yield counted_job(LIMIT, [(SAME, 257)] * n, blocks(), family(1, 3))


def even_parts(n, parts):
    """Numbers that add up to n, the last no less than the others."""
    each = n // parts
    return [each] * (parts - 1) + [n - each * (parts - 1)]


def sums():
    """Blocks that add up to n, to one less and to one more, by the last of them or by the first."""
    for n, parts in itertools.product((1, 2, 3, 64, 256, SIZES - 1, SIZES), (1, 2, 3, 64)):
        if parts <= n:
            first, *others = even_parts(n, parts)
            yield job(1, LIMIT, (SAME,) * n, blocks(first, *others))
            for change in (-1, 1):
                yield job(1, LIMIT, (SAME,) * n, blocks(*others, first + change))
                yield counted_job(LIMIT, [(SAME, 514)] * n, blocks(first + change, *others), family(5, 7))


def long_sums():
    """Numbers whose sum passes 65,535, and comes to n where 65,536 is lost once or more often."""
    for n, numbers in (
            (0, (65_535, 1)), (1, (65_535, 2)), (1, (2, 65_535)), (3, (2, 65_535, 2)), (0, (32_768,) * 2),
            (1, (32_768, 32_768, 1)), (1, (65_535, 65_535, 3)), (7, (65_535,) * 7 + (14,)), (0, (1024,) * 64),
            (SIZES, (1056,) * 64), (1, (65_535,) * 63 + (64,)), (SIZES, (65_535,) * 63 + (SIZES + 63,)),
            (SIZES, (2047, 65_535, 2)), (5, (65_535,)), (5, (65_535, 65_535)), (SIZES, (65_535, SIZES)),
            (256, (1,)), (1, (256,)), (255, (65_280,))):
        yield job(1, LIMIT, (SAME,) * n, blocks(*numbers))
        yield counted_job(LIMIT, [(SAME, 257)] * n, blocks(*numbers), family(1, 3), family(8, 1))


def zeros():
    """A block of 0 at every place of a few, and at the first, a middle and the last of 64; the others add up."""
    for count in (1, 2, 3, 4):
        for place in range(count):
            numbers = [2] * place + [0] + [2] * (count - 1 - place)
            yield job(1, 10, (7,) * sum(numbers), blocks(*numbers))
            yield counted_job(10, [(7, 3)] * sum(numbers), blocks(*numbers), family(1, 3))
    for place in (0, 31, 63):
        yield job(1, LIMIT, (SAME,) * 63, blocks(*[1] * place, 0, *[1] * (63 - place)))
    for numbers in ((256, 512), (256, 0, 512), (1, 256, 255)):  # bytes of 0 that are no blocks of 0
        yield job(1, LIMIT, (SAME,) * sum(numbers), blocks(*numbers))


def byte_orders():
    """Numbers whose two bytes change places with one another."""
    for first, second in ((1, 256), (2, 512), (258, 513), (0x0103, 0x0301), (255, 256)):
        for numbers in ((first, second), (second, first)):
            yield blocked_job(SAME, [[SAME] * numbers[0], [3 * ONES] * numbers[1]])
            yield blocked_job(SAME, [[3 * ONES] * numbers[0], [SAME] * numbers[1]], family(5, 7))


def borders():
    """Which sizes a block has: at capacity 1 its floor has the powers of two that its sizes are counted by."""
    powers = [(1, 2**i) for i in range(16)]
    for end in range(1, 16):
        yield counted_blocked_job(1, [powers[:end], powers[end:]])
    rng = random.Random(110_000)
    for _ in range(10):
        yield counted_blocked_job(1, random_groups(rng, powers, 16), *random_steps(rng, 1)[:3])
        yield blocked_job(10, random_groups(rng, [10, 1] * 8, 16), *random_steps(rng, 10)[:3])
    yield counted_blocked_job(1, [[pair] for pair in powers * 4])
    yield counted_blocked_job(600, [[(size, 601 - size)] for size in range(538, 601)] + [[(1, 3)]], family(1, 200))


def chains():
    """0 to 9 steps of families, of tables and of both; each family."""
    for count in range(10):
        for steps in ((family(1, 3), family(5, 5)), (IDENTITY, table(*[0] * 6, *[10] * 5)), (family(1, 2), IDENTITY)):
            yield blocked_job(10, [[3], [8, 10], [1]], *(steps * 5)[:count])
            yield counted_blocked_job(10, [[(3, 4), (8, 500)], [(10, 7)]], *(steps * 5)[:count])
    for step in FAMILY_STEPS:
        yield blocked_job(10, [[1, 2, 3], [4, 5, 6, 7], [8, 9], [10]], family(*step))
        yield counted_blocked_job(10, [[(size, 2**size)] for size in range(1, 11)], family(*step))


def refused_steps():
    """Each refused step behind blocks that are in order, first or later; and behind wrong blocks."""
    for before, step in zip(itertools.cycle(range(8)), BAD_STEPS):
        yield blocked_job(10, [[3], [8, 10]], *[family(1, 3)] * before, step)
        yield counted_blocked_job(10, [[(3, 4), (8, 500)]], *[family(1, 2)] * (7 - before), step)
    for numbers, step in zip(itertools.cycle(WRONG), BAD_STEPS):
        yield wrong_job(numbers, step)
    for numbers in WRONG:
        yield wrong_job(numbers)
        yield job(1, 10, (3, 8, 10), blocks(*numbers), family(1, 3), family(8, 1))


def faulty(faults):
    """The cases with the faults of these numbers, 2 being that of the step. Counts stand in the job where kind 4 does
    not make them the first field out of place."""
    capacity, kind = 0 if 1 in faults else 10, 4 if 16 in faults else 1
    fields = head(kind, capacity, (7, 3, 11 if 17 in faults else 10))
    if 22 in faults or 16 not in faults:
        fields.append(counts(2, 0 if 22 in faults else 300, 1))
    value = halfwords((1, 1) if 23 in faults else (1, 2))
    fields.append(field(8, value + b"\0" if 15 in faults else value))
    fields.append(family(8, 1) if 2 in faults else family(1, 3))
    return with_early_faults(b"".join(fields), faults, blocks(1, 2))


def orders():
    """No fault, one, any two together, and any of those about 23, so that their order shows in both operations."""
    numbers = 12, 7, 13, 14, 15, 16, 1, 17, 22, 23, 2
    for count in range(3):
        yield from together(map(faulty, itertools.combinations(numbers, count)))
    for count in range(3, 6):
        yield from together(map(faulty, itertools.combinations((15, 17, 22, 23, 2), count)))


def sizes_and_blocks():
    """23 with 1, 17 and 22, in every way to have it: a wrong size or count in every place."""
    for numbers, place in itertools.product(WRONG, range(3)):
        sizes, each = [7, 3, 10], [2, 300, 1]
        sizes[place] = (0, 11, MAX)[place]
        yield job(1, 10, sizes, blocks(*numbers))
        each[place] = 0
        yield job(1, 10, (7, 3, 10), counts(*each), blocks(*numbers))
        yield job(1, (0, LIMIT + 1, MAX)[place], sizes, counts(*each), blocks(*numbers), family(8, 1))


def later_fields():
    """13, 14 and 15 in a field behind the blocks: they go before 23."""
    step = family(1, 3)
    for start in (wrong_job((1, 2)), wrong_job((1, 1)), job(1, 10, (3, 5), blocks(2))):
        for end in (b"\4", b"\5\0", b"\7", b"\x08", b"\x08\0", b"\x08\0\2\0", b"\4\0\x09" + bytes(8),
                    field(1, b"\1"), field(2, word(10)), field(3, word(5)), row(10, 3), b"\0\0\0", b"\x09\0\0",
                    counts(1, 1, 1), counts(), counts(1, 1), blocks(1, 2), blocks(), field(8, b"\0"), step + blocks(3),
                    step * 8, step * 9, step * 8 + b"\4", field(4, bytes(8)), field(5, bytes(4)),
                    step + field(4, b"")):
            yield start + end


def out_of_place():
    """Tag 8 at every place of every kind, past the end, as the last field, and in all orders with others."""
    for kind in (0, 1, 2, 3, 4, 255):
        fields = head(kind, 10, (3,)) + [family(1, 3)]
        for place, part in itertools.product(range(5), (blocks(1), blocks())):
            yield b"".join(fields[:place] + [part] + fields[place:])
        yield b"".join(fields[:3] + [field(8, b"\0")])
        yield b"".join(fields[:3] + [blocks(1)[:-1]])
        yield b"".join(fields[:2] + [blocks(1)])
    for count in (1, 2, 3):
        for chosen in itertools.product((counts(5), blocks(1), family(1, 3), IDENTITY), repeat=count):
            yield job(1, 10, (3,), *chosen)
    yield from other_tags_at(SMALL, PLACE)


def among_rows():
    """Tag 8 in every place of a job of kind 3."""
    fields = [field(1, b"\3"), row(10, 7), row(12, 5, 5), family(1, 3)]
    for place, part in itertools.product(range(5), (blocks(1), blocks(), field(8, b"\0"))):
        yield b"".join(fields[:place] + [part] + fields[place:])


def lengths():
    """Odd and even lengths, without and with sizes and counts."""
    for length in itertools.chain(range(9), range(126, 132), range(255, 258), (4095, 4096, 8191, 8192, 8193)):
        yield job(1, LIMIT, (), field(8, bytes(length)))
        yield counted_job(LIMIT, [(SAME, 257)] * 257, field(8, b"\1" * length))
    for length in itertools.chain(range(9), range(126, 132)):
        yield job(1, LIMIT, (SAME,) * (length // 2), field(8, (b"\0\1" * length)[:length]), family(1, 0))
    yield from other_lengths_at(SMALL, PLACE)


def truncated():
    """Blocks and steps cut at every byte."""
    for end in cut_short(b"".join(SMALL[PLACE:])):
        yield b"".join(SMALL[:PLACE]) + end


def largest():
    """The largest floors and totals, and those next to them."""
    for parts in (1, 2, 63, 64):
        numbers = blocks(*even_parts(SIZES, parts))
        yield counted_job(SAME, [(SAME, MOST_COUNT)] * SIZES, numbers)
        yield counted_job(SAME, [(SAME, MOST_COUNT)] * SIZES, numbers, TO_LIMIT)
        yield counted_job(SAME, [(SAME, MOST_COUNT)] * (SIZES - 1) + [(1, MOST_COUNT - 1)], numbers, family(1, 0))
    for numbers in ((1, SIZES - 1), (SIZES - 1, 1)):
        yield counted_job(SAME, [(SAME, MOST_COUNT)] * SIZES, blocks(*numbers), TO_LIMIT, *[family(1, 0)] * 7)
        yield job(1, SAME, (SAME,) * SIZES, blocks(*numbers))


def roundings():
    """Blocks whose sum is a multiple of E, one less and one more, one behind another."""
    about = [[95], [96], [95, 2], [1], [1, 95], [96, 1], [48, 47], [48, 48], [48, 49], [95, 96], [95, 96, 1], [96] * 2]
    yield blocked_job(96, about)
    yield blocked_job(96, about[::-1], family(1, 0))
    yield counted_blocked_job(96, [[(size, 960 + 1) for size in group] for group in about])
    for last in (1, SAME - 1, SAME):
        yield blocked_job(SAME, [[SAME] * 1023 + [last], [last] + [SAME] * 1023])
        yield counted_blocked_job(SAME, [[(SAME, MOST_COUNT)] * 31 + [(last, 1)]] * MOST)
    rng = random.Random(120_000)
    for steps in ((family(3, 7),), (family(1, 20), family(4, 8)), (family(4, 4), table(0, 0, 2, 3, 3, 4, 6))):
        yield blocked_job(96, random_groups(rng, [rng.randint(1, 96) for _ in range(90)], MOST), *steps)
        yield counted_blocked_job(96, random_groups(rng, random_pairs(rng, 96, 40, 9), MOST), *steps)


def longest():
    """Jobs of 65,535 bytes with one size and with many, and next to it."""
    data = blocked_job(2035, [[2035]], *tables_of(2036, *[2048] * 7))
    pairs = [(978, 1000)] + [(5, 257)] * (SIZES - 1)
    counted = counted_job(978, pairs, blocks(*even_parts(SIZES, 63)), family(1, 0), *tables_of(979, *[2048] * 6))
    assert len(data) == len(counted) == wf.MOST_JOB_BYTES
    yield from (data, data[:-1], data + b"\0", data + b"\x08", counted)


# Random jobs

def random_capacity(rng):
    return rng.choice((1, 7, 10, 24, 100, 12_345, LIMIT, rng.randint(1, 30), rng.randint(1, LIMIT)))


def few_steps(rng, capacity):
    """A chain that is often short: a long one leaves few images between 0 and E, and block floors that add up."""
    return random_steps(rng, capacity)[:rng.choice((0, 1, 1, 2, wf.MOST_STEPS))]


def random_fields(rng):
    """An accepted job with blocks, and with counts or without."""
    capacity = random_capacity(rng)
    pairs = random_pairs(rng, capacity, rng.randint(0, 14), rng.choice((3, 300, MOST_COUNT)))
    fields = counted_fields(capacity, pairs, blocks_of(random_groups(rng, pairs, MOST)), *few_steps(rng, capacity))
    return fields if rng.randint(0, 1) else fields[:3] + fields[4:]


def place_of_blocks(fields):
    return [part[0] for part in fields].index(8)


def shifted(rng, fields):
    """The job with a size given from one block to another, where there are two: a block may be left with none."""
    place = place_of_blocks(fields)
    numbers = wf.numbers_of(fields[place][3:], 2)
    if len(numbers) > 1:
        giver, taker = rng.sample(range(len(numbers)), 2)
        numbers[giver] -= 1
        numbers[taker] += 1
    return b"".join(fields[:place] + [blocks(*numbers)] + fields[place + 1:])


def random_jobs():
    rng = random.Random(100_000)
    for _ in range(RANDOM):
        for _ in range(3):
            yield b"".join(random_fields(rng))
        yield damaged(rng, random_fields(rng))
        for change in (moved, other_value):
            fields = random_fields(rng)
            yield change(rng, fields, place_of_blocks(fields))
        yield shifted(rng, random_fields(rng))
        data = b"".join(random_fields(rng))
        yield data[:rng.randrange(len(data))]


def random_levels(rng):
    """Many sizes in blocks; those of a block are equal, and counted by one number."""
    groups = random_groups(rng, range(rng.randint(MOST, SIZES)), MOST)
    levels = [(rng.randint(1, MOST_ONES) * ONES, rng.randint(1, 255) * 257) for _ in groups]
    return [[level] * len(group) for level, group in zip(levels, groups)]


def many_sizes():
    """Up to 2,048 sizes in up to 64 blocks."""
    rng = random.Random(130_000)
    for _ in range(RANDOM // 2):
        groups = random_levels(rng)
        capacity = rng.choice((SAME, LIMIT, rng.randint(SAME, LIMIT)))
        steps = few_steps(rng, capacity)
        yield counted_blocked_job(capacity, groups, *steps)
        yield blocked_job(capacity, [[size for size, _ in group] for group in groups], *steps)
    small = [rng.randint(1, 200) for _ in range(SIZES)]
    yield blocked_job(200, random_groups(rng, small, MOST), family(7, 13, 30), family(5, 9))


def counted_and_written_out():
    """A job with counts and blocks, and the same blocks with the copies that are counted."""
    rng = random.Random(140_000)
    for _ in range(RANDOM // 2):
        capacity = random_capacity(rng)
        groups = random_groups(rng, random_pairs(rng, capacity, rng.randint(3, 10), 9), MOST)
        steps = few_steps(rng, capacity)
        yield counted_blocked_job(capacity, groups, *steps)
        yield blocked_job(capacity, list(map(written_out, groups)), *steps)


def buffers():
    """The buffer of block floors too short, exact and longer, for every kind and every sort of answer; the others. The
    same with the cut operation's own."""
    full = wf.JOB_IMAGES, wf.JOB_WORKING, wf.JOB_LIST
    good = b"".join(SMALL)
    jobs = (b"", job(1, 10, (6, 6, 6)), job(1, 10, (), blocks()), good, good[:-1], wrong_job((1, 1)),
            good + family(8, 1), wrong_job((1, 2), table(*range(10), 9)), blocked_job(LIMIT, [[SAME]] * 64),
            blocked_job(LIMIT, [[SAME]] * 65), job(2, 10, (0, 4)), rows_job([(10, 7), (10, 3)]), job(4, 10, (1,)),
            job(2, 10, (4,), blocks(1)), bytes(65_536))
    for data, own in itertools.product(jobs, (0, 1, 63, 64, 65, MOST_PLACES)):
        yield from make_both(data, *full, own)
    for short, own in itertools.product(range(3), (63, 64, 65)):
        yield from make_both(good, *(places - (which == short) for which, places in enumerate(full)), own)
    yield from make_both(good, *[MOST_PLACES] * 4)


def block_cases():
    for part in (reckoned, numbers_of_blocks, no_sizes, sums, long_sums, zeros, byte_orders, borders, chains,
                 refused_steps, sizes_and_blocks, later_fields, out_of_place, among_rows, lengths, truncated, largest,
                 roundings, longest, random_jobs, many_sizes, counted_and_written_out):
        yield from map(make, part())
    yield from orders()
    yield from buffers()
