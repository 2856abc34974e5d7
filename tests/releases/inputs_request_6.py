"""The inputs of request 6, made from fixed seeds: jobs with blocks (tag 8), whole, cut
short, damaged and out of place, with counts and without, and the same as texts. In most
of them the capacity is 10 and the sizes are 7, 5, 4, 6 and 3.

The list is divided in every way; numbers of blocks go to 64 and over; each reason of 23
comes alone, beside the others, and beside what goes before it and behind it; block sums
stand at multiples of the scale and beside them; every buffer is short and long."""

import itertools
import random

import inputs_base as base
import inputs_request_1 as rows
import inputs_request_4 as counts
from inputs_base import IDENTITY, LIMIT, family, field, halves, head, job, row, tabled
from inputs_request_1 import KIND_3

MOST = 65_535  # of a count, and of a block as its two bytes can say it
MOST_BLOCKS = 64
LIST = (7, 5, 4, 6, 3)
COUNTS = (1, 300, 2, MOST, 256)
COUNTED, BLOCKS = halves(7, *COUNTS), halves(8, 2, 1, 2)
GOOD = head(1, 10, LIST) + [COUNTED, BLOCKS, family(1, 4), family(3, 3), tabled(0, 0, 2, 3, 3, 4, 6)]
REFUSED_STEPS = tuple(base.BAD_STEPS[i] for i in (0, 3, 13, 19, 20, 21, 22)) + base.OTHER_TABLES[:1]  # by each number
LEAST_PLACES = dict(rows.LEAST_PLACES, blocks_places=64)


def blocked(capacity, sizes, blocks, *steps):
    return job(1, capacity, sizes, halves(8, *blocks), *steps)


def counted(capacity, sizes, numbers, blocks, *steps):
    return job(1, capacity, sizes, halves(7, *numbers), halves(8, *blocks), *steps)


def with_and_without_counts(capacity, sizes, blocks, *steps):
    yield blocked(capacity, sizes, blocks, *steps)
    yield counted(capacity, sizes, [300] * len(sizes), blocks, *steps)


def divisions(n):
    """Every way to divide n sizes into blocks."""
    if n == 0:
        yield ()
    for first in range(1, n + 1):
        yield from ((first,) + others for others in divisions(n - first))


# Accepted jobs

def reckoned():
    yield blocked(10, (7, 5, 7, 5, 5), (2, 2, 1), family(1, 4), family(3, 3))
    yield job(1, 10, (7, 5, 7, 5, 5), family(1, 4), family(3, 3))


def every_division():
    for blocks in divisions(len(LIST)):
        yield blocked(10, LIST, blocks)
        yield blocked(10, LIST, blocks, family(1, 4), family(3, 3))
        yield counted(10, LIST, COUNTS, blocks, family(1, 5))


def chains():
    """Each step, and 0 to 9 of them."""
    for step, blocks in itertools.product(base.STEPS, ((5,), (1, 4), (1, 1, 1, 1, 1))):
        yield blocked(10, LIST, blocks, step)
        yield counted(10, LIST, COUNTS, blocks, step)
    for count in range(10):
        for both in ((family(1, 3), family(5, 5)), (IDENTITY, tabled(*[0] * 6, *[10] * 5))):
            yield counted(10, LIST, COUNTS, (2, 3), *(both * 5)[:count])


def exact_quotients():
    """Sums of two blocks at multiples of the scale, and one below and above: the total is the floor or one more."""
    for scale, first, second in itertools.product((7, 65_534, LIMIT), (-1, 0, 1), (-1, 0, 1)):
        yield blocked(scale, (3, scale - 5, 2 + first, 1, scale - 3, 2 + second), (3, 3))
    for first, second in itertools.product((-1, 0, 1), repeat=2):
        yield counted(256, (256, 1, 128, 1), (300, 256 + first, 2, 256 + second), (2, 2))


def numbers_of_blocks():
    """As many blocks as sizes, and blocks that add up to the most sizes, up to 64 and over."""
    for count in (1, 2, 3, 62, 63, 64, 65, 66, 128, 255, 256, 257, 2048):
        yield from with_and_without_counts(10, [6] * count, [1] * count)
        yield blocked(10, [6] * base.SIZES, [1] * (count - 1) + [base.SIZES - count + 1])
    for blocks in ([32] * 64, [32] * 63, [33] * 62 + [2], [255, 256, 257, 511, 512, 257], [2047, 1], [1, 2047]):
        yield from with_and_without_counts(10, [4] * sum(blocks), blocks, family(1, 4))


# Refused with 23

def wrong_sums():
    """One off and more, and sums that are right but for whole 256s and 65,536s."""
    for blocks in ((4,), (6,), (2, 2), (2, 4), (1, 1, 1, 1), (1, 1, 1, 1, 1, 1), (261,), (256, 5), (MOST, 6),
                   (MOST, 1, 5), (32_768, 32_768, 5), (MOST,), (5, MOST), (1_280,), (3, 2, 5), (5, 5)):
        yield from with_and_without_counts(10, LIST, blocks)
    for n in (0, 1, 255, 256, 2047, 2048):
        for more in (-1, 1, 256, 2048, 32_768):
            if n + more >= 0:
                yield blocked(10, [5] * n, (n + more,))
        yield blocked(10, [5] * n, (MOST, n + 1))
        yield blocked(10, [5] * n, [1_024 + n] + [1_024] * 63)


def empty_blocks():
    """A block of 0 at each place of blocks that add up, and of blocks that do not."""
    for blocks in ((5,), (2, 3), (1, 1, 1, 1, 1), (2, 2)):
        for place in range(len(blocks) + 1):
            yield blocked(10, LIST, blocks[:place] + (0,) + blocks[place:])
            yield counted(10, LIST, COUNTS, blocks[:place] + (0, 0) + blocks[place:], family(1, 4))
    for count in (1, 2, 63, 64, 65):
        yield blocked(10, LIST, [0] * count)
        yield blocked(10, [5] * 63, [1] * 63 + [0] * count)
    for place in (0, 31, 62, 63):
        yield blocked(10, [5] * 63, [1] * place + [0] + [1] * (63 - place))


def too_many():
    """Over 64 blocks that add up, that do not, and of 0; the most that a job has room for."""
    for count in (65, 66, 128, 2048):
        for blocks in ([1] * count, [1] * (count - 1) + [0], [1] * (count - 1) + [2], [0] * count, [MOST] * count):
            yield blocked(10, [5] * count, blocks)
    for count in (32_748, 32_749, 32_750):
        yield blocked(10, LIST, [1] * count)
        yield blocked(10, (), [0] * count)


def beside_other_refusals():
    """Blocks in order and each reason of 23, beside each number before it and behind it."""
    for blocks in ((1, 1), (1,), (2, 0), [1] * 65, ()):
        for sizes in ((0, 5), (11, 5), (5, 0), (5, 11)):
            yield blocked(10, sizes, blocks)
            yield blocked(0, sizes, blocks)
            yield counted(10, sizes, (0, 1), blocks)
        for capacity in (0, LIMIT + 1, base.MAX):
            yield blocked(capacity, (5, 5), blocks)
        for numbers in ((0, 1), (1, 0), (0, 0)):
            yield counted(10, (3, 8), numbers, blocks)
            yield counted(10, (3, 8), numbers, blocks, family(8, 1))
        for step in REFUSED_STEPS:
            yield blocked(10, (3, 8), blocks, step)
        for end in (b"\x08", b"\4\0\x09", field(4, bytes(8)), field(5, bytes(4)), row(10, 3), BLOCKS, COUNTED,
                    field(9, b""), family(1, 3) * 9):
            yield blocked(10, (3, 8), blocks) + end


# Lengths and places

def lengths():
    """Every short length, odd and even ones, and headers that say another one."""
    for n, length in itertools.product(range(4), range(10)):
        yield job(1, 10, LIST[:n], field(8, (b"\0\1" * 5)[:length]))
        yield job(1, 10, LIST[:n], halves(7, *COUNTS[:n]), field(8, (b"\0\1" * 5)[:length]), family(1, 4))
    for length in (0, 1, 4, 5, 7, 8, 256, MOST):
        yield job(1, 10, LIST, field(8, BLOCKS[3:], length))
        yield job(1, 10, LIST, field(8, BLOCKS[3:], length), family(1, 4))
    for length in (127, 128, 129, 130, 131, 4_096, 4_097, 65_497, 65_498):
        yield job(1, 10, LIST, field(8, bytes(length)))
    for numbers in ((300,), COUNTS + (1,), ()):  # of wrong length before blocks in order
        yield job(1, 10, LIST, halves(7, *numbers), BLOCKS)


def places():
    """Tag 8 at every place of a job of each kind, twice, and before and behind counts."""
    for kind in (0, 1, 2, 4, 255):
        fields = head(kind, 10, LIST) + [family(1, 4), IDENTITY]
        for place in range(len(fields) + 1):
            yield b"".join(fields[:place] + [BLOCKS] + fields[place:])
        for between in ([BLOCKS, BLOCKS], [COUNTED, BLOCKS], [BLOCKS, COUNTED], [COUNTED, BLOCKS, BLOCKS],
                        [COUNTED, BLOCKS, COUNTED], [BLOCKS, COUNTED, BLOCKS], [COUNTED, COUNTED, BLOCKS],
                        [BLOCKS, fields[3], BLOCKS], [COUNTED, fields[3], BLOCKS], [BLOCKS, fields[3], COUNTED]):
            yield b"".join(fields[:3] + between + fields[3:])
        yield b"".join(fields[:3] + [field(8, bytes(3))])
        yield b"".join(fields[:3] + [halves(8, 2, 0)])
        yield b"".join(head(kind, 10, ()) + [field(8, b"")])
    for fields in ([BLOCKS], [row(10, *LIST), BLOCKS], [BLOCKS, row(10, *LIST)], [row(10), field(8, b"")],
                   [row(10, *LIST), family(1, 4), BLOCKS], head(1, 10, LIST)[1:] + [BLOCKS]):
        yield KIND_3 + b"".join(fields)
    for place in range(len(GOOD)):
        yield b"".join(GOOD[:place] + [BLOCKS] + GOOD[place + 1:])
        yield b"".join(GOOD[:place] + GOOD[place + 1:])


def no_sizes():
    none = field(8, b"")
    for before in ((), (field(7, b""),)):
        for behind in ((), (family(1, 4),), (family(1, 6),), (none,), (field(7, b""),)):
            yield job(1, 10, (), *before, none, *behind)
        yield job(1, 0, (), *before, none)
        for blocks in ((0,), (1,), (0, 0), (32_768, 32_768)):
            yield job(1, 10, (), *before, halves(8, *blocks))
    yield job(1, 10, LIST, none)
    yield job(1, 10, LIST, COUNTED, none, family(1, 4))


def cut_short():
    """Within counts, blocks and the step behind them."""
    before, data = b"".join(GOOD[:3]), b"".join(GOOD[:6])
    for end in range(len(before), len(data) + 1):
        yield data[:end]


def longest():
    """A job of 65,535 bytes, cut short, longer, and with blocks that have a size too few and a 0."""
    tables = [tabled(*[0] * 2047, 2047)] * 7
    sizes, numbers, blocks = [2047] * 100 + [1] * 1235, [300] * 1335, [20] * 63 + [75]
    data = counted(2047, sizes, numbers, blocks, *tables, family(1, 4))
    yield from (data, data[:-1], data + b"\0")
    yield counted(2047, sizes, numbers, blocks[:-1] + [74], *tables, family(1, 4))
    yield counted(2047, sizes, numbers, [0] + blocks[1:], *tables, family(1, 4))


# Random jobs

def random_division(rng, n):
    """Blocks that add up to n, at most 64."""
    ends = sorted(rng.sample(range(1, n), min(n - 1, rng.randint(0, MOST_BLOCKS - 1)))) if n else []
    starts = [0] + ends
    return [end - start for start, end in zip(starts, ends + [n]) if end > start]


def random_fields(rng):
    """A job of kind 1 with blocks, and with counts or without."""
    fields = counts.random_fields(rng)
    n = len(fields[2][3:]) // 4
    before = fields[:3 + rng.randint(0, 1)]
    return before + [halves(8, *random_division(rng, n))] + fields[4:]


def random_jobs():
    rng = random.Random(61)
    for _ in range(25):
        yield b"".join(random_fields(rng))
        yield base.damaged(rng, random_fields(rng))
        yield base.changed_value(rng, random_fields(rng))


def random_lists():
    """Many sizes, divided at random."""
    rng = random.Random(62)
    for n in (65, 100, 300):
        sizes, numbers = [rng.randint(1, 12) for _ in range(n)], counts.random_counts(rng, n)
        yield blocked(12, sizes, random_division(rng, n), family(1, 4))
        yield counted(12, sizes, numbers, random_division(rng, n), family(6, 5, 2), family(3, 2))


PARTS = (reckoned, every_division, chains, exact_quotients, numbers_of_blocks, wrong_sums, empty_blocks, too_many,
         beside_other_refusals, lengths, places, no_sizes, cut_short, longest, random_jobs, random_lists)


def largest_floors():
    """The largest floors: of all sizes in one block, and of blocks."""
    full, most = [LIMIT] * base.SIZES, [MOST] * base.SIZES
    for blocks in ([2048], [32] * 64, [1985] + [1] * 63, [1] * 63 + [1985]):
        yield counted(LIMIT, full, most, blocks)
        yield counted(LIMIT, full[1:] + [1], most, blocks, family(1, LIMIT // 2))
        yield counted(1, [1] * base.SIZES, most, blocks, family(2, LIMIT))
        yield blocked(LIMIT, [400_000 * i + 1 for i in range(base.SIZES)], blocks, family(1, 7))


def texts():
    """Every job but the longest texts, of which one has the largest floors."""
    for part in PARTS:
        for data in part():
            yield dict(job=data)
    yield dict(job=next(largest_floors()))


def short_and_long_buffers():
    """The block buffer too short and longer, for every kind and every sort of answer; the others beside it."""
    datas = (b"", b"".join(GOOD), b"".join(GOOD)[:-1], blocked(10, [6] * 64, [1] * 64), blocked(10, LIST, (4,)),
             blocked(10, LIST, (5,), family(8, 1)), job(1, 10, LIST, field(8, bytes(3))), job(1, 10, LIST),
             job(1, 10, (), field(8, b"")), job(2, 10, LIST), job(2, 10, LIST, BLOCKS), job(4, 10, LIST),
             rows.model([(10, 7), (9,)]), KIND_3, bytes(65_535), bytes(65_536))
    for data, count in itertools.product(datas, (0, 1, 62, 63, 65, 2000)):
        yield dict(job=data, blocks_places=count)
    for data, (name, least) in itertools.product(datas[1:5], LEAST_PLACES.items()):
        yield {"job": data, name: least - 1}
        yield {"job": data, name: least + 9}
        yield {"job": data, name: least - 1, "blocks_places": 63}


def jobs():
    yield from texts()
    for data in largest_floors():
        yield dict(job=data)
    yield from short_and_long_buffers()


def inputs():
    return dict(job=jobs(), text=texts())
