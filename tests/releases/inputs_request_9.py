"""The inputs of request 9, made from fixed seeds: jobs of every kind, each asked of the floor operation and of the cut
operation, and some of them as texts. Accepted jobs have counts, blocks, rows and tables, and are at the limits.

Every number comes in each kind that can have it and, where the list is the same, in the others, so that 16 shows before
21 and all that is behind it; 12, 13, 14 and 15 come in every kind; the buffers that both lend, and each one's own, are
short, exact and long. Jobs end before the kind byte, and have a fourth byte that is none."""

import itertools
import random

import inputs_base as base
import inputs_request_1 as rows
import inputs_request_4 as counts
import inputs_request_6 as blocks
from inputs_base import HIGHER as LIMIT, IDENTITY, MAX, family, field, halves, job, row, tabled
from inputs_request_1 import KIND_3, model
from inputs_request_7 import AT_LIMIT

MOST = 65_535
KINDS = (1, 2, 3)
NO_KINDS = (0, 4, 255)
LIST = (7, 5, 4, 6, 3)
CHAINS = ((), (family(1, 4), family(3, 3)), (IDENTITY, family(2, 3)), (tabled(0, 0, 0, 1, 1, 2, 2, 3, 3, 3, 5),))
REFUSED_STEPS = (  # at capacity 10, by 2, 3, 4, 18, 8, 9, 10 and 11
    family(8, 1), family(1, 6), family(2, LIMIT // 10 + 1), tabled(0, 1), tabled(1, *range(1, 11)),
    tabled(*range(10), 0), tabled(0, *range(1, 10), LIMIT + 1), tabled(*range(10), 9))
TOO_MANY_ROWS, TOO_MANY_COEFFICIENTS = model([(10, 3)] * 65), model([(10,) + (3,) * 1024, (10,) + (3,) * 1025])


def of_kind(kind, capacity, sizes, *steps):
    """In kind 3 the list is a row."""
    if kind == 3:
        return model([(capacity, *sizes)], *steps)
    return job(kind, capacity, sizes, *steps)


def of_all_kinds(capacity, sizes, *steps):
    return [of_kind(kind, capacity, sizes, *steps) for kind in KINDS + NO_KINDS]


# Accepted jobs

def of_one_list():
    for sizes, steps in itertools.product((LIST, (10, 1, 9, 2), (6,) * 3, ()), CHAINS):
        yield from of_all_kinds(10, sizes, *steps)
    for step in base.STEPS:
        yield from of_all_kinds(10, LIST, step)
    for count in range(10):
        yield from of_all_kinds(10, LIST, *([IDENTITY, family(1, 3)] * 5)[:count])


def with_counts_and_blocks():
    for steps in CHAINS:
        yield counts.counted(10, LIST, (1, 300, 2, MOST, 256), *steps)
        for divided in ((5,), (2, 3), (1, 1, 1, 1, 1), (4, 1)):
            yield blocks.blocked(10, LIST, divided, *steps)
            yield blocks.counted(10, LIST, (MOST, 1, 2, 300, 7), divided, *steps)
    for count in (1, 2, 63, 64):
        yield blocks.blocked(10, (6,) * count, (1,) * count)
    yield blocks.counted(10, (), (), ())


def with_rows():
    for steps in CHAINS:
        yield model([(10, 7, 3), (10,), (10, 0, 10, 5)], *steps)
    for count in (1, 2, 63, 64):
        yield model([(i + 6, i, 0) for i in range(count)], rows.TO_TEN, IDENTITY)
    yield model([(12, 0, 12, 3), (10, 7, 5)], family(4, 3), tabled(0, 0, 1, 1, 2))


# Refusals

def refused_lists():
    """1 and 17, alone and beside a step that is refused."""
    for capacity, sizes in ((0, (3,)), (LIMIT + 1, (3,)), (MAX, ()), (10, (3, 11)), (10, (0, 3)), (10, (MAX,)),
                            (0, (11, 0))):
        for steps in ((), (family(8, 1),)):
            yield from of_all_kinds(capacity, sizes, *steps)
    for right, coefficient in ((0, 3), (LIMIT + 1, 3), (10, 11)):  # in a later row
        yield model([(10, 7, 3), (right, coefficient), (10, 11)])


def refused_steps():
    """Each at the first place, behind others, and at the last one."""
    for step, place in itertools.product(REFUSED_STEPS, (0, 1, 7)):
        yield from of_all_kinds(10, LIST, *[family(1, 3)] * place, step)
    for first, second in itertools.permutations(REFUSED_STEPS[2:], 2):
        yield from (of_kind(kind, 10, LIST, first, second) for kind in KINDS)
    for step in REFUSED_STEPS:
        yield counts.counted(10, LIST, [300] * 5, step)
        yield blocks.blocked(10, LIST, (4, 1), step)
        yield model([(6, 5), (10, 7)], rows.TO_TEN, step)
    yield model([(10, 7), (9, 3)], IDENTITY)
    yield model([(10, 7), (9, 3)], family(1, 5))
    yield from of_all_kinds(2047, (3,), tabled(0, 1, *[0] * 2045, 2046))  # the longest list


def refused_counts_and_blocks():
    """22 and 23, alone, together, and beside a step that is refused."""
    for steps in ((), (family(8, 1),)):
        for numbers in ((0, 1, 1, 1, 1), (1, 1, 1, 1, 0), (0,) * 5):
            yield counts.counted(10, LIST, numbers, *steps)
            yield blocks.counted(10, LIST, numbers, (2, 3), *steps)
            yield blocks.counted(10, LIST, numbers, (2, 2), *steps)
            yield counts.counted(10, LIST[:4] + (0,), numbers, *steps)
        for divided in ((4,), (6,), (5, 0), (0, 5), (), (MOST, 6)):
            yield blocks.blocked(10, LIST, divided, *steps)
            yield blocks.blocked(0, LIST, divided, *steps)
        yield blocks.blocked(10, (6,) * 65, (1,) * 65, *steps)


def refused_rows():
    """21, and what stands behind it or is refused before."""
    for data in (KIND_3, TOO_MANY_ROWS, TOO_MANY_COEFFICIENTS, model([(0, 11)] * 65)):
        yield data
        for step in REFUSED_STEPS + base.STEPS[:2]:
            yield data + step
        for end in (b"\6", b"\4\0\x09", field(9, b""), KIND_3, field(3, b""), field(4, bytes(8)), field(5, bytes(4)),
                    family(1, 3) * 8, family(1, 3) * 9):
            yield data + end
    for end in (field(6, b""), field(6, bytes(5))):
        yield KIND_3 + end
        yield TOO_MANY_ROWS + end


# Kinds and fields

def every_kind():
    for kind in range(256):
        yield job(kind, 10, (6, 6, 6))
        yield field(1, bytes([kind])) + row(10, 7)
    for kind in NO_KINDS:
        yield field(1, bytes([kind]))
        for capacity, sizes in ((0, (3,)), (10, (11,)), (10, (0,))):
            yield job(kind, capacity, sizes, family(8, 1))


def good_fields(kind):
    head = rows.model_fields([(10, 7, 3), (10, 5)]) if kind == 3 else base.head(kind, 10, (7, 3))
    return head + [IDENTITY, family(1, 3)]


def broken_fields():
    """13, 14 and 15 in every kind, and beside a list that is refused."""
    for kind in KINDS + NO_KINDS:
        fields = good_fields(kind)
        for place, part in enumerate(fields):
            before, behind = b"".join(fields[:place]), b"".join(fields[place + 1:])
            value = part[3:]
            for middle in (b"", part[:1], part[:2], part[:3], part[:-1], part * 2, field(part[0], value + b"\0"),
                           field(part[0], b""), field(9, value), field(0, value), field(part[0], value, MOST)):
                yield before + middle
                yield before + middle + behind
        for capacity, end in itertools.product((0, 10), (
                b"\4", field(9, b""), field(4, bytes(8)), halves(7, 1), halves(8, 1), halves(7, 1) + halves(8, 1),
                field(8, bytes(3)))):
            yield of_kind(kind, capacity, (11,), IDENTITY) + end
            yield of_kind(kind, capacity, (11,)) + end


def short_jobs():
    """Jobs of under four bytes and of four, with a kind there and without."""
    for kind in KINDS + NO_KINDS:
        first = field(1, bytes([kind]))
        yield from (first[:end] for end in range(5))
        yield bytes([kind]) * 3
        for start in (b"\0\0\0", b"\1\0\0", b"\1\0\2", b"\1\1\0", b"\1\1\1", b"\2\0\1", b"\3\0\1", b"\4\0\1", b"\6\0\1",
                      b"\xff\xff\xff", b"\2\0\4", b"\3\0\0"):
            yield start + bytes([kind])
            yield start + bytes([kind]) + job(1, 10, (6,))


# At the limits

def at_the_limit():
    every = [family(*step) for step in AT_LIMIT]
    for capacity in (LIMIT - 1, LIMIT, LIMIT + 1):
        sizes = (capacity, capacity // 2, capacity // 2 + 1, 1)
        for steps in ((), every, every[::-1], (family(1, capacity // 2), family(2, 1))):
            yield from of_all_kinds(capacity, sizes, *steps)
            yield counts.counted(capacity, sizes, (MOST, 1, 300, MOST), *steps)
            yield blocks.counted(capacity, sizes, (MOST, 1, 300, MOST), (3, 1), *steps)
    for entry in (LIMIT - 1, LIMIT, LIMIT + 1, MAX):
        yield from of_all_kinds(1, (1, 1), tabled(0, entry))


def largest():
    full, most = [LIMIT] * base.SIZES, [MOST] * base.SIZES
    for n in (base.SIZES, base.SIZES + 1):
        yield from of_all_kinds(LIMIT, (full + [LIMIT])[:n], family(1, LIMIT // 2))
    yield counts.counted(LIMIT, full, most)
    for divided in ([32] * 64, [1985] + [1] * 63):
        yield blocks.counted(LIMIT, full, most, divided, family(2, 1))
    yield model([(LIMIT,) + (LIMIT,) * 32] * 64, family(5, 1))


def longest():
    """Jobs of 65,535 bytes and of more, in order and not."""
    step, end = tabled(*[0] * 2047, 2047), family(1, 3)
    for kind in KINDS + NO_KINDS:
        for n in (2047, 2046):
            sizes = [2047] * (n - 1) + [5]
            data = of_kind(kind, 2047, sizes, *[step] * 7)
            yield data
            yield (data + end)[:MOST]
            yield (data + bytes(MOST))[:MOST]
            yield (data + bytes(MOST + 1))[:MOST + 1]


# Random jobs

def random_jobs():
    """In order, of another kind, and changed."""
    rng = random.Random(91)
    for made, _ in itertools.product((base, counts, blocks, rows), range(40)):
        yield b"".join(made.random_fields(rng))
        fields = made.random_fields(rng)
        yield b"".join(fields)
        yield b"".join([field(1, bytes([rng.choice(KINDS + NO_KINDS)]))] + fields[1:])
        yield base.damaged(rng, fields)
        yield base.changed_value(rng, fields)


PRINTED = (of_one_list, with_counts_and_blocks, with_rows, refused_rows, short_jobs, at_the_limit, largest, longest)
PARTS = PRINTED + (refused_lists, refused_steps, refused_counts_and_blocks, every_kind, broken_fields, random_jobs)


# Buffers

def short_and_long_buffers(own):
    """Each alone and all at once, for every kind and every sort of answer."""
    datas = [b"", b"".join(good_fields(1))[:-1], bytes(MOST), bytes(MOST + 1), KIND_3, TOO_MANY_ROWS, field(1, b"\2")]
    datas += of_all_kinds(10, LIST) + of_all_kinds(10, (11,)) + of_all_kinds(10, LIST, IDENTITY, REFUSED_STEPS[-1])
    datas += [blocks.blocked(10, (6,) * 64, (1,) * 64), model([(10, 7)] * 64)]
    least = dict(images_places=2048, working_places=2048, list_places=2047)
    for data in datas:
        for places in (0, 1, 63, 64, 65, 2000):
            yield {"job": data, own: places}
        for name, places in least.items():
            yield {"job": data, name: places - 1}
            yield {"job": data, name: places - 1, own: 63}
        yield {"job": data, "images_places": 0, "list_places": 0, own: 0}
        yield {"job": data, own: 70} | {name: places + 9 for name, places in least.items()}


def of_parts(parts):
    for part in parts:
        yield from (dict(job=data) for data in part())


def inputs():
    return dict(floor=itertools.chain(of_parts(PARTS), short_and_long_buffers("blocks_places")),
                cut=itertools.chain(of_parts(PARTS), short_and_long_buffers("scales_places")), text=of_parts(PRINTED))
