"""The inputs of request 1, made from fixed seeds: jobs of kind 3, whole, cut short
and damaged, and every buffer of scales. A row is a tuple: its right side and its
coefficients.

Every refusal comes in row 1 and, where a right side can bring it there, in later
rows; alone and beside those that it goes before. As in inputs_base.py, what later
requests change has its own parts."""

import itertools
import random

import inputs_base as base
from inputs_base import HIGHER, IDENTITY, LIMIT, MAX, OVER, family, field, halves, head, job, row, tabled, words

KIND_3 = field(1, b"\3")
SAME = 0x3B3B3B3B  # under the limit
TO_TEN = family(4, 6)  # has scale 10 at every capacity from 6 up
FINE = (10, 7, 3)


def model_fields(rows, *steps):
    return [KIND_3] + [row(*numbers) for numbers in rows] + list(steps)


def model(rows, *steps):
    return b"".join(model_fields(rows, *steps))


# Two rows of different right sides, and steps of both tags that accept them.
SMALL = model_fields([(10, 7, 5), (12, 0, 12, 3)], family(4, 3), tabled(0, 0, 1, 1, 2))


def of_the_base():
    """Jobs of the base whose answers or texts this request changes."""
    for part in base.PARTS:
        yield from (data for data in part() if data[3:4] == b"\3")


def accepted():
    rights = (1, 2, 5, 10, 11, 24, 100, 12_345, LIMIT - 1, LIMIT)
    for right in rights:
        yield model([(right, 0, 1, right // 2, right)])
        yield model([(right,), (right, right), (LIMIT, LIMIT, 1)], family(1, 0))
        yield model([(right, 0, 1, right), (right + 5 * (right < 999), 1)], family(2, 1), family(5, 1))
    rows = [range(10, -1, -1), (10, 3, 7, 9), (10,), (10, 10)]
    for first, second in itertools.product(base.STEPS, repeat=2):
        yield model(rows, first, second)
    for step in base.STEPS[:7]:
        yield model([range(10, -1, -1), range(13, -1, -1), (7, 7, 3, 5), (22, 21, 11, 1)], step)
    for rights in ((6, 10, 7), (10, 10), (LIMIT, 6)):
        yield model([(right, right, right // 2, 1) for right in rights], TO_TEN, IDENTITY, family(3, 3))


def numbers_of_rows():
    for count in (1, 2, 63, 64, 65, 66, 255, 256, 257, 320, 9361):
        yield model([(10,)] * count)
    for count in (2, 63, 64, 65):
        yield model([(LIMIT, SAME)] * count)
        yield model([(i + 6, i, 0) for i in range(count)], TO_TEN, IDENTITY)
        yield model([(10,)] * (count - 1) + [(20, 20, 7)], family(3, 3))
        yield model([(0,)] * count)
        yield model([(10, 11)] * count, family(0, 0))


def numbers_of_coefficients():
    for counts in ((2047,), (2048,), (2049,), (3000,), (16_381,), (2048, 0), (0, 2048), (2048, 1), (1, 2048),
                   (1024, 1024), (1024, 1025), (1025, 1024), (0,) * 63 + (2048,), (2048,) + (0,) * 63, (32,) * 64,
                   (32,) * 63 + (33,), (33,) + (32,) * 63, (32,) * 65):
        yield model([(LIMIT,) + (SAME,) * count for count in counts])
        yield model([(LIMIT,) + (0,) * count for count in counts], family(1, LIMIT // 2))
        yield model([(0,) * (count + 1) for count in counts])
    rows = [(100 + i,) + tuple((7 * i + 3 * j) % 100 for j in range(32)) for i in range(64)]
    yield model(rows, family(2, 3), family(4, 51), tabled(*range(101)))


def no_rows():
    yield KIND_3
    for step in base.STEPS + base.BAD_STEPS + base.OTHER_TABLES:
        yield KIND_3 + step
    for count in range(2, 10):
        yield KIND_3 + family(0, 0) * count


def tag_orders():
    """Orders of fields behind the kind, and every tag at every place of a good job."""
    fields = head(3, 10, (3, 4)) + [row(10, 3, 4), family(1, 3), IDENTITY, halves(7, 2, 1), halves(8, 1, 1)]
    for count in (1, 2):
        for chosen in itertools.product(fields, repeat=count):
            yield KIND_3 + b"".join(chosen)
            yield KIND_3 + row(10, 3) + b"".join(chosen)
    for kind, place in itertools.product((0, 1, 2, 4, 255), range(5)):
        others = head(kind, 10, (3,)) + [family(1, 3)]
        yield b"".join(others[:place] + [row(10, 3)] + others[place:])
    for place, part in enumerate(SMALL):
        before, behind = SMALL[:place], SMALL[place + 1:]
        for tag in (0, 1, 2, 3, 4, 5, 6, 7, 8, 9, 128, 255):
            yield b"".join(before + [bytes([tag]) + part[1:]] + behind)
        yield b"".join(before + behind)
        yield b"".join(before + [part] * 2 + behind)


def lengths():
    """Every short length of a row; wrong lengths of a value and its header, and of the header alone."""
    for length in tuple(range(14)) + (8188, 8192, 8196, 8200, 12_004, 65_524, 65_527, 65_528):
        yield KIND_3 + field(6, bytes(length))
        yield KIND_3 + field(6, (words((10, 5, 10)) + bytes(length))[:length]) + family(1, 3)
    for place, part in enumerate(SMALL):
        value, before, behind = part[3:], SMALL[:place], SMALL[place + 1:]
        for length in (0, 1, 3, 4, 5, 7, 8, 9, 12, 16, 20, 8188, 8192, 8196):
            yield b"".join(before + [field(part[0], (value + bytes(length))[:length])] + behind)
        for length in (0, len(value) - 1, len(value) + 1, len(value) + 4, 256, 65_535):
            yield b"".join(before + [field(part[0], value, length)] + behind)


def defects_behind_21():
    """Too many rows or coefficients, or no row, and then a field that is refused."""
    for start in (model([(10,)] * 65), model([(0,) * 2050]), model([(0, 1)] * 65, family(0, 0)), KIND_3):
        for end in (b"\6", b"\6\0\4\0\0\0", field(2, words([10])), field(3, b""), KIND_3, row(10, 3), field(9, b""),
                    field(4, bytes(8)), field(5, bytes(4)), field(6, bytes(5)), field(7, b"\0\1"), family(8, 1)):
            yield start + end


def numbers_of_steps():
    for count in range(10):
        for steps in ((family(1, 3), family(5, 5)), (IDENTITY, tabled(*[0] * 6, *[10] * 5)), (TO_TEN, IDENTITY)):
            yield model([(10, 1, 3, 6), (10,), (10, 10, 0)], *(steps * 5)[:count])


def right_sides():
    """Right sides and coefficients at the limits and over them, in row 1 and in later rows."""
    for right in (0, 1, 2, LIMIT - 1) + OVER:
        for coefficients in ((), (0,), (1,), (right,), (min(MAX, right + 1),), (right, MAX)):
            one = (right,) + coefficients
            yield model([one])
            yield model([(LIMIT, 1, LIMIT), one, (0, 1)])
        yield model([(right, right // 2)] * 2, family(1, right // 2), family(2, 1))
    for place, one in itertools.product((1, 2, 63, 64), ((0, 3), (LIMIT + 1,), (10, 11), (10, 3, 11))):
        yield model([(10, 7)] * (place - 1) + [one] + [(10, 7)] * (64 - place), family(1, 4))


LATER = (  # the right side of the rows before, the later one, and a step that it makes wrong or keeps
    (10, 9, family(1, 5)), (10, 11, family(6, 3, 2)), (10, 9, family(7, 3, 2)), (10, 3, family(4, 4)),
    (10, 3, family(5, 4)), (10, 2, family(3, 2)), (10, 11, family(2, LIMIT // 10)), (10, 30, family(7, 3, 10**8)),
    (LIMIT // 2, LIMIT, family(3, 1)), (10, 13, family(6, 3, LIMIT // 6 - 1)), (10, 9, IDENTITY), (10, 11, IDENTITY),
    (10, LIMIT, IDENTITY), (10, 10, IDENTITY), (10, 5, family(1, 3)), (11, 10, family(1, 5)))


def refused_steps():
    """Each refused step in row 1; steps that only a later row's right side makes wrong."""
    for step in base.BAD_STEPS + base.OTHER_TABLES:
        yield model([(10, 3, 8), (0, 10)], step)
        for before in ([IDENTITY], [family(1, 3)] * 7, [TO_TEN]):
            yield model([(10, 3, 8), (10, 10)], *before, step)
    for (first, other, step), place in itertools.product(LATER, (1, 2, 3, 64)):
        rows = ([(first, 0, 2)] * (place - 1) + [(other, 2), (0, 5)])[:64]
        yield model(rows, step)
        yield model(rows, family(1, 0), step, family(1, 0))
    for step in base.OTHER_TABLES:  # in order at another right side, or not in order either
        yield model([(3, 1), (10, 1)], step)
        yield model([FINE, (3, 1)], step)
        yield model([FINE, (3, 1)], IDENTITY, step)


def two_defects():
    """Two things wrong in two rows, or in a row and a step, so that their order shows."""
    kinds = (FINE, (0, 5), (LIMIT + 1, 5), (10, 11), (11, 5), (11, 12))
    steps = ((), (IDENTITY,), (family(8, 1),), (family(1, 6),), (family(2, LIMIT),), (tabled(*range(10), 9),),
             (tabled(1, 1),), (tabled(0, 1, 1),), (IDENTITY, family(8, 1)), (family(1, 5), IDENTITY))
    for first, second, chain in itertools.product(kinds, kinds, steps):
        yield model([first, second], *chain)
    for third, chain in itertools.product(kinds[1:], steps):
        yield model([FINE, FINE, third, (0, 5)], *chain)


def half_windows():
    """Thresholds at half of an odd right side, beside even ones."""
    for right in (1, 3, 5, 6, 7, 11, 99, LIMIT - 1, LIMIT):
        half = (right + 2) // 2
        yield model([(right, right, right // 2, half - 1)], family(1, half))
        yield model([(right, right), (right + right % 2, 1)], family(1, half))
        yield model([(right + right % 2, 1), (right, right)], family(1, (right + 1) // 2))


def limits():
    """Parameters and entries over the limit and at the higher one."""
    for number in OVER + (LIMIT // 2, HIGHER // 2):
        yield model([(2, 2, 1), (3, 3, 1)], family(2, number // 2))
        yield model([(2, 2, 1), (4, 3, 1)], family(2, number // 4), family(1, number // 4))
        yield model([(3, 3, 1), (3,)], tabled(0, 0, 0, number))
        yield model([(3, 3, 1), (3,)], tabled(0, number, 0, LIMIT))
        yield model([(3, 1), (5, 5)], family(7, 2, number - 1))


def every_byte():
    data = b"".join(SMALL)
    for end in range(len(data) + 1):
        yield data[:end]
    for place, byte in enumerate(data):
        for other in sorted({0, 3, 6, 255, byte ^ 1} - {byte}):
            yield data[:place] + bytes([other]) + data[place + 1:]


def fourth_bytes():
    """The fourth byte 3 in a job that has no kind, or is too long; jobs that end before it."""
    yield from (b"\1\0\0\3", b"\1\1\0\3", b"\3\3\3", b"\3\3\3\3", b"\6\0\4\3\0\0\0", b"\1\1\1\3", b"\1\0\3\3\3\3")
    for count in (65_535, 65_536):
        yield (b"".join(SMALL) + bytes(count))[:count]
        yield (b"\0\0\0\3" + bytes(count))[:count]


def longest():
    step = tabled(*[0] * 2047, 2047)
    rows = [(2047, 2047, 5), (2047,) + (0,) * 1923] + [(2047, 9)] * 2 + [(2047,)] * 59 + [(2047, 2046, 2047)]
    data = model(rows, *[step] * 7)
    yield from (data, data[:-1], data + b"\4", data + b"\4\0", data + b"\4\0\0")
    full = tabled(0, 1, *[0] * 2045, 2046)  # refused with the longest list
    yield model([(2047, 3)] * 2, full)
    yield model([(2047, 2047, 3)] * 64, step, step)
    yield model([(2047,)] * 63 + [(2046,)], step)


def random_fields(rng):
    """Rows of one right side and now and then of another, with steps for the first."""
    right = rng.choice((1, 7, 10, 24, 100, LIMIT, rng.randint(1, 30), rng.randint(1, LIMIT)))
    rights = [right] + [right if rng.randrange(5) else max(1, min(LIMIT, right + rng.randint(-2, 2)))
                        for _ in range(rng.choice((0, 1, 1, 2, 3, 6)))]
    rows = [(right,) + tuple(rng.randint(0, right) for _ in range(rng.randint(0, 5))) for right in rights]
    steps, capacity = [], right
    if right >= 6 and rng.randrange(4) == 0:
        steps, capacity = [TO_TEN], 10
    for _ in range(rng.choice((0, 1, 1, 2, 2, 3, 6))):
        chosen = base.random_table if capacity <= 30 and rng.randint(0, 1) else base.random_family
        step, capacity = chosen(rng, capacity)
        steps.append(step)
    return model_fields(rows, *steps)


def random_jobs():
    rng = random.Random(11)
    for _ in range(200):
        yield b"".join(random_fields(rng))
        yield base.damaged(rng, random_fields(rng))
        yield base.changed_value(rng, random_fields(rng))


PARTS = (of_the_base, accepted, numbers_of_rows, numbers_of_coefficients, no_rows, tag_orders, lengths,
         defects_behind_21, numbers_of_steps, right_sides, refused_steps, two_defects, half_windows, limits, every_byte,
         fourth_bytes, longest, random_jobs)
LEAST_PLACES = dict(base.JOB_PLACES, scales_places=64)


def short_and_long_buffers():
    """Each buffer too short, exact and longer, for every kind and every sort of answer."""
    good = b"".join(SMALL)
    datas = (b"", job(1, 10, (6, 6, 6), family(1, 5)), job(2, 10, (0, 4), IDENTITY), job(4, 10, (1,)), good, good[:-1],
             KIND_3, model([FINE, (10, 11)]), model([FINE, FINE], IDENTITY, tabled(*range(10), 9)), model([(10,)] * 65),
             model([(10, 7)] * 64), bytes(65_535), bytes(65_536), KIND_3 + bytes(65_532))
    changes = ((0, 0, 0, -1), (0, 0, 0, -64), (0, 0, 0, -62), (0, 0, 0, 1), (0, 0, 0, 2000), (-1, 0, 0, 0),
               (0, -1, 0, 0), (0, 0, -1, 0), (9, 9, 9, -1), (-1, -1, -1, -1), (52, 52, 53, 6), (-2048, -2048, -2047, 0))
    for data, change in itertools.product(datas, changes):
        places = {name: LEAST_PLACES[name] + more for name, more in zip(LEAST_PLACES, change) if more}
        yield dict(job=data, **places)


def jobs():
    for part in PARTS:
        for data in part():
            yield dict(job=data)
    yield from short_and_long_buffers()


def texts():
    """Every job, and longer input."""
    for part in PARTS:
        for data in part():
            yield dict(job=data)
    for count in (65_537, 200_000):
        yield dict(job=(b"".join(SMALL) + bytes(count))[:count])


def inputs():
    return dict(job=jobs(), text=texts())
