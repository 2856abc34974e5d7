"""Cases of jobs of kind 3, and of tag 6 and kind 3 where they are out of place.
A row is a tuple: its right side and its coefficients."""

import itertools
import random

import windowfloor as wf
from edges import LIMIT, MAX
from job_bytes import (
    BAD_STEPS, SAME, changed_value, cut_short, damaged, family, field, head, job, last_only, lent, make, make_both,
    other_lengths, other_tags, random_steps, row, rows_fields, rows_job, table, tables_about_4, words)
from table_cases import FAMILY_STEPS, MOST_PLACES

RANDOM = 100  # of each kind
MOST_ROWS, MOST_COEFFICIENTS = 64, 2048
KIND_3 = field(1, b"\3")
IDENTITY = table(*range(11))
TO_TEN = family(4, 6)  # has scale 10 at every capacity from 6 up

# Two rows of different right sides, and steps of both tags that accept them.
SMALL = rows_fields([(10, 7, 5), (12, 0, 12, 3)], family(4, 3), table(0, 0, 1, 1, 2))


def numbers_of_rows():
    """Rows of no coefficients and of some, as many as may be and more."""
    for count in (1, 2, 256, 256 + MOST_ROWS, 600):
        yield rows_job([(0,)] * count)
    for count in (1, 2, 3, MOST_ROWS - 1, MOST_ROWS, MOST_ROWS + 1):
        yield rows_job([(10,)] * count)
        yield rows_job([(LIMIT, SAME)] * count)
        yield rows_job([(10, 7)] * count, family(1, 4), IDENTITY)
        yield rows_job([(i + 6, i, 0) for i in range(count)], TO_TEN, IDENTITY)
        yield rows_job([(10, 3)] + [(10,)] * (count - 1), family(3, 3))
        yield rows_job([(10,)] * (count - 1) + [(20, 20, 7)], family(3, 3))


def numbers_of_coefficients():
    """In one row and spread over rows, as many as may be and more."""
    most = MOST_COEFFICIENTS
    for counts in (
            (most - 1,), (most,), (most + 1,), (3000,), (16_378,), (most, 0), (0, most), (most, 1), (1, most),
            (most // 2,) * 2, (most // 2, most // 2 + 1), (most // 2 + 1, most // 2), (0,) * 63 + (most,),
            (most,) + (0,) * 63, (32,) * 64, (32,) * 63 + (33,), (33,) + (32,) * 63, (32,) * 65):
        rows = [(LIMIT,) + (SAME,) * count for count in counts]
        yield rows_job(rows)
        yield rows_job(rows, family(1, LIMIT // 2))
        yield rows_job([(0,) * (count + 1) for count in counts])  # and 1 in row 1
    rng = random.Random(40_000)
    rows = [(100 + i,) + tuple(rng.randint(0, 100 + i) for _ in range(32)) for i in range(MOST_ROWS)]
    yield rows_job(rows, family(2, 3), family(4, 51), table(*range(101)))
    yield rows_job([(700,) + tuple(rng.randint(0, 700) for _ in range(most))], family(5, 9), family(7, 13, 30))


def no_rows():
    """The kind alone, and steps without a row, which nobody judges."""
    yield KIND_3
    for step in (family(1, 3), IDENTITY) + BAD_STEPS:
        yield KIND_3 + step
    for count in range(2, 10):
        yield KIND_3 + family(0, 0) * count
        yield KIND_3 + IDENTITY * count


def out_of_place():
    """Tag 6 in other kinds, tags 1 to 3 in kind 3, and all orders of a few fields."""
    good, step = row(10, 7, 3), family(1, 3)
    for kind in (0, 1, 2, 4, 128, 255):
        fields = head(kind, 10, (3,)) + [step]
        for place in range(5):
            yield b"".join(fields[:place] + [good] + fields[place:])
        yield b"".join(fields[:1] + [good])
        yield b"".join(fields[:1] + [good] + fields[3:])
        yield b"".join(fields[:1] + [step])
    yield from (good, good * 2, good + KIND_3, KIND_3 + KIND_3 + good)
    fields = head(3, 10, (3,)) + [good, step, IDENTITY]
    for count in (1, 2, 3):
        for chosen in itertools.product(fields, repeat=count):
            yield KIND_3 + b"".join(chosen)
    yield from other_tags(SMALL)


def fourth_bytes():
    """Jobs whose fourth byte is 3 though they are not of kind 3, or end before it."""
    yield from (b"\1\0\2\3\3", b"\2\0\1\3", b"\1\0\1\3\0", b"\0\0\0\3", b"\7\7\7\3" * 5, b"\1\0\0\3", b"\1\1\0\3",
                b"\3\3\3", b"\3\3\3\3", b"\6\0\4\3\0\0\0", b"\1\1\1\3", b"\1\0\3\3\3\3", b"\3\0\0\3\0\0")
    for count in (65_535, 65_536):
        yield b"\3" * count
        yield (b"".join(SMALL) + bytes(count))[:count]


def lengths():
    """Every length of a tag 6 that is short, and other lengths in a good job."""
    for length in range(34):
        yield KIND_3 + field(6, bytes(length))
        yield KIND_3 + field(6, words((10, 5, 5, 5, 0, 0, 0, 0, 0))[:length]) + family(0, 0)
    for length in (65_523, 65_524, 65_525, 65_527, 65_528):  # to the longest job and over it
        yield KIND_3 + field(6, bytes(length))
        yield KIND_3 + field(6, bytes(length - 1), length)
    yield from other_lengths(SMALL)


def defects_behind_21():
    """A field that is refused goes before too many rows, too many coefficients, or none."""
    too_many = [(10,)] * 65
    for start in (rows_job(too_many), rows_job(too_many, family(0, 0)), rows_job([(0,) * 2050]), KIND_3,
                  KIND_3 + IDENTITY):
        for end in (b"\6", b"\6\0", b"\6\0\4\0\0\0", b"\4\0\x09" + bytes(8), b"\x09\0\0", field(2, words([10])),
                    field(3, b""), KIND_3, row(10, 3), field(4, bytes(8)), field(5, bytes(4)), field(6, bytes(5)),
                    field(6, b""), field(7, b"\0\1"), family(8, 1), family(1, 3)):
            yield start + end


def numbers_of_steps():
    """0 to 9 steps of families, of tables and of both."""
    for count in range(10):
        for steps in ((family(1, 3), family(5, 5)), (IDENTITY, table(*[0] * 6, *[10] * 5)),
                      (family(1, 2), IDENTITY), (TO_TEN, IDENTITY)):
            yield rows_job([(10, 1, 3, 6), (10,), (10, 10, 0)], *(steps * 5)[:count])
            yield rows_job([(10, 1, 6), (11, 11, 5)], TO_TEN, *(steps * 5)[:count])
    for steps in itertools.product(FAMILY_STEPS, repeat=2):
        yield rows_job([range(10, -1, -1), (12, 12, 7, 3)], *(family(*step) for step in steps))


def right_sides():
    """Right sides and coefficients at their limits, in row 1 and in later rows."""
    for right in (0, 1, 2, 9, LIMIT - 1, LIMIT, LIMIT + 1, 2**31, MAX):
        for coefficients in ((), (0,), (1,), (right,), (min(MAX, right + 1),), (0, right, MAX), (right, 0)):
            one = (right,) + coefficients
            yield rows_job([one])
            yield rows_job([(LIMIT, 1, LIMIT), one, (LIMIT, MAX)])
            yield rows_job([one, (0,)], family(1, 0))
    for place in (1, 2, 64):
        for one in ((0, 3), (LIMIT + 1,), (10, 11), (10, 3, 11, 3)):
            yield rows_job([(10, 7)] * (place - 1) + [one] + [(10, 7)] * (64 - place), family(1, 4))


def tables_in_rows():
    """Tables that fit every row, or row 1 alone; 18 behind a step that leaves another capacity."""
    for rights in ((10,), (10, 10), (10, 10, 10), (10, 11), (10, 10, 9), (9, 10), (6, 7, LIMIT), (10, 5), (10, 2047)):
        rows = [(right, right, right // 2, 0) for right in rights]
        for steps in ((IDENTITY,), (IDENTITY, IDENTITY), (family(1, 2), IDENTITY), (TO_TEN, IDENTITY),
                      (IDENTITY, TO_TEN, IDENTITY), (family(2, 2), table(*range(21))), (table(0, 1),)):
            yield rows_job(rows, *steps)
    largest = last_only(2048, 2047)
    yield rows_job([(2047, 2047, 5)] * 64, *[largest] * 7)
    yield rows_job([(2047, 2047, 5)] * 63 + [(2046,)], largest)
    longest_list = table(0, 1, *[0] * 2045, 2046)
    yield rows_job([(2047, 3), (2047, 3)], largest, longest_list)
    yield rows_job([(2046, 3), (2047, 3)], longest_list)


def other_capacities():
    """Tables of the capacity that row 1 leaves them, of row 2's and of none: 18 goes before 8 to 11."""
    for capacity, steps in tables_about_4():
        yield rows_job([(capacity, 3), (9 - capacity, 3)], *steps)


def longest():
    """A job of 65,533 bytes, next to it, and over the most."""
    rows = [(2047, 2047, 5), (2047,) + (0,) * 1923] + [(2047, 9)] * 2 + [(2047,)] * 59 + [(2047, 2046, 2047)]
    data = rows_job(rows, *[last_only(2048, 2047)] * 7)
    yield from (data, data[:-1], data + b"\4", data + b"\4\0", data + b"\4\0\0")


def refused_steps():
    """Each refused step in row 1, and steps that only a later row's right side makes wrong."""
    for step in BAD_STEPS:
        yield rows_job([(10, 3, 8), (0, 10)], step)
        for before in ([], [IDENTITY], [family(1, 3)] * 7, [family(1, 3)] * 8):
            yield rows_job([(10, 3, 8), (10, 10)], *before, step)
    later = (  # the right side of the rows before, the later one, and the steps
        (10, 9, family(1, 5)), (10, 11, family(6, 3, 2)), (10, 9, family(7, 3, 2)), (10, 3, family(4, 4)),
        (10, 3, family(5, 4)), (10, 2, family(3, 2)), (10, 11, family(2, LIMIT // 10)), (10, 30, family(7, 3, 10**8)),
        (LIMIT // 2, LIMIT, family(3, 1)), (10, 13, family(6, 3, LIMIT // 6 - 1)), (10, 9, IDENTITY),
        (10, 11, IDENTITY), (10, LIMIT, IDENTITY), (10, 10, family(8, 1)), (10, 10, table(0, 1, *[0] * 8, 9)))
    for first, other, step in later:
        for place, before in ((1, 0), (2, 0), (2, 1), (3, 7), (64, 0)):
            rows = [(first, 0, 2)] * (place - 1) + [(other, 2), (0, 5)]
            yield rows_job(rows[:MOST_ROWS], *[family(1, 0)] * before, step)


# Rows and steps, each with what is wrong in it.
RIGHT_SIDE_0, RIGHT_SIDE_OVER, OVER = (0, 5), (LIMIT + 1, 5), (10, 11)
OTHER_RIGHT_SIDE = (11, 5)  # for a table of 10
FINE = (10, 7, 3)
NOT_FEASIBLE = table(*range(10), 9)


def two_defects():
    """Two things wrong, so that their order shows: rows, then the steps of each row."""
    kinds = (FINE, RIGHT_SIDE_0, RIGHT_SIDE_OVER, OVER, OTHER_RIGHT_SIDE, (11, 12))
    steps = ((), (IDENTITY,), (family(8, 1),), (family(1, 6),), (family(2, LIMIT),), (NOT_FEASIBLE,), (table(1, 1),),
             (table(0, 0),), (table(0, MAX),), (table(0, 1, 1),), (IDENTITY, family(8, 1)), (family(1, 5), IDENTITY))
    for first, second, chain in itertools.product(kinds, kinds, steps):
        yield rows_job([first, second], *chain)
    for third, chain in itertools.product(kinds[1:], steps):
        yield rows_job([FINE, FINE, third, RIGHT_SIDE_0], *chain)
    for chain in steps:  # 21 goes before all of them
        yield rows_job([OVER, (0,) * 2049], *chain)
    yield rows_job([RIGHT_SIDE_0] * 65)
    yield rows_job([OVER] * 65, family(8, 1))


def every_byte():
    """A small job cut at every byte, and with every byte changed."""
    data = b"".join(SMALL)
    yield from cut_short(data)
    for place, byte in enumerate(data):
        for other in sorted({0, 1, 3, 6, 255, byte ^ 1} - {byte}):
            yield data[:place] + bytes([other]) + data[place + 1:]


def random_rows(rng, right, steps):
    """Rows that the steps accept: of this right side, and of others where they do."""
    rows = []
    for _ in range(rng.choice((1, 1, 2, 2, 3, 4, 6))):
        other = rng.choice((right, right, right + rng.randint(1, 3), rng.randint(1, LIMIT)))
        if other > LIMIT or wf.cut(rows_job([(other,)], *steps), *lent(wf.CUT_PLACES))[0] != wf.ACCEPTED:
            other = right
        rows.append((other,) + tuple(rng.randint(0, other) for _ in range(rng.randint(0, 5))))
    return rows


def random_fields(rng):
    """An accepted job."""
    right = rng.choice((1, 7, 10, 24, 100, LIMIT, rng.randint(1, 30), rng.randint(1, LIMIT)))
    steps = ([TO_TEN] if right >= 6 and rng.randint(0, 2) == 0 else [])
    steps += random_steps(rng, 10 if steps else right)[:8 - len(steps)]
    return rows_fields(random_rows(rng, right, steps), *steps)


def with_odd_row(rng, fields):
    """A row more that may be wrong by its right side or a coefficient, or for a step."""
    rights = [int.from_bytes(part[3:7], "big") for part in fields if part[0] == 6]
    near = max(0, rng.choice(rights) + rng.randint(-2, 2))
    right = rng.choice((near, near, near, 0, LIMIT + 1, rng.randint(1, 40)))
    coefficients = [min(MAX, rng.randint(0, right + rng.choice((0, 0, 0, 1)))) for _ in range(rng.randint(0, 3))]
    place = rng.randint(1, 1 + len(rights))
    return b"".join(fields[:place] + [row(right, *coefficients)] + fields[place:])


def random_jobs():
    rng = random.Random(50_000)
    for _ in range(RANDOM):
        yield b"".join(random_fields(rng))
        yield with_odd_row(rng, random_fields(rng))
        yield damaged(rng, random_fields(rng))
        yield changed_value(rng, random_fields(rng))


def buffers():
    """Each buffer too short, exact and longer, for every kind and every sort of answer, of both operations."""
    full = (wf.JOB_IMAGES, wf.JOB_WORKING, wf.JOB_LIST)
    good = b"".join(SMALL)
    jobs = (b"", job(1, 10, (6, 6, 6)), job(2, 10, (0, 4), NOT_FEASIBLE), job(4, 10, (1,)), good, good[:-1],
            KIND_3, rows_job([FINE, OVER]), rows_job([FINE, FINE], IDENTITY, NOT_FEASIBLE), rows_job([(10,)] * 65),
            rows_job([(10, 7)] * 64), good + family(8, 1), good + row(10), bytes(65_535), bytes(65_536),
            KIND_3 + bytes(65_532))
    for data, own in itertools.product(jobs, (0, 1, 2, 63, 64, 65, 70, MOST_PLACES)):
        yield from make_both(data, *full, own)
    for data in (good, rows_job([(LIMIT,) + (SAME,) * 2000])):
        for places in ((2047, 2048, 2047), (2048, 2047, 2047), (2048, 2048, 2046), (2047, 2047, 2046),
                       (0, 0, 0), (MOST_PLACES,) * 3):
            for own in (63, 64, 65):
                yield from make_both(data, *places, own)


def row_cases():
    for part in (numbers_of_rows, numbers_of_coefficients, no_rows, out_of_place, fourth_bytes, lengths,
                 defects_behind_21, numbers_of_steps, right_sides, tables_in_rows, other_capacities, longest,
                 refused_steps, two_defects, every_byte, random_jobs):
        yield from map(make, part())
    yield from buffers()
