"""Writes crates/job_cases/stdin (job cases: o i w l p b k and k runs) and
crates/job_cases/stdout (their answers: the nine numbers of the floor operation
or the six of the cut operation, a checksum of the image buffer, of the list
buffer and of the operation's own). With --check it writes nothing and fails if
a stored file differs.

The operation is that of the cut if o is 2, else that of the floor. The image,
working and list buffers and the operation's own, of block floors or of scales,
have i, w, l and p places. The job has b bytes: those of the runs (count, byte)
in turn, and 0 behind them. Before the call place j of the image buffer holds
800,000 + j, of the working buffer 7,000,000,000 + j, of the list buffer
900,000 + j and of the operation's own 700,000 + j. No case lies in two of the
blocks of 65,536 bytes that the program reads: empty lines fill up a block.

Here are the cases of kinds 1 and 2; row_cases.py has those of kind 3,
count_cases.py those with counts, block_cases.py those with blocks,
unit_cases.py those at the limit and operation_cases.py those of the operations
and the kinds that they do not take. A case goes to the operation that the
program calls, where its maker says nothing else; one of a short job goes to the
other as well."""

import itertools
import random
import sys

sys.dont_write_bytecode = True
import windowfloor as wf
from block_cases import block_cases
from case_files import in_blocks, lines, store_or_check
from count_cases import count_cases
from edges import LIMIT, MAX
from job_bytes import (
    BAD_STEPS, CUTS, SAME, changed_value, counted_job, cut_short, damaged, family, field, head, job, last_only, leaving,
    make, make_both, other_lengths, other_tags, random_steps, rows_job, table, tables_about_4)
from operation_cases import by_the_other, operation_cases
from row_cases import row_cases
from table_cases import FAMILY_STEPS, MOST_PLACES, checksum
from unit_cases import unit_cases

RANDOM = 600  # valid jobs, and as many damaged ones of each kind
MOST_BYTES = 65_536
SIZES, ENTRIES = 2048, 2048  # the most of one job and of one table


def good_fields(kind):
    """Head and steps of an accepted job with both kinds of step."""
    return head(kind, 10, (7, 7, 5, 5, 5)) + [
        family(1, 4), family(3, 3), table(0, 0, 2, 3, 3, 4, 6), family(5, 4)]


# Cases

def reckoned():
    """The jobs of 01: the hand-over program and Checked by reckoning."""
    yield make(job(1, 10, (7, 7, 5, 5, 5), family(1, 4), family(3, 3)))
    yield make(job(1, 10, (6, 6, 6)))
    yield make(job(1, 10, (6, 6, 6), family(1, 5)))
    yield make(b"")


def form():
    """Runs that do not fill the job, and runs behind its end."""
    data = job(2, 10, (0, 0))
    case = make(data)
    yield case[:5] + (len(data) - 1,) + case[6:]
    yield case[:5] + (len(data) + 12,) + case[6:]
    yield case[:5] + (len(data), 0)
    yield case[:5] + (len(data), 1, 99, 4)


def truncated():
    """Good jobs cut at every byte."""
    for kind in (1, 2):
        yield from map(make, cut_short(b"".join(good_fields(kind))))
    yield from map(make, cut_short(job(2, 10, (1, 0, 2), table(*range(11)))))


def tag_orders():
    """Every order of up to four fields, and every tag at every place of a good job."""
    fields = head(1, 10, (3, 4)) + [family(1, 3), table(*range(11))]
    for count in range(1, 5):
        for chosen in itertools.product(fields, repeat=count):
            yield make(b"".join(chosen))
    yield from map(make, other_tags(good_fields(1)))


def lengths():
    """Wrong lengths in a good job."""
    yield from map(make, other_lengths(good_fields(1)))


def chains():
    """0 to 9 steps of families, of tables and of both."""
    identity = table(*range(11))
    for kind in (1, 2):
        for count in range(10):
            for steps in ((family(1, 3), family(5, 5)), (identity, table(*[0] * 6, *[10] * 5)),
                          (family(1, 2), identity), (family(5, 2), family(1, 4))):
                yield make(job(kind, 10, (1, 3, 6, 8, 10), *(steps * 5)[:count]))
    for steps in itertools.product(FAMILY_STEPS, repeat=2):
        yield make(job(1, 10, range(1, 11), *(family(*step) for step in steps)))


def bad_steps():
    """Each refused step at the places 1 to 9, alone and before another."""
    for place in range(9):
        for step in BAD_STEPS:
            before = [family(1, 3), table(*range(11))] * 4 + [family(1, 1)]
            yield make(job(1, 10, (3, 8, 10), *before[:place], step))
    for step, other in itertools.product(BAD_STEPS[::3], BAD_STEPS[::4]):
        yield make(job(2, 10, (0, 10), step, other))


def other_capacities():
    """Tables of the present capacity and of others, bad ones and some in order; 18 goes before 8 to 11."""
    for kind, (capacity, steps) in itertools.product((1, 2), tables_about_4()):
        yield make(job(kind, capacity, (1, 3), *steps))


def capacities():
    """Capacities at their limits, with sizes at theirs."""
    for capacity in (0, 1, 2, LIMIT - 1, LIMIT, LIMIT + 1, 2**31, MAX):
        for kind in (1, 2):
            for size in (0, 1, 2, capacity // 2, max(0, capacity - 1), capacity, MAX):
                yield make(job(kind, capacity, (size,)))
            yield make(job(kind, capacity, ()))
            for number, p, q in FAMILY_STEPS:
                yield make(job(kind, capacity, (1, capacity), family(number, p, q)))
                yield make(job(kind, capacity, (capacity,), family(number, capacity // 2, q)))
    for last in (1, LIMIT):
        for kind in (1, 2):
            yield make(job(kind, 1, (1, 1), table(0, last), family(5, 1), family(1, 0)))
            yield make(job(kind, 1, (1,) * 5, family(2, last), family(4, last), family(3, 1)))
    yield make(job(1, LIMIT, (LIMIT, 1, LIMIT // 2), family(2, 1), family(1, LIMIT // 2)))
    yield make(job(1, LIMIT, (LIMIT,) * 5, *[family(1, 0)] * 8))


def kinds():
    """Kinds, capacities and sizes wrong together, so that the order shows."""
    bad = family(0, 0)
    for kind in (0, 1, 2, 3, 128, 255):
        for capacity in (0, 10, LIMIT + 1):
            for sizes in ((), (0,), (10,), (11,), (1, 0), (1, 11), (0, 11), (11, 0), (5, 5, 0, 5)):
                yield make(job(kind, capacity, sizes))
                yield make(job(kind, capacity, sizes, bad))


def counts():
    """The number of sizes at its limits, and sums over 32 bits."""
    for n in (0, 1, 2, SIZES - 1, SIZES, SIZES + 1):
        for kind in (0, 1, 2):
            yield make(job(kind, LIMIT, (SAME,) * n))
            yield make(job(kind, LIMIT, (SAME,) * n, family(1, LIMIT // 2)))
            yield make(job(kind, LIMIT, (0,) * n), MOST_PLACES, MOST_PLACES, MOST_PLACES)
    yield make(job(1, LIMIT, (LIMIT,) * SIZES))
    yield make(job(1, LIMIT, (SAME,) * (SIZES - 1) + (0,)))
    yield make(job(2, LIMIT, (SAME,) * (SIZES - 1) + (MAX,)))
    rng = random.Random(30_000)
    yield make(job(1, LIMIT, [rng.randint(1, LIMIT) for _ in range(SIZES)], family(5, 7)))
    sizes = [rng.randint(0, 900) for _ in range(SIZES)]
    entries = (0, 0, 1, 1, 2, 2, 3, 3, 4, 4, 5, 6, 6, 7, 7, 8, 8)
    yield make(job(2, 900, sizes, family(4, 9), table(*entries)))


def random_floor_job(rng, capacity, steps):
    return job(1, capacity, [rng.randint(1, capacity) for _ in range(rng.randint(2, 9))], *steps)


def roundings():
    """Floors of sums that are a multiple of E, and next to one."""
    rng = random.Random(50_000)
    for capacity, *steps in ((96,), (96, family(3, 7)), (96, family(1, 20), family(4, 8)),
                             (6, table(0, 0, 2, 3, 3, 4, 6), family(5, 4))):
        for left in (0, 1, -1):
            yield make(leaving(lambda: random_floor_job(rng, capacity, steps), left))
    for last in (1, SAME - 1, SAME):
        yield make(job(1, SAME, (SAME,) * (SIZES - 1) + (last,)))


def half_steps(capacity):
    """Family 1 at its greatest p, one below and one over."""
    last = (capacity + 1) // 2
    return [family(1, p) for p in (last - 1, last, last + 1)]


def first_halves():
    """Request 5: thresholds at half of odd and even windows, in lists and rows."""
    for capacity in (1, 2, 3, 4, 5, 6, 7, 97, LIMIT - 1, LIMIT):
        last = (capacity + 1) // 2
        sizes = [size for size in (last - 1, last, last + 1, capacity) if 1 <= size <= capacity]
        for kind, step in itertools.product((1, 2), half_steps(capacity)):
            yield make(job(kind, capacity, sizes, step))
        for step in half_steps(capacity):
            yield make(counted_job(capacity, [(size, 300 + size % 7) for size in sizes], step))
            yield make(rows_job([(capacity, *sizes), (capacity + 1, 1), (capacity - 1, 0)], step))


def later_halves():
    """Behind steps that leave another capacity."""
    for scale in (1, 2, 5, 6, 9, LIMIT - 1, LIMIT):
        small = table(*[0] * 6, *[scale] * 5)
        for step in half_steps(scale) + half_steps(10):
            yield make(job(1, 10, (3, 6, 8, 10), small, step))
    for before, present in ((family(5, 3), 3), (family(2, 3), 33), (family(3, 3), 6), (family(7, 3, 2), 9)):
        for step in half_steps(present) + half_steps(11):
            yield make(job(1, 11, range(1, 12), before, step))
            yield make(job(2, 11, range(12), step, before, step))


def chains_of_halves():
    for steps in itertools.product((family(1, 3), table(0, 0, 0, 5, 5, 5)), repeat=3):
        yield make(job(1, 5, (1, 2, 3, 4, 5), *steps))
        yield make(rows_job([(5, 2, 3), (5, 0), (5, 4, 1)], *steps, family(1, 4)))
    for count in (8, 9):
        yield make(job(1, 5, (1, 2, 3, 4, 5), *[family(1, 3)] * count))


def buffers():
    """Each buffer too short, exact and longer."""
    full = table(0, 1, *[0] * (ENTRIES - 3), ENTRIES - 2)  # refused with the longest list
    jobs = (b"", job(1, 10, (6, 6, 6)), job(2, ENTRIES - 1, (3,), full), job(1, 1, (1,), full),
            job(1, 10, (4,), table(*range(10), 9)), job(3, 0, (1,)), bytes(65_535), bytes(65_536))
    rooms = ((2047, 2048, 2047), (2048, 2047, 2047), (2048, 2048, 2046), (2048, 2048, 2047),
             (2049, 2049, 2048), (2100, 2100, 2100), (0, 0, 0), (0, 2100, 2100), (2100, 0, 2100),
             (2100, 2100, 0), (2047, 2047, 2046))
    for data, room in itertools.product(jobs, rooms):
        yield from make_both(data, *room)


def longest():
    """Jobs of 65,535 bytes and next to it."""
    step = last_only(ENTRIES, ENTRIES - 1)
    for kind, small in ((2, 0), (1, 1), (1, 0)):
        sizes = (ENTRIES - 1,) * 100 + (small,) * 1939
        data = job(kind, ENTRIES - 1, sizes, *[step] * 7)
        for end in (65_534, 65_535):
            yield make(data[:end])
        yield make(data + b"\0")
    eight = [last_only(2029, ENTRIES - 1)] + [step] * 6 + [last_only(ENTRIES, 7)]
    data = job(1, 2028, (2028,) * 8 + (5,), *eight)  # 65,534 bytes
    for more in (b"", b"\4", b"\4\0"):
        yield make(data + more)
    for n in (65_534, 65_535, 65_536):
        for byte in (0, 1, 5, 255):
            yield make(bytes([byte]) * n)
        yield make((job(1, 10, (6,)) + bytes(n))[:n])
        yield make((job(1, 10, (6,)) + field(4, b"", 65_535 - 18 - 3) + bytes(n))[:n])
        yield make((job(1, 10, (6,)) + field(5, b"", 65_535 - 18 - 2) + bytes(n))[:n])


# Random jobs

def random_fields(rng):
    kind = rng.randint(1, 2)
    capacity = rng.choice((1, 7, 10, 24, 100, 12_345, LIMIT))
    if rng.randint(0, 2) == 0:
        capacity = rng.randint(1, rng.choice((30, 1000, LIMIT)))
    sizes = [rng.randint(2 - kind, capacity) for _ in range(rng.randint(0, 9))]
    return head(kind, capacity, sizes) + random_steps(rng, capacity)


def random_cases():
    rng = random.Random(20_000)
    for _ in range(RANDOM):
        yield make(b"".join(random_fields(rng)))
        yield make(damaged(rng, random_fields(rng)))
        yield make(changed_value(rng, random_fields(rng)))


def all_cases():
    """Each case once, in the order of its first making."""
    cases = {}
    for part in (reckoned, form, truncated, tag_orders, lengths, chains, bad_steps, other_capacities,
                 capacities, kinds, counts, roundings, buffers, longest, random_cases, row_cases,
                 count_cases, first_halves, later_halves, chains_of_halves, block_cases, unit_cases, operation_cases):
        cases.update(dict.fromkeys(part()))
    return list(cases | dict.fromkeys(by_the_other(cases)))


# Answers

def job_of(case):
    b, k, runs = case[5], case[6], case[7:]
    assert b <= MOST_BYTES and len(runs) == 2 * k
    data = b"".join(bytes([byte]) * count for count, byte in zip(runs[::2], runs[1::2]))
    return (data + bytes(b))[:b]


def filled(places):
    """Images, working buffer, list and the operation's own buffer before the call."""
    assert max(places) <= MOST_PLACES
    firsts = 800_000, 7_000_000_000, 900_000, 700_000
    return [[first + i for i in range(count)] for first, count in zip(firsts, places, strict=True)]


def answer(case):
    images, working, listed, own = filled(case[1:5])
    call = wf.cut if case[0] == CUTS else wf.floor
    numbers = call(job_of(case), images, working, listed, own)
    return numbers + tuple(map(checksum, (images, listed, own)))


def main():
    cases = all_cases()
    return store_or_check("job_cases", in_blocks(cases), lines(map(answer, cases)))


if __name__ == "__main__":
    sys.exit(main())
