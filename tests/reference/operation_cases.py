"""Cases for both operations of jobs: what each says of the kinds that it does not
take, and what comes before that."""

import itertools

import windowfloor as wf
from edges import LIMIT
from job_bytes import (
    BAD_STEPS, CUTS, FLOORS, SAME, blocked_job, blocks, counted_blocked_job, counted_job, family, field, head, job,
    make_both, rows_fields, rows_job, with_early_faults)
from row_cases import KIND_3, fourth_bytes, no_rows

MOST_RUNS = 20  # of a short job
KINDS = 0, 1, 2, 3, 4, 255
TO_SIX = family(1, 4), family(3, 3)


def list_part(kind, faults):
    """The fields before the steps, with 1, 17 and, in kind 3, 21 if they are among the faults."""
    capacity, size = 0 if 1 in faults else 10, 11 if 17 in faults else 7
    if kind != wf.ROWS:
        return head(kind, capacity, (size, 3))
    return rows_fields([(capacity, size, 3)] * (wf.MOST_ROWS + 1 if 21 in faults else 2))


def faulty(kind, faults):
    """The cases of a kind with the faults of these numbers, 2 being that of the step."""
    step = family(8 if 2 in faults else 1, 3)
    wrong_length = field(4, bytes(8)) if 15 in faults else b""
    return with_early_faults(b"".join(list_part(kind, faults)) + step + wrong_length, faults, field(3, b""))


def orders():
    """No fault, one, and any two together, so that their order and that of 16 shows."""
    for kind in KINDS:
        numbers = (12, 7, 13, 14, 15, 1, 17, 2) + ((21,) if kind == wf.ROWS else ())
        for count in range(3):
            for faults in itertools.combinations(numbers, count):
                yield from faulty(kind, faults)


def steps():
    """Each refused step, in each kind."""
    for step in BAD_STEPS:
        yield from (job(1, 10, (3, 8, 10), step), job(2, 10, (3, 8, 10), step), rows_job([(10, 3, 8), (10, 10)], step))


def forms():
    """Each form of a list, accepted, and with a count of 0 and wrong blocks."""
    for chain in ((), TO_SIX):
        for kind in KINDS:
            yield job(kind, 10, (7, 7, 5, 5, 5), *chain)
        yield rows_job([(10, 7, 7), (12, 5), (10,)], *chain)
        for count in (0, 3):
            yield counted_job(10, [(7, 2), (5, count)], *chain)
            yield counted_blocked_job(10, [[(7, 2)], [(5, count)]], *chain)
        yield blocked_job(10, [[7, 5], [7, 5], [5]], *chain)
        yield job(1, 10, (7, 5), blocks(1), *chain)


def numbers_of_rows():
    """No row, the most and one more; the most coefficients and one more; and fields that are refused behind them."""
    yield from no_rows()
    for rows in ([(10,)] * 64, [(10,)] * 65, [(LIMIT,) + (SAME,) * 2048], [(LIMIT,) + (SAME,) * 2049]):
        for end in (b"", family(8, 1), b"\4", field(3, b""), field(4, b"")):
            yield rows_job(rows) + end
    for end in (b"\6", field(3, b""), field(6, b"")):
        yield KIND_3 + end


def by_the_fourth_byte():
    """Jobs whose fourth byte is 2 or 3 though they are not of these kinds, or end before it."""
    yield from (b"", b"\1", b"\1\0", b"\1\0\0", b"\1\0\1", b"\2\0\0", b"\0\0\2")
    for data in fourth_bytes():
        yield from (data, data.replace(b"\3", b"\2"))


def operation_cases():
    yield from orders()
    for part in (steps, forms, numbers_of_rows, by_the_fourth_byte):
        for data in part():
            yield from make_both(data)


def by_the_other(cases):
    """The same cases of short jobs for the other operation."""
    for operation, *rest in cases:
        if rest[5] <= MOST_RUNS:
            yield (FLOORS + CUTS - operation, *rest)
