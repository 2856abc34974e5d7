"""Writes crates/image_cases/stdin (image cases: capacity family p q x) and
crates/image_cases/stdout (their answers: number image scale). With --check it
writes nothing and fails if a stored file differs."""

import math
import random
import sys

sys.dont_write_bytecode = True
import windowfloor as wf
from case_files import lines, store_or_check
from edges import AT_LIMIT, BEFORE, DOUBLED, EDGES, LIMIT, of_scale, parameters_about, scales_of

TOTAL = 2000
MOST_BYTES = 65_536  # of all cases
FAMILIES = range(1, 8)
MAX = 2**64 - 1

# A legal (p, q) for capacity 10.
USUAL = {1: (3, 0), 2: (2, 0), 3: (3, 0), 4: (3, 0), 5: (4, 0), 6: (3, 2), 7: (3, 2)}

# (capacity, p, q) whose scale is the limit, and the next one above it.
SCALE_AT_LIMIT = {
    1: [(LIMIT, 7, 0)], 2: [(1000, LIMIT // 1000, 0), (LIMIT, 1, 0)],
    3: [(LIMIT // 2, 1, 0), (LIMIT, 2, 0)], 4: [(LIMIT, LIMIT // 2 + 1, 0)],
    5: [(LIMIT, 8, 0)], 6: [(3, 2, LIMIT // 2 - 1)], 7: [(3, 2, LIMIT - 1)]}
SCALE_OVER_LIMIT = {
    2: (5969, 670_129, 0), 3: (LIMIT // 2 + 1, 1, 0), 4: (LIMIT, LIMIT // 2 + 2, 0),
    6: (3, 2, LIMIT // 2), 7: (3, 2, LIMIT)}


def reckoned():
    """The function rows of 01, Checked by reckoning."""
    rows = [(10, 1, 3, 0, (2, 3, 7, 8, 10)), (10, 1, 5, 0, (5,)), (10, 1, 6, 0, (5,)),
            (10, 2, 2, 0, (3, 4, 7, 10)), (9, 2, 2, 0, (3, 4, 9)),
            (10, 3, 3, 0, (3, 5, 6, 8)), (10, 4, 2, 0, (4, 5, 6)),
            (10, 5, 4, 0, (2, 3, 7, 10)), (10, 6, 3, 2, (2, 5, 8, 10)),
            (10, 6, 3, 1, (2,)), (10, 6, 5, 2, (2,)),
            (10, 7, 3, 2, (2, 5, 8, 10)), (10, 7, 3, 3, (2, 10))]
    for capacity, family, p, q, sizes in rows:
        for x in sizes:
            yield capacity, family, p, q, x


def half_windows():
    """Request 5: family 1 at its greatest p and one over, of odd and even capacities."""
    for capacity in (1, 2, 3, 4, 5, 6, 7, 96, 97, 2**29 - 1, LIMIT - 1, LIMIT):
        for p in ((capacity + 1) // 2, (capacity + 1) // 2 + 1):
            for x in sorted({0, capacity - p, capacity - p + 1, p, p + 1, capacity}):
                if 0 <= x <= capacity:
                    yield capacity, 1, p, 0, x
    yield 5, 1, 3, 1, 3
    yield 5, 1, 3, 0, 6


def least_q(capacity, family, p):
    """The least legal q, or None."""
    for q in range(capacity + 1):
        if wf.legal(capacity, family, p, q):
            return q
    return None


def small():
    """Every size for small capacities."""
    for capacity in (1, 2, 3):
        for family in FAMILIES:
            for p in range(capacity + 1):
                q = least_q(capacity, family, p)
                if q is not None:
                    for x in range(capacity + 1):
                        yield capacity, family, p, q, x
    usual = [(10, family, p, q) for family, (p, q) in USUAL.items()]
    # All branches of families 6 and 7.
    for row in usual + [(14, 6, 6, 6), (14, 7, 6, 6), (13, 6, 6, 7), (13, 7, 6, 7)]:
        for x in range(row[0] + 1):
            yield row + (x,)


def limits():
    """One number at a limit or next to it, the others usual."""
    capacities = (0, 1, BEFORE, BEFORE + 1) + EDGES + (2**32, 2**32 + 10, MAX)
    large = EDGES + (2**32, 2**63, MAX)
    at_10 = (0, 1, 5, 6, 10, 11) + large
    at_limit = (0, 1, LIMIT // 2, LIMIT // 2 + 1) + large
    for family, (p, q) in USUAL.items():
        yield from ((value, family, p, q, value // 2) for value in capacities)
        yield from ((10, family, value, q, 7) for value in at_10)
        few = (0, 1, MAX) + EDGES  # only 0 is legal
        yield from ((10, family, p, value, 7) for value in (few if family <= 5 else at_10))
        yield from ((LIMIT, family, value, q, LIMIT // 2 + 1) for value in at_limit)
        yield from ((10, family, p, q, value) for value in (0, 5, 9, 10, 11, 2**32, MAX))


def orders():
    """Families out of range, and two refusals at once."""
    for family in (0, 8, 255):
        yield 10, family, 3, 0, 5
        yield 0, family, 3, 0, 5                      # 1 before 2
        yield LIMIT + 1, family, LIMIT + 1, 0, 5      # 1 before 2 before 3
        yield 10, family, LIMIT + 1, 0, 5             # 2 before 3
        yield 10, family, 3, MAX, MAX                 # 2 before 3 before 5
    for family, (p, q) in USUAL.items():
        yield 0, family, 0, LIMIT + 1, 1              # 1 before 3 before 5
        yield 10, family, p, LIMIT + 1, 11            # 3 before 5
    for family, (capacity, p, q) in SCALE_OVER_LIMIT.items():
        yield capacity, family, p, LIMIT + 1, 1       # 3 before 4
        yield capacity, family, p, q, capacity + 1    # 4 before 5
    yield 10, 2, LIMIT + 1, 0, 11                     # 3 before 4 before 5


def scales():
    """The scale at its limit and just over it."""
    for family, parameters in SCALE_AT_LIMIT.items():
        for capacity, p, q in parameters:
            for x in (capacity // 2, capacity // 2 + 1, capacity):
                yield capacity, family, p, q, x
    for family, (capacity, p, q) in SCALE_OVER_LIMIT.items():
        yield capacity, family, p, q, capacity // 2


def factors(number, divisor):
    """Factors from 1 to below the divisor with which the number leaves 0, 1 and the divisor less 1: the least and the
    greatest of each."""
    common = math.gcd(number, divisor)
    period = divisor // common
    for left in (0, 1, divisor - 1):
        first = left // common * pow(number // common, -1, period) % period or period
        if left % common == 0 and first < divisor:
            yield first
            yield first + (divisor - 1 - first) // period * period


def roundings():
    """Quotients that are rounded up, exact and beside it, from the least numbers to the greatest."""
    for capacity, p in ((10, 5), (10, 3), (12, 8), (1000, 640), (99_991, 4096), (LIMIT, 2), (LIMIT, 3),
                        (LIMIT, LIMIT // 5 * 2), (LIMIT - 1, LIMIT // 2), (LIMIT, LIMIT // 2 + 1)):
        for y in factors(p, capacity):
            yield from ((capacity, 4, p, 0, x) for x in (y, capacity - y))
    for capacity, p, q in ((14, 6, 6), (13, 6, 7), (20, 12, 3), (1003, 99, 28), (1_000_003, 999, 400),
                           (10**6, 700_001, 900), (LIMIT - 1, LIMIT // 5 * 3, LIMIT // 2 - 2),
                           (LIMIT, LIMIT // 5 * 3, 3)):
        r = capacity % p
        for b in factors(q, p - r):
            yield from ((capacity, family, p, q, x) for family in (6, 7) for x in (r + b, capacity - r - b))


def finer_units():
    """Request 7: capacities, parameters, scales and sizes at the limit, about it and over 32 bits doubled."""
    for capacity in (1, 3, BEFORE + 1, 2**31, LIMIT - 1, LIMIT):
        for family, p, q in parameters_about(capacity):
            yield capacity, family, p, q, capacity // 2
            if wf.family_refusal(capacity, family, p, q) == wf.ACCEPTED:
                yield from ((capacity, family, p, q, x) for x in (capacity // 2 + 1, capacity) + DOUBLED)
    for family, p, q in AT_LIMIT:
        yield from ((capacity, family, p, q, x) for capacity in EDGES for x in EDGES)
        for scale in scales_of(family):
            capacity, *others = of_scale(family, scale)
            yield from ((capacity, family, *others, x) for x in (0, 1, capacity - 1, capacity))
        # the widest products, of scales
        yield from ((LIMIT - 1, family, wide, q and LIMIT, 0) for wide in (2, 7, LIMIT - 2))


def some_number(rng, digits):
    return min(rng.randint(0, 10 ** rng.randint(1, digits)), MAX)


def random_arbitrary(rng):
    return (some_number(rng, 10), rng.randint(0, 9), some_number(rng, 20),
            some_number(rng, 20), some_number(rng, 20))


def random_legal(rng, family):
    while True:
        capacity, p = some_number(rng, 10), some_number(rng, 10)
        q = 0 if family <= 5 else some_number(rng, 6)
        x = rng.randint(0, capacity)
        if wf.image(capacity, family, p, q, x)[0] == 0:
            return capacity, family, p, q, x


def all_cases():
    """Each case once, in the order of its first making."""
    cases = {}
    for part in (reckoned, small, limits, orders, scales, roundings, half_windows, finer_units):
        cases.update(dict.fromkeys(part()))
    rng = random.Random(20_000)
    while len(cases) < TOTAL:
        family = len(cases) % 8
        case = random_legal(rng, family) if family in FAMILIES else random_arbitrary(rng)
        cases[case] = None
    return list(cases)


def main():
    cases = all_cases()
    stdin = lines(cases)
    assert len(stdin) <= MOST_BYTES
    return store_or_check("image_cases", stdin, lines(wf.image(*case) for case in cases))


if __name__ == "__main__":
    sys.exit(main())
