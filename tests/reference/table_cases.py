"""Writes crates/table_cases/stdin (table check cases: n w l s k and k pairs)
and crates/table_cases/stdout (their answers: number, length, a checksum of
each buffer, the list). With --check it writes nothing and fails if a stored
file differs.

The table has n entries, the working buffer w places and the list buffer l.
Entry i is i * s, or the value of the last pair (i, value). Before the call
place i of the working buffer holds 7,000,000,000 + i and place i of the list
buffer 900,000 + i."""

import random
import sys

sys.dont_write_bytecode = True
import windowfloor as wf
from case_files import lines, store_or_check
from edges import BEFORE, EDGES, LIMIT, MAX

RANDOM = 150
MOST_PLACES = 2100
LARGEST = 2048  # entries of the largest table

# (family, p, q), legal at capacity 10.
FAMILY_STEPS = ((1, 3, 0), (2, 2, 0), (3, 3, 0), (4, 3, 0), (5, 4, 0), (6, 3, 2), (7, 3, 2))


def make(n, s, pairs=(), working=0, listed=0):
    """A case whose buffers have so many places more than the check needs."""
    pairs = tuple(number for pair in pairs for number in pair)
    w, l = n + working, n - 1 + listed
    return (n, max(0, w), max(0, l), s, len(pairs) // 2) + pairs


def of(*entries, working=0, listed=0):
    """A case of these entries."""
    pairs = [(place, entry) for place, entry in enumerate(entries) if entry]
    return make(len(entries), 0, pairs, working, listed)


def reckoned():
    """The table rows of 01, Checked by reckoning."""
    yield of(0, 0, 2, 1)
    yield of(0, 1, 1, 2)
    yield of(0, 1, 1, 1, 1, 5)


def lengths():
    """The number of entries at its limits and next to them."""
    for n in (0, 1, 2, 3, 2047, LARGEST, LARGEST + 1):
        yield make(n, 1)
        yield make(n, 1, working=MOST_PLACES - n, listed=MOST_PLACES + 1 - n)
    for entries in ((5,), (0, 1), (0, 0), (0, LIMIT), (1, 1), (0, 0, 1), (0, 1, 1), (0, 1, 2)):
        yield of(*entries, working=2, listed=2)


def buffers():
    """Each buffer too short, exact and longer, for accepted and refused tables."""
    for entries in ((0, 3), (0, 1, 1, 1, 1, 5), (0, 2, 2, 5), (0, 0, 2, 1)):
        for working in (-1, 0, 1, 40):
            for listed in (-1, 0, 1, 40):
                yield of(*entries, working=working, listed=listed)
    yield of(0, 1, working=-2, listed=-1)
    for last in ((2047, 3), (2047, 2)):
        for working, listed in ((-1, 0), (0, -1), (0, 0), (1, 1), (52, 53), (-2048, -2047)):
            yield make(LARGEST, 0, [(682, 1), last], working, listed)


def limits():
    """Entries at the limit, one below, one over it and far over it; and one over the limit before request 7."""
    for value in EDGES + (BEFORE + 1,):
        yield of(value, 0, 0, 0, 1)
        yield of(0, value, 0, 0, 1)
        yield of(0, 0, value, 0, LIMIT)
        yield of(0, 0, 0, value, LIMIT)
        yield of(0, 0, 0, 0, value)
        yield of(0, value, value, value, value, value)  # totals over 32 bits
        yield make(LARGEST, 0, [(0, value), (2047, 1)])
        yield make(LARGEST, 0, [(1024, value), (2047, LIMIT)])
        yield make(LARGEST, 0, [(2046, value), (2047, LIMIT)])
        yield make(LARGEST, 1, [(2047, value)])


def orders():
    """Two or more refusals at once, so that their order shows."""
    for n in (0, 1, LARGEST + 1):                           # 6 before the rest
        yield make(n, 0, [(0, LIMIT + 1)], -n, 1 - n)
        yield make(n, 0, [(0, LIMIT + 1)], 10, 10)
    for working, listed in ((-1, 0), (0, -1)):              # 7 before the rest
        yield of(1, 0, 1, working=working, listed=listed)
        yield of(0, 1, 0, working=working, listed=listed)
        yield of(0, LIMIT + 1, 1, working=working, listed=listed)
        yield of(0, 1, 1, working=working, listed=listed)
        yield of(LIMIT + 1, 5, 0, working=working, listed=listed)
    for first in (1, LIMIT, LIMIT + 1):                     # 8 before the rest
        yield of(first, 0, 0)
        yield of(first, LIMIT + 1, 0)
        yield of(first, LIMIT + 1, 1)
        yield of(first, 1, 1)
    yield of(0, LIMIT + 1, 0)                               # 9 before 10
    yield of(0, 1, 0)                                       # 9 before 11
    yield of(0, LIMIT + 1, 1)                               # 10 before 11
    yield of(0, 1, LIMIT + 1, 1)
    yield of(0, 1, 1, LIMIT + 1)


def pair_rules():
    """Later pairs win; a pair behind the table is ignored."""
    yield make(4, 1, [(1, 5), (1, 1)])
    yield make(4, 1, [(1, 1), (1, 5), (3, 15), (3, 14)])
    yield make(4, 1, [(4, 7), (2048, 7), (2**63, 7), (2**64 - 1, 7)])
    yield make(4, 1, [(4, 7), (3, 2), (5, 7)])
    yield make(0, 9, [(0, 7)])
    yield make(2, 9, [(0, 0), (1, 1), (2, 2)])


def large():
    """Tables with many entries; only the first two have long lists."""
    yield make(LARGEST, 1, [(2047, 2046)], 5, 5)
    yield make(LARGEST, 0, [(1, LIMIT), (2047, LIMIT)])
    for s in (2, 1000, LIMIT // 2047):
        yield make(LARGEST, s)
    yield make(LARGEST, 1, [(2047, LIMIT)])
    yield make(LARGEST, 3, [(5, 0), (1000, 0), (1500, 4499), (2046, 1)], 3, 3)
    yield make(2047, 7, [(2046, 7 * 2046 + 1)])
    # Few entries that are not 0, accepted and refused.
    yield make(LARGEST, 0, [(2047, 1)])
    yield make(LARGEST, 0, [(700, 1), (2047, 2)])
    for scale in (10, 11, 12):
        yield make(LARGEST, 0, [(1000, 5), (1047, 6), (2047, scale)])
    for scale in (3, 4, 5):
        yield make(LARGEST, 0, [(500, 1), (2047, scale)])
    for scale in (150, 151, 152, 153):
        yield make(LARGEST, 0, [(100, 7), (149, 11), (401, 30), (2047, scale)])
    yield make(2047, 0, [(1023, 4), (2046, 7)])
    yield make(2047, 0, [(1024, 4), (2046, 4)])
    yield make(1000, 0, [(300, LIMIT), (400, LIMIT), (999, LIMIT)])


def families():
    """Images of the families at capacity 10, and with one entry changed."""
    for family, p, q in FAMILY_STEPS:
        images = [wf.family_image(10, family, p, q, x) for x in range(11)]
        yield of(*images)
        for place in (2, 5, 7):
            images[place] += 1
            yield of(*images)
            images[place] -= 1
        images[10] -= 1
        yield of(*images)


def random_entries(rng):
    n = rng.randint(2, 12)
    most = rng.choice((1, 2, 5, 9, 9, 30))
    entries = [0] + [rng.randint(0, most) for _ in range(n - 1)]
    kind = rng.randint(0, 9)
    if kind == 0:
        entries[rng.randrange(n)] = rng.randint(0, MAX)
    elif kind < 8:  # a scale next to the best of the other entries
        entries[-1] = max(0, wf.best_totals(entries[:-1] + [0])[-1] + rng.randint(-1, 1))
    return entries


def random_case(rng):
    working = rng.choice((-1, 0, 0, 0, 1, 1, 2, 3, 7, 7))
    listed = rng.choice((-1, 0, 0, 0, 1, 1, 2, 3, 7, 7))
    return of(*random_entries(rng), working=working, listed=listed)


def all_cases():
    """Each case once, in the order of its first making."""
    cases = {}
    for part in (reckoned, lengths, buffers, limits, orders, pair_rules, large, families):
        cases.update(dict.fromkeys(part()))
    rng = random.Random(20_000)
    total = len(cases) + RANDOM
    while len(cases) < total:
        cases[random_case(rng)] = None
    return list(cases)


def checksum(values):
    result = 0
    for value in values:
        result = (result * 31 + value % 4_294_967_291) % 2**32
    return result


def entries_of(n, s, pairs):
    entries = [i * s for i in range(n)]
    for place, value in zip(pairs[::2], pairs[1::2]):
        if place < n:
            entries[place] = value
    assert all(entry <= MAX for entry in entries)
    return entries


def answer(case):
    n, w, l, s, k = case[:5]
    assert n <= LARGEST + 1 and w <= MOST_PLACES and l <= MOST_PLACES and len(case) == 5 + 2 * k
    working = [7_000_000_000 + i for i in range(w)]
    listed = [900_000 + i for i in range(l)]
    number, length = wf.table_check(entries_of(n, s, case[5:]), working, listed)
    return (number, length, checksum(working), checksum(listed)) + tuple(listed[:length])


def main():
    cases = all_cases()
    return store_or_check("table_cases", lines(cases), lines(answer(case) for case in cases))


if __name__ == "__main__":
    sys.exit(main())
