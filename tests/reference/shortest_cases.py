"""Writes crates/shortest_cases/stdin (cases of shortest lists: n w v l s k and k
pairs) and crates/shortest_cases/stdout (their answers: number, length, and six facts
of the buffers that are the same for every shortest list that may be shown). With
--check it writes nothing and fails if a stored file differs.

The table has n entries, the working buffers w and v places and the list buffer l.
Entries, and what the buffers hold before the call, are as in the table cases, and so
it is in the second working buffer."""

import itertools
import random
import sys

sys.dont_write_bytecode = True
import table_cases
import windowfloor as wf
from case_files import lines, store_or_check
from edges import EDGES, LIMIT, MAX
from table_cases import LARGEST, MOST_PLACES, checksum, entries_of, random_entries

RANDOM = 120  # of each sort
MOST_BYTES = 262_144  # of all cases

# Numbers of sizes: powers of two, and what stands next to them.
FEWEST = (1, 2, 3, 4, 5, 7, 8, 9, 15, 16, 17, 31, 32, 33, 63, 64, 65)


def make(n, s, pairs=(), working=0, second=0, listed=0):
    """A case whose buffers have so many places more than are needed."""
    n, w, *others = table_cases.make(n, s, pairs, working, listed)
    return (n, w, max(0, n + second), *others)


def of(*entries, **places):
    """A case of these entries."""
    return make(len(entries), 0, [(place, entry) for place, entry in enumerate(entries) if entry], **places)


def some(capacity, scale, *pairs, **places):
    """Images of these sizes alone, and the scale."""
    return make(capacity + 1, 0, pairs + ((capacity, scale),), **places)


def of_the_table_check():
    """Its cases, of which it refuses many with 11, with a second buffer as long as the first."""
    for n, w, *others in table_cases.all_cases():
        yield (n, w, w, *others)


def numbers_of_sizes():
    """One size, of which so many overshoot and one less does not; and all that fit do not."""
    for fewest, (size, spare), image in itertools.product(FEWEST, ((1, 1), (1, 0), (2, 1), (3, 0), (5, 4)), (1, 7)):
        for scale in (image * fewest - 1, image * (fewest - 1), image * fewest, image * (fewest - 1) - 1):
            if scale > 0:
                yield some(fewest * size + spare, scale, (size, image))


def two_sizes():
    """Some of one size and some of another."""
    for fewest in FEWEST[1:]:
        for first in sorted({1, fewest // 2, fewest - 1}):
            second = fewest - first
            for more in (0, 1):
                capacity = 3 * first + 5 * second + more
                yield some(capacity, 10 * first + 17 * second - 1, (3, 10), (5, 17))
                yield some(capacity, 10 * first + 17 * second - 1, (3, 10), (5, 17), (1, 2))


def only_ones():
    """The longest lists: none is shorter than the capacity."""
    for capacity in (1, 2, 3, 4, 5, 7, 8, 9, 15, 16, 17, 31, 32, 33, 63, 64, 65, 100, 255, 256, 257):
        yield some(capacity, max(1, capacity - 1), (1, 1), listed=1)
        yield some(capacity, capacity, (1, 1), listed=1)
        yield some(capacity, min(LIMIT, capacity * 1000 - 1), (1, 1000), listed=1)


def longer_walks():
    """The table check shows ones, as many as the capacity has, or the least of the sizes that serve."""
    for capacity in (5, 12, 33, 64, 100, 200):
        identity = range(capacity)
        yield of(*identity, capacity - 1)                                     # any two that fill the capacity
        yield of(*[x + (x == capacity // 2 + 1) for x in identity], capacity)
        for most in sorted({2, 3, 4, capacity // 5, capacity // 3, capacity // 2, capacity - 1}):
            yield of(*[min(x, most) for x in identity], capacity - 1)         # each of at most so much
            yield of(*[min(x, most) for x in identity], max(1, capacity - most))
    for capacity, step in itertools.product((30, 61, 100), (2, 3, 7)):        # a step at a time
        yield of(*[x // step * step * 2 for x in range(capacity)], 2 * (capacity // step * step) - 1)
        yield of(0, 2, *[x // step * (2 * step + 1) for x in range(2, capacity)], 2 * capacity - 1)


def ties():
    """Many shortest lists."""
    for capacity, image in itertools.product((2, 3, 4, 7, 16, 33), (1, 9, LIMIT // 8)):
        for fewest in sorted({1, 2, 3, (capacity + 1) // 2, capacity}):
            if 0 < image * fewest - 1 <= LIMIT:
                yield of(0, *[image] * (capacity - 1), image * fewest - 1)
    for capacity in (6, 7, 20, 21):
        yield of(*[2 * x + x % 2 for x in range(capacity)], 2 * capacity)
        yield of(*[2 * x + x % 3 for x in range(capacity)], 2 * capacity + 2)
        yield of(*[x * (capacity - x) for x in range(capacity)], capacity * capacity // 4)


TABLES = (  # with lists of 1 to 5 sizes, and dual-feasible ones
    (0, 0, 2, 1), (0, 1, 2, 3, 4, 4), (0, 1, 1, 1, 2), (0, 2, 2, 5), (0, 1, 1, 1, 1, 4), (0, 3), (0, 1, 1, 1, 1, 5))


def buffers():
    """Each buffer too short, exact and longer, and the others too."""
    for entries in TABLES:
        for working, second, listed in itertools.product((-1, 0, 1, 40), repeat=3):
            yield of(*entries, working=working, second=second, listed=listed)
    for working, second, listed in ((-2, 0, 0), (0, -2, 0), (-2, -2, -1), (-1, -2, 0), (5, -2, 0), (0, -1, 7)):
        yield of(0, 1, working=working, second=second, listed=listed)
        yield of(0, 2, 1, working=working, second=second, listed=listed)
    for scale in (2, 3):
        for working, second, listed in ((-1, 0, 0), (0, -1, 0), (0, 0, -1), (0, 0, 0), (1, 1, 1), (52, 52, 53),
                                        (-2048, 0, 0), (0, -2048, 0), (0, 0, -2047), (52, -1, 53)):
            yield some(2047, scale, (682, 1), working=working, second=second, listed=listed)


def orders():
    """Every choice of a fault, or none, for each refusal but 25, of a table with a list and of a dual-feasible one."""
    entries = ((0, 2, 1), (0, 1, 2))
    shorts = ((0, 0, 0), (-1, 0, 0), (0, -1, 0), (0, 0, -1), (-1, -1, -1))
    for chosen, first, last, over in itertools.product(entries, (0, 1, LIMIT + 1), (None, 0), (0, LIMIT + 1, MAX)):
        changed = [first, over or chosen[1], chosen[2] if last is None else last]
        for working, second, listed in shorts:
            yield of(*changed, working=working, second=second, listed=listed)
    for n in (0, 1, LARGEST + 1):
        for working, second, listed in shorts + ((40, 40, 40), (-n, -n, 1 - n)):
            yield make(n, 0, [(0, LIMIT + 1)], working, second, listed)


def limits():
    """Images about the limit, whose totals pass 32 bits."""
    for value in EDGES:
        for k in (2, 3, 4, 9):
            yield some(2 * k + 1, LIMIT, (2, value))
            yield some(2 * k + 1, min(MAX, value), (2, LIMIT), (3, LIMIT - 1))
            yield some(k, value, (1, value // k + 1))
            yield some(k, value, (1, value // k))
    for fewest in FEWEST[1:]:
        part = LIMIT // fewest
        yield some(2 * fewest + 1, LIMIT, (2, part + 1))
        yield some(2 * fewest + 1, LIMIT, (2, part), (1, 1))
        yield some(2 * fewest, part * fewest - 1, (2, part), (3, part))


def large():
    """Of the most entries, with lists of one size to as many as fit."""
    capacity = LARGEST - 1
    for fewest in (1, 2, 3, 4, 16, 17, 32, 33):
        size, image = capacity // fewest - (fewest == 1), LIMIT // fewest
        yield some(capacity, image * fewest - 1, (size, image))
        yield some(capacity, image * (fewest - 1) or 1, (size, image), (size // 2 + 1, image // 3))
    yield make(LARGEST, 1, [(capacity, capacity - 1)], 52, 52, 53)            # 2 of many, where the check shows ones
    yield make(LARGEST, 1, [(1000, 1001), (capacity, capacity)])
    yield make(LARGEST, 3, [(1, 4), (capacity, 3 * capacity + 2)])            # three ones and what is left
    yield make(LARGEST, 5, [(1, 6), (capacity, 5 * capacity + 8)])            # nine
    yield some(capacity, capacity - 1, (1, 1), listed=53)
    yield some(capacity, capacity, (1, 1))
    yield some(capacity, 3 * 511, (2, 3), (4, 6), (8, 12), (9, 13))
    yield some(1024, 1023, (1, 1))
    yield some(1024, 1023, (1, 1), (16, 16), (512, 511))


def random_slopes(rng):
    """Images near a slope, of all sizes or of some, and a scale just under what they reach."""
    capacity, slope, few = rng.randint(10, 60), rng.randint(2, 9), rng.choice((1, 2, 5))
    entries = [0] * (capacity + 1)
    for x in range(rng.choice((1, 1, 3)), capacity):
        if rng.randrange(few) == 0:
            entries[x] = max(0, slope * x + rng.randint(-2, 2))
    entries[-1] = max(1, wf.best_totals(entries)[-1] - rng.choice((0, 1, 1, 2, slope)))
    return entries


def random_cases():
    rng = random.Random(90_000)
    for _ in range(RANDOM):
        yield of(*random_slopes(rng))
        entries = random_entries(rng)
        entries[-1] = min(MAX, max(0, entries[-1] - rng.randint(0, 2)))
        yield of(*entries, **{name: rng.choice((-1, 0, 0, 0, 0, 1, 7)) for name in ("working", "second", "listed")})


def all_cases():
    """Each case once, in the order of its first making."""
    cases = {}
    for part in (numbers_of_sizes, two_sizes, only_ones, longer_walks, ties, buffers, orders, limits, large,
                 of_the_table_check, random_cases):
        cases.update(dict.fromkeys(part()))
    return list(cases)


# Answers

def answer(case):
    n, w, v, l, s, k = case[:6]
    assert n <= LARGEST + 1 and max(w, v, l) <= MOST_PLACES and len(case) == 6 + 2 * k
    entries = entries_of(n, s, case[6:])
    working, second = ([7_000_000_000 + i for i in range(places)] for places in (w, v))
    listed = [900_000 + i for i in range(l)]
    number, length = wf.shortest(entries, working, second, listed)
    shown, behind = listed[:length], listed[length:]
    fits = sum(shown) < max(1, n)
    overshoots = sum(entries[size] for size in shown) > (entries[-1] if entries else 0)
    kept = (checksum(working), checksum(second)) if 6 <= number <= 10 else (0, 0)
    return (number, length, int(fits), int(overshoots), shown.count(0), checksum(behind)) + kept


def main():
    cases = all_cases()
    stdin = lines(cases)
    assert len(stdin) <= MOST_BYTES
    return store_or_check("shortest_cases", stdin, lines(map(answer, cases)))


if __name__ == "__main__":
    sys.exit(main())
