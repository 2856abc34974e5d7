"""The inputs of version 5.1.0, made from fixed seeds: tables that are asked for a shortest
list. It has one size, two, as many as a power of two and next to it, and all that fit;
the walk of the table check is as long and far longer; there are one shortest list and
many. Dual-feasible tables, images about the limit, and the largest tables; every refusal
alone and beside each other, and buffers of many lengths."""

import itertools
import random

from inputs_base import ENTRIES, HIGHER as LIMIT, MAX, around, best_totals, some_entries

FEWEST = (1, 2, 3, 4, 5, 6, 7, 8, 9, 10, 12, 15, 16, 17, 24, 31, 32, 33, 47, 48, 49, 63, 64, 65, 127, 128, 129)


def asked(entries, working=0, second=0, listed=0):
    """Buffers of so many places more than are needed, or fewer."""
    entries = list(entries)
    n = len(entries)
    places = dict(working=(n, working), second=(n, second), list=(n - 1, listed))
    return dict(entries=entries) | {name + "_places": max(0, least + more)
                                    for name, (least, more) in places.items() if more}


def some(capacity, scale, images):
    """Images of these sizes alone, and the scale."""
    return asked([images.get(x, 0) for x in range(capacity)] + [min(MAX, scale)])


def numbers_of_sizes():
    """One size overshoots so many times, and one time less it does not."""
    for fewest, (size, spare), image in itertools.product(FEWEST, ((1, 1), (2, 0), (4, 3)), (3, 1000)):
        for scale in (image * fewest - 1, image * (fewest - 1), image * fewest):
            yield some(fewest * size + spare, scale, {size: image})
    for first, second in itertools.product((1, 2, 3, 7, 8), repeat=2):  # of one size so many, and of another
        for more in (0, 1):
            yield some(4 * first + 7 * second + more, 8 * first + 15 * second - 1, {4: 8, 7: 15})
            yield some(4 * first + 7 * second + more, 8 * first + 15 * second - 1, {2: 3, 4: 8, 7: 15})


def all_that_fit():
    """Ones alone overshoot."""
    for capacity in range(1, 40):
        yield some(capacity, capacity - 1, {1: 1})
        yield some(capacity, 90 * capacity - 1, {1: 90})
        yield some(capacity, capacity, {1: 1})
    for capacity in (127, 128, 129, 300):
        yield some(capacity, capacity - 1, {1: 1})


def longer_walks():
    """The table check shows ones, as many as the capacity has, or else the least of the sizes that serve."""
    for capacity in (6, 11, 32, 47, 90, 150):
        yield asked([*range(capacity), capacity - 1])
        yield asked([x + (x == capacity // 3) for x in range(capacity)] + [capacity])
        yield asked([x + (x > capacity // 3) for x in range(capacity)] + [capacity + 1])
        for most in sorted({2, 5, capacity // 4, capacity // 2, capacity - 1}):
            yield asked([min(x, most) for x in range(capacity)] + [capacity - 1])
            yield asked([min(x, most) for x in range(capacity)] + [max(1, capacity - most)])
        for step in (2, 5):
            reached = capacity // step * step
            yield asked([x // step * step for x in range(capacity)] + [reached - 1])
            yield asked([x // step * step + x % 2 for x in range(capacity)] + [reached])


def ties():
    for capacity, image in itertools.product((2, 3, 5, 8, 21), (1, 40, LIMIT // 21)):
        for fewest in sorted({1, 2, 3, (capacity + 1) // 2, capacity}):
            yield asked([0] + [image] * (capacity - 1) + [image * fewest - 1])
    for capacity in (9, 10, 14, 15):
        yield asked([3 * x - x % 2 for x in range(capacity)] + [3 * capacity - 3])
        yield asked([3 * x + x % 4 for x in range(capacity)] + [3 * capacity + 3])


TABLES = ((0, 4, 3), (0, 1, 3, 4, 4), (0, 2, 2, 2, 5, 7), (0, 1, 1, 2), (0, 7), (0, 1, 1, 3), (0, 0, 2, 2, 4))


def buffers():
    for entries, *more in itertools.product(TABLES, (-1, 0, 3), (-1, 0, 3), (-1, 0, 3)):
        yield asked(entries, *more)
    for entries in TABLES:
        for more in ((-9, 0, 0), (0, -9, 0), (0, 0, -9), (-9, -9, -9), (60, 60, 60)):
            yield asked(entries, *more)
    for scale in (3, 4):
        for more in ((-1, 0, 0), (0, -1, 0), (0, 0, -1), (0, 0, 0), (9, 0, 0), (0, 9, 0), (0, 0, 9), (9, -1, 9)):
            yield asked([0] * 511 + [1] + [0] * 1535 + [scale], *more)


FAULTS = (  # each makes a refused table of those in faults()
    dict(entries=[]), dict(entries=[0]), dict(entries=[5] * (ENTRIES + 1)), dict(working_places=0),
    dict(working_places=3), dict(second_places=0), dict(second_places=3), dict(list_places=0), dict(list_places=2),
    dict(entries=[1, 2, 3, 3]), dict(entries=[LIMIT + 1, 2, 3, 3]), dict(entries=[0, 2, 3, 0]),
    dict(entries=[1, 2, 3, 0]), dict(entries=[0, LIMIT + 1, 3, 3]), dict(entries=[0, 2, MAX, 0]),
    dict(entries=[0, 2, 3, LIMIT + 1]), dict(entries=[1, MAX, 3, 3]), dict(entries=[1, 2, MAX, 0]))


def faults():
    """Of a table with a list, and of a dual-feasible one."""
    for entries in ([0, 2, 3, 4], [0, 1, 1, 3]):
        for pair in itertools.combinations_with_replacement(FAULTS, 2):
            yield dict(entries=entries) | pair[0] | pair[1]


def limits():
    """Totals pass 32 bits."""
    for value in around(2**31, LIMIT) + [MAX]:
        for place in range(5):
            yield asked([value if x == place else 0 for x in range(4)] + [value if place == 4 else LIMIT])
            yield asked([value if x == place else x // 2 * LIMIT // 2 for x in range(5)] + [LIMIT])
        yield asked([0] + [value] * 6)
        yield asked([0, 0, value // 2, value // 2, value // 2 + 1, value])
    for fewest in FEWEST[1:]:
        part = LIMIT // fewest
        yield some(3 * fewest + 2, LIMIT, {3: part + 1})
        yield some(3 * fewest, part * fewest - 1, {3: part, 4: part, 5: part + 1})


def large():
    capacity = ENTRIES - 1
    for fewest in (1, 2, 3, 5, 16, 17, 33):
        size, image = capacity // fewest - (fewest == 1), LIMIT // fewest
        yield some(capacity, image * fewest - 1, {size: image, size // 3 + 1: image // 4})
    for scale in (capacity - 1, capacity):
        yield asked([*range(capacity), scale], 5, 5, 5)
        yield some(capacity, scale, {1: 1})
    yield asked([2 * x + (x == 1) for x in range(capacity)] + [2 * capacity + 1])
    yield asked([4 * x + x % 2 for x in range(capacity)] + [4 * capacity + 1])
    yield some(capacity, 3 * 682 - 1, {3: 3, 9: 9, 11: 10, 20: 20})


def random_tables():
    rng = random.Random(51)
    for _ in range(150):
        yield asked(some_entries(rng, rng.randint(1, rng.choice((4, 12, 40)))))
        capacity, slope = rng.randint(10, 50), rng.randint(2, 7)
        entries = [0] + [max(0, slope * x + rng.randint(-2, 2)) if rng.randrange(3) else 0 for x in range(1, capacity)]
        most = best_totals(entries + [0])[-1]
        yield asked(entries + [max(1, most - rng.randint(0, 2 * slope))])


PARTS = (numbers_of_sizes, all_that_fit, longer_walks, ties, buffers, faults, limits, large, random_tables)


def inputs():
    return dict(shortest=itertools.chain(*(part() for part in PARTS)))
