"""Writes crates/sweep_cases/stdin (sweep cases: c f low high n k and k runs,
then m j and j runs) and crates/sweep_cases/stdout (their answers: number,
floor, p). With --check it writes nothing and fails if a stored file differs.

The list has n sizes: those of the k runs (count, first, step) in turn, each
size of a run step more than the one before it, mod 2**32, and 0 behind them. It
has m counts, made of the j runs in the same way, mod 2**16."""

import itertools
import random
import sys

sys.dont_write_bytecode = True
import windowfloor as wf
from case_files import lines, store_or_check
from edges import BEFORE, DOUBLED, EDGES, LIMIT, MAX, parameters_about
from job_bytes import apart, random_pairs
from runs import MOST_NUMBERS, given, numbers_in, ones, runs_of, take_counted_list

RANDOM, RANDOM_COUNTS = 400, 150
MAX_P = 2**64 - 1
SIZES, WIDEST = 2048, 4095  # the most sizes, and the most that high is above low
MOST_COUNT = 65_535
MOST_BYTES = 262_144  # of all cases
FAMILIES = (1, 2, 3, 4, 5)


def make(capacity, family, low, high, *runs, counts=None):
    """A case whose sizes are those of their runs, and its counts those of theirs; if these are left out, each is 1."""
    counts = ones(numbers_in(runs)) if counts is None else counts
    return (capacity, family, low, high) + given(runs) + given(counts)


def of(capacity, family, low, high, *sizes):
    """A case of these sizes, each counted once."""
    return make(capacity, family, low, high, *runs_of(sizes))


def counted(capacity, family, low, high, *pairs):
    """A case of these pairs of a size and its count."""
    sizes, numbers = apart(pairs)
    return make(capacity, family, low, high, *runs_of(sizes), counts=runs_of(numbers))


def reckoned():
    """Sizes of 01's hand-over and of Checked by reckoning."""
    for family in FAMILIES:
        for low, high in ((0, 12), (3, 3), (5, 5), (6, 10), (4, 5)):
            yield of(10, family, low, high, 7, 7, 5, 5, 5)
            yield of(10, family, low, high, 6, 6, 6)


def form():
    """Runs that do not fill the list, runs behind its end, and no run."""
    for listed in ((3, 1, 2, 7, 0), (2, 2, 2, 7, 0, 9, 0, 0), (3, 0), (3, 1, 99, 2, 1)):
        yield (10, 1, 0, 5) + listed + given(ones(listed[0]))


FAULTS = (  # each makes a refused case of the accepted one in pairs_of
    dict(capacity=0), dict(capacity=LIMIT + 1), dict(capacity=MAX_P),
    dict(family=0), dict(family=6), dict(family=7), dict(family=255),
    dict(runs=((SIZES + 1, 3),)), dict(runs=((SIZES, 3), (1, 0))), dict(runs=((3, 4), (1, 0))),
    dict(runs=((3, 4), (1, 11))), dict(runs=((1, 0), (3, 4))), dict(runs=((2, MAX),)),
    dict(low=6, high=5), dict(low=MAX_P, high=0), dict(low=0, high=WIDEST + 1),
    dict(low=0, high=MAX_P), dict(low=6, high=6 + WIDEST), dict(low=MAX_P, high=MAX_P))


def pairs_of(faults):
    """Each fault alone and each pair of them, so that their order shows."""
    for pair in itertools.combinations_with_replacement(faults, 2):
        case = dict(capacity=10, family=1, low=1, high=3, runs=((3, 4),), counts=ones)
        for fault in pair:
            case.update(fault)
        runs, counts = case["runs"], case["counts"](numbers_in(case["runs"]))
        yield make(case["capacity"], case["family"], case["low"], case["high"], *runs, counts=counts)


def faults():
    yield from pairs_of(FAULTS)


def ranges():
    """Ranges of one p, of the most and of one more, from 0, at the limit and at the last p."""
    starts = (0, 1, 2, 5, 50, 51, 100, 101, LIMIT - WIDEST, LIMIT - 1, LIMIT, LIMIT + 1,
              2**32 - WIDEST, 2**32, MAX_P - WIDEST - 1, MAX_P - WIDEST, MAX_P - 1, MAX_P)
    for family, low, width in itertools.product(FAMILIES, starts, (0, 1, WIDEST, WIDEST + 1)):
        if low + width <= MAX_P:
            yield make(100, family, low, low + width, (3, 51), (3, 26, 7))


def last_alone():
    """Ranges of which only the last p passes, or only the first, or none."""
    for family, first, last in ((1, 0, 30), (2, 1, LIMIT // 60), (3, 1, 30), (4, 2, 60), (5, 1, 60)):
        for low, high in ((first - 3, first), (first - 3, first - 1), (first, first),
                          (last, last + 9), (last + 1, last + 9), (last, last), (last - 9, last)):
            if low >= 0:
                yield of(60, family, low, high, 31, 31, 21, 20, 59, 1)


def limits():
    """Capacities and sizes at the limit; scales at 4's edge."""
    for family in FAMILIES:
        for capacity in (1, 2, 3, LIMIT - 1, LIMIT):
            half = capacity // 2
            for low in (0, 1, half - 2, half, capacity - 1, capacity, LIMIT - 2):
                low = max(0, low)
                yield of(capacity, family, low, low + 4, capacity, max(1, half), 1)
                yield of(capacity, family, low, low + 4, half + 1, half + 1, half + 1)
            yield of(capacity, family, 0, 9, capacity + 1)
        for capacity in (2, 3, 7, 1000, 63_246, 10**8):
            edge = LIMIT // capacity
            yield of(capacity, family, max(0, edge - 3), edge + 3, capacity, capacity // 2 + 1, 1)


def counts():
    """The number of sizes at its limits, and sums over 32 bits."""
    for family, n in itertools.product(FAMILIES, (0, 1, 2, SIZES - 1, SIZES, SIZES + 1)):
        yield make(LIMIT, family, 1, 3, (n, LIMIT))
        yield make(LIMIT, family, 2, 6, (n, 1, 1_900_000))
        yield make(60, family, 1, 31, (n, 31))
    for family in FAMILIES:
        yield make(1000, family, 0, WIDEST, (100, 500, 5))
    for family in (1, 3, 4, 5):
        yield make(60, family, 0, WIDEST, (SIZES, 31))


def ties():
    """Floors that many p share, falls and rises behind them."""
    for family in FAMILIES:
        yield make(60, family, 0, 60, (6, 60))
        yield make(60, family, 0, 60, (4, 15, 9), (5, 31))
        yield make(60, family, 0, 60, (20, 21))
        yield make(97, family, 1, 97, (12, 33, 1))
        yield make(97, family, 20, 97, (12, 33, 1))
        yield make(60, family, 0, 60)


def leaving(draw, capacity, family, p, left):
    """Pairs, drawn until their images sum to so many more than a multiple of the scale."""
    scale = wf.family_scale(capacity, family, p, 0)
    while True:
        pairs = draw()
        total = sum(count * wf.family_image(capacity, family, p, 0, size) for size, count in pairs)
        if (total - left) % scale == 0:
            return pairs


def rounded(draw):
    """Floors of one p whose sum is a multiple of the scale, and next to one: family 2 has sums by 12 alone here."""
    for family, p, by in ((1, 0, 1), (1, 20, 1), (2, 7, 12), (3, 7, 1), (4, 8, 1), (5, 7, 1)):
        for left in (0, by, -by):
            yield counted(96, family, p, p, *leaving(draw, 96, family, p, left))


def roundings():
    """Also of the most sizes."""
    rng = random.Random(60_000)
    yield from rounded(lambda: [(rng.randint(1, 96), 1) for _ in range(rng.randint(2, 9))])
    for last in (1, LIMIT - 1):
        yield make(LIMIT, 1, 0, 0, (SIZES - 1, LIMIT), (1, last))


def half_windows():
    """Request 5: family 1 about its greatest p, of odd and even capacities, each range with and without it."""
    for capacity in (1, 2, 3, 4, 5, 6, 7, 96, 97, 4095, LIMIT - 1, LIMIT):
        last = (capacity + 1) // 2
        for low, high in ((last, last), (last, last + 9), (last + 1, last + 9), (max(0, last - 9), last),
                          (max(0, last - 9), last - 1), (max(0, last - 9), last + 1)):
            yield of(capacity, 1, low, high, last, last, last)
            yield counted(capacity, 1, low, high, (last, 3), (capacity - last or 1, 300), (capacity, 2))
            yield of(capacity, 3, low, high, last, capacity)
        yield of(capacity, 1, last, last)
    yield of(5, 1, 3, 3, 2, 3)
    yield make(4095, 1, 0, WIDEST, (SIZES, 2048), counts=[(SIZES, 1, 3)])


def finer_units():
    """Request 7: ranges about each p of interest at large capacities, and where p doubled passes 32 bits."""
    for capacity in (BEFORE + 1, 2**31) + EDGES:
        half = capacity // 2
        for family, p, q in parameters_about(capacity):
            if q == 0 and family in FAMILIES:
                low = max(0, p - 2)
                yield of(capacity, family, low, low + 4, half + 1, half + 1, capacity)
                yield counted(capacity, family, low, low + 4, (half, 3), (capacity // 3, 300), (capacity - 1, 2))
    for family, p in itertools.product(FAMILIES, EDGES + DOUBLED):
        yield of(10, family, p - 2, p + 2, 6, 6, 6)
        yield of(1, family, p - 2, p + 2, 1)


def random_range(rng):
    """Capacity, family, low and high."""
    capacity = rng.randint(1, rng.choice((12, 60, 1000, LIMIT)))
    family = rng.choice(FAMILIES)
    low = rng.choice((0, 1, rng.randint(0, capacity), capacity // rng.randint(1, 9)))
    return capacity, family, low, low + rng.choice((0, 1, 7, 40, 300))


def random_cases():
    rng = random.Random(40_000)
    for _ in range(RANDOM):
        capacity, family, low, high = random_range(rng)
        sizes = [rng.randint(1, capacity) for _ in range(rng.randint(0, 9))]
        if rng.randint(0, 1):
            near = capacity // rng.randint(1, 5)
            sizes += [min(capacity, near + rng.randint(1, 3)) for _ in range(rng.randint(1, 9))]
        yield of(capacity, family, low, high, *sizes)


# Counts

COUNT_FAULTS = (  # the runs of counts for n sizes
    dict(counts=lambda n: ()), dict(counts=lambda n: ones(n - 1)), dict(counts=lambda n: ones(n + 1)),
    dict(counts=lambda n: ((n - 2, 1), (1, 0))), dict(counts=lambda n: ((n, 1), (1, 0))),
    dict(counts=lambda n: ((1, 0), (n - 1, 7))), dict(counts=lambda n: ((n - 1, 7), (1, 0))))


def faults_of_counts():
    """Too few or too many, with and without one of 0, and as many with one of 0."""
    yield from pairs_of(FAULTS + COUNT_FAULTS)


def reckoned_counts():
    """Those of 01, their equal sizes counted, and a block of identical meters."""
    for family in FAMILIES:
        for low, high in ((0, 12), (3, 3), (6, 10)):
            yield counted(10, family, low, high, (7, 2), (5, 3))
            yield counted(10, family, low, high, (6, 3))
            yield counted(10, family, low, high, (5, 300))


def form_of_counts():
    """Runs that do not fill the counts, runs behind their end, no run, and numbers of more than 16 bits."""
    for listed in ((3, 1, 2, 7, 0), (3, 2, 3, 7, 2, 9, 0, 0), (3, 0), (3, 1, 99, 2, 1), (3, 1, 3, 65_536, 0),
                   (3, 1, 3, 65_537, 0), (3, 1, 3, 65_535, 1), (3, 1, 3, 65_534, 1), (3, 1, 3, 300, 65_437),
                   (3, 1, 3, MAX, 0), (3, 2, 1, 5, 0, 2, 131_072, 1)):
        yield (10, 1, 0, 5) + given([(3, 6)]) + listed


def numbers_of_both():
    """As many sizes and as many counts as may be, and more; counts of an empty list; the most of both."""
    for n, m in itertools.product((0, 1, 2, SIZES - 1, SIZES, SIZES + 1, MOST_NUMBERS), repeat=2):
        yield make(60, 1, 1, 3, (n, 31), counts=[(m, 2)])
    for family in FAMILIES:
        yield make(60, family, 1, 31, counts=[(1, 0)])
        yield make(60, family, 1, 31, counts=[(SIZES, 1)])
        yield make(60, family, 1, 31, (SIZES, 31), counts=[(SIZES, 1, 2)])


def zeros():
    """A count of 0 at the first, middle and last place of a few and of many."""
    for n in (1, 2, 3, 9, SIZES):
        for place in sorted({0, n // 2, n - 1}):
            for other in (1, 256):
                numbers = [(place, other), (1, 0), (n - 1 - place, other)]
                yield make(60, 3, 1, 20, (n, 31), counts=numbers)


def limits_of_counts():
    """Counts at their limits and about a byte's, alone and two together."""
    for family in FAMILIES:
        for count in (1, 2, 255, 256, 257, 32_768, MOST_COUNT):
            yield counted(60, family, 1, 30, (31, count))
        for first, second in itertools.product((1, 2, MOST_COUNT), repeat=2):
            yield counted(60, family, 1, 30, (31, first), (22, second))


def largest_sums():
    """The most sizes of the greatest capacity, each counted the most, and sums next to it."""
    lasts = (LIMIT, MOST_COUNT), (LIMIT, MOST_COUNT - 1), (LIMIT - 1, 1)
    for family, (size, count) in itertools.product(FAMILIES, lasts):
        sizes, numbers = ((SIZES - 1, LIMIT), (1, size)), ((SIZES - 1, MOST_COUNT), (1, count))
        yield make(LIMIT, family, 1, 3, *sizes, counts=numbers)
    for family, p in ((3, 2), (4, LIMIT // 2 + 1), (5, LIMIT)):  # of the greatest scale
        yield make(LIMIT, family, p, p, (SIZES, LIMIT), counts=[(SIZES, MOST_COUNT)])


def neighbours():
    """Counts that differ from size to size, so that one of another size shows."""
    numbers = (1, 10, 100, 1000, 10_000)
    for family, turn in itertools.product(FAMILIES, range(5)):
        yield counted(60, family, 2, 30, *zip((7, 20, 31, 44, 59), numbers[turn:] + numbers[:turn]))
    for family in FAMILIES:
        yield make(700, family, 2, 40, (600, 101, 1), counts=[(600, 1, 109)])


def some_pairs(rng, capacity):
    return random_pairs(rng, capacity, rng.randint(2, 6), rng.choice((3, 300, MOST_COUNT)))


def leading(capacity, family, sizes, counts, low, high):
    """Every p that has the largest floor."""
    floors = {p: wf.one_step_floor(capacity, family, p, sizes, counts) for p in range(low, high + 1)
              if wf.family_refusal(capacity, family, p, 0) == wf.ACCEPTED}
    return [p for p, floor in floors.items() if floor == max(floors.values())]


def breaks_tie(without, found):
    """The least p with counts is a later one of those that share the floor without."""
    return found[0] in without[1:]


def makes_tie(without, found):
    """The least p without counts is a later one of those that share the floor with them."""
    return without[0] in found[1:]


def pairs_that(rng, decide, capacity, family, low, high):
    """Pairs whose counts decide so."""
    while True:
        pairs = some_pairs(rng, capacity)
        sizes, counts = apart(pairs)
        without = leading(capacity, family, sizes, [1] * len(sizes), low, high)
        if decide(without, leading(capacity, family, sizes, counts, low, high)):
            return pairs


def decided_by_counts():
    """For each family ties that counts break and make."""
    rng = random.Random(70_000)
    for family, decide in itertools.product(FAMILIES, (breaks_tie, makes_tie) * 3):
        yield counted(60, family, 1, 30, *pairs_that(rng, decide, 60, family, 1, 30))


def roundings_of_counts():
    rng = random.Random(90_000)
    yield from rounded(lambda: some_pairs(rng, 96))


def random_counts():
    rng = random.Random(80_000)
    for _ in range(RANDOM_COUNTS):
        capacity, family, low, high = random_range(rng)
        yield counted(capacity, family, low, high, *some_pairs(rng, capacity))


def all_cases():
    """Each case once, in the order of its first making."""
    cases = {}
    for part in (reckoned, form, faults, ranges, last_alone, limits, counts, ties, roundings, random_cases,
                 faults_of_counts, reckoned_counts, form_of_counts, numbers_of_both, zeros, limits_of_counts,
                 largest_sums, neighbours, decided_by_counts, roundings_of_counts, random_counts, half_windows,
                 finer_units):
        cases.update(dict.fromkeys(part()))
    return list(cases)


# Answers

def answer(case):
    capacity, family, low, high = case[:4]
    sizes, counts, end = take_counted_list(case, 4)
    assert end == len(case)
    return wf.sweep(capacity, family, sizes, counts, low, high)


def main():
    cases = all_cases()
    stdin = lines(cases)
    assert len(stdin) <= MOST_BYTES
    return store_or_check("sweep_cases", stdin, lines(map(answer, cases)))


if __name__ == "__main__":
    sys.exit(main())
