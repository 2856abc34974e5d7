"""Writes crates/exact_cases/stdin (cases of the fewest windows: c, n k and k runs,
m j and j runs, w first step) and crates/exact_cases/stdout (their answers: number,
fewest, and four facts of the buffer that are the same for every assignment that may
be shown). With --check it writes nothing and fails if a stored file differs.

The list has n sizes and m counts, made of their runs as runs.py says. The buffer has
w places; before the call place i holds first + i * step, mod 2**32."""

import itertools
import random
import sys

sys.dont_write_bytecode = True
import windowfloor as wf
from case_files import lines, store_or_check
from edges import BEFORE, DOUBLED, EDGES, LIMIT, MAX
from job_bytes import apart, random_pairs, written_out
from runs import MOST_NUMBERS, given, numbers_in, ones, runs_of, take_counted_list
from short_lists import about, drawn_until, first_fit, first_fit_decreasing, near
from table_cases import checksum

RANDOM = 40  # of each sort
SIZES, COPIES, PLACES = 2048, 10, 10  # the most sizes and copies, and the least places
MOST_COUNT = 65_535
MAX_64 = 2**64 - 1
MOST_PLACES = 40  # of a buffer
MOST_BYTES = 262_144  # of all cases
LENT = 12, 900_000, 1  # places, first and step of a buffer that shows what is written


def make(capacity, *runs, counts=None, lent=LENT):
    """A case whose sizes are those of their runs, and its counts those of theirs; if these are left out, each is 1."""
    counts = ones(numbers_in(runs)) if counts is None else counts
    return (capacity,) + given(runs) + given(counts) + lent


def counted(capacity, sizes, counts, lent=LENT):
    return make(capacity, *runs_of(sizes), counts=runs_of(counts), lent=lent)


def of(capacity, *sizes, lent=LENT):
    """A case of these sizes, each counted once."""
    return counted(capacity, sizes, [1] * len(sizes), lent)


def reckoned():
    """Lists with full windows, with more windows than their total asks for, and those where first fit and first fit
    decreasing need more."""
    for capacity, *copies in ((10, 7, 3, 5, 5), (10, 9, 8, 7, 6, 5, 5, 4, 3, 2, 1), (10, 6, 6, 6), (10, 4, 4, 4, 4, 4),
                              (100, 51, 51, 49, 49, 1), (10, 4, 4, 4, 6, 6, 6), (10, 3, 3, 7, 7),
                              (12, 2, 3, 4, 10, 9, 8), (10, 4, 4, 3, 3, 3, 3), (7, 3, 3, 2, 2, 2, 2),
                              (100, 44, 44, 28, 28, 28, 28)):
        yield of(capacity, *copies)
        yield of(capacity, *reversed(copies))
        yield of(capacity, *copies[1:], copies[0])


def form():
    """Runs that do not fill the lists, runs behind their ends, no run, numbers over 16 and over 32 bits."""
    for listed in ((3, 1, 2, 7, 0), (2, 2, 2, 7, 0, 9, 0, 0), (3, 0), (3, 1, 99, 2, 1), (2, 1, 2, 2**32 + 6, 0)):
        yield (10,) + listed + given(ones(listed[0])) + LENT
    for listed in ((3, 1, 2, 3, 0), (3, 2, 3, 2, 2, 9, 0, 0), (3, 0), (3, 1, 99, 2, 1), (3, 1, 3, 65_536, 0),
                   (3, 1, 3, 65_537, 0), (3, 1, 3, 1, 65_537), (3, 1, 3, 2, 65_535)):
        yield (10,) + given([(3, 6)]) + listed + LENT


def numbers_of_copies():
    """0 to 11 copies, by sizes and by counts, of sizes about the capacity and about its parts."""
    for capacity, n in itertools.product((1, 12, 25, LIMIT), range(12)):
        for size in sorted({size for parts in (1, 2, 3, 4) for size in about(capacity, parts)} | {1}):
            yield of(capacity, *[size] * n)
            if n > 0:
                yield counted(capacity, [size], [n])
        if n > 1:
            yield counted(capacity, [capacity, 1], [1, n - 1])
            yield counted(capacity, [1, capacity], [n - 1, 1])
            yield of(capacity, *[1] * (n - 1), capacity)


def numbers_of_counts():
    """Counts at their limits and about a byte's, and totals that would be few in 16 bits."""
    for count in (1, 2, 9, 10, 11, 255, 256, 257, 32_768, MOST_COUNT - 1, MOST_COUNT):
        yield counted(10, [6], [count])
        yield counted(10, [6, 3], [count, 1])
        yield counted(10, [6, 3], [1, count])
    for totals in ((MOST_COUNT, 1), (MOST_COUNT, 5), (32_768, 32_768), (MOST_COUNT, MOST_COUNT, 7), (65_530, 6, 10)):
        yield counted(10, [6] * len(totals), totals)
    for n in (SIZES - 1, SIZES):
        yield make(10, (n, 6), counts=[(n, MOST_COUNT)])
        yield make(10, (n, 6), counts=[(n, 32_768)])  # in 16 bits 0
    for counts in itertools.permutations((1, 2, 3, 4)):
        yield counted(12, [3, 4, 6, 7], counts)


def lengths():
    """As many sizes and counts as may be, and more."""
    for n, m in itertools.product((0, 1, 2, 10, 11, SIZES - 1, SIZES, SIZES + 1, MOST_NUMBERS), repeat=2):
        yield make(60, (n, 31), counts=[(m, 1)])


def wrong_places():
    """A size of 0 or over the capacity, or a count of 0, at each place."""
    for n in (1, 2, 3, 10, 11):
        for place in range(n):
            for wrong in (0, 11, MAX):
                yield of(10, *[3] * place, wrong, *[3] * (n - 1 - place))
            yield counted(10, [3] * n, [1] * place + [0] + [1] * (n - 1 - place))
    for place in (0, SIZES // 2, SIZES - 1):
        for wrong in (0, 11):
            yield make(10, (place, 3), (1, wrong), (SIZES - 1 - place, 3))
        yield make(10, (SIZES, 3), counts=[(place, 1), (1, 0), (SIZES - 1 - place, 1)])


# Faults: each changes the case that `chosen` starts with.

def field(name, value):
    return lambda case: case.update({name: value})


def number(name, place, value):
    def change(case):
        case[name][place] = value
    return change


def one_count_less(case):
    case["counts"].pop()


def one_count_more(case):
    case["counts"].append(1)


def too_many_sizes(case):
    case["sizes"].extend([3] * SIZES)
    case["counts"].extend([1] * SIZES)


FAULTS = (  # for each refusal, in their order, some that bring it about
    (field("capacity", 0), field("capacity", LIMIT + 1), field("capacity", MAX_64)),
    (one_count_less, one_count_more, too_many_sizes),
    (number("sizes", 0, 0), number("sizes", 2, 11)),
    (number("counts", 0, 0), number("counts", -1, 0)),
    (number("counts", 1, MOST_COUNT), number("counts", 1, 8)),
    (field("places", 0), field("places", PLACES - 1)))


def chosen(faults):
    case = dict(capacity=10, sizes=[7, 3, 5], counts=[1, 1, 2], places=12)
    for fault in faults:
        if fault is not None:
            fault(case)
    return counted(case["capacity"], case["sizes"], case["counts"], (case["places"],) + LENT[1:])


def orders():
    """Every choice of a fault, or none, for each of the six refusals."""
    return map(chosen, itertools.product(*((None,) + ways for ways in FAULTS)))


def buffers():
    """Every length of a buffer, for the empty list, for some and for the most copies, and for too many; and what it
    holds before: numbers below the fewest, all the same, and at the end of 32 bits."""
    lists = ((), (7, 3, 5), (6,) * 9, (6,) * 10, (6,) * 11, (1,) * 10, (9, 8, 7, 6, 5, 5, 4, 3, 2, 1))
    for copies, places in itertools.product(lists, (*range(14), 20, MOST_PLACES)):
        yield of(10, *copies, lent=(places,) + LENT[1:])
    for copies, first, step in itertools.product(lists, (0, 1, 9, MAX), (0, 1, MAX)):
        yield of(10, *copies, lent=(PLACES, first, step))
        yield of(10, *copies, lent=(MOST_PLACES, first, step))


def limits():
    """Capacities about the limits, sizes about them and about half, and totals that would fit in 32 bits."""
    for capacity in sorted({0, 1, 2, 3, BEFORE, 2**32, 2**32 + 10, 2**63, MAX_64} | set(EDGES + DOUBLED)):
        half = capacity // 2
        for sizes in ((), (capacity,), (half, half + 1), (half, half, half), (half + 1, half + 1), (capacity - 1, 1, 1),
                      (capacity + 1,), (0, 1), (half - 1, half + 1, 1)):
            yield of(capacity, *(min(MAX, max(0, size)) for size in sizes))
    over = 2**32 - LIMIT
    for sizes in ((LIMIT, over), (2**31, 2**31), (LIMIT, over + 1, 5), (LIMIT // 2, LIMIT // 2, over), (LIMIT,) * 10,
                  (2**31 - 1, 2**31, 1), (3 * BEFORE, BEFORE, BEFORE, 3 * BEFORE), (LIMIT - 1, 1, LIMIT - 1, 2)):
        yield of(LIMIT, *sizes)
        yield of(LIMIT, *reversed(sizes))


# Random lists

def random_capacity(rng):
    return rng.choice((rng.randint(1, 12), rng.randint(10, 60), rng.randint(50, 1000), rng.randint(1000, LIMIT), LIMIT))


def near_parts():
    """Sizes near a half, a third and a fourth of the capacity, and beside such."""
    rng = random.Random(81_000)
    for parts, n in itertools.product((2, 3, 4), range(1, 11)):
        for _ in range(RANDOM // 10):
            capacity = random_capacity(rng)
            yield of(capacity, *near(rng, capacity, parts, n))


def fewest_of(capacity, copies):
    return len(wf.best_windows(capacity, copies))


def over_the_total(capacity, copies):
    return wf.up(sum(copies), capacity) < fewest_of(capacity, copies)


def first_fit_fails(capacity, copies):
    return first_fit(capacity, copies) > fewest_of(capacity, copies)


def decreasing_fails(capacity, copies):
    return first_fit_decreasing(capacity, copies) > fewest_of(capacity, copies)


def near_some(rng):
    return 60, near(rng, 60, rng.randint(2, 4), rng.randint(3, 8))


def full(rng):
    """A capacity and sizes that fill two or three windows."""
    capacity = rng.choice((30, 60, 100, LIMIT))
    copies = []
    for _ in range(rng.randint(2, 3)):
        first, second = sorted(rng.sample(range(capacity // 5, capacity - capacity // 5), 2))
        copies += [first, second - first, capacity - second]
    rng.shuffle(copies)
    return capacity, copies


def hard():
    """Lists that need more than their total asks for, and where first fit and first fit decreasing need more."""
    rng = random.Random(82_000)
    for draw, holds in ((near_some, over_the_total), (full, first_fit_fails), (full, decreasing_fails)):
        for _ in range(RANDOM // 2):
            capacity, copies = drawn_until(lambda: draw(rng), holds)
            yield of(capacity, *copies)


def random_cases():
    """Pairs, as often accepted as not, and the same copies written out."""
    rng = random.Random(80_000)
    for _ in range(3 * RANDOM):
        capacity = random_capacity(rng)
        pairs = random_pairs(rng, rng.choice((capacity, capacity // 2 + 1)), rng.randint(0, 6), 3)
        yield counted(capacity, *apart(pairs))
        yield of(capacity, *written_out(pairs))


def all_cases():
    """Each case once, in the order of its first making."""
    cases = {}
    for part in (reckoned, form, numbers_of_copies, numbers_of_counts, lengths, wrong_places, orders, buffers, limits,
                 near_parts, hard, random_cases):
        cases.update(dict.fromkeys(part()))
    return list(cases)


# Answers

def answer(case):
    sizes, counts, end = take_counted_list(case, 1)
    places, first, step = case[end:]
    assert places <= MOST_PLACES
    windows = [(first + i * step) % 2**32 for i in range(places)]
    number, fewest = wf.exact(case[0], sizes, counts, windows)
    copies = wf.copies_of(sizes, counts) if number == wf.ACCEPTED else []
    own, behind = windows[:len(copies)], windows[len(copies):]
    not_below = sum(window >= fewest for window in own)
    return number, fewest, int(wf.fits(case[0], copies, own)), len(set(own)), not_below, checksum(behind)


def main():
    cases = all_cases()
    stdin = lines(cases)
    assert len(stdin) <= MOST_BYTES
    return store_or_check("exact_cases", stdin, lines(map(answer, cases)))


if __name__ == "__main__":
    sys.exit(main())
