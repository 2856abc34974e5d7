"""Lists as runs (count, first, step), as the programs of the sweep cases and of the
exact cases read them: n k and k runs. A list has n numbers: those of its runs in
turn, each number of a run step more than the one before it, mod a power of 2, and 0
behind them."""

import itertools

MOST_NUMBERS = 2100  # of a list


def numbers_in(runs):
    return sum(run[0] for run in runs)


def given(runs):
    """How many numbers the runs have, and the runs; one may leave out its step."""
    whole = [run + (0,) * (3 - len(run)) for run in runs]
    return (numbers_in(runs), len(runs)) + sum(whole, ())


def ones(n):
    """The runs of n counts of 1."""
    return [(n, 1)] if n > 0 else []


def runs_of(numbers):
    return [(len(list(group)), number) for number, group in itertools.groupby(numbers)]


def take_list(case, at, bits):
    """The numbers, of so many bits, of the list that starts at a place of a case, and the place behind it."""
    n, k = case[at:at + 2]
    end = at + 2 + 3 * k
    runs = case[at + 2:end]
    assert n <= MOST_NUMBERS and len(runs) == 3 * k
    numbers = []
    for count, first, step in zip(runs[::3], runs[1::3], runs[2::3]):
        numbers += [(first + i * step) % 2**bits for i in range(count)]
    return (numbers + [0] * n)[:n], end


def take_counted_list(case, at):
    """The sizes and the counts that start at a place of a case, and the place behind them."""
    sizes, at = take_list(case, at, 32)
    counts, at = take_list(case, at, 16)
    return sizes, counts, at
