"""Checks the lists that the example examples/tables.c prints of tables that are not dual-feasible:

    tables.py FOLDER FILE    what tests/c/tables.sh has the example print of tables in the folder

The sizes of either list are printed in rising order, and their number, their total and that of their images are what is
printed; they fit, and their images overshoot. Of a small table all lists that fit are tried: the shortest has the fewest sizes of
those that overshoot, and a table is said to be dual-feasible where none does. Exits with 1 if it is not so."""

import re
import sys
from itertools import groupby
from pathlib import Path

MOST_TRIED = 12  # sizes of a small table: 272 lists fit
TABLE = re.compile(r"table of capacity (\d+), last entry (\d+): (not )?dual-feasible")
LIST = re.compile(r"  (table check|shortest): +(\d+) sizes?, total (\d+) of (\d+), images (\d+) over (\d+):(.*)")


def lists_within(total, least=1):
    """All lists of sizes in rising order that total at most so much."""
    yield []
    for size in range(least, total + 1):
        for rest in lists_within(total - size, size):
            yield [size] + rest


def overshoots(images, sizes):
    return sum(images[size] for size in sizes) > images[-1]


def fewest(images):
    """The fewest sizes of a list that fits and overshoots; None if there is none."""
    return min((len(sizes) for sizes in lists_within(len(images) - 1) if overshoots(images, sizes)), default=None)


def sizes_in(words):
    """5x3 is a size three times."""
    parts = [word.partition("x") for word in words.split()]
    return [int(size) for size, _, count in parts for _ in range(int(count or 1))]


def written(sizes):
    runs = [(size, len(list(same))) for size, same in groupby(sorted(sizes))]
    return "".join(f" {size}x{count}" if count > 1 else f" {size}" for size, count in runs)


def fault_of_list(images, found):
    capacity, sizes = len(images) - 1, sizes_in(found[7])
    if written(sizes) != found[7] or not all(1 <= size <= capacity for size in sizes):
        return "not sizes of the table in rising order"
    due = (len(sizes), sum(sizes), capacity, sum(images[size] for size in sizes), images[-1])
    if tuple(map(int, found.groups()[1:6])) != due:
        return f"not the numbers of this list: {due}"
    if sum(sizes) > capacity:
        return "does not fit"
    return None if overshoots(images, sizes) else "does not overshoot"


def faults_of_lists(images, lines):
    """What is wrong with the two lists."""
    found = [LIST.fullmatch(line) for line in lines]
    if None in found or [match[1] for match in found] != ["table check", "shortest"]:
        return ["not the two lists"]
    faults = [fault_of_list(images, match) for match in found]
    if len(images) - 1 <= MOST_TRIED and int(found[1][2]) != fewest(images):
        faults.append(f"the fewest sizes are {fewest(images)}")
    return [fault for fault in faults if fault]


def faults_of_table(images, lines):
    """What is wrong with the lines of a table that is accepted, or not dual-feasible."""
    capacity, last, negated = TABLE.fullmatch(lines[0]).groups()
    if (int(capacity), int(last)) != (len(images) - 1, images[-1]):
        return ["another table"]
    if negated:
        return faults_of_lists(images, [line for line in lines[1:] if line != "exit 1"])
    tried = len(images) - 1 <= MOST_TRIED
    return ["a list overshoots"] if tried and fewest(images) is not None else []


def faults(folder, printed):
    """What is wrong with any run, but those that end without such lines."""
    first, *runs = re.split(r"^\$ tables", printed, flags=re.MULTILINE)
    assert first == ""
    for run in runs:
        arguments, *lines = run.splitlines()
        if lines and TABLE.fullmatch(lines[0]):
            name = arguments.split()[-1]
            images = [int(word) for word in (folder / name).read_text().split()]
            yield from (f"{name}: {fault}" for fault in faults_of_table(images, lines))


def main():
    found = list(faults(Path(sys.argv[1]), Path(sys.argv[2]).read_text()))
    print("".join(f"tables: {fault}\n" for fault in found), end="")
    return 1 if found else 0


if __name__ == "__main__":
    sys.exit(main())
