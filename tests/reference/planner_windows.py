"""Checks the windows that the example examples/planner.c prints of short lists:

    planner_windows.py FILE    what tests/c/planner.sh has the example print

Behind a line on the fewest windows, of the list or of a block, there are as many
lines `window`, numbered from 1. The sizes of each total at most the capacity and
stand in the order of the list, and together they are its copies. Exits with 1 if
it is not so. The fewest themselves are in tests/c/planner.out, which
planner_cases.py compares."""

import re
import sys
from pathlib import Path

sys.dont_write_bytecode = True
from job_bytes import together, written_out
from planner_cases import in_blocks, words_of

LINES = re.compile(r"(.*)\n((?:  window .*\n)*)")  # any line, and the windows behind it
FEWEST = re.compile(r"(?:block (\d+), )?fewest windows: (\d+)")
WINDOW = re.compile(r"  window (\d+):((?: [1-9]\d*)+)")


def are_in_order(part, whole):
    """The whole without some of its members is the part."""
    rest = iter(whole)
    return all(member in rest for member in part)


def fault_of_sizes(capacity, copies, windows):
    """Why these windows are no assignment of the copies; None if they are."""
    if any(sum(window) > capacity for window in windows):
        return "a window over the capacity"
    if sorted(together(windows)) != sorted(copies):
        return "not the copies of the list"
    if not all(are_in_order(window, copies) for window in windows):
        return "sizes out of order"
    return None


def fault_of_windows(capacity, copies, fewest, lines):
    """The same of the lines, which are to be numbered up to the fewest."""
    windows = [WINDOW.fullmatch(line) for line in lines]
    if None in windows:
        return "not a window"
    if [window[1] for window in windows] != [str(place + 1) for place in range(fewest)]:
        return "not as many windows, or not in turn"
    return fault_of_sizes(capacity, copies, [list(map(int, window[2].split())) for window in windows])


def faults_of(run):
    """What is wrong with the windows of a run: its arguments, and the lines that it printed."""
    arguments, _, printed = run.partition("\n")
    for line, windows in LINES.findall(printed):
        fewest = FEWEST.fullmatch(line)
        if fewest:
            capacity, *words = words_of(arguments.strip())
            blocks = in_blocks(words)
            pairs = blocks[int(fewest[1]) - 1] if fewest[1] else together(blocks)
            fault = fault_of_windows(int(capacity), written_out(pairs), int(fewest[2]), windows.splitlines())
        else:
            fault = "windows without their number" if windows else None
        if fault:
            yield f"{arguments.strip()}: {line}: {fault}"


def faults(printed):
    first, *runs = re.split(r"^\$ planner", printed, flags=re.MULTILINE)
    assert first == ""
    return [fault for run in runs for fault in faults_of(run)]


def main():
    found = faults(Path(sys.argv[1]).read_text())
    print("".join(f"{fault}\n" for fault in found), end="")
    return 1 if found else 0


if __name__ == "__main__":
    sys.exit(main())
