"""Tests of planner_windows.py: it takes any assignment into as many windows as the
line before them tells, and finds each fault."""

import unittest

from planner_cases import COUNTED, FILES, IN_BLOCKS, LISTS
from planner_windows import faults


def printed(arguments, *groups):
    """What a run prints of windows: a line and the sizes of each window behind it."""
    lines = [f"$ planner {arguments}", "best floor 4: no step"]
    for line, *windows in groups:
        lines += [line] + [f"  window {place}: {sizes}" for place, sizes in enumerate(windows, start=1)]
    return "\n".join([*lines, "cut: 7 x1 <= 10"]) + "\n"


class Taken(unittest.TestCase):
    def check(self, arguments, *groups):
        self.assertIn(arguments, LISTS + COUNTED + IN_BLOCKS + tuple(name for name, _ in FILES))
        self.assertEqual(faults(printed(arguments, *groups)), [])

    def test_every_assignment(self):
        self.check("10 7 7 5 5 5", ("fewest windows: 4", "7", "7", "5 5", "5"))
        self.check("10 7 7 5 5 5", ("fewest windows: 4", "5", "7", "5 5", "7"))
        self.check("10 7x2 5x3", ("fewest windows: 4", "7", "5", "7", "5 5"))

    def test_list_in_a_file(self):
        self.check("spaces.txt", ("fewest windows: 1", "20 20 20"))

    def test_no_sizes(self):
        self.check("no_sizes.txt", ("fewest windows: 0",))

    def test_blocks(self):
        self.check("10 7 5 / 7 5 / 5", ("fewest windows: 4", "7", "5 5", "7", "5"),
                   ("block 1, fewest windows: 2", "7", "5"), ("block 2, fewest windows: 2", "5", "7"),
                   ("block 3, fewest windows: 1", "5"), ("fewest windows of all blocks: 5",))

    def test_runs_without_windows(self):
        self.assertEqual(faults(printed("10 5x300") + printed("--rows planner_rows.txt") + printed("10 ''")), [])


class Found(unittest.TestCase):
    def check(self, fault, arguments, line, *windows):
        self.assertEqual(faults(printed(arguments, (line, *windows))), [f"{arguments}: {line}: {fault}"])

    def test_over_the_capacity(self):
        self.check("a window over the capacity", "10 7 7 5 5 5", "fewest windows: 4", "7", "7 5", "5", "5")

    def test_other_copies(self):
        for windows in (("7", "7", "5 5", "6"), ("7", "7", "5", "5"), ("7", "7", "5 5", "5 5"), ("7", "5", "5 5", "5")):
            self.check("not the copies of the list", "10 7 7 5 5 5", "fewest windows: 4", *windows)

    def test_copies_of_another_block(self):
        self.check("not the copies of the list", "10 7 5 / 7 5 / 5", "block 3, fewest windows: 1", "7")

    def test_order(self):
        self.check("sizes out of order", "100 51 51 34 34 34 26 26 26 26", "fewest windows: 4", "51 34", "26 51",
                   "34 34 26", "26 26")

    def test_number_of_windows(self):
        for windows in (("7", "7", "5 5"), ("7", "7", "5", "5", "5"), ()):
            self.check("not as many windows, or not in turn", "10 7 7 5 5 5", "fewest windows: 4", *windows)

    def test_numbering(self):
        text = printed("10 6 6 6", ("fewest windows: 3", "6", "6", "6"))
        for wrong in ("0", "1", "3", "02"):
            self.assertEqual(faults(text.replace("window 2", f"window {wrong}")),
                             ["10 6 6 6: fewest windows: 3: not as many windows, or not in turn"])

    def test_form(self):
        for window in ("", "6 ", "06", "0 6", "x"):
            self.check("not a window", "10 6 6 6", "fewest windows: 3", "6", window, "6")

    def test_windows_of_no_answer(self):
        for line in ("blocks: 2 2 1, total 5", "fewest windows of all blocks: 5"):
            self.check("windows without their number", "10 7 5 / 7 5 / 5", line, "7")

    def test_in_a_later_run(self):
        right = printed("10 6 6 6", ("fewest windows: 3", "6", "6", "6"))
        wrong = printed("5 3 3 3", ("fewest windows: 1", "3"))
        self.assertEqual(faults(right + wrong), ["5 3 3 3: fewest windows: 1: not the copies of the list"])


if __name__ == "__main__":
    unittest.main()
