"""Tests of what examples/planner.c takes for granted: from 1 on, the p of a
family that are legal with a scale within the limit are one run of numbers that
begins with 1 or 2, or there are none. Of what planner_cases.py takes for
granted: a job of rows gives the cuts of as many jobs of one row. Of lists with
counts, which have the floors of all their copies. Of lists in blocks, whose
floors are those of the blocks as lists of their own. And of short lists, of which
the fewest windows are printed."""

import unittest
from unittest import mock

import planner_cases
import windowfloor as wf
from job_bytes import counted_job, family, field, lent
from planner_cases import (
    COUNTED, FILES, IN_BLOCKS, LISTS, MODEL, MODELS, SHORT, expected, expected_rows, greatest_p, in_blocks, notation,
    pair, run_cut, run_floor, sweeps, words_of)

FAMILIES = range(1, 6)


def accepted(capacity, family, p):
    return wf.family_refusal(capacity, family, p, 0) == wf.ACCEPTED


class LegalParameters(unittest.TestCase):
    def check_whole(self, capacity, family):
        legal = [p for p in range(1, wf.LIMIT + 3) if accepted(capacity, family, p)]
        self.assertEqual(greatest_p(capacity, family), max(legal, default=0))
        if legal:
            self.assertLessEqual(legal[0], 2)
            self.assertEqual(legal, list(range(legal[0], legal[-1] + 1)))

    def test_all_capacities_up_to_small_limits(self):
        for limit in range(6, 50):
            with mock.patch.object(wf, "LIMIT", limit):
                for capacity in range(1, limit + 1):
                    for family in FAMILIES:
                        with self.subTest(limit=limit, capacity=capacity, family=family):
                            self.check_whole(capacity, family)

    def test_ends_of_the_run_at_the_limit(self):
        half = wf.LIMIT // 2
        for capacity in (1, 2, 3, 10, 65_536, half - 1, half, half + 1, half + 2, wf.LIMIT - 1, wf.LIMIT):
            for family in FAMILIES:
                greatest = greatest_p(capacity, family)
                near = {1, 2, 3, greatest - 1, greatest, greatest + 1, greatest + 4096, wf.LIMIT, wf.LIMIT + 1}
                legal = sorted(p for p in near if p >= 1 and accepted(capacity, family, p))
                with self.subTest(capacity=capacity, family=family):
                    self.assertEqual(max(legal, default=0), greatest)
                    self.assertEqual(legal, sorted(p for p in near if legal and legal[0] <= p <= greatest))
                    self.assertLessEqual(legal[0] if legal else 1, 2)


def run_rows(rows, steps):
    """Number, step and row of the answer, the images and the scales of one job of kind 3."""
    images, working, listed, scales = lent(wf.CUT_PLACES)
    fields = [field(6, b"".join(number.to_bytes(4, "big") for number in row)) for row in rows]
    data = field(1, b"\3") + b"".join(fields + [family(*step) for step in steps])
    number, n, _, step, _, row = wf.cut(data, images, working, listed, scales)
    return (number, step, row), images[:n], scales[:len(rows)]


class Rows(unittest.TestCase):
    def test_reckoned_by_hand(self):
        """Family 1 turns 6 into 7 at C = 7 and leaves all else; then family 3, each with p = 3."""
        self.assertEqual(expected_rows(MODEL, ((1, 3, 0), (3, 3, 0))), """4 rows, 2 steps
row 1: 7 x1 + 5 x2 + 3 x3 <= 10
  cut: 4 x1 + 3 x2 + 2 x3 <= 6
row 2: 9 x1 + 6 x2 + 5 x3 + 3 x4 <= 13
  cut: 6 x1 + 4 x2 + 2 x3 + 2 x4 <= 8
row 3: 5 x1 + 4 x2 + 4 x3 + 0 x4 <= 9
  cut: 4 x1 + 2 x2 + 2 x3 + 0 x4 <= 6
row 4: 6 x1 + 3 x2 <= 7
  cut: 4 x1 + 2 x2 <= 4
""")

    def check(self, rows, steps):
        numbers, images, scales = run_rows(rows, steps)
        cuts = [run_cut(right_side, coefficients, *steps) for right_side, *coefficients in rows]
        refused = ((number, step, place) for place, (number, _, step, _) in enumerate(cuts, start=1) if number)
        self.assertEqual(numbers, next(refused, (0, 0, 0)))
        if numbers[0] == 0:
            self.assertEqual(images, sum((of_row for *_, of_row in cuts), []))
            self.assertEqual(scales, [scale for _, scale, *_ in cuts])

    def test_one_job_of_rows(self):
        for name, rows, steps in MODELS:
            if rows:
                with self.subTest(name=name, steps=steps):
                    self.check(rows, steps)


class Counts(unittest.TestCase):
    def test_reckoned_by_hand(self):
        """Family 1 with p = 5 turns 6 into 10 and 4 into 0, so each copy of 6 needs a window of its own; without a
        step the sum is 255 x 6 + 256 x 6 + 4 = 3,070."""
        text = expected("10 6x255 6x256 4".split()).splitlines()
        self.assertEqual(text[:3], ["capacity 10, 3 sizes: 6x255 6x256 4",
                                    "  no step                       floor 307",
                                    "  threshold           p = 5     floor 511, all legal p tried"])
        self.assertEqual(text[7:9], ["best floor 511: threshold, p = 5", "cut: 10 x1 + 10 x2 + 0 x3 <= 10"])

    def floors(self, capacity, pairs):
        """What is printed of a list's floors."""
        without = run_floor(counted_job(capacity, pairs))[1]
        return without, sweeps(capacity, pairs, without)

    def test_copies_in_the_place_of_counts(self):
        for line in ("10 7x2 5x3", "100 51x2 34x3 26x4", "60 20x5 31x3 41x2 12"):
            capacity, *words = line.split()
            pairs = [pair(word) for word in words]
            copies = [(size, 1) for size, count in pairs for _ in range(count)]
            with self.subTest(line=line):
                self.assertIn(line, COUNTED + tuple(words for _, words in FILES))
                self.assertEqual(self.floors(int(capacity), pairs), self.floors(int(capacity), copies))

    def test_notation(self):
        """It shows what it reads, without a count of 1."""
        self.assertEqual([pair("5"), pair("5x1"), pair("5x300")], [(5, 1), (5, 1), (5, 300)])
        self.assertEqual(notation([(5, 1), (5, 300), (7, 0)]), "5 5x300 7x0")


def best_step(line):
    """The step that a line `best floor` names, if there is one."""
    name, _, p = line.split(": ")[1].partition(", p = ")
    return [family(planner_cases.FAMILIES.index(name), int(p))] if p else []


def is_of_whole(line):
    """It is not on blocks."""
    return "block" not in line


class FewerTried(unittest.TestCase):
    def setUp(self):
        """Which step is the best does not matter here: fewer are tried."""
        fewer = mock.patch.object(planner_cases, "MOST_TRIED", 64)
        fewer.start()
        self.addCleanup(fewer.stop)


class Blocks(FewerTried):
    LINES = IN_BLOCKS + tuple(words for name, words in FILES if name in ("blocks.txt", "most_blocks.txt"))

    def test_reckoned_by_hand(self):
        """Family 1 with p = 4 turns 7 into 10 and leaves 5: sums of 15, 15 and 5, and of 35 for the whole list."""
        text = expected("10 7 5 / 7 5 / 5".split()).splitlines()
        self.assertEqual(text[0], "capacity 10, 5 sizes, 3 blocks")
        self.assertEqual([text[7], text[9], text[14]], ["best floor 4: threshold, p = 4", "blocks: 2 2 1, total 5",
                                                        "cut: 10 x1 + 5 x2 + 10 x3 + 5 x4 + 5 x5 <= 10"])

    def test_blocks_as_lists_of_their_own(self):
        for line in self.LINES:
            capacity, *words = line.split()
            text = expected(line.split()).splitlines()
            jobs = [counted_job(int(capacity), block, *best_step(text[7])) for block in in_blocks(words)]
            floors = [run_floor(data)[1] for data in jobs]
            with self.subTest(line=line):
                self.assertIn(f"blocks: {' '.join(map(str, floors))}, total {sum(floors)}", text)

    def test_nothing_else_than_without_blocks(self):
        for line in self.LINES:
            number = f", {line.count('/') + 1} blocks"
            first, *others = expected(line.split()).splitlines()
            with self.subTest(line=line):
                self.assertIn(number, first)
                self.assertEqual([first.replace(number, "").replace(" /", ""), *filter(is_of_whole, others)],
                                 expected(line.replace(" /", "").split()).splitlines())

    def test_notation(self):
        """It shows what it reads; a block may be without sizes, and without any / there is one block."""
        self.assertEqual(in_blocks("/ 5x300 7 / /".split()), [[], [(5, 300), (7, 1)], [], []])
        self.assertEqual([in_blocks([]), in_blocks(["5"])], [[[]], [[(5, 1)]]])
        self.assertEqual(expected("10 5 5x300 / 7 / 3x2".split()).splitlines()[0],
                         "capacity 10, 4 sizes, 3 blocks: 5 5x300 / 7 / 3x2")


class ShortLists(FewerTried):
    def fewest(self, line):
        """What is printed about the fewest windows."""
        return [text for text in expected(line.split()).splitlines() if "fewest" in text]

    def test_reckoned_by_hand(self):
        """A 7 has its window to itself, and two of the 5 share one unless blocks keep them apart. With 11 the 10 leaves
        1 empty, so three windows would leave no more, and no choice of 2, 3, 5 and 5 makes 11 with the 7."""
        self.assertEqual(self.fewest("10 7 7 5 5 5"), ["fewest windows: 4"])
        self.assertEqual(self.fewest("10 4 4 4 3 3 3 3 3 3"), ["fewest windows: 3"])
        self.assertEqual(self.fewest("11 2 5 10 7 5 3"), ["fewest windows: 4"])
        self.assertEqual(self.fewest("10"), ["fewest windows: 0"])
        self.assertEqual(self.fewest("10 7 5 / 7 5 / 5"), [
            "fewest windows: 4", "block 1, fewest windows: 2", "block 2, fewest windows: 2",
            "block 3, fewest windows: 1", "fewest windows of all blocks: 5"])

    def test_ten_copies_and_eleven(self):
        """Counted or not; in blocks all copies are counted together."""
        for ten, eleven in (("10 5x10", "10 5x11"), ("10" + 10 * " 5", "10" + 11 * " 5"),
                            ("10 5x4 / 5x6", "10 5x5 / 5x6")):
            with self.subTest(ten=ten):
                self.assertEqual(self.fewest(ten)[0], "fewest windows: 5")
                self.assertEqual(self.fewest(eleven), [])

    def test_behind_the_best_floor(self):
        """No other line is about it, and the best floor is not above it."""
        for line in LISTS + COUNTED + IN_BLOCKS + SHORT:
            text = expected(words_of(line)).splitlines()
            places = [place for place, printed in enumerate(text) if printed.startswith("fewest windows: ")]
            with self.subTest(line=line):
                self.assertIn(places, ([], [8]))
                for place in places:
                    floor = int(text[place - 1].removeprefix("best floor ").split(":")[0])
                    self.assertLessEqual(floor, int(text[place].split()[-1]))


if __name__ == "__main__":
    unittest.main()
