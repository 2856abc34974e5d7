"""The stored answers of the exact cases have every refusal and every number of windows,
and lists of every sort."""

import unittest
from collections import Counter

import windowfloor as wf
from case_files import stored
from runs import take_counted_list
from short_lists import first_fit, first_fit_decreasing


class ShortLists(unittest.TestCase):

    def test_first_fit(self):
        for copies, windows, decreasing in (([], 0, 0), ([4, 4, 4, 6, 6, 6], 4, 3), ([7, 3, 5, 5], 2, 2),
                                            ([6, 6, 6], 3, 3), ([4, 4, 3, 3, 3, 3], 3, 3), ([3, 3, 4, 3, 3, 4], 2, 3)):
            self.assertEqual((first_fit(10, copies), first_fit_decreasing(10, copies)), (windows, decreasing))


class Cases(unittest.TestCase):

    @classmethod
    def setUpClass(cls):
        """Each case's capacity, sizes, counts and places, with its answer."""
        cls.cases = []
        for case, answer in zip(stored("exact_cases", "stdin"), stored("exact_cases", "stdout"), strict=True):
            sizes, counts, end = take_counted_list(case, 1)
            cls.cases.append((case[0], sizes, counts, case[end], answer))

    def accepted(self):
        """Capacity, copies, places and fewest windows."""
        for capacity, sizes, counts, places, (number, fewest, *_) in self.cases:
            if number == wf.ACCEPTED:
                yield capacity, wf.copies_of(sizes, counts), places, fewest

    def test_answers(self):
        """Every number of refusal, and every number of windows."""
        found = Counter(answer[:2] for *_, answer in self.cases)
        self.assertEqual({number for number, _ in found}, {0, 1, 6, 7, 17, 22, 24})
        self.assertEqual({fewest for number, fewest in found if number == 0}, set(range(11)))
        self.assertGreater(min(found.values()), 25, found)

    def test_facts(self):
        """What is written of an assignment: it fits, and its numbers are those below the fewest."""
        for *_, (_, fewest, fits, different, not_below, _) in self.cases:
            self.assertEqual((fits, different, not_below), (1, fewest, 0))

    def test_copies_and_places(self):
        """Every number of copies, by sizes and by counts, with the least places and with more."""
        met = {(len(copies), places > wf.EXACT_WINDOWS) for _, copies, places, _ in self.accepted()}
        self.assertEqual({n for n, more in met if more}, set(range(11)))
        self.assertLessEqual({0, 3, 9, 10}, {n for n, more in met if not more})
        short = {(places, answer[0]) for *_, places, answer in self.cases if places < wf.EXACT_WINDOWS}
        self.assertLessEqual({(places, wf.SHORT_BUFFER) for places in range(wf.EXACT_WINDOWS)}, short)

    def test_hard_lists(self):
        """Lists that need more than their total, and less than first fit and first fit decreasing."""
        met = Counter()
        for capacity, copies, _, fewest in self.accepted():
            met["over the total"] += wf.up(sum(copies), capacity) < fewest
            met["full"] += sum(copies) == fewest * capacity > 0
            met["under first fit"] += fewest < first_fit(capacity, copies)
            met["under decreasing"] += fewest < first_fit_decreasing(capacity, copies)
            met["over 32 bits"] += sum(copies) >= 2**32
        self.assertGreater(min(met.values()), 20, met)

    def test_numbers_of_copies_that_16_bits_cut(self):
        totals = [sum(counts) for _, _, counts, _, answer in self.cases if answer[0] == wf.TOO_MANY_COPIES]
        self.assertIn(11, totals)
        self.assertGreaterEqual(sum(total % 2**16 <= 10 for total in totals), 4)


if __name__ == "__main__":
    unittest.main()
