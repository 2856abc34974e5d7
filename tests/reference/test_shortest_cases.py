"""The stored answers of the cases of shortest lists have every refusal and every number
of sizes that is sought, and tables of every sort."""

import unittest
from collections import Counter

import windowfloor as wf
from case_files import stored
from edges import LIMIT
from shortest_cases import FEWEST, LARGEST
from table_cases import entries_of


class Cases(unittest.TestCase):

    @classmethod
    def setUpClass(cls):
        """Each case's entries and places, with its answer."""
        cls.cases = []
        for case, answer in zip(stored("shortest_cases", "stdin"), stored("shortest_cases", "stdout"), strict=True):
            n, *places, s, _ = case[:6]
            cls.cases.append((entries_of(n, s, case[6:]), places, answer))

    def accepted(self):
        """Entries and the fewest sizes."""
        return [(entries, length) for entries, _, (number, length, *_) in self.cases if number == wf.ACCEPTED]

    def test_answers(self):
        """Every number of refusal, and every number of sizes that is sought."""
        found = Counter(number for *_, (number, *_) in self.cases)
        self.assertEqual(set(found), {0, 6, 7, 8, 9, 10, 25})
        self.assertGreater(min(found.values()), 20, found)
        lengths = Counter(length for _, length in self.accepted())
        self.assertGreater(min(lengths[fewest] for fewest in FEWEST), 15, lengths)

    def test_facts(self):
        """What is written of a list: it overshoots, and no size is 0. If refused it is empty. The working buffers have
        checksums where they are kept."""
        for *_, (number, length, fits, overshoots, zeros, _, *sums) in self.cases:
            self.assertEqual((fits, overshoots, zeros), (1, int(number == wf.ACCEPTED), 0))
            self.assertEqual(length > 0, number == wf.ACCEPTED)
            if not 6 <= number <= 10:
                self.assertEqual(sums, [0, 0])

    def test_sorts_of_tables(self):
        """Lists that are as long as can be, and far shorter than that of the table check; totals of more than 32 bits;
        the largest tables."""
        met = Counter()
        for entries, fewest in self.accepted():
            capacity = len(entries) - 1
            met["only ones"] += fewest == capacity
            met["over 32 bits"] += fewest * max(entries) >= 2**32
            met["largest"] += len(entries) == LARGEST
            if capacity < 300:
                _, length = wf.table_check(entries, [0] * len(entries), [0] * capacity)
                self.assertGreaterEqual(length, fewest)
                met["far shorter"] += length >= 4 * fewest
        self.assertGreater(min(met.values()), 20, met)

    def test_places(self):
        """Each buffer of the least length, one shorter and longer, where nothing else is wrong."""
        met = Counter()
        for entries, places, (number, *_) in self.cases:
            n = len(entries)
            if 2 <= n <= LARGEST and entries[0] == 0 < entries[-1] and max(entries) <= LIMIT:
                more = tuple(max(-2, min(1, have - least)) for have, least in zip(places, (n, n, n - 1)))
                self.assertEqual(number == wf.SHORT_BUFFER, min(more) < 0)
                met[more] += 1
        self.assertLessEqual({(a, b, c) for a in (-1, 0, 1) for b in (-1, 0, 1) for c in (-1, 0, 1)}, set(met))


if __name__ == "__main__":
    unittest.main()
