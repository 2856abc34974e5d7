"""Tests of the reference: the examples of the scope document ("01"), values
reckoned by hand from it and from the change requests for many rows, for tables
of another capacity, for counts, for half of an odd window, for blocks, for the
fewest windows and for floor and cut as separate calls ("02", tickets 1, 2, 4, 5,
6, 8 and 9), and of the rules of shortest lists (version 5.1.0), and brute force over
small capacities."""

import itertools
import random
import unittest
from collections import Counter
from functools import lru_cache

import windowfloor as wf
from job_bytes import (
    apart, bad_tables, blocked_job, blocks, counted_blocked_job, counted_job, counts, family as family_step, field,
    job as make_job, random_groups, random_pairs, row, rows_job, table as table_step, together, word, written_out)

LIMIT = 4_000_000_000
MARK = 77  # fills places that have to stay
PLACES = 2050  # of the buffers of images, working numbers and lists
SHORTER = [MARK] * 66  # the buffer of block floors or of scales, with nothing written
OPERATIONS = wf.floor, wf.cut
KIND_3 = field(1, b"\3")
IDENTITY = table_step(*range(11))  # of capacity 10


def buffers():
    """Images, working buffer, list, and the operation's own."""
    return [MARK] * PLACES, [MARK] * PLACES, [MARK] * PLACES, list(SHORTER)


def both(data):
    """The operation that the program calls, and the other."""
    return OPERATIONS[::-1] if data[3:4] in (b"\2", b"\3") else OPERATIONS


def answer(data):
    return both(data)[0](data, *buffers())


def refused(number, step=0, length=0, row=0):
    """What is told of a job that is refused: all else in the answer is 0."""
    return number, step, length, row


def refused_by(operation, number, step=0, length=0, row=0):
    """The whole answer."""
    if operation == wf.cut:
        return number, 0, 0, step, length, row
    return number, 0, 0, 0, 0, step, length, row, 0


def floored(n, floor, image_sum, scale):
    """A floor job accepted without blocks: the total is the floor."""
    return 0, n, floor, image_sum, scale, 0, 0, 0, floor


def strengthened(n, scale=0):
    """A cut accepted; of many rows the scale is 0."""
    return 0, n, scale, 0, 0, 0


# Brute force

def multisets(total, least=1):
    """All nondecreasing lists of sizes >= least with a total of at most total."""
    yield ()
    for y in range(least, total + 1):
        for rest in multisets(total - y, y):
            yield (y,) + rest


@lru_cache(maxsize=None)
def fitting(total):
    return list(multisets(total))


def brute_best(entries, c):
    return max(sum(entries[x] for x in sizes) for sizes in fitting(c))


def least_windows(sizes, capacity):
    """The fewest windows of an assignment, by trying all."""
    def place(rest, loads):
        if not rest:
            return len(loads)
        tried = [place(rest[1:], loads + [rest[0]])]
        for i, load in enumerate(loads):
            if load + rest[0] <= capacity:
                tried.append(place(rest[1:], loads[:i] + [load + rest[0]] + loads[i + 1:]))
        return min(tried)
    return place(sizes, [])


def assignments(copies, capacity):
    """All assignments that fit, as a window for each copy; windows have the numbers of their first use."""
    def place(rest, loads, chosen):
        if not rest:
            yield chosen
            return
        for window, load in enumerate(loads + [0]):
            if load + rest[0] <= capacity:
                after = loads[:window] + [load + rest[0]] + loads[window + 1:]
                yield from place(rest[1:], after, chosen + [window])
    return place(copies, [], [])


def legal_parameters(capacity, families=range(1, 8), most_q=14):
    for family in families:
        for p in range(0, 2 * capacity + 3):
            for q in range(0, most_q + 1):
                if wf.image(capacity, family, p, q, 0)[0] == 0:
                    yield family, p, q


# Random jobs

def as_table(rng, capacity, family, p, q):
    """A family's images as a table, some of them lowered."""
    entries = [wf.image(capacity, family, p, q, x)[1] for x in range(capacity + 1)]
    lowered = [rng.randint(value // 2, value) for value in entries[:-1]]
    return table_step(*lowered, entries[-1])


def random_chain(rng, capacity):
    """Steps that are accepted one after another."""
    steps = []
    for _ in range(rng.randint(0, 4)):
        choices = list(legal_parameters(min(capacity, 30), most_q=4))
        family, p, q = rng.choice(choices)
        number, _, scale = wf.image(capacity, family, p, q, 0)
        if number != 0:
            continue
        if capacity <= 60 and rng.randint(0, 2) == 0:
            steps.append(as_table(rng, capacity, family, p, q))
        else:
            steps.append(family_step(family, p, q))
        capacity = scale
    return steps


class Reckoning(unittest.TestCase):
    """01, Checked by reckoning, and the program's example."""

    def images(self, capacity, family, p, q, scale, expected):
        for x, value in expected.items():
            with self.subTest(capacity=capacity, family=family, p=p, q=q, x=x):
                self.assertEqual(wf.image(capacity, family, p, q, x), (0, value, scale))

    def test_family_1(self):
        self.images(10, 1, 3, 0, 10, {2: 0, 3: 3, 7: 7, 8: 10})
        self.assertEqual(wf.image(10, 1, 5, 0, 5)[0], 0)
        self.assertEqual(wf.image(10, 1, 6, 0, 5), (3, 0, 0))

    def test_half_of_an_odd_window(self):
        """02, ticket 5, and the smallest capacity."""
        self.images(5, 1, 3, 0, 5, {0: 0, 2: 0, 3: 5, 5: 5})
        self.images(1, 1, 1, 0, 1, {0: 0, 1: 1})
        self.assertEqual(wf.image(6, 1, 4, 0, 3), (3, 0, 0))
        self.assertEqual(wf.image(5, 1, 4, 0, 3), (3, 0, 0))

    def test_finer_units(self):
        """02, ticket 7: numbers up to 4,000,000,000, and their doubles."""
        fourth = 1_000_000_000
        for case, expected in [
                ((4 * fourth, 1, 2 * fourth, 0, 2 * fourth + 1), (0, 4 * fourth, 4 * fourth)),
                ((4 * fourth + 1, 1, 0, 0, 7), (1, 0, 0)), ((2**32 - 1, 1, 0, 0, 7), (1, 0, 0)),
                ((10, 1, 2**31 + 2, 0, 7), (3, 0, 0)), ((10, 3, 2**31 + 2, 0, 7), (3, 0, 0)),
                ((4 * fourth, 1, 2**31, 0, 7), (3, 0, 0)), ((4 * fourth, 2, 2, 0, 7), (4, 0, 0)),
                ((4 * fourth - 1, 1, 2 * fourth, 0, 7), (0, 0, 4 * fourth - 1)),
                ((4 * fourth, 2, 1, 0, 3 * fourth), (0, 4 * fourth, 4 * fourth)),
                ((1, 2, 4 * fourth, 0, 1), (0, 4 * fourth, 4 * fourth)), ((1, 2, 4 * fourth + 1, 0, 1), (3, 0, 0)),
                ((4 * fourth, 3, 2, 0, 2**31), (0, 2**31, 4 * fourth)), ((4 * fourth, 3, 1, 0, 7), (4, 0, 0)),
                ((4 * fourth, 4, 2 * fourth + 1, 0, 1), (0, 0, 4 * fourth)),
                ((4 * fourth, 4, 2 * fourth + 2, 0, 1), (4, 0, 0)),
                ((4 * fourth, 5, 3 * fourth, 0, 3 * fourth + 5), (0, 2 * fourth, 2 * fourth)),
                ((4 * fourth, 6, 3 * fourth, 2 * fourth - 1, 2 * fourth), (0, 2 * fourth, 4 * fourth)),
                ((4 * fourth, 6, 3 * fourth, 2 * fourth, 7), (4, 0, 0)),
                ((3, 7, 2, 4 * fourth - 1, 3), (0, 4 * fourth, 4 * fourth)), ((3, 7, 2, 4 * fourth, 3), (4, 0, 0)),
                ((3, 7, 2, 4 * fourth + 1, 3), (3, 0, 0))]:
            with self.subTest(case=case):
                self.assertEqual(wf.image(*case), expected)
        for entries, number in (((0, 4 * fourth), 0), ((0, 4 * fourth + 1), 10), ((0, 2 * fourth, 4 * fourth), 0),
                                ((0, 2 * fourth + 1, 4 * fourth), 11)):
            self.assertEqual(wf.table_check(entries, [0] * 3, [0] * 2)[0], number)

    def test_family_2(self):
        self.images(10, 2, 2, 0, 20, {3: 0, 4: 10, 7: 20})
        self.images(9, 2, 2, 0, 18, {3: 6, 4: 9})

    def test_family_3(self):
        self.images(10, 3, 3, 0, 6, {3: 2, 5: 3, 6: 4, 8: 6})

    def test_family_4(self):
        self.images(10, 4, 2, 0, 2, {4: 0, 5: 1, 6: 2})

    def test_family_5(self):
        self.images(10, 5, 4, 0, 4, {2: 0, 3: 1, 7: 3})

    def test_family_6(self):
        self.images(10, 6, 3, 2, 18, {2: 2, 5: 9, 8: 16})
        self.assertEqual(wf.image(10, 6, 3, 1, 2), (3, 0, 0))
        self.assertEqual(wf.image(10, 6, 5, 2, 2), (3, 0, 0))

    def test_family_7(self):
        self.images(10, 7, 3, 2, 18, {2: 3, 5: 9, 8: 15})
        self.images(10, 7, 3, 3, 24, {2: 4})

    def test_tables(self):
        working, lst = [MARK] * 6, [MARK] * 6
        self.assertEqual(wf.table_check([0, 1, 1, 2], working, lst), (11, 3))
        self.assertEqual(lst, [1, 1, 1, MARK, MARK, MARK])
        self.assertEqual(working, [0, 1, 2, 3, MARK, MARK])
        working, lst = [MARK] * 6, [MARK] * 6
        self.assertEqual(wf.table_check([0, 0, 2, 1], working, lst), (11, 2))
        self.assertEqual(lst, [1, 2, MARK, MARK, MARK, MARK])
        self.assertEqual(working, [0, 0, 2, 2, MARK, MARK])
        lst = [MARK] * 6
        self.assertEqual(wf.table_check([0, 1, 1, 1, 1, 5], working, lst), (0, 0))
        self.assertEqual(working, [0, 1, 2, 3, 4, 5])
        self.assertEqual(lst, [MARK] * 6)

    def test_jobs(self):
        sizes = [6, 6, 6]
        self.assertEqual(answer(make_job(1, 10, sizes)), floored(3, 2, 18, 10))
        self.assertEqual(answer(make_job(1, 10, sizes, family_step(1, 5))), floored(3, 3, 30, 10))
        self.assertEqual(answer(b""), refused_by(wf.floor, 14))

    def test_program(self):
        data = bytes.fromhex(
            "01000101 0200040000000A 030014 00000007 00000007 00000005 00000005"
            "00000005 040009 01 00000004 00000000 040009 03 00000003 00000000")
        self.assertEqual(wf.program(data),
                         b"floor 4\nsum 21\nscale 6\nimages 6 6 3 3 3\n")
        cut = make_job(2, 10, [7, 7, 5, 5, 5], family_step(1, 4))
        self.assertEqual(wf.program(cut), b"scale 10\nimages 10 10 5 5 5\n")
        self.assertEqual(wf.program(make_job(1, 10, [])),
                         b"floor 0\nsum 0\nscale 10\nimages\n")
        self.assertEqual(wf.program(b""), b"refused 14 0\n")
        self.assertEqual(wf.program(make_job(1, 3, [1], table_step(0, 0, 2, 1))),
                         b"refused 11 1\nlist 1 2\n")


class Families(unittest.TestCase):

    def test_dual_feasible(self):
        for capacity in range(1, 15):
            for family, p, q in legal_parameters(capacity):
                answers = [wf.image(capacity, family, p, q, x) for x in range(capacity + 1)]
                f = [value for _, value, _ in answers]
                scale = answers[0][2]
                with self.subTest(capacity=capacity, family=family, p=p, q=q):
                    self.assertTrue(all(a[0] == 0 and a[2] == scale for a in answers))
                    self.assertEqual(f[0], 0)
                    self.assertEqual(f[capacity], scale)
                    self.assertGreaterEqual(scale, 1)
                    self.assertGreaterEqual(min(f), 0)
                    self.assertTrue(all(sum(f[x] for x in sizes) <= scale
                                        for sizes in fitting(capacity)))

    def test_every_family_is_met(self):
        met = {family for family, _, _ in legal_parameters(7)}
        self.assertEqual(met, set(range(1, 8)))

    def test_burdett_johnson_identity(self):
        for capacity in range(1, 30):
            for p in range(1, capacity + 1):
                if capacity % p == 0:
                    for x in range(capacity + 1):
                        self.assertEqual(wf.image(capacity, 5, p, 0, x), (0, x, capacity))

    def test_ranges_of_p(self):
        """The least and the greatest legal p, q being legal."""
        for capacity, family, q, least, greatest in [
                (1, 1, 0, 0, 1), (2, 1, 0, 0, 1), (10, 1, 0, 0, 5), (11, 1, 0, 0, 6), (LIMIT - 1, 1, 0, 0, LIMIT // 2),
                (LIMIT, 1, 0, 0, LIMIT // 2), (1, 2, 0, 1, LIMIT),
                (10, 3, 0, 1, 5), (11, 3, 0, 1, 5), (10, 4, 0, 2, 10), (10, 5, 0, 1, 10),
                (11, 6, 4, 2, 9), (11, 7, 4, 2, 9)]:
            with self.subTest(capacity=capacity, family=family):
                for p, number in [(least - 1, 3), (least, 0), (greatest, 0), (greatest + 1, 3)]:
                    if p >= 0:
                        self.assertEqual(wf.image(capacity, family, p, q, 0)[0], number)

    def test_least_q(self):
        for family in (6, 7):
            for capacity, p, least in [(10, 3, 2), (10, 4, 1), (11, 10, 9), (11, 6, 1)]:
                self.assertEqual(wf.image(capacity, family, p, least - 1, 0)[0], 3)
                self.assertEqual(wf.image(capacity, family, p, least, 0)[0], 0)

    def test_order_of_refusals(self):
        over = LIMIT + 1
        for case, number in [
                ((0, 0, over, over, 9), 1), ((over, 8, over, 0, 9), 1),
                ((10, 0, over, 0, 99), 2), ((10, 8, 0, over, 99), 2), ((10, 255, 0, 0, 0), 2),
                ((10, 2, over, 0, 99), 3), ((10, 6, 0, 0, 99), 3), ((10, 7, 3, over, 99), 3),
                ((10, 2, LIMIT, 0, 99), 4), ((LIMIT, 3, 1, 0, over), 4),
                ((3, 6, 2, LIMIT // 2, 4), 4), ((3, 7, 2, LIMIT, 4), 4),
                ((10, 1, 3, 0, 11), 5), ((3, 7, 2, LIMIT - 1, 4), 5)]:
            with self.subTest(case=case):
                self.assertEqual(wf.image(*case), (number, 0, 0))


class Tables(unittest.TestCase):

    def random_table(self, rng):
        capacity = rng.randint(1, 9)
        slope = rng.randint(1, 3)
        entries = [rng.randint(0, slope * x + rng.randint(0, 1)) for x in range(capacity + 1)]
        entries[0] = 0
        entries[-1] = rng.randint(1, slope * capacity + 2)
        return entries

    def check_counterexample(self, entries, best, found):
        capacity = len(entries) - 1
        self.assertLessEqual(sum(found), capacity)
        self.assertGreater(sum(entries[y] for y in found), entries[-1])
        c = capacity
        for y in found:
            self.assertGreater(best[c], 0)
            self.assertEqual(y, min(z for z in range(1, c + 1)
                                    if entries[z] + best[c - z] == best[c]))
            c -= y
        self.assertEqual(best[c], 0)

    def test_random_tables(self):
        rng = random.Random(1)
        outcomes = {0: 0, 11: 0}
        for _ in range(2000):
            entries = self.random_table(rng)
            capacity = len(entries) - 1
            best = [brute_best(entries, c) for c in range(capacity + 1)]
            working, lst = [MARK] * (capacity + 3), [MARK] * (capacity + 2)
            number, length = wf.table_check(entries, working, lst)
            outcomes[number] += 1
            with self.subTest(entries=entries):
                self.assertEqual(number, 0 if best[capacity] <= entries[-1] else 11)
                self.assertEqual(working, best + [MARK] * 2)
                self.assertEqual(lst[length:], [MARK] * (len(lst) - length))
                if number == 0:
                    self.assertEqual(length, 0)
                else:
                    self.check_counterexample(entries, best, lst[:length])
        self.assertGreater(min(outcomes.values()), 200)

    def test_refusals_write_nothing(self):
        large = LIMIT + 1
        for entries, places, others, number in [
                ([], 0, 0, 6), ([0], 0, 0, 6), ([5] * 2049, 0, 0, 6),
                ([1, 0], 1, 1, 7), ([1, 0], 2, 0, 7),
                ([large, 0], 2, 1, 8), ([0, large, 0], 3, 2, 9),
                ([0, large, 1], 3, 2, 10), ([0, large], 2, 1, 10)]:
            working, lst = [MARK] * places, [MARK] * others
            with self.subTest(entries=entries[:3]):
                self.assertEqual(wf.table_check(entries, working, lst), (number, 0))
                self.assertEqual((working, lst), ([MARK] * places, [MARK] * others))

    def test_largest_table(self):
        entries = list(range(2048))
        working, lst = [MARK] * 2048, [MARK] * 2047
        self.assertEqual(wf.table_check(entries, working, lst), (0, 0))
        self.assertEqual(working, entries)


def brute_fewest(entries):
    """The fewest sizes of a list that fits and overshoots, by trying all; None if there is none."""
    fitting_lists = fitting(len(entries) - 1)
    return min((len(sizes) for sizes in fitting_lists if wf.shows(entries, sizes)), default=None)


def one_size(capacity, size, image, scale):
    """A table in which one size and the capacity alone have images."""
    return [image if x == size else 0 for x in range(capacity)] + [scale]


class Shortest(unittest.TestCase):
    """Version 5.1.0: shortest lists of tables that are not dual-feasible."""

    def shortest(self, entries):
        """Number, length and list. Behind the list the places stay."""
        n = len(entries)
        working, second, lst = [MARK] * (n + 3), [MARK] * (n + 1), [MARK] * (n + 2)
        number, length = wf.shortest(entries, working, second, lst)
        self.assertEqual(lst[length:], [MARK] * (n + 2 - length))
        return number, length, lst[:length]

    def assert_fewest(self, entries, fewest):
        """None: the table is dual-feasible."""
        with self.subTest(entries=entries[:60]):
            number, length, found = self.shortest(entries)
            self.assertEqual((number, length), (25, 0) if fewest is None else (0, fewest))
            if fewest is not None:
                self.assertTrue(wf.shows(entries, found))
                self.assertNotIn(0, found)

    def test_reckoned(self):
        for entries, fewest in [
                ([0, 0, 2, 1], 1), ([0, 1, 1, 2], 3), ([0, 1, 1, 1, 1, 5], None), ([0, 1, 1, 1, 1, 4], 5),
                ([0, 1], None), ([0, LIMIT], None), ([0, 1, 1], 2), ([0, 2, 1], 1), ([0, 1, 2], None),
                ([0, 1, 2, 3, 4, 4], 2),        # 1 and 4, or 2 and 3
                ([0, 1, 2, 2, 2, 4], 3),        # 1, 2 and 2
                ([0, 3, 4, 6, 7, 8, 10, 20], 7), ([0, 3, 4, 6, 7, 8, 10, 17], 5),
                ([0, 3, 4, 6, 7, 8, 10, 15], 4), ([0, 3, 4, 6, 7, 8, 10, 12], 2),
                ([0, 0, 5, 0, 9, 0, 0, 14], 3), ([0, 0, 5, 0, 9, 0, 0, 13], 2), ([0, 0, 5, 0, 9, 0, 0, 15], None)]:
            self.assert_fewest(entries, fewest)

    def test_numbers_of_sizes(self):
        """Up to all that fit, by one size: so many of it overshoot, and one less does not."""
        for fewest in (1, 2, 3, 4, 5, 7, 8, 9, 15, 16, 17, 31, 32, 33):
            for size, spare in ((1, 1), (2, 1), (3, 2)):
                for scale in (5 * fewest - 1, 5 * fewest - 5):
                    if scale > 0:
                        self.assert_fewest(one_size(fewest * size + spare, size, 5, scale), fewest)
                self.assert_fewest(one_size(fewest * size + spare, size, 5, 5 * fewest + spare // size * 5), None)

    def test_rows(self):
        """Against all lists."""
        rng = random.Random(30)
        for _ in range(60):
            entries = [0] + [rng.choice((0, rng.randint(0, 9))) for _ in range(7)]
            row = [0] * 8
            for k in range(1, 9):
                row = wf.row_after(row, entries)
                self.assertEqual(row, [max(sum(entries[x] for x in sizes) for sizes in fitting(c) if len(sizes) <= k)
                                       for c in range(8)])

    def test_every_tiny_table(self):
        """Against all lists; 25 just where the table check accepts."""
        for capacity in range(1, 5):
            for images in itertools.product(range(4), repeat=capacity):
                entries = [0, *images]
                if entries[-1] > 0:
                    self.assert_fewest(entries, brute_fewest(entries))
                    accepted = wf.table_check(entries, [0] * 9, [0] * 9)[0] == 0
                    self.assertEqual(self.shortest(entries)[0] == 25, accepted)

    def test_random_tables(self):
        """Against all lists, and never longer than that of the table check, often shorter."""
        rng = random.Random(31)
        met = Counter()
        for _ in range(1500):
            capacity, slope = rng.randint(1, 10), rng.randint(1, 3)
            entries = [0] + [rng.randint(0, slope * x + 1) for x in range(1, capacity)] + [0]
            entries[-1] = max(1, wf.best_totals(entries)[-1] - rng.randint(0, 3))
            fewest = brute_fewest(entries)
            self.assert_fewest(entries, fewest)
            met[fewest] += 1
            _, length = wf.table_check(entries, [0] * 11, [0] * 10)
            self.assertGreaterEqual(length, fewest or 0)
            met["shorter"] += length > (fewest or 0)
        self.assertGreater(min(met[which] for which in (None, 1, 2, 3, 4, 5, "shorter")), 20, met)

    def test_large_tables(self):
        """Of capacity 2,047, up to the longest list: only ones overshoot."""
        self.assert_fewest([0, 1] + [0] * 2045 + [2046], 2047)
        self.assert_fewest([0, 1] + [0] * 2045 + [2047], None)
        self.assert_fewest([0, LIMIT] + [0] * 2045 + [LIMIT], 2)
        self.assert_fewest(list(range(2047)) + [2046], 2)
        self.assert_fewest(list(range(2048)), None)
        self.assert_fewest([0] * 1024 + [LIMIT] + [0] * 1022 + [LIMIT - 1], 1)
        self.assert_fewest(one_size(2047, 62, LIMIT // 32, LIMIT), 33)

    def assert_refused(self, number, entries, working, second, listed):
        lent = [[MARK] * places for places in (working, second, listed)]
        with self.subTest(entries=entries[:9], lent=(working, second, listed)):
            self.assertEqual(wf.shortest(entries, *lent), (number, 0))
            self.assertEqual(lent, [[MARK] * places for places in (working, second, listed)])

    def test_refusals(self):
        """They write nothing."""
        large = LIMIT + 1
        for number, entries, *places in [
                (6, [], 0, 0, 0), (6, [0], 9, 9, 9), (6, [0] * 2049, 2049, 2049, 2048), (7, [0, 1], 1, 2, 1),
                (7, [0, 1], 2, 1, 1), (7, [0, 1], 2, 2, 0), (7, [0, 1, 1], 0, 3, 2), (7, [0, 1, 1], 3, 0, 2),
                (8, [1, 1], 2, 2, 1), (8, [large, 1], 2, 2, 1), (9, [0, 0], 2, 2, 1), (9, [0, 1, 0], 3, 3, 2),
                (10, [0, large], 2, 2, 1), (10, [0, large, 1], 3, 3, 2), (10, [0, 2**32 - 1, 1], 9, 9, 9)]:
            self.assert_refused(number, entries, *places)

    def test_order_of_refusals(self):
        """Every choice of faults: the one that is asked first is told."""
        order = 6, 7, 8, 9, 10
        for size in range(1, 6):
            for faults in itertools.combinations(order, size):
                entries = [int(8 in faults), LIMIT + int(10 in faults), 1 - int(9 in faults)]
                entries += [1] * 2048 if 6 in faults else []
                n = len(entries)
                for short in ((1, 0, 0), (0, 1, 0), (0, 0, 1), (1, 1, 1)) if 7 in faults else ((0, 0, 0),):
                    self.assert_refused(faults[0], entries, n - short[0], n - short[1], n - 1 - short[2])


class Refusals(unittest.TestCase):
    """What is common to tests of refused jobs."""

    def is_refused(self, operation, data, told):
        images, working, lst, own = buffers()
        length = told[2]
        self.assertEqual(operation(data, images, working, lst, own), refused_by(operation, *told))
        self.assertEqual((images, own), ([MARK] * PLACES, SHORTER))
        self.assertEqual(lst[length:], [MARK] * (PLACES - length))

    def refusals(self, cases):
        """By the operation that the program calls. 02, ticket 9: 13, 14 and 15 by both, and else 16 by the other."""
        for data, told in cases:
            called, other = both(data)
            with self.subTest(data=data[:60].hex()):
                self.is_refused(called, data, told)
                self.is_refused(other, data, told if told[0] in (13, 14, 15) else refused(16))


class Jobs(Refusals):

    def test_buffers_and_length(self):
        """Each too short by one place, for every kind and by both; the length of the job comes first."""
        enough = 2048, 2048, 2047, 64
        jobs = [(b"", (14, 14)), (bytes(65535), (14, 14)), (make_job(1, 10, []), (0, 16)),
                (make_job(2, 10, []), (16, 0)), (rows_job([(10,)]), (16, 0)), (KIND_3, (16, 21)),
                (make_job(1, 10, [7], blocks(1)), (0, 16)), (make_job(4, 10, []), (16, 16))]
        for place, operation in enumerate(OPERATIONS):
            for data, numbers in jobs:
                self.assertEqual(operation(data, *([0] * places for places in enough))[0], numbers[place])
                for short in range(4):
                    lent = [[0] * (places - (which == short)) for which, places in enumerate(enough)]
                    self.assertEqual(operation(data, *lent), refused_by(operation, 7))
            self.assertEqual(operation(bytes(65536), [], [], [], []), refused_by(operation, 12))
            self.assertEqual(operation(bytes(65535), [], [], [], []), refused_by(operation, 7))

    def test_fields(self):
        head = make_job(1, 10, [1])
        step = family_step(1, 3)
        self.refusals([
            (b"\x09", refused(13)), (b"\x09\x00", refused(13)),
            (b"\x01\xff\xff\x01", refused(13)), (b"\x09\x00\x01", refused(13)),
            (b"\x09\x00\x00", refused(14)), (b"\x02\x00\x00", refused(14)),
            (b"\x01\x00\x00", refused(15)), (head[:4], refused(14)),
            (head[:11], refused(14)), (head[:12], refused(13)),
            (head + head[:4], refused(14)), (head + step * 8 + step[:2], refused(13)),
            (head + step * 9, refused(14)), (head + step * 8 + b"\x04\x00\x00", refused(14)),
            (head + step[:-1], refused(13)), (head + field(4, bytes(8)), refused(15)),
            (head[:11] + field(3, bytes(5)), refused(15)),
            (head[:11] + field(3, bytes(8196)), refused(15)),
            (head + field(5, bytes(4)), refused(15)), (head + field(5, bytes(9)), refused(15)),
            (head + field(5, bytes(8196)), refused(15)),
            (head + family_step(9, 0) + field(4, b""), refused(15))])

    def test_list_part(self):
        step = family_step(9, 0)
        self.refusals([
            (make_job(0, 0, [1], step), refused(16)), (make_job(255, 5, [1]), refused(16)),
            (make_job(1, 0, [1], step), refused(1)), (make_job(2, LIMIT + 1, [0]), refused(1)),
            (make_job(1, 10, [11], step), refused(17)), (make_job(1, 10, [0], step), refused(17)),
            (make_job(2, 10, [0, 11]), refused(17))])
        self.assertEqual(answer(make_job(2, 10, [0, 10])), strengthened(2, 10))

    def test_steps(self):
        ok = family_step(1, 3)
        self.refusals([
            (make_job(1, 10, [1], ok, family_step(8, 0)), refused(2, 2)),
            (make_job(1, 10, [], ok, ok, family_step(2, 0)), refused(3, 3)),
            (make_job(1, 10, [1], family_step(2, LIMIT)), refused(4, 1)),
            (make_job(1, 3, [1], table_step(0, 1, 2, 3), table_step(1, 0, 0, 0)), refused(8, 2)),
            (make_job(1, 10, [1], ok, table_step(0, LIMIT + 1, *[0] * 9)), refused(9, 2)),
            (make_job(1, 10, [1], ok, table_step(0, LIMIT + 1, *[0] * 8, 1)), refused(10, 2)),
            (make_job(1, 10, [1], ok, table_step(0, 1, *[0] * 8, 2)), refused(11, 2, 10)),
            (make_job(1, 10, [1], ok, table_step(0, 1, 2, 3)), refused(18, 2))])

    def test_accepted_chain_and_places_that_stay(self):
        for kind, expected in ((1, floored(3, 1, 5, 5)), (2, strengthened(3, 5))):
            images, working, lst, own = buffers()
            data = make_job(kind, 5, [1, 4, 5], table_step(0, 1, 1, 1, 1, 5), family_step(2, 1))
            called, other = both(data)
            self.assertEqual(called(data, images, working, lst, own), expected)
            self.assertEqual(images, [0, 0, 5] + [MARK] * 2047)
            self.assertEqual((len(working), lst, own), (PLACES, [MARK] * PLACES, SHORTER))
            self.is_refused(other, data, refused(16))

    def test_floors_are_safe(self):
        rng = random.Random(2)
        for _ in range(250):
            capacity = rng.randint(1, 12)
            sizes = [rng.randint(1, capacity) for _ in range(rng.randint(0, 6))]
            data = make_job(1, capacity, sizes, *random_chain(rng, capacity))
            number, n, floor, image_sum, scale, step, length, row, total = answer(data)
            self.assertEqual((number, n, step, length, row, total), (0, len(sizes), 0, 0, 0, floor))
            self.assertEqual(floor, -(-image_sum // scale))
            self.assertLessEqual(floor, least_windows(sizes, capacity))

    def test_cuts_hold(self):
        rng = random.Random(3)
        for _ in range(150):
            capacity = rng.randint(1, 9)
            images, *others = buffers()
            data = make_job(2, capacity, range(capacity + 1), *random_chain(rng, capacity))
            number, n, scale, *_ = wf.cut(data, images, *others)
            self.assertEqual((number, n, images[0]), (0, capacity + 1, 0))
            for sizes in fitting(capacity):
                self.assertLessEqual(sum(images[x] for x in sizes), scale)


class RowGrammar(Refusals):
    """02, ticket 1: which fields may follow, their lengths, and 21."""

    def test_tags(self):
        good, step = row(10, 5), family_step(1, 3)
        capacity, sizes = field(2, word(10)), field(3, word(5))
        self.refusals([
            (KIND_3 + capacity, refused(14)), (KIND_3 + capacity + sizes, refused(14)), (KIND_3 + sizes, refused(14)),
            (KIND_3 + good + capacity, refused(14)), (KIND_3 + good + step + sizes, refused(14)),
            (KIND_3 + KIND_3 + good, refused(14)), (KIND_3 + good + KIND_3, refused(14)),
            (KIND_3 + step + good, refused(14)), (KIND_3 + good + step + good, refused(14)),
            (KIND_3 + field(7, b"") + good, refused(14)), (good + KIND_3, refused(14)),
            (KIND_3 + good + step * 9, refused(14)), (KIND_3 + step * 9, refused(14)),
            (KIND_3 + good + step * 8 + b"\4", refused(13)), (KIND_3 + good[:-1], refused(13))])
        self.assertEqual(answer(KIND_3 + good + step * 8)[0], 0)

    def test_tag_6_in_other_kinds(self):
        for kind in (0, 1, 2, 4, 255):
            head = make_job(kind, 10, [5])
            self.refusals([(head[:4] + row(10, 5), refused(14)), (head[:11] + row(10, 5), refused(14)),
                           (head + row(10, 5), refused(14)), (head[:4] + family_step(1, 3), refused(14)),
                           (head + family_step(1, 3) + row(10, 5), refused(14)), (head[:4], refused(14))])

    def test_lengths(self):
        for length in range(10):
            data = KIND_3 + field(6, (word(10) + word(3) + bytes(2))[:length])
            expected = {4: strengthened(0), 8: strengthened(1)}.get(length, refused_by(wf.cut, 15))
            with self.subTest(length=length):
                self.assertEqual(answer(data), expected)

    def test_numbers_of_rows_and_coefficients(self):
        wrong = family_step(0, 0)
        over = [(0, 1)] * 65  # 21 goes before 1
        self.refusals([
            (KIND_3, refused(21)), (KIND_3 + wrong, refused(21)), (KIND_3 + table_step(0, 1, 1) * 8, refused(21)),
            (rows_job(over), refused(21)), (rows_job(over, wrong), refused(21)), (rows_job([(0,)] * 65), refused(21)),
            (rows_job([(0,) * 2050]), refused(21)), (rows_job([(10,) * 3001]), refused(21)),
            (rows_job([(10,) * 1025, (10,) * 1026]), refused(21)),
            (rows_job([(10,)] * 63 + [(10,) * 2050]), refused(21)),
            (rows_job(over) + b"\6\0", refused(13)), (rows_job(over) + field(2, word(1)), refused(14)),
            (rows_job(over) + field(6, bytes(5)), refused(15)), (KIND_3 + wrong + field(5, bytes(4)), refused(15)),
            (rows_job(over, wrong) + row(10), refused(14)),
            (rows_job([(0,) * 2050]) + field(4, bytes(8)), refused(15))])
        for rows, n in (([(10,)] * 64, 0), ([(10,) * 2049], 2048), ([(10,) * 33] * 64, 2048),
                        ([(10,) * 2049] + [(10,)] * 63, 2048)):
            self.assertEqual(answer(rows_job(rows)), strengthened(n))


class Rows(Refusals):
    """02, ticket 1: rows judged one after the other."""

    def accepted(self, data, images, scales):
        lent_images, working, lst, lent_scales = buffers()
        self.assertEqual(wf.cut(data, lent_images, working, lst, lent_scales), strengthened(len(images)))
        self.assertEqual(lent_images, images + [MARK] * (PLACES - len(images)))
        self.assertEqual(lent_scales, scales + [MARK] * (66 - len(scales)))
        self.assertEqual(lst, [MARK] * PLACES)
        self.is_refused(wf.floor, data, refused(16))

    def test_accepted(self):
        """Row 2 by hand: 9 4 5 stay at capacity 9, and their mirrored quotients are 6, 2 and 6 - 2."""
        rows = [(10, 7, 7, 5, 5, 5), (9, 9, 4, 5), (6,)]
        self.accepted(rows_job(rows), [7, 7, 5, 5, 5, 9, 4, 5], [10, 9, 6])
        self.accepted(rows_job(rows[:2], family_step(1, 4), family_step(3, 3)), [6, 6, 3, 3, 3, 6, 2, 4], [6, 6])
        self.accepted(rows_job(rows[1:], family_step(2, 1)), [9, 0, 9], [9, 6])
        self.accepted(rows_job([(10, 0, 10), (10, 3)], IDENTITY, table_step(*[0] * 10, 7)), [0, 7, 0], [7, 7])

    def test_a_table_behind_a_step_that_levels_the_rows(self):
        """Family 4 with p = 6 has scale 10 at every capacity: 12 and 10 go to 10."""
        self.accepted(rows_job([(10, 10), (12, 12, 0)], family_step(4, 6), IDENTITY), [10, 10, 0], [10, 10])

    def test_refused_rows(self):
        good, step = (10, 7, 0), family_step(1, 3)
        for before in (0, 1, 2, 63):
            rows = [good] * before
            self.refusals([
                (rows_job(rows + [(0, 3)], step), refused(1, row=before + 1)),
                (rows_job(rows + [(0,)]), refused(1, row=before + 1)),
                (rows_job(rows + [(LIMIT + 1, 3)], step), refused(1, row=before + 1)),
                (rows_job(rows + [(10, 3, 11)], step), refused(17, row=before + 1)),
                (rows_job(rows + [(4, 0)], step), refused(3, 1, row=before + 1)),
                (rows_job(rows + [(11,)], step, family_step(2, LIMIT // 10)), refused(4, 2, row=before + 1)),
                (rows_job(rows + [(9, 3)], step, step, IDENTITY), refused(18, 3, row=before + 1))])

    def test_refused_steps_of_row_1(self):
        """What does not depend on the right side is found in the first row."""
        rows, step = [(10, 7), (10, 7)], family_step(1, 3)
        self.refusals([
            (rows_job(rows, step, family_step(8, 0)), refused(2, 2, row=1)),
            (rows_job(rows, table_step(1, *[0] * 9, 1)), refused(8, 1, row=1)),
            (rows_job(rows, step, table_step(*[0] * 11)), refused(9, 2, row=1)),
            (rows_job(rows, table_step(*[0] * 10, LIMIT + 1)), refused(10, 1, row=1)),
            (rows_job(rows, step, table_step(0, 1, *[0] * 8, 2)), refused(11, 2, 10, row=1))])

    def test_order(self):
        step, wrong = family_step(1, 3), family_step(1, 6)
        over, zero, good = (10, 11), (0, 5), (10, 5)
        self.refusals([
            (rows_job([over, zero]), refused(17, row=1)), (rows_job([zero, over]), refused(1, row=1)),
            (rows_job([good, zero], wrong), refused(3, 1, row=1)),
            (rows_job([(12, 5), over], wrong), refused(17, row=2)),
            (rows_job([(12, 5), good], wrong), refused(3, 1, row=2)),
            (rows_job([over, good], wrong), refused(17, row=1)),
            (rows_job([good, over], table_step(0, 1, *[0] * 8, 2)), refused(11, 1, 10, row=1)),
            (rows_job([good, (11, 5), zero], step, IDENTITY), refused(18, 2, row=2)),
            (rows_job([good, (11, 12)], IDENTITY), refused(17, row=2)),
            (rows_job([good, (0, 1)], IDENTITY), refused(1, row=2))])

    def one_by_one(self, rows, steps):
        """What kind 2 gives row by row, as kind 3 has to say it."""
        images, scales = [], []
        for place, (right, *coefficients) in enumerate(rows, start=1):
            lent_images, working, lst, own = buffers()
            data = make_job(2, right, coefficients, *steps)
            number, n, scale, step, length, _ = wf.cut(data, lent_images, working, lst, own)
            if number != 0:
                return refused_by(wf.cut, number, step, length, place), [], [], lst
            images += lent_images[:n]
            scales.append(scale)
        return strengthened(len(images)), images, scales, [MARK] * PLACES

    def random_row(self, rng, capacity):
        right = rng.choice((capacity, capacity, rng.randint(0, 12)))
        return (right,) + tuple(rng.randint(0, right + rng.randint(0, 3) // 3) for _ in range(rng.randint(0, 4)))

    def test_as_cuts_one_by_one(self):
        rng = random.Random(5)
        outcomes = set()
        for _ in range(600):
            capacity = rng.randint(1, 12)
            steps = random_chain(rng, capacity)
            rows = [self.random_row(rng, capacity) for _ in range(rng.randint(1, 4))]
            images, working, lst, scales = buffers()
            found = wf.cut(rows_job(rows, *steps), images, working, lst, scales)
            expected, due_images, due_scales, due_list = self.one_by_one(rows, steps)
            with self.subTest(rows=rows, steps=steps):
                self.assertEqual(found, expected)
                self.assertEqual(images, due_images + [MARK] * (PLACES - len(due_images)))
                self.assertEqual(scales, due_scales + [MARK] * (66 - len(due_scales)))
                self.assertEqual(lst, due_list)
            outcomes.add((found[0], found[5] > 1))
        self.assertLessEqual({(0, False), (1, True), (3, True), (17, False), (17, True), (18, True)}, outcomes)

    def test_cuts_hold(self):
        rng = random.Random(6)
        for _ in range(60):
            first = rng.randint(4, 9)
            steps = random_chain(rng, first)
            rights = [right for right in range(1, 10) if answer(make_job(2, right, [], *steps))[0] == 0]
            images, working, lst, scales = buffers()
            data = rows_job([(right, *range(right + 1)) for right in rights], *steps)
            self.assertEqual(wf.cut(data, images, working, lst, scales)[0], 0)
            at = 0
            for right, scale in zip(rights, scales):
                for sizes in fitting(right):
                    self.assertLessEqual(sum(images[at + x] for x in sizes), scale)
                at += right + 1


class SeparateCalls(unittest.TestCase):
    """02, ticket 9: what each operation answers, and in which order it refuses. `Refusals` asks both of every job."""

    def test_accepted(self):
        to_six = family_step(1, 4), family_step(3, 3)  # the images 6 of 7 and 3 of 5, at scale 6
        sizes = [7, 7, 5, 5, 5]
        self.assertEqual(answer(make_job(1, 10, sizes, *to_six)), (0, 5, 4, 21, 6, 0, 0, 0, 4))
        self.assertEqual(answer(make_job(1, 10, sizes, blocks(1, 1, 3), *to_six)), (0, 5, 4, 21, 6, 0, 0, 0, 4))
        self.assertEqual(answer(make_job(1, 10, sizes, blocks(1, 3, 1), *to_six)), (0, 5, 4, 21, 6, 0, 0, 0, 4))
        self.assertEqual(answer(make_job(2, 10, sizes, *to_six)), (0, 5, 6, 0, 0, 0))
        self.assertEqual(answer(rows_job([(10, *sizes), (10, 7)], *to_six)), (0, 6, 0, 0, 0, 0))

    def test_named_numbers_of_a_refusal(self):
        ok, bad = family_step(1, 2), table_step(0, 0, 2, 1)  # 1 and 2 fit 3, and overshoot
        self.assertEqual(answer(make_job(1, 3, [1], ok, bad)), (11, 0, 0, 0, 0, 2, 2, 0, 0))
        self.assertEqual(answer(make_job(2, 3, [1], ok, bad)), (11, 0, 0, 2, 2, 0))
        self.assertEqual(answer(rows_job([(3, 1)], ok, bad)), (11, 0, 0, 2, 2, 1))
        self.assertEqual(answer(rows_job([(3, 1), (4, 5)], ok)), (17, 0, 0, 0, 0, 2))

    def test_orders(self):
        """The fields by the kind byte, then the kind, then the rows, then the lists."""
        no_rows, too_many = KIND_3 + family_step(0, 0), rows_job([(0, 1)] * 65)
        over, zero_count = make_job(1, 10, [11]), counted_job(10, [(5, 0)])
        for data, by_floor, by_cut in [
                (no_rows + b"\4", 13, 13), (no_rows + row(10), 14, 14), (KIND_3 + field(6, b""), 15, 15),
                (too_many + b"\4", 13, 13), (KIND_3 + counts(), 14, 14), (make_job(2, 10, [5]) + counts(1), 14, 14),
                (make_job(1, 10, [5]) + counts(1), 0, 16), (make_job(1, 10, [5]) + counts(), 15, 15),
                (no_rows, 16, 21), (too_many, 16, 21), (rows_job([(0, 1)]), 16, 1),
                (make_job(2, 0, [11]), 16, 1), (make_job(2, 10, [11]), 16, 17), (make_job(2, 10, [0]), 16, 0),
                (over, 17, 16), (zero_count, 22, 16), (make_job(1, 10, [0]), 17, 16),
                (make_job(1, 10, [5], blocks(2)), 23, 16), (make_job(1, 10, [5], family_step(8, 0)), 2, 16)]:
            with self.subTest(data=data[:40].hex()):
                self.assertEqual([operation(data, *buffers())[0] for operation in OPERATIONS], [by_floor, by_cut])

    def test_own_buffers(self):
        """63 places are too few for each operation's own, whatever the kind; with 64 the job is read."""
        for data in (b"", make_job(1, 10, [5]), make_job(2, 10, [5]), rows_job([(10, 5)]), make_job(0, 10, [5])):
            for operation in OPERATIONS:
                *others, own = buffers()
                self.assertEqual(operation(data, *others, own[:63])[0], 7)
                self.assertNotEqual(operation(data, *others, own[:64])[0], 7)
                self.assertEqual(operation(data + bytes(65_536), *others, own[:63])[0], 12)

    def test_texts(self):
        """By the fourth byte, also where it is no kind: only 3 has a row printed."""
        for data, text in [
                (b"", b"refused 14 0\n"), (b"\1\0\1", b"refused 13 0\n"), (b"\2\0\1\2", b"refused 14 0\n"),
                (b"\2\0\1\3", b"refused 14 0 0\n"), (make_job(4, 10, [5]), b"refused 16 0\n"),
                (KIND_3, b"refused 21 0 0\n"), (make_job(2, 0, []), b"refused 1 0\n"),
                (make_job(2, 10, [5, 0]), b"scale 10\nimages 5 0\n"),
                (make_job(1, 10, [5]), b"floor 1\nsum 5\nscale 10\nimages 5\n"),
                (rows_job([(10, 5), (9,)]), b"scale 10\nimages 5\nscale 9\nimages\n")]:
            self.assertEqual(wf.program(data), text)


class OtherCapacity(Refusals):
    """02, ticket 2: within a table step 18 comes first, then 8, 9, 10 and 11."""

    def bad(self, number, capacity, step=1, row=0):
        """What bad_tables of the present capacity give: the list with 11 is a size 1 for each unit of it."""
        return refused(number, step, capacity if number == 11 else 0, row)

    def by_capacity(self, present, make, step=1, row=0):
        """The job that make makes of a bad table: of the present capacity, and of smaller and greater ones."""
        for capacity in (2, present - 1, present + 1, present + 90):
            self.refusals([(make(table), refused(18, step, row=row)) for table in bad_tables(capacity)])
        self.refusals([(make(table), self.bad(number, present, step, row))
                       for number, table in enumerate(bad_tables(present), start=8)])

    def test_first_step(self):
        for kind in (1, 2):
            self.by_capacity(10, lambda table: make_job(kind, 10, [3, 10], table))
            self.by_capacity(10, lambda table: make_job(kind, 10, [], table, family_step(0, 0)))
            self.refusals([(make_job(kind, LIMIT, [3], table), refused(18, 1)) for table in bad_tables(2047)])
        self.refusals([(make_job(1, 10, [3], table_step(1, LIMIT + 1, 0)), refused(18, 1))])

    def test_behind_steps(self):
        """The present capacity is the scale before and not the job's own: 20 behind a family, 7 behind a table."""
        to_20, to_7, same = family_step(2, 2), table_step(*[0] * 10, 7), family_step(1, 3)
        for kind in (1, 2):
            self.by_capacity(20, lambda table: make_job(kind, 10, [3, 10], to_20, table), step=2)
            self.by_capacity(7, lambda table: make_job(kind, 10, [3, 10], to_7, table), step=2)
            self.by_capacity(7, lambda table: make_job(kind, 10, [3, 10], *[same] * 6, to_7, table), step=8)
            for step in (to_20, to_7):
                self.refusals([(make_job(kind, 10, [3], step, table), refused(18, 2)) for table in bad_tables(10)])

    def test_first_row(self):
        """Also where the table is of row 2's right side, or of every row's and not of the scale before."""
        to_10 = family_step(4, 6)  # at every capacity from 6 up
        self.by_capacity(10, lambda table: rows_job([(10, 3), (10, 5)], table), row=1)
        self.by_capacity(10, lambda table: rows_job([(10, 3), (9, 5), (0, 1)], table), row=1)
        self.by_capacity(10, lambda table: rows_job([(12, 3), (13, 5)], to_10, IDENTITY, table), step=3, row=1)
        self.refusals([(rows_job([(12, 3), (12, 5)], to_10, table), refused(18, 2, row=1)) for table in bad_tables(12)])

    def test_later_row(self):
        """Row 1 finds what is wrong in a table of its right side; one in order may be of another in a later row."""
        for before, right in ((1, 9), (1, 11), (2, LIMIT), (63, 9)):
            rows = [(10, 3)] * before + [(right, 5)]
            self.refusals([(rows_job(rows, IDENTITY), refused(18, 1, row=before + 1)),
                           (rows_job(rows, family_step(1, 0), IDENTITY), refused(18, 2, row=before + 1))])
            self.by_capacity(10, lambda table: rows_job(rows, IDENTITY, table), step=2, row=1)

    def test_the_first_table_decides(self):
        """A bad one of the right capacity and a bad one of another, in both orders."""
        rows = [(10, 3), (9, 5)]
        for number, (right, other) in enumerate(zip(bad_tables(10), bad_tables(9)), start=8):
            self.refusals([
                (make_job(1, 10, [3], right, other), self.bad(number, 10)),
                (make_job(1, 10, [3], other, right), refused(18, 1)),
                (make_job(2, 10, [3], IDENTITY, right, other), self.bad(number, 10, step=2)),
                (make_job(2, 10, [3], IDENTITY, other, right), refused(18, 2)),
                (rows_job(rows, right, other), self.bad(number, 10, row=1)),
                (rows_job(rows, other, right), refused(18, 1, row=1))])

    def test_what_comes_before(self):
        short = [MARK] * 2048, [MARK] * 2048, [MARK] * 2046, [MARK] * 64
        for table in bad_tables(9):
            self.assertEqual(wf.floor(make_job(1, 10, [3], table), *short), refused_by(wf.floor, 7))
            self.refusals([
                (make_job(1, 10, [3], table) + b"\5", refused(13)), (make_job(4, 10, [3], table), refused(16)),
                (KIND_3 + table, refused(21)), (make_job(1, 0, [], table), refused(1)),
                (make_job(1, 10, [11], table), refused(17)), (rows_job([(10, 11)], table), refused(17, row=1)),
                (make_job(1, 10, [3], family_step(8, 0), table), refused(2, 1))])

    def test_table_check(self):
        """Outside jobs there is no present capacity: 8 to 11 as they were."""
        for number, table in enumerate(bad_tables(9), start=8):
            due = number, 9 if number == 11 else 0
            self.assertEqual(wf.table_check(wf.numbers_of(table[3:]), [MARK] * 10, [MARK] * 9), due)

    def test_texts(self):
        """No list comes with 18."""
        for table in bad_tables(9):
            self.assertEqual(wf.program(make_job(1, 10, [3], table)), b"refused 18 1\n")
            self.assertEqual(wf.program(rows_job([(10, 3)], IDENTITY, table)), b"refused 18 1 2\n")


class CountGrammar(Refusals):
    """02, ticket 4: tag 7 comes right after tag 3 where the kind byte is 1, with two bytes for each size."""

    def test_places(self):
        head, good, step = make_job(1, 10, [7, 5]), counts(2, 3), family_step(1, 3)
        self.refusals([
            (head + good + good, refused(14)), (head + good + counts(), refused(14)), (head + step + good, refused(14)),
            (head + good + step + good, refused(14)), (good + head, refused(14)), (head[:4] + good, refused(14)),
            (head[:4] + good + head[4:], refused(14)), (head[:11] + good, refused(14)),
            (head[:11] + good + head[11:], refused(14)), (head + good + head[:4], refused(14)),
            (head + good + row(10, 5), refused(14)), (head + good + step * 9, refused(14)),
            (head + good[:1], refused(13)), (head + good[:2], refused(13)), (head + good[:-1], refused(13)),
            (head + field(7, b"", 65_535), refused(13)), (head + step + good[:-1], refused(13)),
            (head + good + good[:-1], refused(13)), (head[:11] + good[:-1], refused(13))])
        self.assertEqual(answer(head + good + step * 8), floored(2, 3, 29, 10))

    def test_other_kinds(self):
        """Whatever its length, and also where 16 or 21 would come."""
        for kind in (0, 2, 4, 6, 7, 255):
            head = make_job(kind, 10, [5])
            self.refusals([(head + counts(1), refused(14)), (head + counts(), refused(14)),
                           (head + counts(1) + family_step(1, 3), refused(14)), (head + counts(1)[:-1], refused(13)),
                           (make_job(kind, 10, []) + counts(), refused(14))])
        for end in (counts(), counts(1), row(10, 5) + counts(1), row(10, 5) + counts() + row(10, 5),
                    row(10, 5) + family_step(1, 3) + counts(1)):
            self.refusals([(KIND_3 + end, refused(14))])

    def test_lengths(self):
        """Every count that passes is 257: with n sizes of 5 the sum is 1285 n."""
        floors = 0, 129, 257, 386
        for n, floor in enumerate(floors):
            for length in range(17):
                data = make_job(1, 10, [5] * n, field(7, b"\1" * length))
                expected = floored(n, floor, 1285 * n, 10) if length == 2 * n else refused_by(wf.floor, 15)
                with self.subTest(n=n, length=length):
                    self.assertEqual(answer(data), expected)
        for length in (4094, 4095, 4097, 4098, 8192):
            self.refusals([(make_job(1, 10, [5] * 2048, field(7, b"\1" * length)), refused(15))])


class Counts(Refusals):
    """02, ticket 4: each size goes with its count."""

    def test_reckoned(self):
        to_six = family_step(1, 4), family_step(3, 3)  # the images 6 of 7 and 3 of 5, at scale 6
        levels = table_step(0, 1, 1, 1, 1, 5)
        for capacity, pairs, steps, floor, total, scale in [
                (10, [(7, 2), (5, 3)], to_six, 4, 21, 6), (10, [(5, 3), (7, 2)], to_six, 4, 21, 6),
                (10, [(7, 3), (5, 2)], to_six, 4, 24, 6), (10, [(7, 1), (7, 1), (5, 3)], to_six, 4, 21, 6),
                (10, [(6, 3)], (), 2, 18, 10), (10, [(6, 3)], (family_step(1, 5),), 3, 30, 10),
                (10, [(5, 300)], (), 150, 1500, 10), (10, [(5, 300), (1, 1)], (), 151, 1501, 10),
                (10, [(1, 256), (3, 1)], (), 26, 259, 10), (10, [(1, 1), (3, 256)], (), 77, 769, 10),
                (10, [(1, 255), (3, 65_280)], (), 19_610, 196_095, 10),
                (10, [(1, 1), (3, 10), (6, 100), (8, 1000), (10, 10_000)], (), 10_864, 108_631, 10),
                (5, [(1, 7), (4, 9), (5, 2)], (levels,), 6, 26, 5),
                (5, [(1, 7), (4, 9), (5, 2)], (levels, family_step(2, 1)), 2, 10, 5),
                (10, [], to_six, 0, 0, 6)]:
            with self.subTest(pairs=pairs, steps=steps):
                self.assertEqual(answer(counted_job(capacity, pairs, *steps)),
                                 floored(len(pairs), floor, total, scale))

    def test_largest_sum(self):
        """134,215,680 copies are 2,048 times 65,535."""
        largest = floored(2048, 134_215_680, 134_215_680 * LIMIT, LIMIT)
        self.assertEqual(answer(counted_job(LIMIT, [(LIMIT, 65_535)] * 2048)), largest)
        self.assertEqual(answer(counted_job(1, [(1, 65_535)] * 2048, table_step(0, LIMIT))), largest)

    def test_places_that_stay(self):
        """One image for each size."""
        images, working, lst, floors = buffers()
        data = counted_job(10, [(7, 300), (5, 2), (7, 1)], family_step(1, 4))
        self.assertEqual(wf.floor(data, images, working, lst, floors), floored(3, 302, 3020, 10))
        self.assertEqual(images, [10, 5, 10] + [MARK] * 2047)
        self.assertEqual((lst, floors), ([MARK] * PLACES, SHORTER))

    def test_counts_of_0(self):
        step = family_step(1, 3)
        for numbers in ((0, 2, 3), (1, 0, 3), (1, 2, 0), (0, 0, 0), (256, 0, 1)):
            pairs = list(zip((7, 5, 3), numbers))
            self.refusals([(counted_job(10, pairs), refused(22)), (counted_job(10, pairs, step), refused(22))])
        self.refusals([(counted_job(10, [(5, 1)] * 2047 + [(5, 0)]), refused(22))])
        self.assertEqual(answer(counted_job(10, [(7, 256), (5, 1)]))[0], 0)

    def test_what_comes_before(self):
        """Also a size that is wrong behind the count."""
        step = family_step(1, 3)
        start = counted_job(10, [(5, 0)])
        self.refusals([
            (counted_job(0, [(5, 0)]), refused(1)), (counted_job(LIMIT + 1, [(5, 0)]), refused(1)),
            (counted_job(10, [(11, 0)]), refused(17)), (counted_job(10, [(0, 0)]), refused(17)),
            (counted_job(10, [(5, 0), (5, 2), (11, 1)]), refused(17)),
            (counted_job(10, [(5, 0), (0, 2)]), refused(17)), (counted_job(10, [(0, 2), (5, 0)]), refused(17)),
            (start + b"\4", refused(13)), (start + step[:-1], refused(13)), (start + counts(0), refused(14)),
            (start + step * 9, refused(14)), (start + field(4, bytes(8)), refused(15)),
            (start + step + field(5, bytes(4)), refused(15))])
        self.assertEqual(wf.floor(start, [0] * 2047, [0] * 2048, [0] * 2047, [0] * 64), refused_by(wf.floor, 7))

    def test_what_comes_behind(self):
        """Every sort of refused step."""
        bad = (family_step(8, 0), family_step(1, 6), family_step(2, LIMIT), table_step(0, 1)) + bad_tables(10)
        for number, step in zip((2, 3, 4, 18, 8, 9, 10, 11), bad, strict=True):
            self.assertEqual(answer(counted_job(10, [(7, 2), (5, 1)], step))[0], number)
            self.refusals([(counted_job(10, [(7, 2), (5, 0)], step), refused(22))])

    def test_refused_steps(self):
        """Counts are no step: they take none's place and number."""
        ok = family_step(1, 3)
        self.refusals([
            (counted_job(10, [(5, 9)], family_step(8, 0)), refused(2, 1)),
            (counted_job(10, [(5, 9)], *[ok] * 7, family_step(8, 0)), refused(2, 8)),
            (counted_job(10, [(5, 9)], ok, table_step(0, 1, *[0] * 8, 2)), refused(11, 2, 10))])

    def test_texts(self):
        self.assertEqual(wf.program(counted_job(10, [(7, 2), (5, 3)], family_step(1, 4), family_step(3, 3))),
                         b"floor 4\nsum 21\nscale 6\nimages 6 3\n")
        self.assertEqual(wf.program(counted_job(10, [])), b"floor 0\nsum 0\nscale 10\nimages\n")
        self.assertEqual(wf.program(counted_job(10, [(5, 0)], family_step(8, 0))), b"refused 22 0\n")

    def random_parts(self, rng):
        capacity = rng.randint(1, 12)
        return capacity, random_pairs(rng, capacity, rng.randint(0, 4), 4), random_chain(rng, capacity)

    def test_as_copies_written_out(self):
        """Floor, sum and scale are the same, and the floor is no more than the fewest windows of all copies."""
        rng = random.Random(7)
        for _ in range(250):
            capacity, pairs, steps = self.random_parts(rng)
            copies = written_out(pairs)
            found, due = answer(counted_job(capacity, pairs, *steps)), answer(make_job(1, capacity, copies, *steps))
            with self.subTest(capacity=capacity, pairs=pairs, steps=steps):
                self.assertEqual(found[:2], (0, len(pairs)))
                self.assertEqual(found[2:], due[2:])
                if len(copies) <= 6:
                    self.assertLessEqual(found[2], least_windows(copies, capacity))

    def test_ones_as_no_counts(self):
        """Also what the buffers hold."""
        rng = random.Random(8)
        for _ in range(150):
            capacity, pairs, steps = self.random_parts(rng)
            sizes = [size for size, _ in pairs]
            with_ones, without = buffers(), buffers()
            self.assertEqual(wf.floor(counted_job(capacity, [(size, 1) for size in sizes], *steps), *with_ones),
                             wf.floor(make_job(1, capacity, sizes, *steps), *without))
            self.assertEqual(with_ones, without)


class HalfWindows(Refusals):
    """02, ticket 5: at each step the present capacity counts."""

    def accepted(self, data, images, numbers):
        lent_images, *others = buffers()
        called, other = both(data)
        self.assertEqual(called(data, lent_images, *others), numbers)
        self.assertEqual(lent_images[:len(images) + 1], images + [MARK])
        self.is_refused(other, data, refused(16))

    def floors(self, data, images, *numbers):
        self.accepted(data, images, floored(len(images), *numbers))

    def test_first_step(self):
        sizes = [2, 3, 3, 5]
        self.floors(make_job(1, 5, sizes), sizes, 3, 13, 5)
        self.floors(make_job(1, 5, sizes, family_step(1, 3)), [0, 5, 5, 5], 3, 15, 5)
        self.floors(make_job(1, 5, [3, 3, 3], family_step(1, 3)), [5, 5, 5], 3, 15, 5)
        self.accepted(make_job(2, 5, [0, 2, 3], family_step(1, 3)), [0, 0, 5], strengthened(3, 5))
        self.floors(make_job(1, 1, [1, 1], family_step(1, 1)), [1, 1], 2, 2, 1)
        self.floors(counted_job(5, [(3, 300), (2, 65_535)], family_step(1, 3)), [5, 0], 300, 1500, 5)

    def test_later_steps(self):
        """Family 5 with p = 3 makes 3 of 11, and x div 3 of each x here; the table makes 5 of 6."""
        thirds, table = family_step(5, 3), table_step(0, 0, 0, 2, 3, 4, 5)
        self.floors(make_job(1, 11, [3, 6, 9, 11], thirds), [1, 2, 3, 3], 3, 9, 3)
        self.floors(make_job(1, 11, [3, 6, 9, 11], thirds, family_step(1, 2)), [0, 3, 3, 3], 3, 9, 3)
        self.floors(make_job(1, 6, [3, 4, 5, 6], table, family_step(1, 3)), [0, 5, 5, 5], 3, 15, 5)
        self.floors(make_job(1, 5, [2, 3], *[family_step(1, 3)] * 8), [0, 5], 1, 5, 5)
        self.refusals([
            (make_job(1, 11, [3], family_step(1, 6), thirds, family_step(1, 3)), refused(3, 3)),
            (make_job(1, 5, [3], family_step(2, 2), family_step(1, 6)), refused(3, 2)),
            (make_job(1, 6, [3], family_step(1, 4)), refused(3, 1)),
            (make_job(1, 6, [3], table, family_step(1, 4)), refused(3, 2)),
            (make_job(1, 5, [3], family_step(1, 3, 1)), refused(3, 1))])

    def test_rows(self):
        lent_images, working, lst, scales = buffers()
        rows, step = [(5, 3, 2), (6, 3, 4), (7, 4, 5)], family_step(1, 3)
        self.assertEqual(wf.cut(rows_job(rows, step), lent_images, working, lst, scales), strengthened(6))
        self.assertEqual((lent_images[:6], scales[:3]), ([5, 0, 3, 6, 4, 7], [5, 6, 7]))
        self.refusals([(rows_job(rows + [(4, 0)], step), refused(3, 1, row=4)),
                       (rows_job([(7, 1), (6, 0)], family_step(1, 4)), refused(3, 1, row=2))])


class BlockGrammar(Refusals):
    """02, ticket 6: tag 8 comes right after tag 3 or tag 7 where the kind byte is 1, with two bytes for each block."""

    def test_places(self):
        head, good, step, each = make_job(1, 10, [7, 5]), blocks(1, 1), family_step(1, 3), counts(2, 3)
        self.refusals([
            (good + head, refused(14)), (head[:4] + good, refused(14)), (head[:4] + good + head[4:], refused(14)),
            (head[:11] + good, refused(14)), (head[:11] + good + head[11:], refused(14)),
            (head + step + good, refused(14)), (head + each + step + good, refused(14)),
            (head + good + good, refused(14)), (head + good + blocks(), refused(14)),
            (head + good + step + good, refused(14)), (head + good + each, refused(14)),
            (head + good + each + good, refused(14)), (head + each + good + each, refused(14)),
            (head + each + good + good, refused(14)), (head + good + head[:4], refused(14)),
            (head + good + row(10, 5), refused(14)), (head + good + step * 9, refused(14)),
            (head + b"\x08", refused(13)), (head + b"\x08\0", refused(13)), (head + good[:-1], refused(13)),
            (head + each + good[:-1], refused(13)), (head + field(8, b"", 65_534), refused(13)),
            (head + step + good[:-1], refused(13)), (head[:11] + good[:-1], refused(13)),
            (head + good + good[:-1], refused(13)), (head + good + step[:-1], refused(13))])
        for part, sums in ((good, (2, 2, 12, 10)), (each + good, (2, 3, 29, 10))):
            for steps in (b"", step * 8):
                self.assertEqual(answer(head + part + steps)[:5], (0,) + sums)

    def test_other_kinds(self):
        """Whatever its length, and also where 16 or 21 would come."""
        for kind in (0, 2, 4, 7, 8, 255):
            head = make_job(kind, 10, [5])
            self.refusals([(head + blocks(1), refused(14)), (head + blocks(), refused(14)),
                           (head + field(8, b"\0"), refused(14)), (head + blocks(1)[:-1], refused(13)),
                           (head + blocks(1) + family_step(1, 3), refused(14)),
                           (head + counts(1) + blocks(1), refused(14)),
                           (make_job(kind, 10, []) + blocks(), refused(14))])
        for end in (blocks(), blocks(1), row(10, 5) + blocks(1), row(10, 5) + blocks() + row(10, 5),
                    row(10, 5) + family_step(1, 3) + blocks(1), blocks(1) + row(10, 5), field(8, b"\0")):
            self.refusals([(KIND_3 + end, refused(14))])

    def test_lengths(self):
        """Blocks of one size each: an even length passes, and the number of blocks is judged later."""
        for length in range(18):
            data = make_job(1, 10, [7] * (length // 2), field(8, (b"\0\1" * 9)[:length]))
            with self.subTest(length=length):
                self.assertEqual(answer(data)[0], 15 if length % 2 else 0)
        for before in ((), (counts(1),)):
            head = make_job(1, 10, [7], *before)
            for length, number in ((129, 15), (130, 23), (255, 15), (256, 23), (65_001, 15), (65_002, 23)):
                self.refusals([(head + field(8, bytes(length)), refused(number))])

    def test_15_comes_first(self):
        odd = field(8, b"\0\1\0")
        for data in (make_job(1, 0, [5], odd), make_job(1, 10, [11], odd), make_job(1, 10, [5], counts(0), odd),
                     make_job(1, 10, [5], odd, family_step(8, 0))):
            self.refusals([(data, refused(15))])


class BlockRefusals(Refusals):
    """02, ticket 6: 23, and its place among the others."""

    def test_no_sizes(self):
        """A block of 0, at every place and alone, also where the others add up."""
        for n, numbers in [(0, (0,)), (0, (0, 0)), (1, (0,)), (1, (0, 1)), (1, (1, 0)), (2, (1, 0, 1)), (2, (0, 2)),
                           (2, (2, 0)), (3, (1, 2, 0)), (300, (44, 0, 256))]:
            self.refusals([(make_job(1, 10, [7] * n, blocks(*numbers)), refused(23)),
                           (counted_job(10, [(7, 3)] * n, blocks(*numbers)), refused(23))])

    def test_sums(self):
        """One less and one more than n, and numbers that add up to n only where 65,536 is lost."""
        for n, numbers in [(1, ()), (2, ()), (3, (2,)), (3, (4,)), (3, (1, 1)), (3, (2, 2)), (3, (1, 1, 2)),
                           (0, (1,)), (2048, (2047,)), (2048, (2049,)), (2048, (32,) * 63 + (31,)),
                           (2048, (32,) * 63 + (33,)), (1, (65_535, 2)), (0, (65_535, 1)), (0, (32_768, 32_768)),
                           (1, (32_768, 32_768, 1)), (1, (65_535, 65_535, 3)), (3, (2, 65_535, 2)),
                           (0, (1024,) * 64), (2048, (1056,) * 64), (5, (65_535,)), (256, (1,)), (1, (256,))]:
            self.refusals([(make_job(1, 10, [7] * n, blocks(*numbers)), refused(23))])

    def test_numbers_of_blocks(self):
        """64 pass; 65 do not, whatever they add up to."""
        self.assertEqual(answer(make_job(1, 10, [7] * 64, blocks(*[1] * 64))), (0, 64, 45, 448, 10, 0, 0, 0, 64))
        self.assertEqual(answer(make_job(1, 10, [7] * 2048, blocks(*[32] * 64))),
                         (0, 2048, 1434, 14_336, 10, 0, 0, 0, 64 * 23))
        for n, numbers in [(65, (1,) * 65), (64, (1,) * 65), (0, (0,) * 65), (2048, (31,) * 64 + (64,)),
                           (2048, (1,) * 2048), (320, (1,) * 320), (0, (0,) * 32_759)]:
            self.refusals([(make_job(1, 10, [7] * n, blocks(*numbers)), refused(23))])

    def test_copies_do_not_count(self):
        """Blocks of sizes, not of copies."""
        pairs = [(7, 2), (5, 3)]
        self.refusals([(counted_job(10, pairs, blocks(5)), refused(23)),
                       (counted_job(10, pairs, blocks(2, 3)), refused(23))])
        self.assertEqual(answer(counted_job(10, pairs, blocks(1, 1)))[0], 0)

    def test_what_comes_before(self):
        step, wrong = family_step(1, 3), blocks(1, 1)
        start = make_job(1, 10, [5], wrong)
        for first, second in (([5], blocks(2)), ([5], blocks(0)), ([5], blocks()), ([5] * 65, blocks(*[1] * 65))):
            self.refusals([
                (make_job(1, 0, first, second), refused(1)), (make_job(1, LIMIT + 1, first, second), refused(1)),
                (make_job(1, 10, first[1:] + [11], second), refused(17)),
                (make_job(1, 10, [0] + first[1:], second), refused(17)),
                (make_job(1, 4, first, second), refused(17)),
                (counted_job(10, [(size, 0) for size in first], second), refused(22)),
                (counted_job(10, [(size, 1) for size in first], second), refused(23))])
        self.refusals([
            (counted_job(10, [(5, 1), (5, 0)], blocks(1)), refused(22)),
            (counted_job(10, [(5, 0), (11, 1)], blocks(1)), refused(17)),
            (counted_job(0, [(5, 0)], blocks(2)), refused(1)),
            (start + b"\4", refused(13)), (start + step[:-1], refused(13)), (start + wrong, refused(14)),
            (start + counts(1), refused(14)), (start + step * 9, refused(14)),
            (start + field(4, bytes(8)), refused(15)), (start + step + field(5, bytes(4)), refused(15))])
        for short in range(4):
            lent = [[0] * (places - (which == short)) for which, places in enumerate((2048, 2048, 2047, 64))]
            self.assertEqual(wf.floor(start, *lent), refused_by(wf.floor, 7))
        self.assertEqual(wf.floor(start + bytes(65_536), *buffers()), refused_by(wf.floor, 12))

    def test_what_comes_behind(self):
        """Every sort of refused step, first and behind another."""
        ok = family_step(1, 3)
        bad = (family_step(8, 0), family_step(1, 6), family_step(2, LIMIT), table_step(0, 1)) + bad_tables(10)
        for number, step in zip((2, 3, 4, 18, 8, 9, 10, 11), bad, strict=True):
            length = 10 if number == 11 else 0
            self.refusals([
                (make_job(1, 10, [7, 5], blocks(1, 1), step), refused(number, 1, length)),
                (counted_job(10, [(7, 2), (5, 9)], blocks(2), *[ok] * 7, step), refused(number, 8, length)),
                (make_job(1, 10, [7, 5], blocks(1), step), refused(23)),
                (make_job(1, 10, [7, 5], blocks(), ok, step), refused(23)),
                (counted_job(10, [(7, 2), (5, 9)], blocks(3), step), refused(23))])


class Blocks(Refusals):
    """02, ticket 6: a floor for each block, and their total."""

    def accepted(self, data, images, floors, numbers):
        lent_images, working, lst, lent_floors = buffers()
        due = (0, len(images), *numbers, 0, 0, 0, sum(floors))
        self.assertEqual(wf.floor(data, lent_images, working, lst, lent_floors), due)
        self.assertEqual(lent_images, images + [MARK] * (PLACES - len(images)))
        self.assertEqual(lent_floors, floors + [MARK] * (66 - len(floors)))
        self.assertEqual(lst, [MARK] * PLACES)
        self.is_refused(wf.cut, data, refused(16))

    def test_reckoned(self):
        """Floor, sum and scale are those of the whole list."""
        to_six = family_step(1, 4), family_step(3, 3)  # the images 6 of 7 and 3 of 5, at scale 6
        for groups, steps, images, floors, numbers in [
                ([[7, 5], [7, 5], [5]], to_six, [6, 3, 6, 3, 3], [2, 2, 1], (4, 21, 6)),
                ([[7], [5, 7], [5, 5]], to_six, [6, 3, 6, 3, 3], [1, 2, 1], (4, 21, 6)),
                ([[7, 5, 7, 5, 5]], to_six, [6, 3, 6, 3, 3], [4], (4, 21, 6)),
                ([[6], [6], [6]], (), [6, 6, 6], [1, 1, 1], (2, 18, 10)),
                ([[6, 6], [6]], (), [6, 6, 6], [2, 1], (2, 18, 10)),
                ([[6], [6, 6]], (), [6, 6, 6], [1, 2], (2, 18, 10)),
                ([[10, 10, 1], [9]], (), [10, 10, 1, 9], [3, 1], (3, 30, 10)),
                ([[5, 5], [10], [1]], (), [5, 5, 10, 1], [1, 1, 1], (3, 21, 10)),
                ([[6, 6], [6, 4]], (family_step(1, 5),), [10, 10, 10, 0], [2, 1], (3, 30, 10)),
                ([[4, 4], [6], [3]], (family_step(1, 5),), [0, 0, 10, 0], [0, 1, 0], (1, 10, 10))]:
            with self.subTest(groups=groups, steps=steps):
                self.accepted(blocked_job(10, groups, *steps), images, floors, numbers)

    def test_tables(self):
        """The table gives 1 to sizes under 5; then 1 goes to 0."""
        levels = table_step(0, 1, 1, 1, 1, 5)
        self.accepted(blocked_job(5, [[1, 4], [5], [2]], levels), [1, 1, 5, 1], [1, 1, 1], (2, 8, 5))
        self.accepted(blocked_job(5, [[1, 4, 5], [2]], levels, family_step(2, 1)), [0, 0, 5, 0], [1, 0], (1, 5, 5))
        self.accepted(counted_blocked_job(5, [[(1, 7), (4, 9)], [(5, 2)]], levels), [1, 1, 5], [4, 2], (6, 26, 5))

    def test_counts(self):
        """Each block has the copies of its own sizes."""
        to_six = family_step(1, 4), family_step(3, 3)
        for groups, steps, images, floors, numbers in [
                ([[(7, 2)], [(5, 3)]], to_six, [6, 3], [2, 2], (4, 21, 6)),
                ([[(5, 301)], [(5, 301)]], (), [5, 5], [151, 151], (301, 3010, 10)),
                ([[(1, 256), (3, 1)], [(3, 256)]], (), [1, 3, 3], [26, 77], (103, 1027, 10)),
                ([[(1, 1), (2, 10)], [(3, 100)], [(4, 1000), (5, 10_000)]], (), [1, 2, 3, 4, 5], [3, 30, 5400],
                 (5433, 54_321, 10)),
                ([[(7, 1)], [(7, 65_535)]], to_six, [6, 6], [1, 65_535], (65_536, 393_216, 6))]:
            with self.subTest(groups=groups, steps=steps):
                self.accepted(counted_blocked_job(10, groups, *steps), images, floors, numbers)

    def test_no_blocks(self):
        """In order where there are no sizes, with and without counts and steps."""
        for data in (make_job(1, 10, [], blocks()), counted_job(10, [], blocks()),
                     make_job(1, 10, [], blocks(), family_step(1, 3), IDENTITY)):
            self.accepted(data, [], [], (0, 0, 10))

    def test_byte_order(self):
        """257 sizes, 10 and then ones: the high byte of a block's number comes first."""
        sizes = [10] + [1] * 256
        self.accepted(make_job(1, 10, sizes, blocks(1, 256)), sizes, [1, 26], (27, 266, 10))
        self.accepted(make_job(1, 10, sizes, blocks(256, 1)), sizes, [27, 1], (27, 266, 10))

    def test_most(self):
        """64 blocks, also of many lengths; one block of all sizes; the largest floors and their total. Neighbours up
        to 31 and 32 fit a window of 64, those from 33 and 34 on take two."""
        sizes = [7] * 64
        self.accepted(make_job(1, 10, sizes, blocks(*[1] * 64)), sizes, [1] * 64, (45, 448, 10))
        sizes = list(range(1, 65)) * 32
        self.accepted(make_job(1, 64, sizes, blocks(2048)), sizes, [1040], (1040, 66_560, 64))
        self.accepted(make_job(1, 64, sizes, blocks(*[64] * 31 + [2] * 31 + [1] * 2)), sizes,
                      [33] * 31 + [1] * 16 + [2] * 15 + [1] * 2, (1040, 66_560, 64))
        copies = 134_215_680  # 2,048 times 65,535
        pairs, images = [(LIMIT, 65_535)] * 2048, [LIMIT] * 2048
        for numbers, floors in (((2048,), [copies]), ((2047, 1), [copies - 65_535, 65_535]),
                                ((32,) * 64, [copies // 64] * 64)):
            self.accepted(counted_job(LIMIT, pairs, blocks(*numbers)), images, floors, (copies, copies * LIMIT, LIMIT))

    def test_texts(self):
        to_six = family_step(1, 4), family_step(3, 3)
        for data, text in [
                (blocked_job(10, [[7, 5], [7, 5], [5]], *to_six),
                 b"floor 4\nsum 21\nscale 6\nimages 6 3 6 3 3\nblocks 2 2 1\n"),
                (blocked_job(10, [[7, 5, 7, 5, 5]], *to_six),
                 b"floor 4\nsum 21\nscale 6\nimages 6 3 6 3 3\nblocks 4\n"),
                (counted_blocked_job(10, [[(7, 2)], [(5, 3)]], *to_six),
                 b"floor 4\nsum 21\nscale 6\nimages 6 3\nblocks 2 2\n"),
                (make_job(1, 10, [], blocks()), b"floor 0\nsum 0\nscale 10\nimages\nblocks\n"),
                (make_job(1, 10, [7], blocks()), b"refused 23 0\n"),
                (make_job(1, 10, [7], blocks(2), family_step(8, 0)), b"refused 23 0\n"),
                (make_job(1, 10, [7], blocks(1), family_step(8, 0)), b"refused 2 1\n"),
                (make_job(2, 10, [7], blocks(1)), b"refused 14 0\n"),
                (rows_job([(10, 7)]) + blocks(1), b"refused 14 0 0\n"),
                (make_job(1, 3, [1], blocks(1), table_step(0, 0, 2, 1)), b"refused 11 1\nlist 1 2\n")]:
            with self.subTest(data=data.hex()):
                self.assertEqual(wf.program(data), text)


class BlockLaws(unittest.TestCase):
    """02, ticket 6: what is said of the block floors and their total, by brute force."""

    def jobs(self, seed, times, most_sizes=6, most_copies=7):
        """Capacity, groups of pairs and steps of small accepted jobs."""
        rng = random.Random(seed)
        for _ in range(times):
            capacity = rng.randint(1, 12)
            pairs = random_pairs(rng, rng.randint(1, capacity), rng.randint(0, most_sizes), 2)
            while len(written_out(pairs)) > most_copies:
                pairs.pop()
            yield capacity, random_groups(rng, pairs, most_sizes), random_chain(rng, capacity)

    def floors_of(self, capacity, groups, steps):
        """Floor, total and block floors."""
        *others, floors = buffers()
        data = counted_blocked_job(capacity, groups, *steps)
        number, _, floor, _, _, _, _, _, total = wf.floor(data, *others, floors)
        self.assertEqual(number, 0)
        return floor, total, floors[:len(groups)]

    def check_assignment(self, assignment, owners, floor, total, floors):
        """Whether it keeps blocks separate; owners has each copy's block."""
        windows = set(assignment)
        self.assertLessEqual(floor, len(windows))
        owned = set(zip(assignment, owners))
        if len(owned) > len(windows):
            return False
        self.assertLessEqual(total, len(windows))
        for block, block_floor in enumerate(floors):
            self.assertLessEqual(block_floor, sum(owner == block for _, owner in owned))
        return True

    def test_separate_assignments(self):
        """Of all that fit: the floor is at most the windows of each, the total those of each that keeps blocks
        separate, and a block's floor its own windows there. Often the total is more than the floor, and reached."""
        met = {"over the floor": 0, "reached": 0, "over what is shared": 0}
        for capacity, groups, steps in self.jobs(10, 300):
            floor, total, floors = self.floors_of(capacity, groups, steps)
            copies = written_out(together(groups))
            owners = [block for block, group in enumerate(groups) for _ in written_out(group)]
            with self.subTest(capacity=capacity, groups=groups, steps=steps):
                self.assertLessEqual(floor, total)
                fewest = {True: len(copies), False: len(copies)}  # by whether blocks are kept separate
                for assignment in assignments(copies, capacity):
                    separate = self.check_assignment(assignment, owners, floor, total, floors)
                    fewest[separate] = min(fewest[separate], len(set(assignment)))
                met["over the floor"] += floor < total
                met["reached"] += total == fewest[True]
                met["over what is shared"] += total > fewest[False]
        self.assertGreater(min(met.values()), 25, met)

    def test_each_block_alone(self):
        """A block's floor is the floor of a job with its sizes alone and the same steps; the rest of the answer and
        the other buffers are as without blocks, and one block of all sizes has the whole floor."""
        for capacity, groups, steps in self.jobs(11, 200, 9, 30):
            floor, total, floors = self.floors_of(capacity, groups, steps)
            with self.subTest(capacity=capacity, groups=groups, steps=steps):
                self.assertEqual(floors, [answer(counted_job(capacity, group, *steps))[2] for group in groups])
                self.assertEqual(total, sum(floors))
                with_blocks, without = buffers(), buffers()
                found = wf.floor(counted_blocked_job(capacity, groups, *steps), *with_blocks)
                due = wf.floor(counted_job(capacity, together(groups), *steps), *without)
                self.assertEqual((found[:8], with_blocks[:3]), (due[:8], without[:3]))
                self.assertEqual((due[8], without[3]), (floor, SHORTER))
                whole = [together(groups)] if groups else []
                self.assertEqual(self.floors_of(capacity, whole, steps), (floor, floor, [floor] * len(whole)))


class RowTexts(unittest.TestCase):
    """02, ticket 1: what the program prints for kind 3, and where the fourth byte is 3."""

    def test_accepted(self):
        data = rows_job([(10, 7, 7, 5, 5, 5), (9,), (9, 9, 4, 5)], family_step(1, 4), family_step(3, 3))
        self.assertEqual(wf.program(data),
                         b"scale 6\nimages 6 6 3 3 3\nscale 6\nimages\nscale 6\nimages 6 2 4\n")
        self.assertEqual(wf.program(rows_job([(4,)])), b"scale 4\nimages\n")

    def test_refused(self):
        for data, text in [
                (rows_job([(10, 5), (10, 11)]), b"refused 17 2 0\n"), (KIND_3, b"refused 21 0 0\n"),
                (rows_job([(10, 5), (11, 5)], IDENTITY), b"refused 18 2 1\n"), (KIND_3 + b"\6", b"refused 13 0 0\n"),
                (rows_job([(3,)], table_step(0, 0, 2, 1)), b"refused 11 1 1\nlist 1 2\n"),
                (KIND_3 + bytes(65532), b"refused 12 0 0\n"), (bytes(65536), b"refused 12 0\n"),
                (bytes([3] * 65536), b"refused 12 0 0\n")]:
            self.assertEqual(wf.program(data), text)

    def test_fourth_byte(self):
        """It counts where there is no kind at all, and where the job is too short for it."""
        for data, text in [
                ("09000003", "14 0 0"), ("02000103", "14 0 0"), ("0100020303", "15 0 0"), ("01000003", "15 0 0"),
                ("01000203", "13 0 0"), ("060004030000", "13 0 0"), ("030303", "13 0"), ("030003", "13 0"),
                ("01000104", "14 0")]:
            with self.subTest(data=data):
                self.assertEqual(wf.program(bytes.fromhex(data)).decode(), "refused %s\n" % text)


class Sweeps(unittest.TestCase):

    def test_against_one_step_jobs(self):
        rng = random.Random(4)
        for _ in range(300):
            capacity, family = rng.randint(1, 15), rng.randint(1, 5)
            pairs = random_pairs(rng, capacity, rng.randint(0, 6), rng.choice((1, 5, 65_535)))
            low = rng.randint(0, 8)
            high = low + rng.randint(0, 12)
            expected = (20, 0, 0)
            for p in range(low, high + 1):
                number, _, floor, *_ = answer(counted_job(capacity, pairs, family_step(family, p)))
                if number == 0 and (expected[0] == 20 or floor > expected[1]):
                    expected = (0, floor, p)
            self.assertEqual(wf.sweep(capacity, family, *apart(pairs), low, high), expected)

    def test_refusals(self):
        """02, ticket 4: 6 also for too few or too many counts, 22 between 17 and 19."""
        for case, number in [
                ((0, 6, [0] * 2049, [0], 1, 0), 1), ((LIMIT + 1, 1, [], [], 0, 0), 1),
                ((10, 6, [0] * 2049, [0] * 2049, 1, 0), 2), ((10, 6, [0], [], 1, 0), 2), ((10, 0, [], [], 0, 0), 2),
                ((10, 1, [0] * 2049, [0] * 2049, 1, 0), 6), ((10, 1, [5] * 2049, [1] * 2049, 1, 3), 6),
                ((10, 1, [5] * 2049, [1] * 2048, 1, 3), 6), ((10, 1, [5] * 2048, [1] * 2049, 1, 3), 6),
                ((10, 1, [0], [], 1, 0), 6), ((10, 1, [0], [0, 0], 1, 0), 6), ((10, 1, [], [1], 1, 3), 6),
                ((10, 1, [5, 5], [1], 1, 3), 6), ((10, 1, [5, 5], [1] * 3, 1, 3), 6), ((10, 1, [5, 5], [0], 1, 3), 6),
                ((10, 1, [0], [0], 1, 0), 17), ((10, 1, [11], [1], 1, 0), 17), ((10, 1, [5, 11], [0, 1], 1, 0), 17),
                ((10, 1, [5], [0], 1, 0), 22), ((10, 1, [5, 5], [0, 1], 0, 4096), 22),
                ((10, 1, [5, 5], [1, 0], 6, 6), 22), ((10, 1, [5, 5, 5], [1, 0, 1], 1, 3), 22),
                ((10, 1, [5], [1], 1, 0), 19), ((10, 1, [], [], 1, 0), 19),
                ((10, 1, [], [], 0, 4096), 19), ((10, 1, [], [], 6, 4101), 20),
                ((10, 2, [], [], LIMIT + 1, LIMIT + 5), 20),
                ((10, 1, [], [], 2**64 - 1, 2**64 - 1), 20)]:
            capacity, family, sizes, numbers, low, high = case
            with self.subTest(case=(capacity, family, sizes[:3], numbers[:3], low, high)):
                self.assertEqual(wf.sweep(*case), (number, 0, 0))

    def test_empty_list(self):
        self.assertEqual(wf.sweep(10, 1, [], [], 0, 4095), (0, 0, 0))
        self.assertEqual(wf.sweep(10, 4, [], [], 0, 9), (0, 0, 2))

    def test_counts_reckoned(self):
        """Family 1 at capacity 10: 6 stays up to p = 4 and is 10 at 5; 7 is 10 from 4 on; 4 stays up to 4 and is then
        0. So with counts a of 4 and b of 7 the sums are 4a + 7b up to p = 3, 4a + 10b at 4 and 10b at 5."""
        for sizes, numbers, expected in [
                ([6], [1], (0, 1, 0)), ([6], [3], (0, 3, 5)), ([6, 6], [1, 2], (0, 3, 5)),
                ([4, 7], [1, 1], (0, 2, 0)), ([4, 7], [1, 2], (0, 3, 4)), ([4, 7], [2, 1], (0, 2, 0)),
                ([4, 7], [6, 1], (0, 4, 0)), ([7, 4], [6, 1], (0, 7, 4)), ([4, 7], [300, 1], (0, 121, 0)),
                ([4, 7], [1, 300], (0, 301, 4)), ([4, 7], [65_535, 65_535], (0, 91_749, 4))]:
            with self.subTest(sizes=sizes, numbers=numbers):
                self.assertEqual(wf.sweep(10, 1, sizes, numbers, 0, 9), expected)

    def test_half_of_an_odd_window(self):
        """02, ticket 5: some 20s go, and some floors rise; an even capacity has no such p."""
        for capacity, low, high, sizes, numbers, expected in [
                (5, 3, 3, [3, 3], [1, 1], (0, 2, 3)), (5, 3, 3, [], [], (0, 0, 3)), (5, 3, 9, [3], [300], (0, 300, 3)),
                (5, 0, 2, [3, 3, 3], [1, 1, 1], (0, 2, 0)), (5, 0, 3, [3, 3, 3], [1, 1, 1], (0, 3, 3)),
                (5, 4, 9, [3], [1], (20, 0, 0)), (6, 4, 4, [3], [1], (20, 0, 0)), (1, 1, 1, [1], [7], (0, 7, 1))]:
            with self.subTest(capacity=capacity, low=low, high=high):
                self.assertEqual(wf.sweep(capacity, 1, sizes, numbers, low, high), expected)

    def test_most_counts(self):
        most = [LIMIT] * 2048, [65_535] * 2048
        for family, p in ((1, 0), (2, 1), (3, 2), (4, 2), (5, 1)):
            self.assertEqual(wf.sweep(LIMIT, family, *most, p, p), (0, 134_215_680, p))

    def test_as_copies_written_out(self):
        rng = random.Random(9)
        for _ in range(200):
            capacity, family = rng.randint(1, 15), rng.randint(1, 5)
            pairs = random_pairs(rng, capacity, rng.randint(0, 5), 6)
            copies = written_out(pairs)
            self.assertEqual(wf.sweep(capacity, family, *apart(pairs), 0, 15),
                             wf.sweep(capacity, family, copies, [1] * len(copies), 0, 15))


class Exact(unittest.TestCase):
    """02, ticket 8: the fewest windows of short lists."""

    def fewest(self, capacity, sizes, counts):
        """That of an accepted list, whose assignment is looked at."""
        windows = [MARK] * 12
        number, fewest = wf.exact(capacity, sizes, counts, windows)
        copies = written_out(zip(sizes, counts))
        end = len(copies)
        self.assertEqual((number, windows[end:]), (0, [MARK] * (12 - end)))
        self.assertTrue(wf.is_assignment(capacity, copies, windows[:end], fewest))
        return fewest

    def assert_fewest(self, cases):
        for capacity, copies, fewest in cases:
            with self.subTest(capacity=capacity, copies=copies):
                self.assertEqual(self.fewest(capacity, copies, [1] * len(copies)), fewest)

    def test_full_windows(self):
        """The total divided by the capacity and rounded up can be had: 7 + 3 and 5 + 5; 9 + 1, 8 + 2 and so on."""
        self.assert_fewest([
            (10, [7, 3, 5, 5], 2), (10, [9, 8, 7, 6, 5, 5, 4, 3, 2, 1], 5), (10, [10], 1), (10, [1] * 10, 1),
            (10, [2] * 10, 2), (10, [5] * 10, 5), (10, [5] * 9, 5), (10, [10] * 10, 10), (9, [3] * 10, 4), (1, [1], 1),
            (100, [60, 41, 59, 40, 50, 50], 3), (100, [34, 33, 33, 51, 49], 2)])

    def test_more_than_the_total(self):
        """It cannot: no two of 6 fit, two of 4 and three of 3 at most; beside 51 there is room for one of 49 or of
        26."""
        self.assert_fewest([
            (10, [6, 6], 2), (10, [6] * 3, 3), (10, [6] * 10, 10), (10, [4] * 5, 3), (10, [4] * 10, 5),
            (10, [3] * 10, 4), (11, [4] * 5, 3), (100, [51] * 9, 9), (100, [51, 51, 49, 49, 1], 3),
            (100, [26] * 8, 3), (100, [34] * 6, 3), (100, [26] * 4 + [51] * 3, 4), (3, [2] * 10, 10)])

    def test_first_fit_needs_more(self):
        """First fit has 4 + 4, 4 + 6, 6 and 6 where 4 + 6 is full; 2 + 3 + 4, 10, 9 and 8 where 2 + 10, 3 + 9 and
        4 + 8 are."""
        self.assert_fewest([(10, [4, 4, 4, 6, 6, 6], 3), (10, [4, 4, 6, 6], 2), (10, [3, 3, 7, 7], 2),
                            (10, [2, 2, 2, 8, 8, 8], 3), (12, [2, 3, 4, 10, 9, 8], 3)])

    def test_first_fit_decreasing_needs_more(self):
        """It has 4 + 4, 3 + 3 + 3 and 3 where 4 + 3 + 3 is full; 3 + 3, 2 + 2 + 2 and 2 where 3 + 2 + 2 is."""
        self.assert_fewest([(10, [4, 4, 3, 3, 3, 3], 2), (7, [3, 3, 2, 2, 2, 2], 2), (7, [2, 3, 2, 3, 2, 2], 2),
                            (100, [44, 44, 28, 28, 28, 28], 2), (14, [6, 6, 4, 4, 4, 4, 14], 3)])

    def test_at_the_limit(self):
        """Totals of 32 bits and more; the last would be 1 if they were cut to 32 bits."""
        half = LIMIT // 2
        self.assert_fewest([
            (LIMIT, [LIMIT] * 10, 10), (LIMIT, [half] * 10, 5), (LIMIT, [half + 1] * 10, 10),
            (LIMIT, [half - 1, half + 1] * 5, 5), (LIMIT - 1, [half] * 10, 10), (LIMIT, [LIMIT, 2**32 - LIMIT], 2),
            (LIMIT, [2**31, 2**31], 2), (LIMIT, [half, half, 2**32 - LIMIT], 2)])

    def test_counts(self):
        for sizes, counts, fewest in [
                ([5], [3], 2), ([5, 5], [1, 2], 2), ([7, 5], [2, 3], 4), ([7, 3], [2, 2], 2), ([3, 7], [4, 1], 2),
                ([6], [10], 10), ([1], [10], 1), ([4, 3], [2, 4], 2), ([3, 4], [4, 2], 2), ([10, 1], [9, 1], 10)]:
            with self.subTest(sizes=sizes, counts=counts):
                self.assertEqual(self.fewest(10, sizes, counts), fewest)

    def test_empty_list(self):
        for capacity in (1, 10, LIMIT):
            self.assertEqual(self.fewest(capacity, [], []), 0)

    def test_places(self):
        """7 for fewer than 10, whatever the list; more of them stay."""
        for sizes, fewest in (([], 0), ([7], 1), ([7] * 10, 10)):
            for places in (0, 1, 9, 10, 11, 40):
                windows = [MARK] * places
                expected = (0, fewest) if places >= 10 else (7, 0)
                self.assertEqual(wf.exact(10, sizes, [1] * len(sizes), windows), expected)
                due = list(range(fewest)) if places >= 10 else []
                self.assertEqual(windows, due + [MARK] * (places - len(due)))

    def assert_refused(self, number, capacity, sizes, counts, places=12):
        windows = [MARK] * places
        with self.subTest(capacity=capacity, sizes=sizes[:9], counts=counts[:9], places=places):
            self.assertEqual((wf.exact(capacity, sizes, counts, windows), windows), ((number, 0), [MARK] * places))

    def test_refusals(self):
        """24 for all copies together, also where their number, cut to 16 bits, is at most 10."""
        for number, case in [
                (1, (0, [], [])), (1, (LIMIT + 1, [], [])), (1, (2**64 - 1, [7], [1])), (1, (2**32 + 10, [7], [1])),
                (6, (10, [5] * 2049, [1] * 2049)), (6, (10, [5], [])), (6, (10, [5], [1, 1])), (6, (10, [], [1])),
                (6, (10, [5] * 2049, [1] * 2048)), (6, (10, [5] * 2048, [1] * 2049)),
                (17, (10, [0], [1])), (17, (10, [11], [1])), (17, (10, [5] * 9 + [0], [1] * 10)),
                (17, (LIMIT, [LIMIT + 1], [1])), (17, (10, [2**32 - 1], [1])),
                (22, (10, [5], [0])), (22, (10, [5] * 3, [1, 1, 0])), (22, (10, [5] * 2048, [1] * 2047 + [0])),
                (24, (10, [5], [11])), (24, (10, [5] * 11, [1] * 11)), (24, (10, [5], [65_535])),
                (24, (10, [5, 5], [10, 1])), (24, (10, [5, 5], [1, 10])), (24, (10, [5, 5], [65_535, 5])),
                (24, (10, [5, 5], [32_768, 32_768])), (24, (10, [5] * 2048, [1] * 2048)),
                (24, (10, [5] * 2048, [65_535] * 2048))]:
            self.assert_refused(number, *case)

    def test_order_of_refusals(self):
        """Every choice of faults: the one that is asked first is told."""
        order = 1, 6, 17, 22, 24, 7
        for size in range(1, 7):
            for faults in itertools.combinations(order, size):
                counts = [0 if 22 in faults else 1, 1, 65_535 if 24 in faults else 2] + [1] * (6 in faults)
                self.assert_refused(faults[0], 0 if 1 in faults else 10, [7, 0 if 17 in faults else 3, 5], counts,
                                    9 if 7 in faults else 12)

    def test_every_tiny_list(self):
        """Against every assignment, of all lists of up to 4 copies, and of 5 and 6 whose sizes do not fall."""
        for capacity in range(1, 6):
            sizes = range(1, capacity + 1)
            lists = [itertools.product(sizes, repeat=n) for n in range(5)]
            lists += [itertools.combinations_with_replacement(sizes, n) for n in (5, 6)]
            for copies in itertools.chain(*lists):
                self.assertEqual(self.fewest(capacity, copies, [1] * len(copies)),
                                 least_windows(list(copies), capacity))

    def test_what_is_an_assignment(self):
        for copies, numbers, fewest, right in [
                ([7, 3, 5], [0, 0, 1], 2, True), ([7, 3, 5], [1, 1, 0], 2, True), ([7, 3, 5], [0, 1, 1], 2, True),
                ([7, 3, 5], [0, 1, 0], 2, False), ([7, 3, 5], [0, 0, 2], 2, False), ([7, 3, 5], [1, 1, 2], 2, False),
                ([7, 3, 5], [0, 1, 2], 2, False), ([3, 3, 3], [0, 0, 0], 2, False), ([], [], 0, True)]:
            with self.subTest(numbers=numbers):
                self.assertEqual(wf.is_assignment(10, copies, numbers, fewest), right)

    def random_lists(self, seed, times):
        rng = random.Random(seed)
        for _ in range(times):
            capacity = rng.randint(1, 40)
            pairs = random_pairs(rng, rng.choice((capacity, (2 * capacity + 2) // 3)), rng.randint(0, 8), 3)
            while len(written_out(pairs)) > 10:
                pairs.pop()
            yield rng, capacity, pairs

    def test_as_copies_written_out(self):
        """And in another order."""
        for rng, capacity, pairs in self.random_lists(20, 60):
            copies = written_out(pairs)
            rng.shuffle(copies)
            self.assertEqual(self.fewest(capacity, *apart(pairs)), self.fewest(capacity, copies, [1] * len(copies)))

    def test_no_floor_is_above(self):
        """Neither of a chain nor of a sweep; most are below or reach it."""
        met = {"below": 0, "reached": 0}
        for rng, capacity, pairs in self.random_lists(21, 150):
            fewest = self.fewest(capacity, *apart(pairs))
            floors = [answer(counted_job(capacity, pairs, *random_chain(rng, capacity)))[2] for _ in range(3)]
            floors += [wf.sweep(capacity, family, *apart(pairs), 0, 40)[1] for family in range(1, 6)]
            for floor in floors:
                self.assertLessEqual(floor, fewest)
                met["reached" if floor == fewest else "below"] += 1
        self.assertGreater(min(met.values()), 100, met)


if __name__ == "__main__":
    unittest.main()
