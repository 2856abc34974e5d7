"""The stored answers of the job cases have every refusal of both operations, in
row 1 and, where a right side can bring it there, in later rows; every one that 18
goes before; every one that 22 and 23 come behind and go before; every way to have
23; accepted blocks of every sort; and whatever one operation tells of a job beside
what the other does."""

import itertools
import unittest
from collections import defaultdict, namedtuple
from functools import lru_cache

import windowfloor as wf
from case_files import stored
from job_bytes import CUTS, FLOORS, LEAST, field, lent
from job_cases import filled, job_of
from table_cases import checksum

BUFFERS = "images listed own"  # their checksums
FloorAnswer = namedtuple("FloorAnswer", "number n floor sum scale step length row total " + BUFFERS)
CutAnswer = namedtuple("CutAnswer", "number n scale step length row " + BUFFERS)


def judged(data):
    """Kind, capacity and steps of the list, or of row 1."""
    fields = wf.read_fields(data)[1]
    kind = wf.number_of(fields[0][1])
    capacity = wf.rows_of(fields)[0][0] if kind == wf.ROWS else wf.number_of(fields[1][1])
    return kind, capacity, wf.steps_of(fields)


def other_table(data, step):
    """Of the table that this step is: the kind, whether it stands behind another step, whether its capacity is the
    greater one, and what the table check says of it."""
    kind, capacity, steps = judged(data)
    places = [0] * wf.MOST_ENTRIES
    present = wf.judge(kind, capacity, [], (), None, steps[:step - 1], places, places)[4]
    entries = wf.numbers_of(steps[step - 1][1])
    return kind, step > 1, len(entries) - 1 > present, wf.table_check(entries, places, places)[0]


def left_alone(data, counts, blocks):
    """What a list's capacity, sizes and steps give with these counts and blocks."""
    kind, capacity, steps = judged(data)
    places = [0] * wf.MOST_ENTRIES
    return wf.judge(kind, capacity, wf.sizes_of(wf.read_fields(data)[1]), counts, blocks, steps, places, places)[0]


def without_counts(data):
    """Of a job with a count of 0: what is told without its counts. None of another job."""
    fields = wf.read_fields(data)[1]
    return left_alone(data, (), wf.blocks_of(fields)) if 0 in wf.counts_of(fields) else None


def sum_of_blocks(more):
    """In words, how much more it is than the number of sizes."""
    if abs(more) <= 1:
        return ("right", "one more", "one less")[more]
    if more % 65_536 == 0:
        return "right but for 65,536"
    return "less" if more < 0 else "more"


def wrong_blocks(data):
    """Of a job with blocks that 23 is for: no block, a block of 0, too many, and the sum. None of another job."""
    fields = wf.read_fields(data)[1]
    blocks = wf.blocks_of(fields)
    if blocks is None:
        return None
    why = 0 in blocks, len(blocks) > 64, sum_of_blocks(sum(blocks) - len(wf.sizes_of(fields)))
    return None if why == (False, False, "right") else (len(blocks) == 0, *why)


def out_of_place(data):
    """The kind byte of a job that 14 is told of, the tag before the one out of place, and that tag; None if the job
    ends too early."""
    fields, rest = [], data
    while rest and wf.tag_in_place(fields, rest[0]):
        end = 3 + wf.number_of(rest[1:3])
        fields.append((rest[0], rest[3:end]))
        rest = rest[end:]
    if not rest:
        return None
    return (wf.kind_of(fields), fields[-1][0], rest[0]) if fields else (None, None, rest[0])


def without_odd_byte(data):
    """A job with the last byte of its first tag 8 field left out, where that field has an odd length. None of another
    job."""
    before, rest = b"", data
    while len(rest) >= 3 and rest[0] != wf.BLOCKS:
        end = 3 + wf.number_of(rest[1:3])
        before, rest = before + rest[:end], rest[end:]
    end = 3 + wf.number_of(rest[1:3])
    if len(rest) < end or end % 2 == 1:
        return None
    return before + field(wf.BLOCKS, rest[3:end - 1]) + rest[end:]


STEP_REFUSALS = (
    wf.BAD_FAMILY, wf.BAD_PARAMETER, wf.SCALE_TOO_LARGE, wf.FIRST_ENTRY_NOT_0, wf.LAST_ENTRY_0, wf.ENTRY_TOO_LARGE,
    wf.NOT_DUAL_FEASIBLE, wf.OTHER_CAPACITY)
EARLY = wf.SHORT_BUFFER, wf.JOB_TOO_LONG, wf.PAST_THE_END, wf.BAD_TAG, wf.BAD_LENGTH, wf.BAD_KIND


def answer_of(case, numbers):
    return CutAnswer(*numbers) if case[0] == CUTS else FloorAnswer(*numbers)


@lru_cache
def untouched(places):
    """The checksums of images, list and own buffer of so many places in which nothing is written."""
    images, _, listed, own = map(checksum, filled(places))
    return images, listed, own


class Stored(unittest.TestCase):

    def setUp(self):
        pairs = zip(stored("job_cases", "stdin"), stored("job_cases", "stdout"), strict=True)
        self.cases = [(case, answer_of(case, numbers)) for case, numbers in pairs]
        self.of_floors = [(case, answer) for case, answer in self.cases if case[0] == FLOORS]


class Coverage(Stored):

    def setUp(self):
        super().setUp()
        self.rows = {operation: defaultdict(set) for operation in LEAST}  # the rows that a number comes with
        for case, answer in self.cases:
            self.rows[case[0]][answer.number].add(answer.row)

    def test_every_number(self):
        both = {wf.ACCEPTED, wf.BAD_CAPACITY, wf.BAD_SIZE, *EARLY, *STEP_REFUSALS}
        self.assertEqual(set(self.rows[FLOORS]), both | {wf.COUNT_0, wf.BAD_BLOCKS})
        self.assertEqual(set(self.rows[CUTS]), both | {wf.BAD_ROWS})

    def test_in_any_row(self):
        for number in (wf.BAD_CAPACITY, wf.BAD_SIZE, wf.BAD_PARAMETER, wf.SCALE_TOO_LARGE, wf.OTHER_CAPACITY):
            self.assertLessEqual({0, 1, 2, 3, 64}, self.rows[CUTS][number], number)

    def test_in_row_1_alone(self):
        """These do not depend on the right side."""
        for number in (wf.BAD_FAMILY, wf.FIRST_ENTRY_NOT_0, wf.LAST_ENTRY_0, wf.ENTRY_TOO_LARGE, wf.NOT_DUAL_FEASIBLE):
            self.assertEqual(self.rows[CUTS][number], {0, 1}, number)

    def test_in_no_row(self):
        for number in (wf.ACCEPTED, *EARLY, wf.BAD_ROWS):
            self.assertEqual(self.rows[CUTS][number], {0}, number)
        for number, rows in self.rows[FLOORS].items():
            self.assertEqual(rows, {0}, number)

    def test_what_a_refusal_leaves(self):
        """All but the number, the step, the length with 11 and the row is 0; images and the operation's own buffer
        stay, and the list but for 11."""
        for case, answer in self.cases:
            if answer.number != wf.ACCEPTED:
                named = dict(number=0, step=0, row=0, length=answer.length * (answer.number != wf.NOT_DUAL_FEASIBLE))
                images, listed, own = untouched(case[1:5])
                self.assertEqual(set(answer._replace(**named)[:-3]), {0}, case)
                self.assertEqual((answer.images, answer.own), (images, own), case)
                self.assertEqual(answer.listed == listed, answer.number != wf.NOT_DUAL_FEASIBLE, case)

    def test_what_18_goes_before(self):
        """Tables of smaller and of greater capacities with 8 to 11 wrong, in each kind, as a first and a later step."""
        met = set()
        for case, answer in self.cases:
            if answer.number == wf.OTHER_CAPACITY and answer.row <= 1:
                met.add(other_table(job_of(case), answer.step))
        wrong = wf.FIRST_ENTRY_NOT_0, wf.LAST_ENTRY_0, wf.ENTRY_TOO_LARGE, wf.NOT_DUAL_FEASIBLE
        kinds = wf.FLOOR, wf.CUT, wf.ROWS
        due = itertools.product(kinds, (False, True), (False, True), (wf.ACCEPTED,) + wrong)
        self.assertEqual(set(due) - met, set())

    def test_what_is_about_22(self):
        """With a count of 0: 1 and 17, which go before it, and 23 and each refusal of a step, which come behind."""
        met = defaultdict(set)
        for case, answer in self.of_floors:
            alone = without_counts(job_of(case))
            if alone is not None and answer.number != wf.SHORT_BUFFER:
                met[answer.number].add((alone, answer.step))
        due = {number: {(number, 0)} for number in (wf.BAD_CAPACITY, wf.BAD_SIZE)}
        due[wf.COUNT_0] = {(number, 0) for number in (wf.ACCEPTED, wf.BAD_BLOCKS) + STEP_REFUSALS}
        self.assertEqual(met, due)


class BlockCoverage(Stored):

    def test_what_is_about_23(self):
        """With wrong blocks: 1, 17 and 22, which go before, and each refusal of a step, which comes behind."""
        met = defaultdict(set)
        for case, answer in self.of_floors:
            data = job_of(case)
            if wrong_blocks(data) is not None and answer.number not in (wf.SHORT_BUFFER, wf.JOB_TOO_LONG):
                alone = left_alone(data, wf.counts_of(wf.read_fields(data)[1]), None)
                met[answer.number].add((alone, answer.step))
        due = {number: {(number, 0)} for number in (wf.BAD_CAPACITY, wf.BAD_SIZE, wf.COUNT_0)}
        due[wf.BAD_BLOCKS] = {(number, 0) for number in (wf.ACCEPTED,) + STEP_REFUSALS}
        self.assertEqual(met, due)

    def test_what_is_behind_15(self):
        """With blocks of an odd length: what is told of the same job with an even one."""
        met = set()
        for case, answer in self.of_floors:
            even = without_odd_byte(job_of(case)) if answer.number == wf.BAD_LENGTH else None
            if even is not None:
                met.add(wf.floor(even, *lent(wf.FLOOR_PLACES))[0])
        self.assertLessEqual({wf.ACCEPTED, wf.PAST_THE_END, wf.BAD_TAG, wf.BAD_CAPACITY, wf.BAD_SIZE, wf.COUNT_0,
                              wf.BAD_BLOCKS, wf.BAD_FAMILY}, met)

    def test_ways_to_have_23(self):
        """Each alone: no block, a block of 0, too many, and every wrong sum; with counts and without."""
        met = set()
        for case, answer in self.of_floors:
            if answer.number == wf.BAD_BLOCKS:
                data = job_of(case)
                met.add((wf.COUNTS in dict(wf.read_fields(data)[1]), wrong_blocks(data)))
        sums = "one less", "one more", "right but for 65,536", "less", "more"
        due = [(False, True, False, "right"), (False, False, True, "right"), (True, False, False, "less")]
        due += [(False, False, False, wrong) for wrong in sums]
        self.assertEqual(set(itertools.product((False, True), due)) - met, set())

    def test_tags_out_of_place(self):
        """Tag 8 before the list part ends and behind it, in every kind; and tag 7 behind it."""
        met = {out_of_place(job_of(case)) for case, answer in self.cases if answer.number == wf.BAD_TAG}
        due = {(None, None, wf.BLOCKS), (wf.FLOOR, wf.BLOCKS, wf.COUNTS), (wf.FLOOR, wf.BLOCKS, wf.BLOCKS)}
        due |= {(kind, tag, wf.BLOCKS) for kind in (0, 1, 2, 4, 255) for tag in (wf.KIND, wf.CAPACITY)}
        due |= {(kind, wf.SIZES, wf.BLOCKS) for kind in (0, 2, 4, 255)}
        due |= {(wf.FLOOR, step, wf.BLOCKS) for step in wf.STEPS}
        due |= {(wf.ROWS, tag, wf.BLOCKS) for tag in (wf.KIND, wf.ROW, wf.FAMILY_STEP)}
        self.assertEqual(due - met, set())


def block_sums(data):
    """Of an accepted job: its E, and the sum of each block, which is its floor where E is 1."""
    fields = wf.read_fields(data)[1]
    images, *others = lent(wf.FLOOR_PLACES)
    _, _, _, _, scale, *_ = wf.floor(data, images, *others)
    return scale, wf.block_floors(images, wf.counts_of(fields), wf.blocks_of(fields), 1)


class AcceptedBlocks(Stored):

    def setUp(self):
        super().setUp()
        self.accepted = []  # each job with blocks, its fields and its answer
        for case, answer in self.of_floors:
            data = job_of(case)
            if answer.number == wf.ACCEPTED and wf.blocks_of(wf.read_fields(data)[1]) is not None:
                self.accepted.append((data, wf.read_fields(data)[1], answer))

    def test_sorts(self):
        """With counts and without: as few and as many blocks, sizes and steps as may be, and families and tables."""
        met = defaultdict(set)
        for _, fields, answer in self.accepted:
            counted, steps = wf.COUNTS in dict(fields), [tag for tag, _ in wf.steps_of(fields)]
            met[counted, "blocks"].add(len(wf.blocks_of(fields)))
            met[counted, "sizes"].add(answer.n)
            met[counted, "steps"].add(len(steps))
            met[counted, "tags"].add(tuple(sorted(set(steps))))
        for counted in (False, True):
            self.assertLessEqual({0, 1, 2, 3, 63, 64}, met[counted, "blocks"])
            self.assertGreater(len(met[counted, "blocks"]), 20)
            self.assertLessEqual({0, 1, 2, 3, 64, 2048}, met[counted, "sizes"])
            self.assertEqual(set(range(9)), met[counted, "steps"])
            self.assertEqual({(), (4,), (5,), (4, 5)}, met[counted, "tags"])

    def test_totals(self):
        """The floor itself, and often more than it: by one and by many."""
        overs = [answer.total - answer.floor for _, _, answer in self.accepted]
        self.assertLessEqual({0, 1, 2, 3}, set(overs))
        self.assertGreater(max(overs), 20)
        self.assertGreater(sum(over > 0 for over in overs), 100)

    def test_sums_of_blocks(self):
        """Multiples of E and next to it, also of more than one E, with steps and without; and none at all."""
        met = set()
        for data, fields, _ in self.accepted:
            if len(data) < 2000:
                scale, sums = block_sums(data)
                met |= {(bool(wf.steps_of(fields)), (part + 1) % scale - 1, part > scale) for part in sums if scale > 2}
                met |= {(bool(wf.steps_of(fields)), "none") for part in sums if part == 0}
        due = set(itertools.product((False, True), (-1, 0, 1), (False, True))) | {(True, "none")}
        self.assertEqual(due - met, set())


def place_too_short(operation, places):
    """The buffer that alone is too short, by one place. None if others are, or by more."""
    short = [max(0, least - given) for given, least in zip(places, LEAST[operation])]
    return short.index(1) if sum(short) == 1 else None


class OwnBuffers(Stored):
    """Request 9: each operation asks for its own last buffer, and writes it."""

    def test_too_short(self):
        """Each by one place alone, in every kind, also where the job is too long; with as many as needed never 7."""
        met = set()
        for case, answer in self.cases:
            operation, *places = case[:5]
            if all(given >= least for given, least in zip(places, LEAST[operation])):
                self.assertNotEqual(answer.number, wf.SHORT_BUFFER, case)
            else:
                self.assertIn(answer.number, (wf.SHORT_BUFFER, wf.JOB_TOO_LONG), case)
                met.add((operation, place_too_short(operation, places), job_of(case)[3:4], answer.number))
        own = itertools.product(LEAST, (3,), (b"", b"\1", b"\2", b"\3", b"\4"), (wf.SHORT_BUFFER,))
        too_long = itertools.product(LEAST, (3,), (b"\1", b"\2", b"\3"), (wf.JOB_TOO_LONG,))
        others = itertools.product(LEAST, range(3), (b"\1", b"\2", b"\3"), (wf.SHORT_BUFFER,))
        self.assertEqual(set(itertools.chain(own, too_long, others)) - met, set())

    def test_longer(self):
        """65 places leave every sort of answer as it is."""
        met = {(case[0], answer.number) for case, answer in self.cases if case[4] == 65}
        sorts = wf.ACCEPTED, wf.PAST_THE_END, wf.BAD_TAG, wf.BAD_KIND, wf.NOT_DUAL_FEASIBLE
        due = set(itertools.product(LEAST, sorts)) | {(FLOORS, wf.BAD_BLOCKS), (CUTS, wf.BAD_ROWS)}
        self.assertEqual(due - met, set())

    def test_what_is_written(self):
        """Block floors where there are blocks, and the scales of rows."""
        met = set()
        for case, answer in self.cases:
            if answer.number == wf.ACCEPTED:
                fields = wf.read_fields(job_of(case))[1]
                written = wf.has_rows(fields) or bool(wf.blocks_of(fields))
                self.assertEqual(answer.own != untouched(case[1:5])[2], written, case)
                met.add((wf.kind_of(fields), written))
        self.assertEqual(met, {(wf.FLOOR, False), (wf.FLOOR, True), (wf.CUT, False), (wf.ROWS, True)})


class BothOperations(Stored):
    """Request 9: what both say of the same job, with as many places."""

    def setUp(self):
        super().setUp()
        by_cut = {case[1:]: answer.number for case, answer in self.cases if case[0] == CUTS}
        self.told = [(job_of(case), floor.number, by_cut[case[1:]])
                     for case, floor in self.of_floors if case[1:] in by_cut]

    def test_alike(self):
        """12, 7, 13, 14 and 15, whatever the fourth byte; the last three also in jobs that end before it."""
        alike = set(EARLY) - {wf.BAD_KIND}
        met = set()
        for data, floor, cut in self.told:
            if floor in alike or cut in alike:
                self.assertEqual(floor, cut, data[:40])
                met.add((floor, data[3:4]))
        due = set(itertools.product(alike, (b"\0", b"\1", b"\2", b"\3", b"\4", b"\xff")))
        due |= {(wf.PAST_THE_END, b""), (wf.BAD_TAG, b""), (wf.BAD_LENGTH, b"")}
        self.assertEqual(due - met, set())

    def test_16(self):
        """Of the other's kinds, whatever the right operation says; and by both of all other kinds."""
        met = defaultdict(set)
        for data, *numbers in self.told:
            if not set(numbers) & (set(EARLY) - {wf.BAD_KIND}):
                met[wf.kind_of(wf.read_fields(data)[1])].add(tuple(numbers))
        every = {wf.ACCEPTED, wf.BAD_CAPACITY, wf.BAD_SIZE, *STEP_REFUSALS}
        self.assertEqual(met.pop(wf.FLOOR), {(number, 16) for number in every | {wf.COUNT_0, wf.BAD_BLOCKS}})
        self.assertEqual(met.pop(wf.CUT), {(16, number) for number in every})
        self.assertEqual(met.pop(wf.ROWS), {(16, number) for number in every | {wf.BAD_ROWS}})
        self.assertLessEqual({0, 4, 128, 255}, set(met))
        self.assertEqual(set.union(*met.values()), {(16, 16)})

    def test_21(self):
        """No row, too many rows and too many coefficients, with and without steps: only the cut operation tells it."""
        met = set()
        for data, floor, cut in self.told:
            self.assertNotEqual(floor, wf.BAD_ROWS, data[:40])
            if cut == wf.BAD_ROWS:
                self.assertEqual(floor, wf.BAD_KIND, data[:40])
                fields = wf.read_fields(data)[1]
                met.add((len(wf.rows_of(fields)), len(wf.steps_of(fields)) > 0))
        self.assertLessEqual(set(itertools.product((0, 1, 65), (False, True))), met)


if __name__ == "__main__":
    unittest.main()
