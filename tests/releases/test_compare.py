"""Tests of the comparison: that it passes on right answers, and fails on each
thing that it is there to find."""

import contextlib
import io
import itertools
import random
import sys
import tempfile
import unittest
from pathlib import Path
from unittest import mock

sys.dont_write_bytecode = True
import by_reference
import store
import today
from by_reference import wf
from compare import compare, rules_for
from exceptions import BEFORE, EXCEPTIONS, Rule
from inputs_base import IDENTITY, family, field, halves, head, image, job, row, tabled
from inputs_request_1 import KIND_3, model
from jobs import called, refused_by_the_other
from stored import FOLDER, LIST, Case, pack, pack_bytes, pack_numbers, read_list, unpack, unpack_bytes, unpack_numbers

LIMIT = wf.LIMIT
IMAGE = "capacity=10 family=1 p=3 q=0 x=8 -> number=0 image=10 scale=10"
TABLE = "entries=0,1,1,2 working_places=6 -> number=11 length=3 working=0:0,1,2,3 list=0:1,1,1"
SHORTEST = "entries=0,1,2,3,4,4 list_places=7 -> number=0 length=2 right=1 list=same"
SHORT_SECOND = "entries=0,1 second_places=1 -> number=7 length=0 right=0 list=same working=same second=same"
JOB = ("job=01000101.0200040000000a.03000400000006 -> "
       "number=0 n=1 floor=1 sum=6 scale=10 step=0 length=0 images=0:6 list=same")
ROWS = ("job=01000103.06000c0000000a0000000700000003.06000400000009 -> "
        "number=0 n=2 floor=0 sum=0 scale=0 step=0 length=0 row=0 images=0:7,3 list=same scales=0:10,9")
NO_ROWS = ("job=01000103 -> number=21 n=0 floor=0 sum=0 scale=0 step=0 length=0 row=0 total=0 images=same list=same "
           "scales=same blocks=same")
KIND_2 = ("job=01000102.0200040000000a.03000400000006 -> "
          "number=0 n=1 floor=0 sum=0 scale=10 step=0 length=0 images=0:6 list=same")
KIND_4 = ("job=01000104.0200040000000a.030000 -> "
          "number=16 n=0 floor=0 sum=0 scale=0 step=0 length=0 images=same list=same")
OTHER_TABLE = ("job=01000101.0200040000000a.030000.05001000000000000000000000000200000001 -> "
               "number=11 n=0 floor=0 sum=0 scale=0 step=1 length=2 images=same list=0:1,2")
COUNTED = ("job=01000101.0200040000000a.03000400000006.070002012c -> "
           "number=14 n=0 floor=0 sum=0 scale=0 step=0 length=0 row=0 images=same list=same scales=same")
BLOCKS = ("job=01000101.0200040000000a.03000c000000070000000600000003.08000400020001 -> "
          "number=0 n=3 floor=2 sum=16 scale=10 step=0 length=0 row=0 total=3 images=0:7,6,3 list=same scales=same "
          "blocks=0:2,1")
OUT_OF_PLACE = dict(  # answers that request 6 changes
    job=BLOCKS.split(" -> ")[0] + " -> "
        "number=14 n=0 floor=0 sum=0 scale=0 step=0 length=0 row=0 images=same list=same scales=same",
    text=BLOCKS.split(" -> ")[0] + " -> status=0 errors=0 text='refused 14 0\\n'")
HALVES = dict(  # answers that request 5 changes
    image="capacity=5 family=1 p=3 q=0 x=3 -> number=3 image=0 scale=0",
    job="job=01000101.02000400000005.03000400000003.040009010000000300000000 -> "
        "number=3 n=0 floor=0 sum=0 scale=0 step=1 length=0 row=0 images=same list=same scales=same",
    text="job=01000101.02000400000005.03000400000003.040009010000000300000000 -> "
         "status=0 errors=0 text='refused 3 1\\n'",
    sweep="capacity=5 family=1 sizes=3*2 low=3 high=3 -> number=20 floor=0 p=0")
OLD_LIMIT = dict(  # answers that request 7 changes
    image="capacity=1000000001 family=1 p=0 q=0 x=7 -> number=1 image=0 scale=0",
    table="entries=0,1000000001 -> number=10 length=0 working=same list=same",
    job="job=01000101.02000477359400.03000477359400 -> "
        "number=1 n=0 floor=0 sum=0 scale=0 step=0 length=0 row=0 total=0 images=same list=same scales=same "
        "blocks=same",
    text="job=01000101.02000477359400.03000477359400 -> status=0 errors=0 text='refused 1 0\\n'",
    sweep="capacity=10 family=2 sizes=6*3 low=100000001 high=100000001 -> number=20 floor=0 p=0")
SWEEP = "capacity=10 family=1 sizes=6*3 low=0 high=5 -> number=0 floor=3 p=5"
EXACT = "capacity=10 sizes=7,3,5 counts=1,1,2 -> number=0 fewest=2 fits=1 windows=same"
FLOOR = ("job=01000101.0200040000000a.03000c000000070000000600000003.08000400020001 blocks_places=70 -> "
         "number=0 n=3 floor=2 sum=16 scale=10 step=0 length=0 row=0 total=3 images=0:7,6,3 list=same blocks=0:2,1")
CUT = ("job=01000103.06000c0000000a0000000700000003.06000400000009 -> "
       "number=0 n=2 scale=0 step=0 length=0 row=0 images=0:7,3 list=same scales=0:10,9")
TEXT = "job= -> status=0 errors=0 text='refused 14 0\\n'"
CASES = dict(image=IMAGE, table=TABLE, shortest=SHORTEST, job=JOB, floor=FLOOR, cut=CUT, sweep=SWEEP, exact=EXACT,
             text=TEXT)
BAD_TABLES = tabled(1, 0, 1), tabled(0, 1, 0), tabled(0, 0, LIMIT + 1), tabled(0, 1, 1)  # 8 to 11, of capacity 2
OF_FLOOR = job(1, 10, (3,)), job(4, 10, (3,)), job(1, 10, (11,)), b"\3\3\3", b"", b"\2\0\1\1"
OF_CUT = job(2, 10, (3,)), model([(10, 3)]), KIND_3, job(2, 0, ()), b"\xff\0\1\2", b"\2\0\1\3"

ANSWERERS = (today, "answers", "today"), (today, "by_c_reference", "C"), (by_reference, "answers", "Python")


def answering(module, name, operation, change):
    """Its answers of an operation have other words."""
    answers = getattr(module, name)

    def changed(asked, inputs):
        return [answer | (change if asked == operation else {}) for answer in answers(asked, inputs)]
    return mock.patch.object(module, name, changed)


def always(given):
    return True


def passes(cases, exceptions=(), release="base", listed=1):
    """Whether the comparison passes on one stored case of each operation, and what it prints."""
    with tempfile.TemporaryDirectory() as name, contextlib.redirect_stdout(io.StringIO()) as out:
        folder = Path(name)
        (folder / release).mkdir()
        (folder / LIST).write_text("".join(f"{release} {operation} {listed}\n" for operation in cases))
        for operation, line in cases.items():
            if line is not None:
                (folder / release / f"{operation}.txt").write_text(line and line + "\n")
        return compare(folder, list(exceptions)), out.getvalue()


class Comparison(unittest.TestCase):
    def assert_fails(self, why, *words, **more):
        passed, printed = passes(*words, **more)
        self.assertFalse(passed, printed)
        self.assertIn(why, printed)

    def assert_passes(self, why, *words, **more):
        passed, printed = passes(*words, **more)
        self.assertTrue(passed, printed)
        self.assertIn(why, printed)

    def assert_finds(self, operation, line, old, new, field):
        """The comparison fails if a stored answer has other words."""
        given, answer = line.split(" -> ")
        changed = given + " -> " + answer.replace(old, new)
        self.assertNotEqual(changed, line)
        self.assert_fails(f"base/{operation}.txt, line 1: {field}", {operation: changed})

    def test_right_answers(self):
        self.assert_passes("base: 9 cases compared", CASES)
        self.assert_passes("base: 1 cases compared", dict(job=ROWS))
        self.assert_passes("base: 1 cases compared", dict(job=BLOCKS))

    def test_changed_answers(self):
        for operation, old, new, field in (
                ("image", "scale=10", "scale=11", "scale"), ("image", "number=0", "number=3", "number"),
                ("image", "scale=10", "scale=10 more=0", "more"), ("sweep", "p=5", "p=4", "p"),
                ("table", "length=3", "length=2", "length"), ("table", "0:0,1,2,3", "0:0,1,2,4", "working"),
                ("table", "0:0,1,2,3", "0:0,1,2,3,5", "working"), ("table", "0:1,1,1", "0:1,1", "list"),
                ("table", "0:1,1,1", "same", "list"), ("shortest", "length=2", "length=3", "length"),
                ("shortest", "number=0", "number=25", "number"), ("shortest", "right=1", "right=0", "right"),
                ("shortest", "list=same", "list=6:1", "list"), ("shortest", "right=1", "right=1 second=same", "second"),
                ("job", "sum=6", "sum=7", "sum"),
                ("job", "images=0:6", "images=same", "images"), ("job", "list=same", "list=2046:1", "list"),
                ("floor", "total=3", "total=2", "total"), ("floor", "row=0", "row=1", "row"),
                ("floor", "blocks=0:2,1", "blocks=0:2,1;69:1", "blocks"), ("floor", "0:7,6,3", "same", "images"),
                ("cut", "scale=0", "scale=10", "scale"), ("cut", "scales=0:10,9", "scales=0:10", "scales"),
                ("cut", "list=same", "list=0:1", "list"), ("cut", "number=0", "number=0 sum=0", "sum"),
                ("exact", "fewest=2", "fewest=3", "fewest"), ("exact", "number=0", "number=24", "number"),
                ("exact", "fits=1", "fits=0", "fits"), ("exact", "windows=same", "windows=4:1", "windows"),
                ("text", "14 0\\n", "14 0", "text"), ("text", "status=0", "status=1", "status"),
                ("text", "errors=0", "errors=2", "errors")):
            self.assert_finds(operation, CASES[operation], old, new, field)

    def test_changed_answers_of_rows(self):
        for old, new, field in (
                ("row=0", "row=1", "row"), ("scale=0", "scale=9", "scale"), ("n=2", "n=1", "n"),
                ("images=0:7,3", "images=0:7;2:3", "images"), ("scales=0:10,9", "scales=0:9,10", "scales"),
                ("scales=0:10,9", "scales=0:10", "scales"), ("scales=0:10,9", "scales=0:10,9;63:1", "scales")):
            self.assert_finds("job", ROWS, old, new, field)

    def test_changed_answers_of_blocks(self):
        for old, new, field in (
                ("total=3", "total=2", "total"), ("floor=2", "floor=3", "floor"),
                ("blocks=0:2,1", "blocks=0:1,2", "blocks"), ("blocks=0:2,1", "blocks=0:2", "blocks"),
                ("blocks=0:2,1", "blocks=0:2,1;63:1", "blocks"), ("blocks=0:2,1", "blocks=same", "blocks")):
            self.assert_finds("job", BLOCKS, old, new, field)

    def test_fields_that_requests_added(self):
        """Where the stored answer has none, they are as in a job without rows and without blocks."""
        self.assert_finds("job", JOB, "floor=1", "floor=2", "floor, total")
        self.assert_finds("job", BLOCKS, "total=3 ", "", "total")
        self.assert_finds("job", BLOCKS, " blocks=0:2,1", "", "blocks")
        self.assert_finds("job", ROWS, " scales=0:10,9", "", "scales")
        row_2 = ("job=01000103.0600040000000a.06000400000000 -> "
                 "number=1 n=0 floor=0 sum=0 scale=0 step=0 length=0 row=2 images=same list=same scales=same")
        self.assert_passes("1 cases compared", dict(job=row_2))
        self.assert_finds("job", row_2, " row=2", "", "row")

    def test_places_of_scales_and_blocks(self):
        """A short one is told of the operation that has it, and of the other one until request 9."""
        rules = [rule for rule in EXCEPTIONS if rule.request == 9]
        short = "number=7 n=0 floor=0 sum=0 scale=0 step=0 length=0 row=0 images=same list=same scales=same"
        for line, own, other in ((JOB, "blocks", "scales"), (ROWS, "scales", "blocks"), (BLOCKS, "blocks", "scales")):
            given, answer = line.split(" -> ")
            for places, due in ((0, short), (63, short), (64, answer), (70, answer)):
                self.assert_passes("1 cases compared", dict(job=f"{given} {own}_places={places} -> {due}"))
            self.assert_fails("line 1: number", dict(job=f"{given} {own}_places=63 -> {answer}"))
            for places in (0, 63):
                stored = dict(job=f"{given} {other}_places={places} -> {short}")
                self.assert_passes("request 9: 1 cases", stored, rules, release="request-8")
                self.assert_fails("line 1: number", stored)
            for places in (64, 70):
                self.assert_passes("1 cases compared", dict(job=f"{given} {other}_places={places} -> {answer}"))

    def test_what_a_request_took_away(self):
        """Stored otherwise than it must have been, it is found, in a job that a rule is about too."""
        for line, changes in ((JOB, ("scales=63:1",)), (BLOCKS, ("scales=0:10",)), (KIND_4, ("scales=0:10",)),
                              (NO_ROWS, ("floor=1", "total=1")),
                              (ROWS, ("floor=1", "sum=10", "total=1", "blocks=0:1"))):
            for change in changes:
                name = change.split("=")[0]
                words = [word for word in line.split() if not word.startswith(name + "=")]
                stored = " ".join(words + [change])
                for rules in ((), (Rule(9, ("job",), always, "all", now=by_reference.answer),)):
                    self.assert_fails(f"  stored  {change}", dict(job=stored), rules)

    def test_which_operation_is_called(self):
        """By the fourth byte, whatever stands before it."""
        for data, operation in (("", "floor"), ("020202", "floor"), ("030303", "floor"), ("01000101", "floor"),
                                ("01000102", "cut"), ("01000103", "cut"), ("01000104", "floor"), ("01000100", "floor"),
                                ("ffffff02", "cut"), ("ffffff03", "cut"), ("0200040200000a", "cut"),
                                ("0100020102", "floor"), ("02020201", "floor")):
            self.assertEqual(called("job", dict(job=bytes.fromhex(data))), operation, data)
        self.assertEqual(called("text", dict(job=b"\1\0\1\3")), "text")

    def assert_asked(self, operation, line, changes, stored="job"):
        """The library and both references are asked of this operation, and every change of an answer is found."""
        self.assert_passes("1 cases compared", {stored: line})
        for change, (module, answers, who) in [*itertools.product(changes, ANSWERERS[:1]),
                                               *itertools.product(changes[:1], ANSWERERS[1:])]:
            with answering(module, answers, operation, change):
                passed, printed = passes({stored: line})
            self.assertFalse(passed)
            self.assertIn(f"base/{stored}.txt, line 1: {', '.join(change)}\n", printed)
            self.assertIn(f"  {who}  {pack(change, True)}\n", printed)

    def test_the_other_operation(self):
        """It refuses the job, and writes nothing."""
        changes = [dict(number=0), dict(number=1), dict(number=14), dict(n=1), dict(scale=10), dict(step=1),
                   dict(length=1), dict(row=1), dict(images={0: 6}), dict(list={2046: 0}), dict(number=0, n=1)]
        for line in (JOB, BLOCKS, KIND_4):
            self.assert_asked("cut", line, [dict(number=21), dict(scales={0: 10})] + changes)
        for line in (ROWS, NO_ROWS, KIND_2):
            self.assert_asked("floor", line, [dict(number=21), dict(floor=1), dict(sum=6), dict(total=1),
                                              dict(blocks={0: 1})] + changes)

    def test_the_number_of_the_other_operation(self):
        """What a job's own operation is due to say, and what the other one has to say by the request's words."""
        short = dict(images_places=2047), dict(working_places=0), dict(list_places=2046)
        for own, its, others in (("floor", "blocks", "scales"), ("cut", "scales", "blocks")):
            its, others = its + "_places", others + "_places"
            fine, broken = (job(kind, 10, (3,)) for kind in ((1, 4) if own == "floor" else (2, 2)))
            broken += b"\4"
            for data, places, number, due in (
                    [(fine, {}, number, 16) for number in (0, 1, 2, 3, 4, 8, 9, 10, 11, 16, 17, 18, 21, 22, 23)]
                    + [(broken, {}, number, number) for number in (13, 14, 15)]
                    + [(bytes(65_536), places, 12, 12) for places in ({}, {its: 0}, {others: 0})]
                    + [(data, places, 7, 7) for data in (fine, broken) for places in short]
                    + [(data, {others: 63}, number, 7) for data, number in ((fine, 0), (fine, 16), (broken, 13))]
                    + [(data, {its: 63, others: 63}, 7, 7) for data in (fine, broken)]
                    + [(fine, {its: 63}, 7, 16), (broken, {its: 63}, 7, 13), (fine, {its: 64, others: 64}, 0, 16)]):
                other, answer = refused_by_the_other(own, dict(job=data, **places), number)
                self.assertEqual(list(answer), list(by_reference.answer(other, dict(job=data, **places))))
                self.assertEqual({name: value for name, value in answer.items() if value}, dict(number=due))

    def test_jobs_of_the_newest_operations(self):
        """Stored under their names they are asked of no other one."""
        self.assert_asked("floor", FLOOR, [dict(number=16), dict(total=2), dict(blocks={0: 2})], "floor")
        self.assert_asked("cut", CUT, [dict(number=16), dict(scale=10), dict(scales={})], "cut")
        for module, answers, _ in ANSWERERS:
            with answering(module, answers, "cut", dict(number=0)):
                self.assert_passes("asked of the other operation too: 0 jobs", dict(floor=FLOOR))
        kind_2 = CUT.split(" -> ")[0] + " -> " + FLOOR.split(" -> ")[1]
        self.assert_fails("line 1: number, n, floor, sum, scale, total, images, blocks", dict(floor=kind_2))

    def assert_sweeps(self, answer, *lists):
        """The library, and the independent implementation for rules, give this answer for each list."""
        for words in lists:
            given = f"capacity=10 family=1 low=0 high=5 {words}"
            self.assert_passes("1 cases compared", dict(sweep=f"{given} -> {answer}"))
            self.assertEqual(by_reference.answer("sweep", unpack(given, False)), unpack(answer, True))

    def test_sweeps_without_counts(self):
        """They are called with ones, as many as sizes."""
        self.assert_sweeps("number=0 floor=3 p=5", "sizes=6*3", "sizes=6*3 counts=1*3")
        self.assert_sweeps("number=0 floor=2048 p=5", "sizes=6*2048", "sizes=6*2048 counts=1*2048")
        self.assert_sweeps("number=0 floor=0 p=0", "sizes=", "sizes= counts=")
        self.assert_sweeps("number=6 floor=0 p=0", "sizes=6*2049", "sizes=6*2049 counts=1*2049")

    def test_sweeps_with_counts(self):
        self.assert_sweeps("number=0 floor=302 p=5", "sizes=6*3 counts=1,300,1", "sizes=6 counts=302")
        self.assert_sweeps("number=22 floor=0 p=0", "sizes=6*3 counts=1,0,1", "counts=0 sizes=6")
        self.assert_sweeps("number=6 floor=0 p=0", "sizes=6*3 counts=", "sizes=6*3 counts=1*2", "sizes= counts=1")

    def assert_exact(self, answer, *lists):
        """The library and both references give this answer for each list."""
        for words in lists:
            self.assert_passes("1 cases compared", dict(exact=f"capacity=10 {words} -> {answer}"))

    def test_exact(self):
        """Without counts it is called with ones; of the buffer the places behind the copies are compared."""
        self.assert_exact("number=0 fewest=3 fits=1 windows=same", "sizes=6*3", "sizes=6*3 counts=1*3",
                          "counts=3 sizes=6", "sizes=4*5", "sizes=6*3 windows_places=10", "sizes=6*3 windows_places=40")
        self.assert_exact("number=0 fewest=0 fits=1 windows=same", "sizes=", "sizes= counts=")
        self.assert_exact("number=0 fewest=10 fits=1 windows=same", "sizes=6*10", "sizes=6 counts=10")
        self.assert_exact("number=24 fewest=0 fits=0 windows=same", "sizes=6*11", "sizes=6,6 counts=65535,5")
        self.assert_exact("number=7 fewest=0 fits=0 windows=same", "sizes= windows_places=9",
                          "sizes=6 windows_places=0")
        self.assert_exact("number=6 fewest=0 fits=0 windows=same", "sizes=6*2049", "sizes=6 counts=1,1")

    def assert_shortest(self, answer, *tables):
        """The library and both references give this answer for each table."""
        for words in tables:
            self.assert_passes("1 cases compared", dict(shortest=f"{words} -> {answer}"))

    def test_shortest(self):
        """Accepted, or with 25, only the places behind the list are compared; elsewhere every buffer."""
        self.assert_shortest("number=0 length=1 right=1 list=same", "entries=0,2,1", "entries=0,0,2,1",
                             "entries=0,2,1 working_places=9 second_places=8 list_places=7", "entries=0,0,9*2000,8")
        self.assert_shortest("number=0 length=47 right=1 list=same", "entries=0,1,0*45,46", "entries=0,5,0*45,234")
        self.assert_shortest("number=25 length=0 right=0 list=same", "entries=0,7", "entries=0,1,2",
                             "entries=0,1,1,1,1,5 list_places=9", "entries=0+1*2048")
        for number, *tables in ((6, "entries=", "entries=0", "entries=0*2049"),
                                (7, "entries=0,1 working_places=1", "entries=0,1 second_places=1",
                                 "entries=0,1,1 list_places=1", "entries=5,0 second_places=0"),
                                (8, "entries=5,0"), (9, "entries=0,4000000001,0"), (10, "entries=0,4000000001,1")):
            self.assert_shortest(f"number={number} length=0 right=0 list=same working=same second=same", *tables)

    def test_which_shortest_list_is_free(self):
        """But it overshoots, and it is no longer than another one."""
        for found, names in (([1, 4], ""), ([4, 1], ""), ([2, 3], ""), ([1, 3], "right"), ([3, 3], "right"),
                             ([5], "length, right"), ([1, 2, 2], "length"), ([1, 1, 1, 1, 1], "length")):
            with mock.patch.object(wf, "shortest_list", lambda entries: found):
                passed, printed = passes(dict(shortest=SHORTEST))
            self.assertEqual(passed, names == "", printed)
            self.assertIn(f"line 1: {names}\n" if names else "all as in", printed)

    def test_shortest_lists_are_asked_of_the_references(self):
        self.assert_asked("shortest", SHORTEST, [dict(length=3), dict(right=0), dict(number=25), dict(list={6: 1})],
                          "shortest")
        self.assert_asked("shortest", SHORT_SECOND, [dict(second={0: 5}), dict(working={1: 5}), dict(list={0: 5}),
                                                     dict(number=25)], "shortest")

    def test_files(self):
        for operation, line in CASES.items():
            self.assert_fails("has 0 cases, and 1 are listed", {operation: None})
            self.assert_fails("has 0 cases, and 1 are listed", {operation: ""})
            self.assert_fails("has 1 cases, and 2 are listed", {operation: line}, listed=2)
        self.assert_fails("has 0 cases, and 0 are listed", {"image": ""}, listed=0)
        self.assert_fails("no release is listed", {})

    def test_a_rule_leaves_its_cases_out(self):
        wrong = IMAGE.replace("image=10", "image=8")
        rule = Rule(2, ("image",), lambda given: given["p"] == 3, "thresholds of 3")
        self.assert_passes("request 2: 1 cases: thresholds of 3", dict(CASES, image=wrong), [rule])
        self.assert_fails("line 1: image", dict(image=wrong))
        jobs = Rule(2, ("job",), always, "all jobs")
        self.assert_passes("base: 0 cases compared", dict(job=JOB.replace("floor=1", "floor=2")), [jobs])

    def test_a_rule_about_no_case(self):
        of_four = Rule(2, ("image",), lambda given: given["p"] == 4, "thresholds of 4")
        for rule in (of_four, Rule(2, ("other",), always, "none"), Rule(2, (), always, "none")):
            self.assert_fails("a rule of request 2 is about no stored case", CASES, [rule])

    def test_a_rule_of_some_fields(self):
        rule = Rule(9, ("job",), always, "sums", fields=("sum",))
        changed = JOB.replace("sum=6", "sum=0")
        self.assert_passes("request 9: 1 cases", dict(job=changed), [rule])
        self.assert_fails("line 1: floor", dict(job=changed.replace("floor=1", "floor=0")), [rule])

    def test_what_an_answer_is_instead(self):
        wrong = dict(image=IMAGE.replace("image=10", "image=8"))
        for now, right in ((10, True), (9, False)):
            rule = Rule(2, ("image",), always, "all", now=lambda operation, given: dict(number=0, image=now))
            self.assertEqual(passes(wrong, [rule])[0], right)

    def test_what_the_c_reference_says(self):
        """It is asked where a rule says what the answer is instead and for the newest operations, and nowhere else."""
        rule = Rule(2, ("image",), always, "all", now=by_reference.answer)
        wrong = dict(number=0, image=9, scale=10)
        with mock.patch.object(today, "by_c_reference", lambda operation, inputs: [wrong for _ in inputs]):
            self.assert_fails("  C  image=9", dict(image=IMAGE), [rule])
            self.assert_passes("1 cases compared", dict(image=IMAGE))
        self.assert_passes("request 2: 1 cases", dict(image=IMAGE), [rule])
        wrong = dict(number=0, fewest=3, fits=1, windows={})
        with mock.patch.object(today, "by_c_reference", lambda operation, inputs: [wrong for _ in inputs]):
            self.assert_fails("  C  fewest=3", dict(exact=EXACT))

    def test_what_the_reference_in_python_says(self):
        """It is asked for the newest operations."""
        with mock.patch.object(wf, "best_windows", lambda capacity, copies: [1, 2, 12]):
            self.assert_fails("  Python  fewest=3", dict(exact=EXACT))
        self.assert_passes("1 cases compared", dict(exact=EXACT))

    def test_a_rule_is_about_earlier_releases(self):
        rule = Rule(2, ("image",), always, "all images")
        changed = dict(image=IMAGE.replace("image=10", "image=8"))
        self.assert_passes("request 2: 1 cases", changed, [rule], release="request-1")
        self.assert_fails("line 1: image", changed, [rule], release="request-2")

    def assert_changed(self, request, operation, line, fields):
        """A request changes these fields of a stored answer of the releases before it."""
        rules = [rule for rule in EXCEPTIONS if rule.request == request and operation in rule.operations]
        for release in ("base", f"request-{request - 1}"):
            self.assert_passes(f"request {request}: 1 cases", {operation: line}, rules, release=release)
        self.assert_fails(f"line 1: {fields}\n", {operation: line}, rules, release=f"request-{request}")
        self.assert_fails(f"line 1: {fields}\n", {operation: line})

    def test_a_table_of_another_capacity(self):
        self.assert_changed(2, "job", OTHER_TABLE, "number, length, list")

    def test_counts_that_were_out_of_place(self):
        self.assert_changed(4, "job", COUNTED, "number, n, floor, sum, scale, images, total")

    def test_half_of_an_odd_window(self):
        changed = dict(image="number, image, scale", job="number, n, floor, sum, scale, step, images, total",
                       text="text", sweep="number, floor, p")
        for operation, line in HALVES.items():
            self.assert_changed(5, operation, line, changed[operation])

    def test_blocks_that_were_out_of_place(self):
        changed = dict(job="number, n, floor, sum, scale, images, total, blocks", text="text")
        for operation, line in OUT_OF_PLACE.items():
            self.assert_changed(6, operation, line, changed[operation])

    def test_numbers_over_the_old_limit(self):
        changed = dict(image="number, image, scale", table="number, working", text="text", sweep="number, floor, p",
                       job="number, n, floor, sum, scale, total, images")
        for operation, line in OLD_LIMIT.items():
            self.assert_changed(7, operation, line, changed[operation])


class Exceptions(unittest.TestCase):
    def applies(self, request, operation, given):
        rules = [rule for rule in EXCEPTIONS if rule.request == request and operation in rule.operations]
        return any(rule.applies(given) for rule in rules)

    def excepted(self, request, operation, data, **places):
        return self.applies(request, operation, dict(job=data, **places))

    def test_request_1(self):
        """Jobs by kind 3 in a first field of length 1, texts by the fourth byte."""
        for data, of_jobs, of_texts in (
                ("01000103", True, True), ("01000103 0600040000000a", True, True), ("01000101", False, False),
                ("01000104", False, False), ("0100020303", False, True), ("02000103", False, True),
                ("00000003", False, True), ("010001", False, False), ("030303", False, False), ("", False, False),
                ("01000102 03000103", False, False)):
            self.assertEqual(self.excepted(1, "job", bytes.fromhex(data)), of_jobs, data)
            self.assertEqual(self.excepted(1, "text", bytes.fromhex(data)), of_texts, data)

    def assert_excepted(self, request, applies, *datas):
        for data, operation in itertools.product(datas, ("job", "text")):
            self.assertEqual(self.excepted(request, operation, data), applies, data.hex())

    def assert_not_with_short_buffers(self, request, data):
        for name, places in (("images", 2047), ("working", 0), ("list", 2046), ("scales", 63), ("blocks", 63)):
            self.assertFalse(self.excepted(request, "job", data, **{name + "_places": places}))

    def test_request_2_applies(self):
        """A bad table that is reached where the present capacity is another one."""
        for bad in BAD_TABLES:
            self.assert_excepted(
                2, True, job(1, 10, (3,), bad), job(2, 1, (0,), bad), job(1, LIMIT, (), bad),
                job(1, 10, (3,), IDENTITY, bad), job(1, 2, (1,), family(2, 2), bad),
                job(2, 10, (0,), *[family(1, 3)] * 7, bad), job(1, 10, (3,), bad, family(8, 1)),
                model([(10, 3), (2, 1)], bad), model([(10,), (0, 1)], bad),
                model([(2, 1), (2,)], family(2, 2), bad), model([(10, 3)] * 64, IDENTITY, bad))
        self.assertTrue(self.excepted(2, "job", job(1, 10, (3,), BAD_TABLES[3]), list_places=2050))

    def test_request_2_does_not_apply(self):
        """The table is of the present capacity, in order, or not reached."""
        good = tabled(0, 1, 2)
        self.assert_excepted(
            2, False, b"", job(1, 10, (3,), good), job(1, 2, (2,), good), model([(2, 1), (3, 1)], good))
        for bad in BAD_TABLES:
            data = job(1, 10, (3,), bad)
            self.assert_excepted(
                2, False, job(1, 2, (2,), bad), job(2, 10, (3,), family(4, 2), bad), job(1, 10, (3,), good, bad),
                job(1, 10, (3,), tabled(*range(10), 9), bad), job(1, 10, (3,), family(8, 1), bad),
                job(1, 2, (2,), bad, tabled(1, 1)), job(1, 10, (11,), bad), job(1, 10, (0,), bad), job(1, 0, (), bad),
                job(4, 10, (3,), bad), data[:-1], data + b"\5", data + bytes(65_536), KIND_3 + bad,
                model([(10,)] * 65, bad), model([(2, 1), (10, 3)], bad), model([(10, 11)], bad),
                model([(0,), (10,)], bad))
            self.assert_not_with_short_buffers(2, data)

    def test_request_2_behind_counts(self):
        """Counts are asked before the steps."""
        for bad in BAD_TABLES:
            self.assert_excepted(
                2, True, job(1, 10, (3, 4), halves(7, 300, 1), bad), job(1, 10, (), field(7, b""), bad))
            self.assert_excepted(
                2, False, job(1, 10, (3, 4), halves(7, 300, 0), bad), job(1, 10, (3, 4), halves(7, 300), bad),
                job(2, 10, (3, 4), halves(7, 300, 1), bad), job(1, 2, (2,), halves(7, 300), bad))

    def test_request_2_behind_blocks(self):
        """Blocks are asked before the steps too."""
        for bad in BAD_TABLES:
            self.assert_excepted(
                2, True, job(1, 10, (3, 4), halves(8, 1, 1), bad), job(1, 10, (), field(8, b""), bad),
                job(1, 10, (3, 4), halves(7, 300, 1), halves(8, 2), bad))
            self.assert_excepted(
                2, False, job(1, 10, (3, 4), halves(8, 1), bad), job(1, 10, (3, 4), halves(8, 2, 0), bad),
                job(1, 10, (3, 4), field(8, bytes(3)), bad), job(2, 10, (3, 4), halves(8, 1, 1), bad),
                job(1, 10, (3, 4), field(8, b""), bad), job(1, 10, [3] * 65, halves(8, *[1] * 65), bad))

    def test_request_4_applies(self):
        """Whatever the counts are, and whatever is wrong with the list or stands behind them."""
        for counts in (halves(7, 300, 1), halves(7, 0, 1), halves(7, 1), field(7, b""), field(7, bytes(3))):
            data = job(1, 10, (3, 4), counts)
            self.assert_excepted(
                4, True, data, data + family(1, 3), data + counts, data + b"\7", data + bytes(9),
                (data + bytes(65_535))[:65_535], job(1, 0, (), counts), job(1, 10, (0, 11), counts))
            self.assertTrue(self.excepted(4, "job", data, scales_places=70))

    def test_request_4_does_not_apply(self):
        """Another kind, a tag 7 elsewhere or cut short, or something that is told before it is read."""
        counts, step, fields = halves(7, 300, 1), family(1, 3), head(1, 10, (3, 4))
        data = job(1, 10, (3, 4), counts)
        self.assert_excepted(4, False, b"", counts, data[:-1], data[:-4], data[:-6], (data + bytes(65_536))[:65_536])
        self.assert_excepted(4, False, *(job(kind, 10, (3, 4), counts) for kind in (0, 2, 3, 4, 255)))
        self.assert_excepted(
            4, False, job(1, 10, (3, 4)), job(1, 10, (3, 4), step, counts), job(1, 10, (3, 4), halves(8, 300, 1)),
            job(1, 10, (3, 4), row(10, 3)), model([(10, 3)], counts), KIND_3 + counts)
        for place, part in enumerate(fields):  # before a field of the head, in its place, behind one of wrong length
            before, behind = fields[:place], fields[place + 1:]
            longer = field(part[0], part[3:] + b"\0")
            self.assert_excepted(
                4, False, b"".join(before + [counts, part] + behind), b"".join(before + [counts] + behind + [counts]),
                b"".join(before + [longer] + behind + [counts]))
        self.assert_not_with_short_buffers(4, data)

    def test_request_5_images(self):
        for capacity, family_byte, p, q, applies in (
                (5, 1, 3, 0, True), (1, 1, 1, 0, True), (LIMIT - 1, 1, LIMIT // 2, 0, True), (5, 1, 2, 0, False),
                (5, 1, 4, 0, False), (6, 1, 3, 0, False), (6, 1, 4, 0, False), (5, 3, 3, 0, False), (5, 1, 3, 1, False),
                (LIMIT + 1, 1, LIMIT // 2 + 1, 0, False), (2**64 - 1, 1, 2**63, 0, False)):
            given = image(capacity, family_byte, p, q, 0)
            self.assertEqual(self.applies(5, "image", given), applies, given)

    def test_request_5_sweeps(self):
        fine = dict(capacity=5, family=1, sizes=[3, 2], low=1, high=3)
        for more in (dict(), dict(low=3), dict(high=9), dict(counts=[300, 1]), dict(sizes=[]),
                     dict(capacity=1, sizes=[1])):
            self.assertTrue(self.applies(5, "sweep", fine | more), more)
        for more in (dict(high=2), dict(low=4, high=9), dict(capacity=6), dict(family=3), dict(sizes=[3, 0]),
                     dict(sizes=[6]), dict(counts=[1]), dict(counts=[1, 0]), dict(high=4097), dict(capacity=LIMIT + 1),
                     dict(low=3, high=2), dict(sizes=[3] * 2049)):
            self.assertFalse(self.applies(5, "sweep", fine | more), more)

    def test_request_5_applies(self):
        """A half that is reached, whatever stands behind it."""
        half, five = family(1, 3), tabled(0, 0, 0, 0, 5, 5, 5)  # the table makes 5 of 6
        self.assert_excepted(
            5, True, job(1, 5, (3,), half), job(2, 5, (0,), half), job(1, 5, (), half), job(1, 1, (1,), family(1, 1)),
            job(1, 6, (3,), five, half), job(1, 6, (3,), family(1, 3), five, half), job(1, 5, (3,), half, family(8, 1)),
            job(1, 5, (3,), *[family(1, 0)] * 7, half), job(1, 5, (3,), halves(7, 300), half),
            job(1, 5, (3,), halves(8, 1), half),
            model([(5, 3)], half), model([(6, 3), (7,), (5, 3)], half), model([(5, 3), (0,)], half),
            model([(6, 0), (6, 4)], five, half), model([(12, 3), (11, 3)], family(5, 1), family(1, 6)))

    def test_request_5_does_not_apply(self):
        """Another p or capacity, and halves behind something that is refused."""
        half, five = family(1, 3), tabled(0, 0, 0, 0, 5, 5, 5)
        data = job(1, 5, (3,), half)
        self.assert_excepted(
            5, False, b"", job(1, 5, (3,)), job(1, 6, (3,), half), job(1, 6, (3,), family(1, 4)),
            job(1, 5, (3,), family(1, 4)), job(1, 5, (3,), family(1, 3, 1)), job(1, 5, (3,), family(3, 3)),
            job(1, 6, (3,), five, family(1, 4)), job(1, 5, (3,), family(2, 2), half),
            job(1, 5, (3,), family(8, 1), half), job(1, 5, (3,), five, half), job(1, 5, (0,), half),
            job(1, 5, (6,), half), job(1, 5, (3,), halves(7, 0), half), job(1, 5, (3,), halves(8, 2), half),
            job(4, 5, (3,), half), data[:-1], data + b"\4",
            data + bytes(65_536), KIND_3 + half, model([(6, 3)], half), model([(4, 3), (5, 3)], half),
            model([(6, 7), (5, 3)], half), model([(6,), (0,), (5,)], half), model([(6, 3)] * 64 + [(5, 3)], half))
        self.assert_not_with_short_buffers(5, data)

    def test_request_6_applies(self):
        """Whatever the blocks are, and whatever is wrong with the list or stands behind them."""
        for blocks in (halves(8, 1, 1), halves(8, 2), halves(8, 2, 0), halves(8, 9), field(8, b""), field(8, bytes(3)),
                       halves(8, *[1] * 65)):
            for before in (b"", halves(7, 300, 1), halves(7, 0, 0)):
                data = job(1, 10, (3, 4), before, blocks)
                self.assert_excepted(
                    6, True, data, data + family(1, 3), data + family(8, 1), data + blocks, data + halves(7, 1, 1),
                    data + b"\x08", data + bytes(9), (data + bytes(65_535))[:65_535],
                    job(1, 0, (0, 11), before, blocks))
            self.assert_excepted(6, True, job(1, 0, (), blocks), job(1, 10, (), field(7, b""), blocks))
        self.assertTrue(self.excepted(6, "job", job(1, 10, (3, 4), halves(8, 2)), blocks_places=70))

    def test_request_6_does_not_apply(self):
        """Another kind, a tag 8 elsewhere or cut short, or something that is told before it is read."""
        counts, blocks, step = halves(7, 300, 1), halves(8, 1, 1), family(1, 3)
        data = job(1, 10, (3, 4), blocks)
        self.assert_excepted(6, False, b"", blocks, data[:-1], data[:-4], data[:-6], (data + bytes(65_536))[:65_536])
        for kind, before in itertools.product((0, 2, 3, 4, 255), (b"", counts)):
            self.assert_excepted(6, False, job(kind, 10, (3, 4), before, blocks))
        self.assert_excepted(
            6, False, job(1, 10, (3, 4)), job(1, 10, (3, 4), counts), job(1, 10, (3, 4), step, blocks),
            job(1, 10, (3, 4), counts, step, blocks), job(1, 10, (3, 4), halves(9, 1, 1)),
            model([(10, 3)], blocks), KIND_3 + blocks)
        self.assert_not_with_short_buffers(6, data)

    def test_request_6_behind_wrong_fields(self):
        """Counts of wrong length, twice or cut short; a field of the head that is missing, elsewhere or too long."""
        counts, blocks, fields = halves(7, 300, 1), halves(8, 1, 1), head(1, 10, (3, 4))
        data = job(1, 10, (3, 4), counts, blocks)
        self.assert_excepted(6, False, data[:-1], data[:-4], data[:-8], (data + bytes(65_536))[:65_536])
        for wrong in (halves(7, 300), halves(7, 300, 1, 1), field(7, b""), field(7, bytes(3)), counts * 2,
                      row(10, 3), field(9, b"")):
            self.assert_excepted(6, False, job(1, 10, (3, 4), wrong, blocks))
        for place, part in enumerate(fields):
            before, behind = fields[:place], fields[place + 1:]
            longer = field(part[0], part[3:] + b"\0")
            self.assert_excepted(
                6, False, b"".join(before + [blocks, part] + behind), b"".join(before + [blocks] + behind + [blocks]),
                b"".join(before + behind + [blocks]), b"".join(before + [longer] + behind + [blocks]))
        self.assert_not_with_short_buffers(6, data)


    def test_request_7_images(self):
        """A capacity, p, q or scale between the limits, and nothing else is told before it."""
        over = LIMIT + 1
        for capacity, family_byte, p, q, applies in (
                (BEFORE + 1, 1, 0, 0, True), (LIMIT, 8, over, over, True), (10, 2, BEFORE + 1, 0, True),
                (10, 1, LIMIT, 0, True), (10, 6, 3, BEFORE + 1, True), (10, 1, 3, LIMIT, True),
                (BEFORE, 2, 2, 0, True), (3, 7, 2, BEFORE, True), (BEFORE // 2 + 1, 3, 1, 0, True),
                (BEFORE, 1, 0, 0, False), (over, 1, BEFORE + 1, 0, False), (0, 1, BEFORE + 1, 0, False),
                (10, 8, BEFORE + 1, 0, False), (10, 2, over, 0, False), (10, 2, BEFORE + 1, over, False),
                (10, 2, LIMIT // 10 + 1, 0, False), (10, 2, BEFORE // 10, 0, False), (3, 7, 2, BEFORE - 1, False)):
            given = image(capacity, family_byte, p, q, 0)
            self.assertEqual(self.applies(7, "image", given), applies, given)

    def test_request_7_tables(self):
        for entries, applies in (
                ((0, BEFORE + 1), True), ((0, LIMIT), True), ((0, BEFORE + 1, 1), True), ((0, BEFORE), False),
                ((0, LIMIT + 1), False), ((0, BEFORE + 1, LIMIT + 1), False), ((1, BEFORE + 1), False),
                ((0, BEFORE + 1, 0), False), ((BEFORE + 1,), False), ((0,) * 2048 + (BEFORE + 1,), False)):
            self.assertEqual(self.applies(7, "table", dict(entries=list(entries))), applies, entries[:3])
        for places in (dict(working_places=1), dict(list_places=0)):
            self.assertFalse(self.applies(7, "table", dict(entries=[0, BEFORE + 1], **places)))

    def test_request_7_sweeps(self):
        """A capacity between the limits, or a p that passes and was refused."""
        fine = dict(capacity=10, family=2, sizes=[6], low=1, high=3)
        last = BEFORE // 10
        for more in (dict(capacity=BEFORE + 1), dict(capacity=LIMIT, family=9, sizes=[0], high=0),
                     dict(low=last, high=last + 1), dict(low=last + 1, high=last + 9),
                     dict(capacity=1, sizes=[1], low=LIMIT, high=LIMIT), dict(family=3, capacity=BEFORE, high=1)):
            self.assertTrue(self.applies(7, "sweep", fine | more), more)
        for more in (dict(), dict(low=last - 9, high=last), dict(low=LIMIT // 10 + 1, high=LIMIT // 10 + 1),
                     dict(capacity=LIMIT + 1), dict(low=BEFORE + 1, high=BEFORE + 1, family=1),
                     dict(low=last + 2, high=last + 1), dict(low=last, high=last + 1, sizes=[0]),
                     dict(low=last, high=last + 1, counts=[0])):
            self.assertFalse(self.applies(7, "sweep", fine | more), more)

    def test_request_7_applies(self):
        """A number between the limits that is reached, whatever stands beside it and behind it."""
        wide, over = tabled(0, BEFORE + 1), BEFORE + 1
        self.assert_excepted(
            7, True, job(1, over, (3,)), job(2, LIMIT, (LIMIT + 1,)), job(1, over, (0,), family(8, 1)),
            job(1, 10, (3,), family(2, over)), job(1, 10, (3,), family(1, 3, over)),
            job(2, 10, (0,), family(2, over // 10 + 1)), job(1, 1, (1,), wide), job(1, 10, (3,), wide),
            job(1, 10, (3,), IDENTITY, family(2, LIMIT)), job(1, 1, (1,), wide, family(8, 1)),
            job(1, 10, (3,), halves(7, 300), halves(8, 1), family(2, LIMIT)),
            model([(over, 3)]), model([(10, 3), (over, 3), (0,)]), model([(10,), (0,)], family(2, over)),
            model([(10, 3), (BEFORE // 2, 3)], family(2, 3)))

    def test_request_7_does_not_apply(self):
        """Numbers within the old limit or over both, and what is behind something that is refused."""
        over, data = BEFORE + 1, job(1, BEFORE + 1, (3,))
        self.assert_excepted(
            7, False, b"", job(1, BEFORE, (BEFORE,)), job(1, LIMIT + 1, (3,)), job(1, 10, (over,), family(2, over)),
            job(4, over, (3,)), job(1, 10, (3,), family(8, over)), job(1, 10, (3,), family(2, LIMIT + 1)),
            job(1, 10, (3,), family(8, 1), family(2, over)), job(1, 10, (3,), halves(7, 0), family(2, over)),
            job(1, 10, (3,), halves(8, 2), family(2, over)), job(1, 1, (1,), tabled(1, over)),
            job(1, 1, (1,), tabled(0, LIMIT + 1)), job(1, 2, (1,), tabled(0, over, 0)), data[:-1], data + b"\4",
            data + bytes(65_536), KIND_3 + family(2, over), model([(10, 11), (over,)]), model([(0,), (over,)]),
            model([(10,), (over,)], family(8, 1)), model([(over,)] * 65))
        self.assert_not_with_short_buffers(7, data)

    def test_request_9_applies(self):
        """Whatever the job is, but for its fourth byte."""
        for data, name in itertools.product(OF_FLOOR, ("scales", "blocks")):
            self.assertEqual(self.excepted(9, "job", data, **{name + "_places": 63}), name == "scales", data)
        for data, name in itertools.product(OF_CUT, ("scales", "blocks")):
            self.assertEqual(self.excepted(9, "job", data, **{name + "_places": 0}), name == "blocks", data)
        self.assertTrue(self.excepted(9, "job", OF_FLOOR[0], scales_places=63, blocks_places=64, list_places=2047))

    def test_request_9_does_not_apply(self):
        """12, a short buffer that is still lent, or none."""
        for data in OF_FLOOR + OF_CUT:
            other = "scales_places" if data in OF_FLOOR else "blocks_places"
            self.assertFalse(self.excepted(9, "job", data))
            self.assertFalse(self.excepted(9, "job", data, scales_places=64, blocks_places=70))
            self.assertFalse(self.excepted(9, "job", data, scales_places=63, blocks_places=63))
            self.assertFalse(self.excepted(9, "job", (data + bytes(65_536))[:65_536], **{other: 63}))
            self.assertTrue(self.excepted(9, "job", (data + bytes(65_536))[:65_535], **{other: 63}))
            for name, places in (("images", 2047), ("working", 2047), ("list", 2046)):
                self.assertFalse(self.excepted(9, "job", data, **{other: 63, name + "_places": places}))


class Releases(unittest.TestCase):
    """Named by a request, and from 5.1.0 on by the version."""

    def test_names(self):
        for name, module in (("base", "inputs_base"), ("request-9", "inputs_request_9"), ("5.1.0", "inputs_5_1_0"),
                             ("12.0.10", "inputs_12_0_10")):
            self.assertEqual(store.module_of(name), module)

    def test_inputs_of_every_release(self):
        for release, operation, _ in read_list(FOLDER):
            self.assertTrue((FOLDER / f"{store.module_of(release)}.py").is_file(), release)
            self.assertIn(operation, CASES)

    def test_a_version_can_be_compared(self):
        passed, printed = passes(CASES, release="5.1.0")
        self.assertTrue(passed, printed)
        self.assertIn("5.1.0: 9 cases compared", printed)
        passed, printed = passes(dict(shortest=SHORTEST.replace("length=2", "length=3")), release="5.1.0")
        self.assertFalse(passed)
        self.assertIn("5.1.0/shortest.txt, line 1: length\n", printed)

    def test_rules_of_requests(self):
        """They are about no release that is listed behind the request's own, whatever it is called."""
        releases = ["base", "request-1", "request-2", "request-9", "5.1.0", "5.2.0"]
        rules = [Rule(request, ("image",), always, "all") for request in (1, 2, 9)]
        for release, about in (("base", [1, 2, 9]), ("request-1", [2, 9]), ("request-2", [9]), ("request-9", []),
                               ("5.1.0", []), ("5.2.0", [])):
            case = Case(release, "image", 1, image(10, 1, 3, 0, 8), {})
            self.assertEqual([rule.request for _, rule in rules_for(case, rules, releases)], about)


class StoredForm(unittest.TestCase):
    def test_numbers(self):
        rng = random.Random(1)
        for _ in range(300):
            numbers = [rng.randint(0, rng.choice((1, 3, 2**32 - 1))) for _ in range(rng.randint(0, 9))]
            numbers += [rng.randint(0, 5)] * rng.randint(0, 9) + list(range(40, 40 - rng.randint(0, 9), -1))
            self.assertEqual(unpack_numbers(pack_numbers(numbers)), numbers)
        self.assertEqual(pack_numbers([7] * 300 + [5, 7, 9, 11, 1]), "7*300,5+2*4,1")

    def test_bytes(self):
        rng = random.Random(2)
        for _ in range(300):
            bytes_ = [rng.choice((0, 1, rng.randrange(256))) for _ in range(rng.randint(0, 9))]
            data = b"".join(bytes([byte]) * rng.choice((1, 2, 5, 300)) for byte in bytes_)
            self.assertEqual(unpack_bytes(pack_bytes(data)), data)
        self.assertEqual(pack_bytes(bytes(65_535)), "000000*21845")
        data = bytes.fromhex("030010 00000005 00000007 00000009 0000000b")
        self.assertEqual(unpack_bytes("030010.00000005+2*4"), data)


if __name__ == "__main__":
    unittest.main()
