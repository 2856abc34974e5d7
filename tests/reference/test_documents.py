"""Holds the values that docs/REFERENCE.md shows to the independent
implementation, its names and numbers to that and to the C header, and
docs/PROMISES.md to the must-fail edits and to the sections of
docs/REFERENCE.md, the exports to the operations that they call, and the
job layer's proofs to the promises of the crates below them."""

import pathlib
import re
import unittest

import windowfloor as wf

ROOT = pathlib.Path(__file__).resolve().parents[2]
REFERENCE = (ROOT / "docs" / "REFERENCE.md").read_text(encoding="utf-8")
HEADER = (ROOT / "include" / "windowfloor.h").read_text(encoding="utf-8")


def section(title):
    """The text below a heading, up to the next heading of any level."""
    found = re.search(r"^#+ %s[^\n]*\n(.*?)(?=^#|\Z)" % re.escape(title), REFERENCE, re.M | re.S)
    return found.group(1)


def rows(text):
    """The cells of the rows of tables, without heads and rulers."""
    lines = [line for line in text.splitlines() if line.startswith("|")]
    cells = [[cell.strip() for cell in line.strip("|").split("|")] for line in lines]
    return [row for row in cells if not set("".join(row)) <= set("-")]


def number(cell):
    return int(cell.replace(",", ""))


def numbers(cells):
    return [number(cell) for cell in cells]


class Images(unittest.TestCase):

    def test_whole_functions(self):
        met = 0
        for row in rows(section("2.9 ")):
            if len(row) != 6 or not row[0].isdigit():
                continue
            capacity, family, p, q = numbers(row[:4])
            images = [int(image) for image in row[4].split()]
            with self.subTest(row=row):
                self.assertEqual(len(images), capacity + 1)
                for x, image in enumerate(images):
                    self.assertEqual(wf.image(capacity, family, p, q, x), (0, image, int(row[5])))
            met += 1
        self.assertGreaterEqual(met, 13)

    def test_images_at_the_limit(self):
        met = set()
        for row in rows(section("2.9 ")):
            if len(row) != 7 or row[0] == "C":
                continue
            capacity, family, p, q, x, image, scale = numbers(row)
            with self.subTest(row=row):
                self.assertEqual(wf.image(capacity, family, p, q, x), (0, image, scale))
            met.add(family)
        self.assertEqual(met, set(range(1, 8)))


def right_lengths(cell):
    """The lengths that a cell of 4.1 allows."""
    if cell.isdigit():
        return {int(cell)}
    bounds = numbers(re.findall(r"[\d,]*\d", cell))
    if "× n" in cell:
        factor, low, high = bounds
        return {factor * n for n in range(low, high + 1)}
    *bounds, factor = bounds
    low, high = bounds if len(bounds) == 2 else (bounds[0], 65_535)  # "4 or more" ends with two bytes
    return {length for length in range(low, high + 1) if length % factor == 0}


class Jobs(unittest.TestCase):

    def stands_for(self):
        """The letters of 6.3, each for a job in hexadecimal."""
        text = " ".join(section("6.3 ").split())
        named = dict(re.findall(r"\b([A-Z])(?: stands)? for `([0-9A-F ]+)`", text))
        self.assertLessEqual({"H", "S", "T"}, set(named))
        return named

    def cases(self):
        """The jobs of 6.3, each with what is printed."""
        letters = self.stands_for()
        for cell, printed, _ in rows(section("6.3 "))[1:]:
            cell = cell.replace("`", "")
            for letter, job in letters.items():
                cell = re.sub(r"^%s\b" % letter, job, cell)
            same = re.fullmatch(r"65,536 bytes, all (\d)", cell)
            if same:
                yield bytes([int(same.group(1))]) * 65_536, printed.strip("`")
            else:
                yield bytes.fromhex(cell.replace("(empty)", "")), printed.strip("`")

    def test_cases(self):
        met = 0
        for data, printed in self.cases():
            with self.subTest(job=data[:40].hex()):
                expected = "".join(line + "\n" for line in printed.split(" / "))
                self.assertEqual(wf.program(data), expected.encode())
            met += 1
        self.assertGreaterEqual(met, 31)

    def test_cases_of_rows(self):
        """A model of several rows, refusals with their row, and those of the fourth byte alone."""
        printed = {text: data for data, text in self.cases() if data[3:4] == b"\3"}
        refused = {tuple(map(int, text.split()[1:4])): data for text, data in printed.items() if "refused" in text}
        self.assertTrue(any(text.count("scale ") > 1 for text in printed))
        self.assertLessEqual({1, 11, 12, 13, 14, 15, 17, 18, 21}, {number for number, _, _ in refused})
        self.assertTrue(any(row > 1 and step == 0 for _, row, step in refused))
        self.assertTrue(any(row > 1 and step > 0 for _, row, step in refused))
        self.assertTrue(any(data[0] != wf.KIND for data in refused.values()))

    def test_cases_of_counts(self):
        """Jobs with counts: accepted with and without a step, and each refusal that counts can bring."""
        counted = [(data, printed) for data, printed in self.cases() if re.search(rb"\x07\x00[\x00-\x08]", data)]
        self.assertTrue(any(printed.startswith("floor") and b"\4\0\x09" in data for data, printed in counted))
        refused = {int(printed.split()[1]) for _, printed in counted if "refused" in printed}
        self.assertLessEqual({14, 15, 17, 22}, refused)

    def test_cases_of_blocks(self):
        """Jobs with blocks: accepted with and without counts and a step, and each refusal that blocks can bring."""
        blocks = [(data, printed) for data, printed in self.cases() if re.search(rb"\x08\x00[\x00-\x06]", data)]
        accepted = [data for data, printed in blocks if " / blocks" in printed]
        self.assertTrue(any(b"\7\0" in data and b"\4\0\x09" in data for data in accepted))
        self.assertTrue(any(b"\7\0" not in data for data in accepted))
        refused = {int(printed.split()[1]) for _, printed in blocks if "refused" in printed}
        self.assertLessEqual({14, 15, 17, 22, 23}, refused)

    def test_tags(self):
        documented = [row for row in rows(section("4.1 ")) if row[0].isdigit()]
        self.assertEqual([int(row[0]) for row in documented], list(range(wf.KIND, wf.BLOCKS + 1)))
        for tag, cell, _ in documented:
            if int(tag) == wf.COUNTS:
                continue  # its length goes by the number of sizes
            due = {length for length in range(65_536) if wf.length_right(int(tag), length)}
            self.assertEqual(right_lengths(cell), due, tag)

    def test_lengths_of_counts(self):
        """The length of tag 7 in 4.1 is so many bytes for each size."""
        tag, cell, _ = next(row for row in rows(section("4.1 ")) if row[0] == str(wf.COUNTS))
        factor = int(re.fullmatch(r"(\d) × n, for the n of the tag 3 field", cell).group(1))
        for n in (0, 1, 2, 100):
            before = [(wf.SIZES, bytes(4 * n))]
            due = [length for length in range(4 * n + 9) if wf.length_right(int(tag), length, before)]
            self.assertEqual([factor * n], due)

    def test_kinds(self):
        """The kinds that 4.1 names are those that can be accepted."""
        named = {int(digit) for row in rows(section("4.1 ")) if row[0] == "1" for digit in re.findall(r"\d", row[2])}
        self.assertEqual(named, {wf.FLOOR, wf.CUT, wf.ROWS})

    def test_drawn_job(self):
        drawn = re.findall(r"^ +(\d+) +((?:[0-9A-F]{2} )*[0-9A-F]{2}) ", section("4.7 "), re.M)
        job = b""
        for offset, part in drawn:
            self.assertEqual(int(offset), len(job))
            job += bytes.fromhex(part)
        self.assertEqual(job, (ROOT / "examples" / "handover.job").read_bytes())


class Exact(unittest.TestCase):

    def test_lists(self):
        """The lists of 5.6: capacity, sizes, counts, fewest windows, and windows of the copies."""
        met = 0
        for row in rows(section("5.6 ")):
            if len(row) != 5 or row[0] == "C":
                continue
            capacity, fewest = number(row[0]), number(row[3])
            sizes, counts, windows = (numbers(row[column].split()) for column in (1, 2, 4))
            with self.subTest(row=row):
                self.assertEqual(wf.exact(capacity, sizes, counts, [0] * wf.EXACT_WINDOWS), (0, fewest))
                self.assertTrue(wf.is_assignment(capacity, wf.copies_of(sizes, counts), windows, fewest))
            met += 1
        self.assertGreaterEqual(met, 3)


class Shortest(unittest.TestCase):

    def setUp(self):
        """The tables of 5.7: entries, the counterexample, the answer's two numbers, and a shortest list."""
        self.tables = []
        for row in rows(section("5.7 ")):
            if len(row) == 5 and row[0][0].isdigit():
                entries, found, shown = (numbers(row[column].split()) for column in (0, 1, 4))
                self.tables.append((entries, found, (number(row[2]), number(row[3])), shown))

    def test_tables(self):
        """The table check shows the counterexample, and the list shown is as long as the answer says and overshoots."""
        for entries, found, answer, shown in self.tables:
            with self.subTest(entries=entries):
                working, second, listed = [0] * len(entries), [0] * len(entries), [0] * (len(entries) - 1)
                self.assertEqual(wf.shortest(entries, working, second, listed), answer)
                self.assertEqual((len(shown), wf.shows(entries, shown)), (answer[1], answer[0] == wf.ACCEPTED))
                checked = (wf.NOT_DUAL_FEASIBLE, len(found)) if answer[0] == wf.ACCEPTED else (wf.ACCEPTED, 0)
                self.assertEqual(wf.table_check(entries, working, listed), checked)
                self.assertEqual(listed[:len(found)], found)
        self.assertEqual({answer[0] for _, _, answer, _ in self.tables}, {wf.ACCEPTED, wf.DUAL_FEASIBLE})
        self.assertTrue(any(len(found) > len(shown) for _, found, _, shown in self.tables))

    def test_example(self):
        """The last of them is the example's."""
        text = (ROOT / "examples" / "solver.table").read_text(encoding="utf-8")
        self.assertEqual(self.tables[-1][0], numbers(text.split()))

    def test_rows(self):
        """The rows that 5.7 defines, and the list that it finds by them, whichever sizes are taken."""
        for entries, _, (refused, length), _ in self.tables:
            if refused == wf.ACCEPTED:
                made = rows_of(entries)
                self.assertEqual(len(made) - 1, length)
                for most in (min, max):
                    self.assertTrue(wf.shows(entries, list_by(entries, made, most)))


def rows_of(entries):
    """Rows 0 to the length of 5.7."""
    made = [[0] * len(entries)]
    while made[-1][-1] <= entries[-1]:
        before = made[-1]
        made.append([max([before[c]] + [entries[y] + before[c - y] for y in range(1, c + 1)])
                     for c in range(len(entries))])
    return made


def list_by(entries, made, chosen):
    """The list of 5.7: for each row from the last on, one of the sizes that lead to what it has."""
    found, c = [], len(entries) - 1
    for before, row in zip(made[-2::-1], made[:0:-1]):
        y = chosen(y for y in range(1, c + 1) if entries[y] + before[c - y] == row[c])
        found.append(y)
        c -= y
    return found


class Promises(unittest.TestCase):

    def setUp(self):
        self.promises = (ROOT / "docs" / "PROMISES.md").read_text(encoding="utf-8")

    def test_edits(self):
        """Every edit is named, and every name in the last column is an edit."""
        edits = {path.stem for path in ROOT.glob("crates/*/must-fail/*.edit")}
        words = set(re.findall(r"\b[a-z0-9_]+\b", self.promises))
        self.assertEqual(edits - words, set())
        named = set()
        for row in rows(self.promises):
            named |= set(re.findall(r"\b\w+_\w+\b", row[-1]))
        self.assertEqual({name for name in named if name not in edits and name.islower()}, set())

    def test_inputs(self):
        """An edit's first line is a comment with an input: it has a colon."""
        for path in ROOT.glob("crates/*/must-fail/*.edit"):
            first = path.read_text(encoding="utf-8").splitlines()[0]
            self.assertRegex(first, r"^# .+: .+", path.name)

    def test_places(self):
        """What an edit replaces stands in its file once, so that a moved line is told before the proofs."""
        for path in ROOT.glob("crates/*/must-fail/*.edit"):
            texts, name = {}, None
            for line in path.read_text(encoding="utf-8").splitlines():
                word, _, rest = line.partition(": ")
                if word == "file":
                    name = rest
                    texts.setdefault(name, (path.parents[1] / name).read_text(encoding="utf-8"))
                elif word == "old":
                    old = rest
                    self.assertEqual(texts[name].count(old), 1, (path.name, old))
                elif word == "new":
                    texts[name] = texts[name].replace(old, rest)

    def test_sections(self):
        headings = set(re.findall(r"^#+ (\d(?:\.\d)?)", REFERENCE, re.M))
        led_from = set()
        for row in rows(self.promises):
            if len(row) == 4 and row[0] != "section":
                led_from |= set(row[0].split(", "))
        self.assertLessEqual(led_from, headings)
        self.assertLessEqual({"2.%d" % k for k in range(1, 9)} | {"5.%d" % k for k in range(2, 8)},
                             led_from)


JOB_LAYER = "fields chains blocks jobs floors cuts lists sweeps exact".split()


def defined(crates):
    """The names of the definitions that a proof can unfold, of the specs of some crates."""
    texts = [path.read_text(encoding="utf-8") for crate in crates for path in ROOT.glob(f"crates/{crate}/specs/*.antt")]
    return {name for text in texts for name in re.findall(r"^\s*(?:unfoldable|abbrev) pub (\S+) ", text, re.M)}


def unfolded(crate):
    """The names that the proofs of a crate unfold, and the attributes of its functions."""
    names = set()
    for path in (ROOT / "crates" / crate).rglob("*.antt"):
        if "proofs" in path.parts:
            for line in re.findall(r"^\s*unfolding (.*)$", path.read_text(encoding="utf-8"), re.M):
                names |= set(line.split())
    for path in (ROOT / "crates" / crate).glob("src/*.rt"):
        for inner in re.findall(r"\bunfolding\(([^)]*)\)", path.read_text(encoding="utf-8")):
            names |= {place.strip().split("::")[-1] for place in inner.split(",")}
    return names


class Layers(unittest.TestCase):

    def test_unfolded(self):
        """The job layer rests on what `functions` and `tables` promise: its proofs unfold no definition of the two."""
        below = defined(["functions", "tables"]) - defined(JOB_LAYER)
        self.assertIn("total", below)
        for crate in JOB_LAYER:
            names = unfolded(crate)
            self.assertTrue(names, crate)
            self.assertEqual(names & below, set(), crate)


def operation(crate):
    """The source of a crate, and of its function windowfloor_... all from the name to the body, whatever the layout."""
    source = (ROOT / "crates" / crate / "src" / "lib.rt").read_text(encoding="utf-8")
    (head,) = re.findall(r" fn (windowfloor_\w+\(.*?)^\{", source, re.M | re.S)
    return source, " ".join(re.sub(r",?\s*\)", ")", re.sub(r"\(\s+", "(", head)).split())


def words_of(source):
    """The words that the clauses of a source take from elsewhere, with the module of each."""
    taken = re.findall(r"^ghost use ([\w.]+)\.\{([^}]*)\};", source, re.M)
    return {(module, word.strip()) for module, words in taken for word in words.split(",") if word.strip()}


OPERATIONS = dict(functions="image", tables="table_check", shortest="shortest", floors="floor", cuts="cut",
                  sweeps="sweep", exact="exact")


class Exports(unittest.TestCase):

    def setUp(self):
        makefile = (ROOT / "Makefile").read_text(encoding="utf-8")
        self.exporting = re.search(r"^EXPORTING = (.*)$", makefile, re.M).group(1).split()

    def test_crates(self):
        self.assertEqual({f"{name}_c" for name in self.exporting}, {path.name for path in ROOT.glob("crates/*_c")})
        self.assertEqual(set(self.exporting), set(OPERATIONS))

    def test_contracts(self):
        """Each export has the parameters, the answer and the clauses of the operation that it calls, in the same words."""
        for name in self.exporting:
            (library, called), (export, exported) = operation(name), operation(f"{name}_c")
            self.assertTrue(called.startswith(f"windowfloor_{OPERATIONS[name]}("), called)
            self.assertEqual(exported, called)
            self.assertLessEqual(words_of(export), words_of(library), name)

    def test_symbols(self):
        """C's names are those of the exports alone."""
        for path in ROOT.glob("crates/*/src/*.rt"):
            exports = path.read_text(encoding="utf-8").count('#[unsafe(no_mangle)]\npub extern "C" fn windowfloor_')
            self.assertEqual(exports, path.parents[1].name.endswith("_c"), path)


class Names(unittest.TestCase):

    def test_numbers_of_refusal(self):
        """Those of the document are those of the header and of the reference."""
        in_header = dict(re.findall(r"WINDOWFLOOR_(\w+) = (\d+)", HEADER))
        documented = [row for row in rows(section("7. ")) if row[0].isdigit()]
        for row in documented:
            name = row[1].strip("`")
            self.assertEqual((in_header[name], getattr(wf, name)), (row[0], int(row[0])))
        last = int(re.search(r"#define WINDOWFLOOR_LAST_REFUSAL (\d+)", HEADER).group(1))
        self.assertEqual(last, wf.DUAL_FEASIBLE)
        self.assertEqual([int(row[0]) for row in documented], list(range(1, last + 1)))

    def test_limits(self):
        """The document's bounds are the header's, and those that the reference names are the reference's."""
        defined = dict(re.findall(r"#define WINDOWFLOOR_(\w+) (\d+)u", HEADER))
        met = []
        for row in rows(section("8. ")):
            if len(row) == 4 and row[2].startswith("`"):
                name, bound = row[2].strip("`"), max(numbers(re.findall(r"[\d,]*\d", row[1])))
                self.assertEqual((int(defined[name]), getattr(wf, name, bound)), (bound, bound), row)
                met.append(name)
        self.assertGreaterEqual(len(met), 19)
        named = {name for name in vars(wf) if re.match("LIMIT$|MOST_|JOB_[A-Z]+$|EXACT_", name)}
        self.assertLessEqual(named, set(met))

    def test_answers(self):
        """The structs of the document have the fields of the header's, in their order."""
        documented = dict(re.findall(r"struct (\w+) { uint64_t ([^;]+); };", REFERENCE))
        declared = dict(re.findall(r"struct (\w+) {\n(.*?)\n};", HEADER, re.S))
        self.assertEqual(len(documented), len(OPERATIONS))
        for name, fields in documented.items():
            self.assertEqual(fields.split(", "), re.findall(r"uint64_t (\w+);", declared[name]), name)
        self.assertEqual(documented["windowfloor_floor_answer"],
                         "number, n, floor, sum, scale, step, length, row, total")
        self.assertEqual(documented["windowfloor_cut_answer"], "number, n, scale, step, length, row")

    def test_version(self):
        version = re.search(r'#define WINDOWFLOOR_VERSION "([^"]+)"', HEADER).group(1)
        self.assertIn("windowfloor %s:" % version, REFERENCE)


if __name__ == "__main__":
    unittest.main()
