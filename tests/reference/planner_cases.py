"""Compares tests/c/planner.out, what the example examples/planner.c should
print, with the independent implementation. Exits with 1 if it differs; with
--print it writes the expected text to standard output. The lines on single
windows are in neither: which of the best assignments is shown is free, and
planner_windows.py checks them."""

import errno
import os
import sys
from pathlib import Path

sys.dont_write_bytecode = True
import windowfloor as wf
from job_bytes import apart, blocks_of, counted_job, family as family_step, job, lent, together

FOLDER = Path(__file__).resolve().parents[1] / "c"
FAMILIES = ("no step", "threshold", "rounding", "mirrored quotient", "mirrored Vanderbeck", "Burdett-Johnson")
MOST_TRIED = 16 * 4096  # the greatest p of all ranges
WORDS = {1: "the capacity is 0 or over the limit", 2: "the family is not 1 to 7, or in a sweep not 1 to 5",
         3: "p or q is not legal for the family", 4: "the scale would pass the limit",
         17: "a size is 0 in a list, or over the capacity",
         21: "a job of rows has no row, too many rows, or too many coefficients", 22: "a count is 0",
         23: "a block has no sizes, there are too many blocks, or they do not add up to the sizes"}
LISTS = ("10 7 7 5 5 5", "10 6 6 6", "5 3 3 3", "100 51 51 34 34 34 26 26 26 26", "planner.txt", "1 1 1",
         "8192 4097 2731 2731", "12287 8192 8192 4096 4096 4096", "12290 8194 8194 4097 4097 4097",
         "20000 13334 13334 6667 6667 6667",
         "65536 40000 30000", "65537 40000 30000", "196607 131072 131072 65536 65536 65536",
         "1000000001 600000000 600000000 400000001", "4000000000 2400000000 2400000000 1600000001",
         "3999999999 2000000000 2147483648 2147483648")
REFUSED = ("10 11", "10 0", "0 1", "4000000001 1", "4294967295 1", "99999999999 1", "4000000000 4000000001")
COUNTED = ("10 7x2 5x3", "10 5x300", "10 6x255 6x256 4", "100 51x2 34x3 26x4", "10 7x1 5x1", "10 3x65535 7x65535",
           "4000000000 4000000000x65535 4000000000x65535 2400000000x2")
REFUSED_COUNTS = ("10 5x0", "10 5x2 5x0", "10 5x0 11", "10 0x10", "4000000001 5x0")
IN_BLOCKS = ("10 7 5 / 7 5 / 5", "10 5 / 5", "10 6 6 6 / 4 / 6", "10 7x1 / 5x1", "10 7x2 5 / 7 5x300 / 5",
             "100 51x2 34 26 / 34x2 / 26x3", "4000000000 4000000000x65535 / 2400000000x65535 2400000000")
SHORT = ("11 2 5 10 7 5 3", "10 4 4 4 3 3 3 3 3 3", "10 5x10", "10 5x11", "10 5x4 / 5x6", "10 5x5 / 5x6")
REFUSED_BLOCKS = ("10 / 7 5", "10 7 / / 5", "10 7 5 /", "10 /", "10 7 / / 11", "10 7 / / 5x0", "4000000001 5 /",
                  "99999999999 /")
USAGE = ("usage: planner CAPACITY SIZE[xCOUNT]... [/ SIZE[xCOUNT]...]... | planner FILE"
         " | planner --rows FILE [FAMILY P Q]...")
WRONG_ARGUMENTS = (
    ("", USAGE),
    ("10", "10: " + os.strerror(errno.ENOENT)),
    ("10 x", "argument 2: not a number: x"),
    ("x 10", "argument 1: not a number: x"),
    ("10 5 -5", "argument 3: starts with a sign: -5"),
    ("10 ''", "argument 2: not a number"),
    ("10 18446744073709551616", "argument 2: a number of more than 64 bits: 18446744073709551616"),
    ("10 4294967296", "argument 2: a size of more than 32 bits: 4294967296"),
    ("10 5x", "argument 2: not a number: 5x"),
    ("10 x5", "argument 2: not a number: x5"),
    ("10 5 5xx3", "argument 3: not a number: 5xx3"),
    ("10 5x3x", "argument 2: not a number: 5x3x"),
    ("10 5X3", "argument 2: not a number: 5X3"),
    ("10 5x-1", "argument 2: not a number: 5x-1"),
    ("10 5x+1", "argument 2: not a number: 5x+1"),
    ("10 -5x3", "argument 2: starts with a sign: -5x3"),
    ("10 5 x 3", "argument 3: not a number: x"),
    ("10x1 5", "argument 1: not a number: 10x1"),
    ("10 5x65536", "argument 2: a count of more than 16 bits: 5x65536"),
    ("10 5x4294967297", "argument 2: a count of more than 16 bits: 5x4294967297"),
    ("10 5x18446744073709551617", "argument 2: a count of more than 16 bits: 5x184467440737095516..."),
    ("10 4294967297x1", "argument 2: a size of more than 32 bits: 4294967297x1"),
    ("10 18446744073709551617x1", "argument 2: a number of more than 64 bits: 18446744073709551617..."),
    ("/ 10", "argument 1: not a number: /"),
    ("10 5 //", "argument 3: not a number: //"),
    ("10 5/ 5", "argument 2: not a number: 5/"),
    ("10 5 /5", "argument 3: not a number: /5"),
    ("10 5 /x2", "argument 3: not a number: /x2"),
    ("10 5x/", "argument 2: not a number: 5x/"),
    ("10 5 / x", "argument 4: not a number: x"),
    ("10" + 64 * " 5 /" + " 5", "argument 129: more blocks than a job can have: /"))
FILES = (("no_sizes.txt", "60"), ("spaces.txt", "60 20 20 20"), ("zeros.txt", "60 20"),
         ("most_sizes.txt", "60" + 2047 * " 7" + " 61"), ("counts.txt", "60 20x5 31x3 41x2 12"),
         ("zeros_of_count.txt", "60 20x5"), ("most_counts.txt", "60" + 2047 * " 7x65535" + " 7x0"),
         ("blocks.txt", "60 20x5 31 / 31x2 / 41x2 12"), ("most_blocks.txt", "60" + 63 * " 31 /" + " 7"),
         ("empty_block.txt", "60 20 / / 31"))
WRONG_FILES = (
    ("empty.txt", ", line 1: the file ends before a capacity"),
    ("blank.txt", ", line 3: the file ends before a capacity"),
    ("letter.txt", ", line 2: not a number: 20x"),
    ("first.txt", ", line 1: not a number: C"),
    ("late.txt", ", line 5: not a number: #"),
    ("sign.txt", ", line 3: starts with a sign: -20"),
    ("plus.txt", ", line 1: starts with a sign: +60"),
    ("point.txt", ", line 2: not a number: 20.0"),
    ("comma.txt", ", line 1: not a number: 60,"),
    ("bytes.txt", ", line 1: not a number: \\xef\\xbb\\xbf60"),
    ("nul.txt", ", line 2: not a number: 2\\x00"),
    ("bits_64.txt", ", line 3: a number of more than 64 bits: 18446744073709551616"),
    ("capacity.txt", ", line 1: a number of more than 64 bits: 18446744073709551616"),
    ("bits_32.txt", ", line 4: a size of more than 32 bits: 4294967296"),
    ("most_of_64.txt", ", line 2: a size of more than 32 bits: 18446744073709551615"),
    ("too_many.txt", ", line 2050: more sizes than a job can have: 8"),
    ("long.txt", ", line 2: not a number: " + 20 * "a" + "..."),
    ("digits.txt", ", line 3: a number of more than 64 bits: " + 20 * "9" + "..."),
    ("count.txt", ", line 3: not a number: 31x"),
    ("count_bits.txt", ", line 2: a count of more than 16 bits: 20x65536"),
    ("counted_capacity.txt", ", line 1: not a number: 60x1"),
    ("block_first.txt", ", line 1: not a number: /"),
    ("glued.txt", ", line 3: not a number: 41/12"),
    ("too_many_blocks.txt", ", line 65: more blocks than a job can have: /"),
    ("missing.txt", ": " + os.strerror(errno.ENOENT)),
    ("folder", ", line 1: " + os.strerror(errno.EISDIR)))
MODEL = tuple(tuple(map(int, line.split())) for line in (FOLDER / "planner_rows.txt").read_text().splitlines())
MODELS = (  # a file, its rows, and the steps
    ("planner_rows.txt", MODEL, ()),
    ("planner_rows.txt", MODEL, ((1, 3, 0), (3, 3, 0))),
    ("planner_rows.txt", MODEL,
     ((4, 4, 0), (1, 2, 0), (2, 3, 0), (3, 2, 0), (5, 4, 0), (6, 3, 2), (7, 5, 2), (1, 9, 0))),
    ("no_coefficients.txt", ((10,), (20, 7), (30,)), ((2, 1, 0),)),
    ("planner_rows.txt", MODEL, ((8, 0, 0),)),
    ("planner_rows.txt", MODEL, ((7, 4, 1),)),
    ("planner_rows.txt", MODEL, ((1, 3, 0), (1, 5, 0))),
    ("planner_rows.txt", MODEL, ((2, 400_000_000, 0),)),
    ("no_rows.txt", (), ((1, 3, 0),)),
    ("zero.txt", ((10, 5), (0, 5)), ((1, 3, 0),)),
    ("over.txt", ((10, 5), (4, 4), (6, 5, 7)), ()),
    ("most_rows.txt", (*[(31, *[7] * 31, 8)] * 63, (7, *[7] * 31, 8)), ()))
WRONG_MODELS = (
    ("", USAGE),
    (" planner_rows.txt 1", USAGE),
    (" planner_rows.txt 1 3", USAGE),
    (" planner_rows.txt" + 9 * " 1 3 0", USAGE),
    (" planner_rows.txt 1 x 0", "argument 4: not a number: x"),
    (" planner_rows.txt 256 3 0", "argument 3: a number too large for a step: 256"),
    (" planner_rows.txt 1 3 0 2 4294967296 0", "argument 7: a number too large for a step: 4294967296"),
    (" row_letter.txt", "row_letter.txt, line 2: not a number: x"),
    (" row_bits.txt", "row_bits.txt, line 3: a number of more than 32 bits: 4294967296"),
    (" coefficient_bits.txt", "coefficient_bits.txt, line 2: a number of more than 32 bits: 4294967296"),
    (" too_many_rows.txt", "too_many_rows.txt, line 65: more rows than a job can have: 11"),
    (" too_many_coefficients.txt", "too_many_coefficients.txt, line 2: more coefficients than a job can have: 8"),
    (" row_count.txt", "row_count.txt, line 2: not a number: 5x3"),
    (" right_side_count.txt", "right_side_count.txt, line 1: not a number: 10x1"),
    (" planner_rows.txt 1 3x1 0", "argument 4: not a number: 3x1"),
    (" row_block.txt", "row_block.txt, line 2: not a number: /"),
    (" first_block.txt", "first_block.txt, line 2: not a number: /"),
    (" planner_rows.txt 1 / 0", "argument 4: not a number: /"),
    (" missing.txt", "missing.txt: " + os.strerror(errno.ENOENT)))


def pair(word):
    """A size and its count."""
    size, x, count = word.partition("x")
    return int(size), int(count) if x else 1


def in_blocks(words):
    """The pairs of each block; where there is no /, all of them."""
    ends = [place for place, word in enumerate(words) if word == "/"] + [len(words)]
    starts = [0] + [end + 1 for end in ends]
    return [[pair(word) for word in words[start:end]] for start, end in zip(starts, ends)]


def notation(pairs):
    return " ".join(f"{size}x{count}" if count != 1 else f"{size}" for size, count in pairs)


def floor_job(capacity, blocks, *steps):
    """With tag 8 where there are two blocks or more."""
    divided = [blocks_of(blocks)] if len(blocks) > 1 else []
    return counted_job(capacity, together(blocks), *divided, *(family_step(*step) for step in steps))


def run_floor(data):
    """Number and floor of the answer."""
    number, _, floor, *_ = wf.floor(data, *lent(wf.FLOOR_PLACES))
    return number, floor


def run_blocks(capacity, blocks, *steps):
    """The block floors and their total."""
    *others, floors = lent(wf.FLOOR_PLACES)
    *_, total = wf.floor(floor_job(capacity, blocks, *steps), *others, floors)
    return floors[:len(blocks)], total


def run_cut(capacity, sizes, *steps):
    """Number, scale and step of the answer, and the images."""
    images, *others = lent(wf.CUT_PLACES)
    data = job(wf.CUT, capacity, sizes, *(family_step(*step) for step in steps))
    number, n, scale, step, *_ = wf.cut(data, images, *others)
    return number, scale, step, images[:n]


def greatest_p(capacity, family):
    """The greatest p that is legal with a scale within the limit; 0 if there is none from 1 on."""
    half_scale = wf.LIMIT // 2
    greatest = {1: (capacity + 1) // 2, 2: wf.LIMIT // capacity, 3: capacity // 2, 4: min(capacity, half_scale + 1),
                5: capacity}
    return 0 if (family, capacity) == (4, 1) else greatest[family]


def best_floor(capacity, family, sizes, counts, highest):
    """The largest floor of all legal p from 1 to the highest, and the least p that gives it."""
    legal = (p for p in range(1, highest + 1) if wf.family_refusal(capacity, family, p, 0) == 0)
    floor, less_p = max((wf.one_step_floor(capacity, family, p, sizes, counts), -p) for p in legal)
    return floor, -less_p


def sweeps(capacity, pairs, without):
    """A line for each family, and the best step."""
    text, best, step = "", without, None
    for number in range(1, 6):
        greatest = greatest_p(capacity, number)
        text += f"  {FAMILIES[number]:<19} "
        if greatest == 0:
            text += "no legal p from 1 on\n"
            continue
        floor, p = best_floor(capacity, number, *apart(pairs), min(greatest, MOST_TRIED))
        tried = f"legal p up to {MOST_TRIED} tried, there are more" if greatest > MOST_TRIED else "all legal p tried"
        text += f"p = {p:<5} floor {floor}, {tried}\n"
        if floor > best:
            best, step = floor, (number, p)
    return text, best, step


def refused(number, places=""):
    return f"job refused, number {number}{places}: {WORDS[number]}\nexit 1\n"


def inequality(coefficients, right_side):
    return " +".join(f" {value} x{i + 1}" for i, value in enumerate(coefficients)) + f" <= {right_side}\n"


def listed(capacity, blocks):
    """The list, with its sizes if they have counts."""
    pairs = together(blocks)
    number = f", {len(blocks)} blocks" if len(blocks) > 1 else ""
    sizes = f": {' / '.join(map(notation, blocks))}" if any(count != 1 for _, count in pairs) else ""
    return f"capacity {capacity}, {len(pairs)} sizes{number}{sizes}\n"


def block_line(capacity, blocks, *steps):
    floors, total = run_blocks(capacity, blocks, *steps)
    return f"blocks: {' '.join(map(str, floors))}, total {total}\n"


def fewest_of(capacity, pairs):
    return wf.exact(capacity, *apart(pairs), [0] * wf.EXACT_WINDOWS)[1]


def fewest_line(capacity, pairs):
    return f"fewest windows: {fewest_of(capacity, pairs)}\n"


def block_fewest_lines(capacity, blocks):
    """Of each block, and their sum."""
    text = "".join(f"block {place}, " + fewest_line(capacity, block) for place, block in enumerate(blocks, start=1))
    return text + f"fewest windows of all blocks: {sum(fewest_of(capacity, block) for block in blocks)}\n"


def half_line(capacity, family, p):
    half = (capacity + 1) // 2
    _, image, scale = wf.image(capacity, family, p, 0, half)
    return f"one more size of {half} would add {image} to a sum that is divided by {scale}\n"


def floor_lines(capacity, blocks, best, step):
    """The best floor and the floors of the blocks; of a short list also the fewest windows of each."""
    short = sum(count for _, count in together(blocks)) <= wf.MOST_COPIES
    text = f"best floor {best}: {FAMILIES[step[0]]}, p = {step[1]}\n" if step else f"best floor {best}: no step\n"
    if short:
        text += fewest_line(capacity, together(blocks))
    if len(blocks) > 1:
        text += block_line(capacity, blocks, *([step] if step else []))
    if len(blocks) > 1 and short:
        text += block_fewest_lines(capacity, blocks)
    return text


def expected(words):
    capacity, blocks = int(words[0]), in_blocks(words[1:])
    if capacity >= 2**32:
        return refused(1)
    refusal, without = run_floor(floor_job(capacity, blocks))
    if refusal:
        return refused(refusal)
    pairs = together(blocks)
    lines, best, step = sweeps(capacity, pairs, without)
    _, scale, _, images = run_cut(capacity, apart(pairs)[0], *([step] if step else []))
    text = listed(capacity, blocks) + f"  {FAMILIES[0]:<19}           floor {without}\n{lines}"
    text += floor_lines(capacity, blocks, best, step) + "cut:" + inequality(images, scale)
    return text + half_line(capacity, *step) if step else text


def expected_rows(rows, steps):
    """Each row as a job of its own, of kind 2: a job of rows does the same for all of them."""
    text = f"{len(rows)} rows, {len(steps)} steps\n"
    if not rows:
        return refused(21)
    for place, (right_side, *coefficients) in enumerate(rows, start=1):
        number, scale, step, images = run_cut(right_side, coefficients, *steps)
        if number:
            return refused(number, f", row {place}" + (f", step {step}" if step else ""))
        text += f"row {place}:" + inequality(coefficients, right_side) + "  cut:" + inequality(images, scale)
    return text


def words_of(line):
    """The list of a run: a file of these, one that is stored, or the arguments themselves."""
    if line in dict(FILES):
        return dict(FILES)[line].split()
    return ((FOLDER / line).read_text() if line.endswith(".txt") else line).split()


def runs():
    """The arguments that planner.sh gives, and what is printed."""
    for line in LISTS + COUNTED + IN_BLOCKS + SHORT + REFUSED + REFUSED_COUNTS + REFUSED_BLOCKS:
        yield line, expected(words_of(line))
    for line, message in WRONG_ARGUMENTS:
        yield line, f"planner: {message}\nexit 2\n"
    for name, _ in FILES:
        yield name, expected(words_of(name))
    for name, message in WRONG_FILES:
        yield name, f"planner: {name}{message}\nexit 2\n"
    for name, rows, steps in MODELS:
        yield " ".join(map(str, ("--rows", name, *sum(steps, ())))), expected_rows(rows, steps)
    for words, message in WRONG_MODELS:
        yield f"--rows{words}", f"planner: {message}\nexit 2\n"


def main():
    text = "".join(f"$ planner {line}".rstrip() + f"\n{printed}" for line, printed in runs())
    if "--print" in sys.argv[1:]:
        sys.stdout.write(text)
        return 0
    if text == (FOLDER / "planner.out").read_text():
        return 0
    print("differs: tests/c/planner.out")
    return 1


if __name__ == "__main__":
    sys.exit(main())
