"""Reference for the operations of the scope document ("01") with the change
requests for many rows, for tables of another capacity, for counts of identical
sizes, for half of an odd window, for blocks, for finer units, for the fewest
windows of short lists and for separate calls of floor and cut ("02", tickets 1,
2 and 4 to 9), and for the operation of version 5.1.0, shortest, written for clarity.
Numbers may be of any size. Comments name the section of 01, the ticket of 02, or the
version that a function follows."""

import sys
from functools import lru_cache

LIMIT = 4_000_000_000  # capacities, parameters, scales and table entries (02, ticket 7)

# Refusal numbers (01, Operations and what they refuse; 02, tickets 1, 4, 6 and 8; version 5.1.0).
ACCEPTED = 0
BAD_CAPACITY = 1
BAD_FAMILY = 2
BAD_PARAMETER = 3
SCALE_TOO_LARGE = 4
SIZE_OVER_CAPACITY = 5
BAD_COUNT = 6
SHORT_BUFFER = 7
FIRST_ENTRY_NOT_0 = 8
LAST_ENTRY_0 = 9
ENTRY_TOO_LARGE = 10
NOT_DUAL_FEASIBLE = 11
JOB_TOO_LONG = 12
PAST_THE_END = 13
BAD_TAG = 14
BAD_LENGTH = 15
BAD_KIND = 16
BAD_SIZE = 17
OTHER_CAPACITY = 18
BAD_RANGE = 19
NO_LEGAL_P = 20
BAD_ROWS = 21
COUNT_0 = 22
BAD_BLOCKS = 23
TOO_MANY_COPIES = 24
DUAL_FEASIBLE = 25

FLOOR, CUT, ROWS = 1, 2, 3  # kinds
FLOOR_KINDS, CUT_KINDS = (FLOOR,), (CUT, ROWS)  # that the floor and the cut operation take
KIND, CAPACITY, SIZES, FAMILY_STEP, TABLE_STEP, ROW, COUNTS, BLOCKS = 1, 2, 3, 4, 5, 6, 7, 8  # tags
STEPS = FAMILY_STEP, TABLE_STEP
MOST_ENTRIES, MOST_SIZES, MOST_STEPS, MOST_ROWS, MOST_BLOCKS, MOST_JOB_BYTES = 2048, 2048, 8, 64, 64, 65535
MOST_COPIES = 10
JOB_IMAGES, JOB_WORKING, JOB_LIST, JOB_SCALES, JOB_BLOCKS = 2048, 2048, 2047, 64, 64  # least places
FLOOR_PLACES = JOB_IMAGES, JOB_WORKING, JOB_LIST, JOB_BLOCKS
CUT_PLACES = JOB_IMAGES, JOB_WORKING, JOB_LIST, JOB_SCALES
EXACT_WINDOWS = 10  # least places


# 01, Words

def up(a, b):
    """a up b: the quotient rounded up."""
    return a // b + (1 if a % b > 0 else 0)


# 01, Families: the formulas

def threshold(capacity, p, x):
    """Families, 1."""
    if x > capacity - p:
        return capacity
    if x < p:
        return 0
    return x


def rounding(capacity, p, x):
    """Families, 2."""
    if x * (p + 1) % capacity == 0:
        return x * p
    return x * (p + 1) // capacity * capacity


def mirror(g, capacity, x):
    """Families, the mirror of g."""
    if 2 * x < capacity:
        return 2 * g(x)
    if 2 * x == capacity:
        return g(capacity)
    return 2 * g(capacity) - 2 * g(capacity - x)


def quotient(p, x):
    """Families, 3, before the mirror."""
    return x // p


def vanderbeck(capacity, p, x):
    """Families, 4, before the mirror."""
    if x == 0:
        return 0
    return up(p * x, capacity) - 1


def burdett_johnson(capacity, p, x):
    """Families, 5."""
    r = capacity % p
    a = x % p
    phi = p - r
    result = x // p * phi
    if a > r:
        result += a - r
    return result


def theta(a, r, q, phi):
    """Families, 6: only used where a > r."""
    assert a > r
    return up((a - r) * q, phi)


def letchford_lodi(capacity, p, q, x):
    """Families, 6, before the mirror."""
    r = capacity % p
    a = x % p
    phi = p - r
    result = (q + 1) * (x // p)
    if a > r:
        result += theta(a, r, q, phi)
    return result


def dash_gunluk(capacity, p, q, x):
    """Families, 7."""
    r = capacity % p
    a = x % p
    phi = p - r
    start = x // p * (q + 1) * phi
    if a <= r:
        return start
    if q * (p - a) % phi == 0:
        return start + (q + 1) * (a - r)
    return start + theta(a, r, q, phi) * phi


def family_image(capacity, family, p, q, x):
    """Families: the image of x, for legal parameters."""
    if family == 1:
        return threshold(capacity, p, x)
    if family == 2:
        return rounding(capacity, p, x)
    if family == 3:
        return mirror(lambda y: quotient(p, y), capacity, x)
    if family == 4:
        return mirror(lambda y: vanderbeck(capacity, p, y), capacity, x)
    if family == 5:
        return burdett_johnson(capacity, p, x)
    if family == 6:
        return mirror(lambda y: letchford_lodi(capacity, p, q, y), capacity, x)
    return dash_gunluk(capacity, p, q, x)


# 01, Families: legal parameters and scales

def legal_with_q(capacity, p, q):
    """Families, 6 and 7."""
    if not 1 <= p <= capacity:
        return False
    r = capacity % p
    return r > 0 and q >= up(p, r) - 1


def legal(capacity, family, p, q):
    """Families; 02, ticket 5: p and q are legal (refusal 3 does not apply)."""
    if p > LIMIT or q > LIMIT:
        return False
    if family <= 5 and q != 0:
        return False
    if family == 1:
        return 2 * p <= capacity + 1
    if family == 2:
        return p >= 1
    if family == 3:
        return p >= 1 and 2 * p <= capacity
    if family == 4:
        return 2 <= p <= capacity
    if family == 5:
        return 1 <= p <= capacity
    return legal_with_q(capacity, p, q)


def mirror_scale(g_of_capacity):
    """Families, the mirror: its scale."""
    return 2 * g_of_capacity


def family_scale(capacity, family, p, q):
    """Families: the scale D, for legal parameters."""
    if family == 1:
        return capacity
    if family == 2:
        return capacity * p
    if family == 3:
        return mirror_scale(quotient(p, capacity))
    if family == 4:
        return mirror_scale(vanderbeck(capacity, p, capacity))
    phi = p - capacity % p
    if family == 5:
        return capacity // p * phi
    if family == 6:
        return mirror_scale(letchford_lodi(capacity, p, q, capacity))
    return phi * (q + 1) * (capacity // p)


# 01, Operations: Image

def capacity_refused(capacity):
    """Operations, Image: refusal 1."""
    return capacity == 0 or capacity > LIMIT


def family_refusal(capacity, family, p, q):
    """Operations, Image: refusals 2, 3 and 4, or 0."""
    if not 1 <= family <= 7:
        return BAD_FAMILY
    if not legal(capacity, family, p, q):
        return BAD_PARAMETER
    if family_scale(capacity, family, p, q) > LIMIT:
        return SCALE_TOO_LARGE
    return ACCEPTED


def image(capacity, family, p, q, x):
    """Operations, Image -> (number, image, scale)."""
    if capacity_refused(capacity):
        return BAD_CAPACITY, 0, 0
    number = family_refusal(capacity, family, p, q)
    if number != ACCEPTED:
        return number, 0, 0
    if x > capacity:
        return SIZE_OVER_CAPACITY, 0, 0
    scale = family_scale(capacity, family, p, q)
    return ACCEPTED, family_image(capacity, family, p, q, x), scale


# 01, Tables and Operations: Table check

def best_totals(entries):
    """Tables: best(0) to best(C). A list is empty, or it has a size y and a
    rest that fits into c - y; sizes 0 add nothing."""
    best = [0]
    for c in range(1, len(entries)):
        best.append(max(0, max(entries[y] + best[c - y] for y in range(1, c + 1))))
    return best


@lru_cache(maxsize=16)
def known_best(entries):
    """best_totals of a tuple. A job's table comes again in each of its rows."""
    return best_totals(entries)


def counterexample(entries, best):
    """Tables: the counterexample."""
    found = []
    c = len(entries) - 1
    while best[c] > 0:
        y = 1
        while entries[y] + best[c - y] != best[c]:
            y += 1
        found.append(y)
        c -= y
    return found


def content_refusal(entries):
    """Operations, Table check: refusals 8, 9 and 10, or 0."""
    if entries[0] != 0:
        return FIRST_ENTRY_NOT_0
    if entries[-1] == 0:
        return LAST_ENTRY_0
    if max(entries) > LIMIT:
        return ENTRY_TOO_LARGE
    return ACCEPTED


def early_table_refusal(entries, working, lst):
    """Operations, Table check: refusals 6 to 10, or 0."""
    if not 2 <= len(entries) <= MOST_ENTRIES:
        return BAD_COUNT
    if len(working) < len(entries) or len(lst) < len(entries) - 1:
        return SHORT_BUFFER
    return content_refusal(entries)


def table_check(entries, working, lst):
    """Operations, Table check -> (number, length)."""
    number = early_table_refusal(entries, working, lst)
    if number != ACCEPTED:
        return number, 0
    best = known_best(tuple(entries))
    working[:len(best)] = best
    if best[-1] <= entries[-1]:
        return ACCEPTED, 0
    found = counterexample(entries, best)
    lst[:len(found)] = found
    return NOT_DUAL_FEASIBLE, len(found)


# Version 5.1.0: Shortest

def row_after(row, entries):
    """Row k, of row k - 1. Place c of row k is the greatest total of images over lists of at most k sizes that fit c. A
    list is empty, or it has a size y and a rest, of at most k - 1 sizes, that fits c - y. Images of 0 add nothing."""
    sizes = [y for y, entry in enumerate(entries) if entry > 0]
    return [max((entries[y] + row[c - y] for y in sizes if y <= c), default=0) for c in range(len(row))]


def shortest_rows(entries):
    """Rows 0, 1 and so on, up to the first whose last place is over the last entry."""
    rows = [[0] * len(entries)]
    while rows[-1][-1] <= entries[-1]:
        rows.append(row_after(rows[-1], entries))
    return rows


def shortest_list(entries):
    """A size for each row but row 0, from the last one on: it leaves the rest to the row before."""
    rows, c, found = shortest_rows(entries), len(entries) - 1, []
    while len(found) < len(rows) - 1:
        row, before = rows[-1 - len(found)], rows[-2 - len(found)]
        y = 1
        while entries[y] + before[c - y] != row[c]:
            y += 1
        found.append(y)
        c -= y
    return found


def shows(entries, sizes):
    """The sizes total at most C, and their images more than the last entry. Which shortest list does it is free."""
    return sum(sizes) <= len(entries) - 1 and sum(entries[y] for y in sizes) > entries[-1]


def shortest(entries, working, second, lst):
    """Shortest -> (number, length). 25 comes where the table check accepts. Both working buffers may hold anything
    after acceptance and 25; here they stay."""
    number = early_table_refusal(entries, min(working, second, key=len), lst)
    if number != ACCEPTED:
        return number, 0
    if known_best(tuple(entries))[-1] <= entries[-1]:
        return DUAL_FEASIBLE, 0
    found = shortest_list(entries)
    lst[:len(found)] = found
    return ACCEPTED, len(found)


# 01, Jobs: the fields

def number_of(part):
    """Words: unsigned, high byte first."""
    return int.from_bytes(part, "big")


def numbers_of(value, width=4):
    """Jobs: the numbers of a value, of so many bytes each."""
    return [number_of(value[i:i + width]) for i in range(0, len(value), width)]


def kind_of(fields):
    """Jobs: the kind byte. The first field is always tag 1."""
    return number_of(fields[0][1])


def has_rows(fields):
    """02, ticket 1: the kind byte is 3, so rows stand in the place of tags 2 and 3."""
    return len(fields) > 0 and kind_of(fields) == ROWS


def counts_may_follow(fields):
    """02, ticket 4: tag 7 comes right after tag 3, and only where the kind byte is 1."""
    return len(fields) > 0 and kind_of(fields) == FLOOR and fields[-1][0] == SIZES


def blocks_may_follow(fields):
    """02, ticket 6: tag 8 ends the list part, right after tag 3 or tag 7, and only where the kind byte is 1."""
    return len(fields) > 0 and kind_of(fields) == FLOOR and fields[-1][0] in (SIZES, COUNTS)


def may_end(fields):
    """Jobs: these fields can be a whole job; refusal 14 if not."""
    return has_rows(fields) or len(fields) >= 3


def tag_in_place(fields, tag):
    """Jobs; 02, tickets 1, 4 and 6: tag may follow these fields; refusal 14 if not."""
    if tag in STEPS:
        return may_end(fields) and len(steps_of(fields)) < MOST_STEPS
    if tag == COUNTS:
        return counts_may_follow(fields)
    if tag == BLOCKS:
        return blocks_may_follow(fields)
    if has_rows(fields):
        return tag == ROW and fields[-1][0] in (KIND, ROW)
    return len(fields) < 3 and tag == (KIND, CAPACITY, SIZES)[len(fields)]


def length_right(tag, length, fields=()):
    """Jobs; 02, tickets 1, 4 and 6: the lengths of the tags; refusal 15 if wrong. That of tag 7 depends on the fields
    before it."""
    if tag == KIND:
        return length == 1
    if tag == CAPACITY:
        return length == 4
    if tag == SIZES:
        return length % 4 == 0 and length <= 4 * MOST_SIZES
    if tag == FAMILY_STEP:
        return length == 9
    if tag == ROW:
        return length % 4 == 0 and length >= 4
    if tag == COUNTS:
        return length == 2 * len(sizes_of(fields))
    if tag == BLOCKS:
        return length % 2 == 0
    return 8 <= length <= 4 * MOST_ENTRIES and length % 4 == 0


def read_fields(data):
    """Jobs: each field in turn -> (number, list of (tag, value))."""
    fields = []
    rest = data
    while len(rest) > 0:
        if len(rest) < 3:
            return PAST_THE_END, []
        tag, length = rest[0], number_of(rest[1:3])
        if len(rest) < 3 + length:
            return PAST_THE_END, []
        if not tag_in_place(fields, tag):
            return BAD_TAG, []
        if not length_right(tag, length, fields):
            return BAD_LENGTH, []
        fields.append((tag, rest[3:3 + length]))
        rest = rest[3 + length:]
    if not may_end(fields):
        return BAD_TAG, []
    return ACCEPTED, fields


def value_of(fields, tag):
    """Jobs: the value of the field with this tag, empty if there is none."""
    return dict(fields).get(tag, b"")


def sizes_of(fields):
    """Jobs, tag 3."""
    return numbers_of(value_of(fields, SIZES))


def counts_of(fields):
    """02, ticket 4: a count for each size; without tag 7 each is 1."""
    if COUNTS in dict(fields):
        return numbers_of(value_of(fields, COUNTS), 2)
    return [1] * len(sizes_of(fields))


def blocks_of(fields):
    """02, ticket 6: the number of sizes of each block; None without tag 8."""
    if BLOCKS in dict(fields):
        return numbers_of(value_of(fields, BLOCKS), 2)
    return None


def steps_of(fields):
    """Jobs: the fields that are steps, in order."""
    return [field for field in fields if field[0] in STEPS]


def rows_of(fields):
    """02, ticket 1: each row's numbers, its right side first."""
    return [numbers_of(value) for tag, value in fields if tag == ROW]


# 01, Jobs: the steps. Each gives (number, length, images, scale).

def family_step(value, capacity, images):
    """Jobs, tag 4."""
    family, p, q = value[0], number_of(value[1:5]), number_of(value[5:9])
    number = family_refusal(capacity, family, p, q)
    if number != ACCEPTED:
        return number, 0, [], 0
    after = [family_image(capacity, family, p, q, x) for x in images]
    return ACCEPTED, 0, after, family_scale(capacity, family, p, q)


def table_step(value, capacity, images, working, lst):
    """Jobs, tag 5; 02, ticket 2: 18 comes first."""
    entries = numbers_of(value)
    if len(entries) - 1 != capacity:
        return OTHER_CAPACITY, 0, [], 0
    number, length = table_check(entries, working, lst)
    if number != ACCEPTED:
        return number, length, [], 0
    return ACCEPTED, 0, [entries[x] for x in images], entries[-1]


def take_step(field, capacity, images, working, lst):
    """Jobs: one step of either tag."""
    tag, value = field
    if tag == FAMILY_STEP:
        return family_step(value, capacity, images)
    return table_step(value, capacity, images, working, lst)


# 01, Operations: Job; 02, ticket 9: what the floor and the cut operation share

def blocks_refused(blocks, n):
    """02, ticket 6: refusal 23, of the blocks of n sizes."""
    return 0 in blocks or len(blocks) > MOST_BLOCKS or sum(blocks) != n


def list_refusal(kind, capacity, sizes, counts=(), blocks=None):
    """Operations, Job; 02, tickets 4 and 6: refusals 1, 17, 22 and 23, or 0."""
    if capacity_refused(capacity):
        return BAD_CAPACITY
    if any(size > capacity or (size == 0 and kind == FLOOR) for size in sizes):
        return BAD_SIZE
    if 0 in counts:
        return COUNT_0
    if blocks is not None and blocks_refused(blocks, len(sizes)):
        return BAD_BLOCKS
    return ACCEPTED


def rows_refused(rows):
    """02, ticket 1: refusal 21."""
    coefficients = sum(len(row) - 1 for row in rows)
    return not 1 <= len(rows) <= MOST_ROWS or coefficients > MOST_SIZES


def early_job_refusal(data, lent, least):
    """Operations, Job; 02, tickets 1, 6 and 9: refusals 12 and 7, or 0. The operation's own buffer is lent last."""
    if len(data) > MOST_JOB_BYTES:
        return JOB_TOO_LONG
    if any(len(buffer) < places for buffer, places in zip(lent, least, strict=True)):
        return SHORT_BUFFER
    return ACCEPTED


def read_job(data, lent, least, kinds):
    """Operations, Job; 02, ticket 9: refusals 12, 7, 13, 14, 15 and 16, or the fields of a job of one of these kinds
    -> (number, list of (tag, value))."""
    number = early_job_refusal(data, lent, least)
    if number != ACCEPTED:
        return number, []
    number, fields = read_fields(data)
    if number == ACCEPTED and kind_of(fields) not in kinds:
        return BAD_KIND, []
    return number, fields


def judge(kind, capacity, sizes, counts, blocks, steps, working, lst):
    """Operations, Job; 02, tickets 4 and 6: a list or a row in full: refusals
    1, 17, 22 and 23, then the steps in order -> (number, step, length, images,
    scale)."""
    number = list_refusal(kind, capacity, sizes, counts, blocks)
    if number != ACCEPTED:
        return number, 0, 0, [], 0
    present, scale = sizes, capacity
    for place, field in enumerate(steps, start=1):
        number, length, present, scale = take_step(field, scale, present, working, lst)
        if number != ACCEPTED:
            return number, place, length, [], 0
    return ACCEPTED, 0, 0, present, scale


def judge_list(fields, working, lst):
    """The same of the one list of kinds 1 and 2."""
    capacity, sizes = number_of(value_of(fields, CAPACITY)), sizes_of(fields)
    counts, blocks, steps = counts_of(fields), blocks_of(fields), steps_of(fields)
    return judge(kind_of(fields), capacity, sizes, counts, blocks, steps, working, lst)


# 02, ticket 9: Floor

def refused_floor(number, step=0, length=0):
    """The answer to a job that is refused."""
    return number, 0, 0, 0, 0, step, length, 0, 0


def floor_of(total, scale):
    """Jobs: the floor."""
    return up(total, scale)


def total_of(images, counts):
    """02, ticket 4: the sum of count times image."""
    return sum(count * image for count, image in zip(counts, images, strict=True))


def block_floors(present, counts, blocks, scale):
    """02, ticket 6: the floor of each block's part of the list, in list order."""
    floors, at = [], 0
    for n in blocks:
        total = total_of(present[at:at + n], counts[at:at + n])
        floors.append(floor_of(total, scale))
        at += n
    return floors


def floor_answer(present, counts, blocks, scale, lent_blocks):
    """02, tickets 4 and 6: an accepted job's answer, and its block floors
    written. Without blocks the total is the whole floor."""
    floors = [] if blocks is None else block_floors(present, counts, blocks, scale)
    lent_blocks[:len(floors)] = floors
    whole = total_of(present, counts)
    floor = floor_of(whole, scale)
    total = floor if blocks is None else sum(floors)
    return ACCEPTED, len(present), floor, whole, scale, 0, 0, 0, total


def floor(data, images, working, lst, blocks):
    """02, ticket 9, Floor -> (number, n, floor, sum, scale, step, length, row,
    total). No refusal has a row."""
    number, fields = read_job(data, (images, working, lst, blocks), FLOOR_PLACES, FLOOR_KINDS)
    if number != ACCEPTED:
        return refused_floor(number)
    number, step, length, present, scale = judge_list(fields, working, lst)
    if number != ACCEPTED:
        return refused_floor(number, step, length)
    images[:len(present)] = present
    return floor_answer(present, counts_of(fields), blocks_of(fields), scale, blocks)


# 02, ticket 9: Cut

def refused_cut(number, step=0, length=0, row=0):
    """The answer to a job that is refused."""
    return number, 0, 0, step, length, row


def cut_row(fields, images, working, lst):
    """Kind 2."""
    number, step, length, present, scale = judge_list(fields, working, lst)
    if number != ACCEPTED:
        return refused_cut(number, step, length)
    images[:len(present)] = present
    return ACCEPTED, len(present), scale, 0, 0, 0


def cut_rows(fields, images, working, lst, scales):
    """02, ticket 1: kind 3. Every row is judged in full before the next; it has no counts and no blocks."""
    rows, steps = rows_of(fields), steps_of(fields)
    if rows_refused(rows):
        return refused_cut(BAD_ROWS)
    all_images, all_scales = [], []
    for place, (right, *coefficients) in enumerate(rows, start=1):
        number, step, length, present, scale = judge(ROWS, right, coefficients, (), None, steps, working, lst)
        if number != ACCEPTED:
            return refused_cut(number, step, length, place)
        all_images += present
        all_scales.append(scale)
    images[:len(all_images)] = all_images
    scales[:len(all_scales)] = all_scales
    return ACCEPTED, len(all_images), 0, 0, 0, 0


def cut(data, images, working, lst, scales):
    """02, ticket 9, Cut -> (number, n, scale, step, length, row). The scale of many rows is 0: each has its own."""
    number, fields = read_job(data, (images, working, lst, scales), CUT_PLACES, CUT_KINDS)
    if number != ACCEPTED:
        return refused_cut(number)
    if kind_of(fields) == ROWS:
        return cut_rows(fields, images, working, lst, scales)
    return cut_row(fields, images, working, lst)


# 01, Operations: Sweep

def counted_list_refusal(capacity, sizes, counts):
    """Operations, Sweep; 02, tickets 4 and 8: refusals 6, 17 and 22 of a list that is in no job, or 0."""
    if len(sizes) > MOST_SIZES or len(counts) != len(sizes):
        return BAD_COUNT
    return list_refusal(FLOOR, capacity, sizes, counts)


def sweep_refusal(capacity, family, sizes, counts, low, high):
    """Operations, Sweep; 02, ticket 4: refusals 1, 2, 6, 17, 22 and 19, or 0."""
    if capacity_refused(capacity):
        return BAD_CAPACITY
    if not 1 <= family <= 5:
        return BAD_FAMILY
    number = counted_list_refusal(capacity, sizes, counts)
    if number != ACCEPTED:
        return number
    if low > high or high - low > 4095:
        return BAD_RANGE
    return ACCEPTED


def one_step_floor(capacity, family, p, sizes, counts):
    """Operations, Sweep; 02, ticket 4: the floor of one family step."""
    total = total_of([family_image(capacity, family, p, 0, x) for x in sizes], counts)
    return floor_of(total, family_scale(capacity, family, p, 0))


def sweep(capacity, family, sizes, counts, low, high):
    """Operations, Sweep -> (number, floor, p)."""
    number = sweep_refusal(capacity, family, sizes, counts, low, high)
    if number != ACCEPTED:
        return number, 0, 0
    floors = [(one_step_floor(capacity, family, p, sizes, counts), p)
              for p in range(low, high + 1)
              if family_refusal(capacity, family, p, 0) == ACCEPTED]
    if not floors:
        return NO_LEGAL_P, 0, 0
    largest = max(floor for floor, p in floors)
    return ACCEPTED, largest, min(p for floor, p in floors if floor == largest)


# 02, ticket 8: Exact

def exact_refusal(capacity, sizes, counts, windows):
    """02, ticket 8: refusals 1, 6, 17, 22, 24 and 7, or 0."""
    if capacity_refused(capacity):
        return BAD_CAPACITY
    number = counted_list_refusal(capacity, sizes, counts)
    if number != ACCEPTED:
        return number
    if sum(counts) > MOST_COPIES:
        return TOO_MANY_COPIES
    if len(windows) < EXACT_WINDOWS:
        return SHORT_BUFFER
    return ACCEPTED


def copies_of(sizes, counts):
    """02, ticket 8: each copy's size, in list order."""
    return [size for size, count in zip(sizes, counts, strict=True) for _ in range(count)]


def parts_with_first(group):
    """The parts of a group that have its first copy. Bit i of a group stands for copy i."""
    first = group & -group
    others = part = group - first
    while part > 0:
        yield first | part
        part = (part - 1) & others
    yield first


def best_windows(capacity, copies):
    """02, ticket 8: as few windows as can be, each a group of copies. A group needs a window for its first copy, and
    those of the copies that are not in it."""
    totals, best = [0], [()]
    for group in range(1, 2**len(copies)):
        last = group.bit_length() - 1
        totals.append(totals[group - 2**last] + copies[last])
        best.append(min(((part,) + best[group - part] for part in parts_with_first(group) if totals[part] <= capacity),
                        key=len))
    return best[-1]


def exact(capacity, sizes, counts, windows):
    """02, ticket 8 -> (number, fewest)."""
    number = exact_refusal(capacity, sizes, counts, windows)
    if number != ACCEPTED:
        return number, 0
    copies = copies_of(sizes, counts)
    best = best_windows(capacity, copies)
    for window, group in enumerate(best):
        for copy in range(len(copies)):
            if group >> copy & 1:
                windows[copy] = window
    return ACCEPTED, len(best)


def fits(capacity, copies, numbers):
    """02, ticket 8: no window's copies total more than the capacity."""
    loads = dict.fromkeys(numbers, 0)
    for size, window in zip(copies, numbers, strict=True):
        loads[window] += size
    return all(load <= capacity for load in loads.values())


def is_assignment(capacity, copies, numbers, fewest):
    """02, ticket 8: it fits, and its window numbers are those from 0 and below the fewest. Which it is is free."""
    return fits(capacity, copies, numbers) and set(numbers) == set(range(fewest))


# 01, The hand-over program

def line(word, values):
    """The hand-over program: one space before each value."""
    return word + "".join(" %d" % value for value in values) + "\n"


def refusal_text(data, number, row, step, listed):
    """The hand-over program; 02, ticket 1: the row only if the fourth byte is 3."""
    of_rows = len(data) >= 4 and data[3] == ROWS
    text = line("refused", [number, row, step] if of_rows else [number, step])
    if number == NOT_DUAL_FEASIBLE:
        text += line("list", listed)
    return text


def cut_text(scale, images):
    """The hand-over program: a strengthened row."""
    return line("scale", [scale]) + line("images", images)


def rows_text(data, images, scales):
    """02, ticket 1: each row's lines, with as many images as coefficients."""
    text, at = "", 0
    for row, scale in zip(rows_of(read_fields(data)[1]), scales):
        end = at + len(row) - 1
        text += cut_text(scale, images[at:end])
        at = end
    return text


def blocks_text(data, floors):
    """02, ticket 6: the block floors, as many as tag 8 has numbers. Without the tag there is no such line."""
    blocks = blocks_of(read_fields(data)[1])
    return "" if blocks is None else line("blocks", floors[:len(blocks)])


def calls_cut(data):
    """02, ticket 9: the program calls the cut operation if the fourth byte is 2 or 3, else the floor operation."""
    return len(data) >= 4 and data[3] in CUT_KINDS


def text_of_floor(data):
    """The hand-over program: its text by the floor operation."""
    images, working, lst, blocks = ([0] * places for places in FLOOR_PLACES)
    number, n, bound, whole, scale, step, length, row, _ = floor(data, images, working, lst, blocks)
    if number != ACCEPTED:
        return refusal_text(data, number, row, step, lst[:length])
    first = line("floor", [bound]) + line("sum", [whole])
    return first + cut_text(scale, images[:n]) + blocks_text(data, blocks)


def text_of_cut(data):
    """The hand-over program: its text by the cut operation."""
    images, working, lst, scales = ([0] * places for places in CUT_PLACES)
    number, n, scale, step, length, row = cut(data, images, working, lst, scales)
    if number != ACCEPTED:
        return refusal_text(data, number, row, step, lst[:length])
    if data[3] == ROWS:  # an accepted job has its kind there
        return rows_text(data, images, scales)
    return cut_text(scale, images[:n])


def program(data):
    """The hand-over program: what it prints for a job."""
    text = text_of_cut(data) if calls_cut(data) else text_of_floor(data)
    return text.encode()


if __name__ == "__main__":
    sys.stdout.buffer.write(program(sys.stdin.buffer.read()))
