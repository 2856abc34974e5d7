"""Jobs as bytes: their fields, the cases made of them, what is random in them, and damage."""

import itertools

import windowfloor as wf
from edges import LIMIT, MAX

ONES = 0x01010101
MOST_ONES = LIMIT // ONES  # its multiples up to this one are within the limit, and their repeats are one run of bytes
SAME = MOST_ONES * ONES

FLOORS, CUTS = 1, 2  # the operations of jobs, as the cases name them
LEAST = {FLOORS: wf.FLOOR_PLACES, CUTS: wf.CUT_PLACES}


# Fields and whole jobs

def word(number):
    return number.to_bytes(4, "big")


def field(tag, value, length=None):
    """A field; its header may say another length."""
    length = len(value) if length is None else length
    return bytes([tag]) + length.to_bytes(2, "big") + value


def words(numbers):
    return b"".join(map(word, numbers))


def family(number, p, q=0):
    return field(4, bytes([number]) + word(p) + word(q))


def table(*entries):
    return field(5, words(entries))


def head(kind, capacity, sizes):
    return [field(1, bytes([kind])), field(2, word(capacity)), field(3, words(sizes))]


def job(kind, capacity, sizes, *steps):
    return b"".join(head(kind, capacity, sizes) + list(steps))


def last_only(n, last):
    """A table of n entries, all 0 but the last."""
    return table(*[0] * (n - 1), last)


def tables_of(*lengths):
    """Tables of these lengths, one behind another: all but the last entry is 0."""
    return [last_only(n, after - 1) for n, after in zip(lengths, lengths[1:] + (8,))]


def bad_tables(capacity):
    """Tables of this capacity, 2 or more, that the table check refuses with 8, 9, 10 and 11."""
    zeros = [0] * (capacity - 2)
    return table(1, 0, *zeros, 1), table(0, 1, *zeros, 0), table(0, 0, *zeros, LIMIT + 1), table(0, 1, *zeros, 1)


def row(right, *coefficients):
    return field(6, words((right,) + coefficients))


def rows_fields(rows, *steps):
    """The fields of a job of kind 3; a row is its right side and its coefficients."""
    return [field(1, b"\3")] + [row(*numbers) for numbers in rows] + list(steps)


def rows_job(rows, *steps):
    return b"".join(rows_fields(rows, *steps))


def halfwords(numbers):
    return b"".join(number.to_bytes(2, "big") for number in numbers)


def counts(*numbers):
    return field(7, halfwords(numbers))


def blocks(*numbers):
    return field(8, halfwords(numbers))


def apart(pairs):
    """The sizes of pairs, and their counts."""
    return [size for size, _ in pairs], [count for _, count in pairs]


def written_out(pairs):
    """The sizes of pairs, each as often as it is counted."""
    return [size for size, count in pairs for _ in range(count)]


def counted_fields(capacity, pairs, *steps):
    """The fields of a floor job with counts; a pair is a size and its count."""
    sizes, numbers = apart(pairs)
    return head(1, capacity, sizes) + [counts(*numbers)] + list(steps)


def counted_job(capacity, pairs, *steps):
    return b"".join(counted_fields(capacity, pairs, *steps))


def together(groups):
    """The members of all groups, one behind the other."""
    return [member for group in groups for member in group]


def groups_at(members, cuts):
    """The members in order, in groups that start at the first and at these places."""
    starts = [0, *cuts]
    return [members[start:end] for start, end in zip(starts, starts[1:] + [len(members)])]


def blocks_of(groups):
    return blocks(*map(len, groups))


def blocked_job(capacity, groups, *steps):
    """A floor job with blocks; a group has the sizes of one block."""
    return job(1, capacity, together(groups), blocks_of(groups), *steps)


def counted_blocked_job(capacity, groups, *steps):
    """The same with counts; a group has the pairs of one block."""
    return counted_job(capacity, together(groups), blocks_of(groups), *steps)


# Refused at capacity 10.
BAD_STEPS = (
    family(0, 1), family(8, 1), family(255, 1), family(1, 6), family(1, 3, 1), family(2, 0),
    family(3, 0), family(4, 1), family(4, 11), family(5, 11), family(6, 3, 1), family(6, 5, 9),
    family(7, 3, 1), family(2, LIMIT), family(2, LIMIT + 1), family(2, MAX), family(1, 3, MAX),
    family(2, LIMIT // 10 + 1), family(7, 3, LIMIT), family(6, 3, LIMIT), family(7, 3, LIMIT + 1),
    table(1, *range(1, 11)), table(*range(10), 0), table(0, *range(1, 10), LIMIT + 1),
    table(0, LIMIT + 1, *[0] * 8, LIMIT), table(*range(10), 9), table(0, 1, *[0] * 8, 9),
    table(*range(12)), table(0, 1), table(*range(10)), table(1, 1), table(0, 0), table(0, MAX),
    table(0, 1, 1), table(1, MAX, 0), table(0, MAX, 0), table(*range(11), 10))


def tables_about_4():
    """A capacity and steps that leave 4 to a table of 3, 4 or 5, bad or in order: the table alone, and behind a step
    that makes 4 of 5; then bad tables of 4 and of 5, in both orders."""
    for capacity in (3, 4, 5):
        for entries in bad_tables(capacity) + (table(*range(capacity + 1)),):
            yield 4, (entries,)
            yield 5, (family(4, 3), entries)
    for right, other in zip(bad_tables(4), bad_tables(5)):
        yield 4, (right, other)
        yield 4, (other, right)


# Cases

def lent(places):
    """Buffers with so many places."""
    return [[0] * count for count in places]


def make_for(operation, data, *places):
    """A case of an operation, a job and the places of the buffers, each as many as it needs if they are not given."""
    runs = [(len(list(group)), byte) for byte, group in itertools.groupby(data)]
    return (operation, *places, *LEAST[operation][len(places):], len(data), len(runs)) + sum(runs, ())


def make(data, *places):
    """The case of the operation that the program calls."""
    return make_for(CUTS if wf.calls_cut(data) else FLOORS, data, *places)


def make_both(data, *places):
    """The cases of both operations."""
    return [make_for(operation, data, *places) for operation in LEAST]


def with_early_faults(data, faults, out_of_place):
    """The cases of both operations of a job with those of these faults that come before 15: 12, 7, 13 and 14, for
    which it ends with a field that is out of place."""
    data += (out_of_place if 14 in faults else b"") + (b"\4\0" if 13 in faults else b"")
    if 12 in faults:
        data += bytes(wf.MOST_JOB_BYTES + 1 - len(data))
    return make_both(data, wf.JOB_IMAGES, wf.JOB_WORKING, wf.JOB_LIST, 63 if 7 in faults else 64)


# A good job in every way changed

def cut_short(data):
    """A job cut at every byte, and whole."""
    for end in range(len(data) + 1):
        yield data[:end]


def other_tags_at(good, place):
    """Every tag at a place of the good fields; the field there left out, and twice."""
    before, part, behind = good[:place], good[place], good[place + 1:]
    for tag in (0, 1, 2, 3, 4, 5, 6, 7, 8, 9, 128, 255):
        yield b"".join(before + [bytes([tag]) + part[1:]] + behind)
    yield b"".join(before + behind)
    yield b"".join(before + [part, part] + behind)


def other_tags(good):
    for place in range(len(good)):
        yield from other_tags_at(good, place)


def other_lengths_at(good, place):
    """Other lengths of the field at a place: of its value and its header, and of the header alone."""
    others = (8187, 8188, 8189, 8191, 8192, 8193, 8196, 12_000)
    before, part, behind = good[:place], good[place], good[place + 1:]
    value = part[3:]
    for length in itertools.chain(range(33), others):
        yield b"".join(before + [field(part[0], (value + bytes(length))[:length])] + behind)
    for length in (0, 1, len(value) - 1, len(value) + 1, len(value) + 4, 256, 65_535):
        yield b"".join(before + [field(part[0], value, length)] + behind)


def other_lengths(good):
    for place in range(len(good)):
        yield from other_lengths_at(good, place)


# Random jobs

def leaving(draw, left):
    """A job, drawn until its sum is so many more than a multiple of E."""
    while True:
        data = draw()
        _, _, _, total, scale, *_ = wf.floor(data, *lent(wf.FLOOR_PLACES))
        if (total - left) % scale == 0:
            return data


def random_pairs(rng, capacity, n, most):
    """So many pairs, with counts up to the most."""
    return [(rng.randint(1, capacity), rng.randint(1, most)) for _ in range(n)]


def random_groups(rng, members, most):
    """The members in order, in at most so many groups of one or more."""
    if not members:
        return []
    cuts = rng.sample(range(1, len(members)), rng.randint(0, min(most, len(members)) - 1))
    return groups_at(members, sorted(cuts))


def random_family(rng, capacity):
    """A family step that is legal at this capacity, and its scale."""
    while True:
        number = rng.randint(1, 7)
        p = rng.choice((rng.randint(0, 12), rng.randint(0, capacity), capacity // 2))
        q = 0 if number <= 5 else rng.randint(0, 20)
        if wf.family_refusal(capacity, number, p, q) == wf.ACCEPTED:
            return family(number, p, q), wf.family_scale(capacity, number, p, q)


def random_table(rng, capacity):
    """A dual-feasible table of this capacity, and its scale."""
    most = rng.choice((1, 2, 5, 30, 1000))
    entries = [0] + [rng.randint(0, most) for _ in range(capacity)]
    entries[-1] = max(1, wf.best_totals(entries[:-1] + [0])[-1] + rng.randint(0, 2))
    return table(*entries), entries[-1]


def random_steps(rng, capacity):
    """A chain that is accepted at this capacity."""
    steps = []
    for _ in range(rng.choice((0, 1, 1, 2, 2, 3, 4, 5, 8))):
        chosen = random_table if capacity <= 30 and rng.randint(0, 1) else random_family
        step, capacity = chosen(rng, capacity)
        steps.append(step)
    return steps


# Damage

def change_byte(rng, data):
    place = rng.randrange(len(data))
    byte = rng.choice((0, 1, 255, data[place] ^ 1, rng.randrange(256), (data[place] + 1) % 256))
    return data[:place] + bytes([byte]) + data[place + 1:]


def damaged(rng, fields):
    """The job with its fields or its bytes changed."""
    way = rng.randint(0, 9)
    place = rng.randrange(len(fields))
    if way == 0:
        fields = fields[:place] + fields[place + 1:]
    elif way == 1:
        fields = fields[:place] + [rng.choice(fields)] + fields[place:]
    elif way == 2:
        fields = rng.sample(fields, len(fields))
    data = b"".join(fields)
    cut = rng.randint(0, len(data))
    if way == 3:
        return data[:cut]
    if way == 4:
        return data[:cut] + bytes([rng.randrange(256)]) + data[cut:]
    if way == 5:
        return data[:cut] + data[cut + rng.randint(1, 4):]
    if way > 5:  # mostly one byte
        for _ in range(rng.choice((1, 1, 1, 2, 3))):
            data = change_byte(rng, data)
    return data


def changed_value(rng, fields):
    """The job with a byte of a value changed, tags and lengths kept."""
    place = rng.randrange(len(fields))
    part = fields[place]
    if len(part) > 3:
        part = part[:3] + change_byte(rng, part[3:])
    return b"".join(fields[:place] + [part] + fields[place + 1:])


def other_value(rng, fields, place):
    """The job with a byte of the value at a place changed."""
    return b"".join(fields[:place]) + changed_value(rng, fields[place:place + 1]) + b"".join(fields[place + 1:])


def moved(rng, fields, place):
    """The job with the field of a place at another, or there as well."""
    start = rng.choice((fields, fields[:place] + fields[place + 1:]))
    other = rng.randint(0, len(start))
    return b"".join(start[:other] + [fields[place]] + start[other:])
