"""The inputs of the base release, made from fixed seeds: `inputs()` has a list
of inputs for each operation.

Every family has legal parameters, those at the edge and those next to it;
every refusal comes alone and beside those that it goes before; jobs are whole,
cut short, and damaged in their tags, lengths and values. What later requests
change has its own parts: tags 6 to 8, kinds above 2, tables of another
capacity that are not in order either, thresholds at half of an odd capacity,
and numbers over the limit."""

import itertools
import random

LIMIT = 1_000_000_000
HIGHER = 4_000_000_000  # the limit of request 7
MAX, MAX64 = 2**32 - 1, 2**64 - 1
OVER = (LIMIT, LIMIT + 1, 2_000_000_000, HIGHER, HIGHER + 1, MAX)
FAMILIES = (1, 2, 3, 4, 5, 6, 7)
ENTRIES, SIZES = 2048, 2048  # the most of a table, of a list


# Which steps are legal, and their scales

def least_q(capacity, p):
    """The least legal q of families 6 and 7."""
    return -(-p // (capacity % p)) - 1


def is_legal(capacity, family, p, q):
    if max(p, q) > LIMIT or (family <= 5 and q > 0):
        return False
    if family in (1, 3):
        return 2 * p <= capacity and p >= (family == 3)
    if family == 2:
        return p >= 1
    if not 1 + (family == 4) <= p <= capacity:
        return False
    return family <= 5 or (capacity % p > 0 and q >= least_q(capacity, p))


def scale(capacity, family, p, q):
    if family == 1:
        return capacity
    if family == 2:
        return capacity * p
    if family == 4:
        return 2 * (p - 1)
    whole, gap = capacity // p, p - capacity % p
    return {3: 2 * whole, 5: whole * gap, 6: 2 * (q + 1) * whole, 7: whole * gap * (q + 1)}[family]


def passes(capacity, family, p, q):
    return is_legal(capacity, family, p, q) and scale(capacity, family, p, q) <= LIMIT


def best_totals(entries):
    best = [0]
    for c in range(1, len(entries)):
        best.append(max(entries[y] + best[c - y] for y in range(1, c + 1)))
    return best


def around(*numbers):
    """The numbers and those next to them, each once, none under 0."""
    return sorted({n + more for n in numbers for more in (-1, 0, 1) if n + more >= 0})


# Images

def image(capacity, family, p, q, x):
    return dict(capacity=capacity, family=family, p=p, q=q, x=x)


def parameters(rng, capacity, family):
    """p and q: legal ones, and those at the edges."""
    edges = around(0, capacity // 2, (capacity + 1) // 2, capacity, LIMIT)
    if family == 2:
        edges += around(LIMIT // capacity, HIGHER // capacity)
    p = rng.choice((rng.choice(edges), rng.randint(0, capacity), rng.randint(1, 9)))
    if family not in (6, 7):
        return p, 0 if rng.randrange(12) else rng.choice((1, LIMIT, MAX64))
    if 1 <= p <= capacity and capacity % p > 0:
        whole = scale(capacity, family, p, 0)
        q = rng.choice(around(least_q(capacity, p), least_q(capacity, p) + 5, LIMIT // whole))
        return p, q
    return p, rng.choice((0, 1, 5, LIMIT, LIMIT + 1))


def near_edge(rng, capacity, p):
    """A size: one where a formula changes, or any."""
    part = max(1, min(p, capacity))
    edges = around(0, part, capacity // 2, capacity - part, capacity, capacity % part)
    return rng.choice((rng.choice(edges), rng.randint(0, capacity), part * rng.randint(0, capacity // part)))


CAPACITIES = (1, 2, 3, 4, 5, 6, 7, 9, 10, 11, 12, 24, 60, 97, 100, 1000, 12_345, 31_623, 10**8, LIMIT - 1, LIMIT)


def images():
    rng = random.Random(1)
    for capacity, family in itertools.product(CAPACITIES, FAMILIES):
        for _ in range(7):
            p, q = parameters(rng, capacity, family)
            yield image(capacity, family, p, q, near_edge(rng, capacity, p))
        tried = [parameters(rng, capacity, family) for _ in range(40)]
        for p, q in [pair for pair in tried if passes(capacity, family, *pair)][:6]:
            yield image(capacity, family, p, q, near_edge(rng, capacity, p))
    for family, p, x in itertools.product((1, 2, 3, 4, 5), range(8), range(7)):
        yield image(6, family, p, 0, x)
    for p, q, x in itertools.product(range(1, 7), (1, 2, 4), range(0, 8, 2)):
        yield image(7, 6, p, q, x)
        yield image(7, 7, p, q, x + 1)
    # Half of an odd capacity, and of an even one.
    for capacity in tuple(range(1, 20)) + (99, 100, LIMIT - 1, LIMIT):
        half = (capacity + 2) // 2
        for x in (0, half - 1, half, capacity):
            yield image(capacity, 1, half, 0, x)
    # The order of refusals.
    conflicts = ((10, 0, LIMIT + 1), (0, 2, 3, 6, 8, 255), (3, 0, LIMIT + 1, MAX64), (5, 11))
    for capacity, family, p, x in itertools.product(*conflicts):
        yield image(capacity, family, p, 2 * (family == 6), x)
    # Numbers over the limit, and over 32 bits.
    for number, family in itertools.product(OVER + (2**32, 2**32 + 10, 2**63, MAX64), FAMILIES):
        q = 9 * (family >= 6)
        yield image(number, family, 3, q, 7)
        yield image(number, family, number // 2, q, number // 2 + 1)
        yield image(10, family, number, q, 7)
        yield image(10, family, 3, number, 7)
        yield image(10, family, 3, q, number)
    # Scales at the limit and next to it, at this one and at the higher one.
    for limit, more in itertools.product((LIMIT, HIGHER), (-1, 0, 1)):
        for capacity in (1, 2, 3, 1000):
            yield image(capacity, 2, limit // capacity + more, 0, capacity)
            yield image(capacity, 2, limit // capacity + more, 0, capacity + 1)
        yield image(limit // 2 + more, 3, 1, 0, limit // 4)
        yield image(limit // 4, 4, limit // 2 + more, 0, 7)
        yield image(LIMIT, 4, limit // 2 + 1 + more, 0, 7)
        yield image(3, 6, 2, limit // 2 - 1 + more, 1)
        yield image(3, 7, 2, limit - 1 + more, 3)


# Tables

def table(entries, working=0, listed=0):
    """Buffers of so many places more than the check needs, or fewer."""
    given = dict(entries=list(entries))
    if working:
        given["working_places"] = max(0, len(entries) + working)
    if listed:
        given["list_places"] = max(0, len(entries) - 1 + listed)
    return given


def some_entries(rng, capacity, most=None):
    """Entries of which the last is at, or next to, the best of the others."""
    most = most or rng.choice((1, 2, 5, 9, 30, 1000))
    sparse = rng.randint(0, 1)
    entries = [0] + [0 if sparse and rng.randrange(4) else rng.randint(0, most) for _ in range(capacity)]
    entries[-1] = 0
    entries[-1] = max(0, best_totals(entries)[-1] + rng.choice((-1, 0, 0, 0, 1)))
    return entries


def steps_entries(capacity, gap, height):
    """A step function: dual-feasible, with a few runs."""
    return [x // gap * height for x in range(capacity + 1)]


def spoiled(rng, entries):
    """The first entry not 0, the last one 0, and one over its limit: some of these."""
    entries = list(entries)
    which = rng.randint(1, 7)
    if which & 1:
        entries[0] = rng.choice((1, LIMIT, LIMIT + 1, MAX))
    if which & 2:
        entries[-1] = 0
    if which & 4:
        entries[rng.randint(1, max(1, len(entries) - 2))] = rng.choice(OVER)
    return entries


PLACES = ((-1, 0), (0, -1), (-1, -1), (0, 0), (1, 0), (0, 1), (3, 7), (40, 40))
TABLES = ([0, 1, 1, 2], [0, 0, 2, 1], [0, 1, 1, 1, 1, 5], [0, 3], [0, 1], [0, 0], [1, 1], [0, 0, 1],
          [0, 1, 1], [0, 1, 2], [0, 2, 2, 5])


def tables():
    rng = random.Random(2)
    for entries, (working, listed) in itertools.product(TABLES, PLACES):
        yield table(entries, working, listed)
    for count in (0, 1, 2, 3, 2047, 2048, 2049, 2050):
        for entries in (range(count), [0] * count, [1] * count, [MAX] * count):
            yield table(entries)
            yield table(entries, 5, 5)
            yield table(entries, -1, -1)
    for _ in range(350):
        entries = some_entries(rng, rng.randint(1, rng.choice((4, 12, 40))))
        yield table(entries, *rng.choice(PLACES[3:]))
    for _ in range(200):
        entries = spoiled(rng, some_entries(rng, rng.randint(1, 9)))
        yield table(entries, *rng.choice(PLACES))
    # Entries at the limit and over it, at each place.
    for number, capacity in itertools.product(OVER + (LIMIT - 1, HIGHER - 1), (1, 2, 5)):
        for place in range(capacity + 1):
            entries = [0] * capacity + [LIMIT]
            entries[place] = number
            yield table(entries)
        yield table([0] + [number] * capacity)
        yield table([0] * capacity + [number])
        yield table([0] + [number] * capacity, -1)
    # Images of the families, and with one entry changed.
    for capacity in (10, 11, 24):
        for p in (1, 2, 3, 5):
            entries = [0 if x < p else capacity if x > capacity - p else x for x in range(capacity + 1)]
            yield table(entries)
            for place in (p, capacity // 2, capacity):
                changed = list(entries)
                changed[place] = max(0, changed[place] + rng.choice((-1, 1)))
                yield table(changed)
    # Tables of many entries.
    for shape in ((2047, 1, 488_519), (2047, 100, 7), (2047, 682, LIMIT // 3), (2047, 1024, 1), (2046, 1023, 5)):
        entries = steps_entries(*shape)
        for more in (-1, 0, 1):
            yield table(entries[:-1] + [min(LIMIT, entries[-1] + more)])
    yield table([0, 1] + [0] * 2045 + [2046], 5, 5)  # the longest list
    yield table([0] + [LIMIT] * 2047)
    for capacity in (200, 700, 2047):
        for _ in range(2):
            yield table(some_entries(rng, capacity, 5))


# Jobs

def word(number):
    return number.to_bytes(4, "big")


def words(numbers):
    return b"".join(map(word, numbers))


def field(tag, value, length=None):
    """A field; its header may say another length."""
    return bytes([tag]) + (len(value) if length is None else length).to_bytes(2, "big") + value


def family(number, p, q=0):
    return field(4, bytes([number]) + word(p) + word(q))


def tabled(*entries):
    return field(5, words(entries))


def row(right, *coefficients):
    return field(6, words((right,) + coefficients))


def halves(tag, *numbers):
    """A field of two-byte numbers, as tags 7 and 8 will have."""
    return field(tag, b"".join(number.to_bytes(2, "big") for number in numbers))


def head(kind, capacity, sizes):
    return [field(1, bytes([kind])), field(2, word(capacity)), field(3, words(sizes))]


def job(kind, capacity, sizes, *steps):
    return b"".join(head(kind, capacity, sizes) + list(steps))


IDENTITY = tabled(*range(11))
STEPS = tuple(family(*step) for step in ((1, 3), (2, 2), (3, 3), (4, 3), (5, 4), (6, 3, 2), (7, 3, 2))) + (
    IDENTITY, tabled(0, 0, 0, 1, 1, 2, 2, 3, 3, 3, 5), family(1, 5))


def good_fields(kind):
    """Head and steps of an accepted job with both kinds of step."""
    return head(kind, 10, (7, 7, 5, 5, 5)) + [family(1, 4), family(3, 3), tabled(0, 0, 2, 3, 3, 4, 6), family(5, 4)]


def reckoned():
    yield job(1, 10, (7, 7, 5, 5, 5), family(1, 4), family(3, 3))
    yield job(1, 10, (6, 6, 6))
    yield job(1, 10, (6, 6, 6), family(1, 5))
    yield b""


def truncated():
    for data in (b"".join(good_fields(1)), job(2, 10, (1, 0), IDENTITY)):
        for end in range(len(data) + 1):
            yield data[:end]


def tag_orders():
    """Orders of fields, and every tag at every place of a good job."""
    fields = head(1, 10, (3, 4)) + [family(1, 3), IDENTITY, row(10, 3, 4), halves(7, 2, 1), halves(8, 1, 1)]
    for count in (1, 2):
        for chosen in itertools.product(fields, repeat=count):
            yield b"".join(chosen)
    for chosen in itertools.product(fields, repeat=2):
        yield b"".join(fields[:2] + list(chosen))
        yield b"".join(fields[:3] + list(chosen))
    good = good_fields(1)
    for place in range(len(good)):
        before, behind = good[:place], good[place + 1:]
        for tag in (0, 1, 2, 3, 4, 5, 6, 7, 8, 9, 128, 255):
            yield b"".join(before + [bytes([tag]) + good[place][1:]] + behind)
        yield b"".join(before + behind)
        yield b"".join(before + [good[place]] * 2 + behind)


def lengths():
    """Wrong lengths: of a value and its header, and of the header alone."""
    good = good_fields(1)
    for place, part in enumerate(good):
        value, before, behind = part[3:], good[:place], good[place + 1:]
        for length in (0, 1, 3, 4, 5, 7, 8, 9, 10, 12, 20, 21, 24, 28, 8188, 8191, 8192, 8196):
            yield b"".join(before + [field(part[0], (value + bytes(length))[:length])] + behind)
        for length in (0, len(value) - 1, len(value) + 1, len(value) + 4, 256, 65_535):
            yield b"".join(before + [field(part[0], value, length)] + behind)


def chains():
    """0 to 9 steps of families, of tables and of both."""
    for kind, count in itertools.product((1, 2), range(10)):
        both = tabled(*[0] * 6, *[10] * 5)
        for steps in ((family(1, 3), family(5, 5)), (IDENTITY, both), (family(1, 2), IDENTITY)):
            yield job(kind, 10, (1, 3, 6, 8, 10), *(steps * 5)[:count])
    for first, second in itertools.product(STEPS, repeat=2):
        yield job(1, 10, range(1, 11), first, second)
    for step in STEPS:
        yield job(2, 10, range(11), step)
        yield job(1, 10, (), step)


BAD_STEPS = (
    family(0, 1), family(8, 1), family(255, 1), family(1, 6), family(1, 3, 1), family(2, 0), family(3, 0),
    family(4, 1), family(4, 11), family(5, 11), family(6, 3, 1), family(6, 5, 9), family(7, 3, 1),
    family(2, LIMIT), family(2, LIMIT + 1), family(2, LIMIT // 10 + 1), family(7, 3, LIMIT),
    family(6, 3, LIMIT), family(7, 3, LIMIT + 1), tabled(1, *range(1, 11)), tabled(*range(10), 0),
    tabled(0, *range(1, 10), LIMIT + 1), tabled(*range(10), 9), tabled(0, 1, *[0] * 8, 9),
    tabled(1, LIMIT + 1, *[0] * 9), tabled(0, LIMIT + 1, *[0] * 9))

OTHER_TABLES = (  # of a capacity that is not 10: in order, and with 8, 9, 10 and 11
    tabled(0, 1), tabled(*range(10)), tabled(*range(12)), tabled(1, 1), tabled(0, 0), tabled(0, MAX),
    tabled(0, 1, 1), tabled(1, MAX, 0), tabled(0, MAX, 0), tabled(*range(11), 10), tabled(7, *range(1, 12)),
    tabled(*range(11), 0), tabled(*range(11), LIMIT + 1), tabled(0, 0, 2, 1), tabled(0, 1, 1, 2),
    tabled(*range(9), 8), tabled(0, LIMIT, LIMIT))


def refused_steps():
    """Each refused step at places from 1 to 9, and before another."""
    before = [family(1, 3), IDENTITY] * 4
    for place, step in itertools.product((0, 1, 2, 5, 7, 8), BAD_STEPS + OTHER_TABLES):
        yield job(1 + place % 2, 10, (3, 8, 10), *before[:place], step)
    for step, other in itertools.product(BAD_STEPS[::3] + OTHER_TABLES[::2], BAD_STEPS[::5] + OTHER_TABLES[1::4]):
        yield job(2, 10, (0, 10), step, other)
    for step in OTHER_TABLES:  # behind a step that changes the capacity, and at one that no table has
        yield job(1, 10, (3, 8, 10), family(2, 2), step)
        yield job(1, 10, (3, 8, 10), family(3, 5), step)
        yield job(2, LIMIT, (3, 8, 10), step)
        yield job(1, 0, (3, 8, 10), step)
        yield job(1, 10, (3, 11), step)


def kinds():
    """Kinds, capacities and sizes wrong together, so that their order shows."""
    for kind, capacity in itertools.product((0, 1, 2, 3, 4, 255), (0, 10, LIMIT + 1)):
        for sizes in ((), (0,), (10,), (11,), (1, 0), (0, 11), (5, 5, 0, 5)):
            yield job(kind, capacity, sizes)
        yield job(kind, capacity, (1, 11), family(0, 0))
        yield job(kind, capacity, (5,), family(0, 0))


def rows():
    """Rows of tag 6 in jobs of each kind; other fields behind kind 3."""
    good, steps = [row(10, 7, 7, 5), row(20, 0, 20, 3)], [family(1, 4), IDENTITY]
    for kind in (0, 1, 2, 3, 4, 255):
        first = field(1, bytes([kind]))
        for fields in (
                [], good[:1], good, good + steps[:1], good[:1] + steps, steps[:1], steps, steps[:1] + good[:1],
                [row(10)], [row(0, 1)], [row(10, 11)], [row(10, 5), row(LIMIT + 1, 5)], [field(6, b"")],
                [field(6, bytes(5))], [row(10, 5), family(0, 0)], good[:1] * 64, good[:1] * 65,
                [row(10, *[5] * 2047)], [row(10, *[5] * 2049)], [row(10, 5), tabled(0, 0)],
                [row(10, 5), tabled(*range(12))], [row(10, 5), tabled(*range(10), 9)]):
            yield b"".join([first] + fields)
        yield b"".join(head(kind, 10, (3,)) + good)
        yield b"".join(head(kind, 10, (3,))[:2] + good)
        yield b"".join(head(kind, 10, (3,)) + steps + good)
    data = b"".join([field(1, b"\3")] + good + steps)
    for end in range(len(data)):
        yield data[:end]
    for data in (b"\1\0\2\3\3", b"\2\0\1\3", b"\1\0\1\3\0", b"\0\0\0\3", b"\7\7\7\3" * 5):
        yield data


def counts_and_blocks():
    """Tags 7 and 8 behind the list and elsewhere, right and wrong."""
    counts, blocks, step = halves(7, 300, 1, 65_535), halves(8, 2, 1), family(1, 4)
    for kind in (0, 1, 2, 3, 255):
        start = b"".join(head(kind, 10, (7, 5, 4)))
        for fields in (
                [counts], [blocks], [counts, blocks], [blocks, counts], [counts, step], [blocks, step],
                [counts, blocks, step], [step, counts], [step, blocks], [counts, counts], [blocks, blocks],
                [counts, step, blocks], [halves(7, 1, 2)], [halves(7, 1, 0, 2)], [field(7, b"")],
                [field(7, bytes(5))], [halves(8, 3)], [halves(8, 1, 1)], [halves(8, 3, 0)], [field(8, b"")],
                [field(8, bytes(3))], [halves(8, *[0] * 65)],
                [halves(7, 1, 1, 1), halves(8, 1, 1, 1), family(0, 0)],
                [field(7, b"\0\1", 6)], [field(8, b"\0\1", 4)]):
            yield start + b"".join(fields)
        yield b"".join(head(kind, 10, ()) + [field(7, b""), field(8, b"")])
    for sizes in ((0, 5), (11,), ()):
        n = len(sizes)
        for more in (halves(7, *[1] * n), halves(7, *[0] * n), halves(8, n), halves(8, 9)):
            yield job(1, 10, sizes, more)
    data = job(1, 10, (7, 5), halves(7, 3, 4), halves(8, 1, 1), family(1, 4))
    for end in range(22, len(data)):
        yield data[:end]


def limits():
    """Capacities, sizes, parameters and entries at their limits and over them."""
    for capacity, kind in itertools.product((1, 2, LIMIT - 1) + OVER, (1, 2)):
        for size in (0, 1, capacity // 2, capacity, min(MAX, capacity + 1)):
            yield job(kind, capacity, (size,))
        yield job(kind, capacity, (1, capacity), family(1, capacity // 2))
        yield job(kind, capacity, (1, capacity), family(5, capacity // 3 + 1))
        yield job(kind, capacity, (1, 2), family(2, 1), family(0, 0))
    for number, other in itertools.product(OVER, FAMILIES):
        yield job(1, 10, (7, 3), family(other, number, 9 * (other >= 6)))
        yield job(2, 10, (7, 3), family(other, 3, number))
    for number in OVER + (LIMIT // 2, HIGHER // 2):
        yield job(1, 2, (2, 1), family(2, number // 2))
        yield job(1, 2, (2, 1), family(2, number // 2), family(1, number // 2))
        yield job(1, 3, (3, 1), family(7, 2, number - 1))
        yield job(2, 3, (3, 1, 2), tabled(0, 0, 0, number))
        yield job(2, 3, (3, 1, 2), tabled(0, number, 0, LIMIT))
        yield job(1, 3, (3, 1, 2), tabled(number, 0, 0, LIMIT), family(1, 1))
        yield job(1, 4, (3, 1, 2), tabled(0, 0, 0, number))


def half_windows():
    """Thresholds at half of an odd capacity, first and behind other steps."""
    for capacity, kind in itertools.product((1, 3, 5, 6, 7, 11, 99, LIMIT - 1, LIMIT), (1, 2)):
        sizes = (capacity, (capacity + 1) // 2, max(1, capacity // 2), 1)
        step = family(1, (capacity + 2) // 2)
        yield job(kind, capacity, sizes, step)
        yield job(kind, capacity, sizes, family(1, 0), step, family(5, 1))
    for p in range(1, 7):
        yield job(1, 10, (3, 7, 10), tabled(*range(10), 11), family(1, p))
        yield job(2, 5, (0, 2, 3, 5), family(1, p), family(1, p))


def longest():
    """Jobs of 65,535 bytes and next to it."""
    step = tabled(*[0] * (ENTRIES - 1), ENTRIES - 1)
    data = job(1, ENTRIES - 1, (ENTRIES - 1,) * 100 + (1,) * 1939, *[step] * 7)
    for end in (65_534, 65_535):
        yield data[:end]
    yield data + b"\0"
    yield data + bytes(700)
    for byte in (0, 1, 3):
        for count in (65_535, 65_536):
            yield bytes([byte]) * count
    yield job(1, 10, (6,)) + field(4, bytes(65_535 - 21))
    same = 0x3B3B3B3B
    for n in (SIZES - 1, SIZES, SIZES + 1):
        yield job(1, LIMIT, (same,) * n, family(1, LIMIT // 2))
        yield job(2, LIMIT, [400_000 * i for i in range(n)], family(5, 7))
    yield job(1, LIMIT, (LIMIT,) * SIZES)
    yield job(1, LIMIT, (same,) * (SIZES - 1) + (0,))
    yield job(1, ENTRIES - 1, (3,), tabled(0, 1, *[0] * (ENTRIES - 3), ENTRIES - 2))  # the longest list
    rng = random.Random(5)
    yield job(1, LIMIT, [rng.randint(1, LIMIT) for _ in range(SIZES)], family(3, 1234), family(7, 7, 9))


def random_family(rng, capacity):
    """A family step that passes at this capacity, and its scale."""
    while True:
        number = rng.choice(FAMILIES)
        p = rng.choice((rng.randint(0, 12), rng.randint(0, capacity), capacity // 2))
        q = 0 if number <= 5 else rng.randint(0, 20)
        if passes(capacity, number, p, q):
            return family(number, p, q), scale(capacity, number, p, q)


def random_table(rng, capacity):
    """A table of this capacity, and its scale; it may not be dual-feasible."""
    entries = some_entries(rng, capacity)
    return tabled(*entries), max(1, entries[-1])


def random_fields(rng):
    kind = rng.randint(1, 2)
    capacity = rng.choice((1, 7, 10, 24, 100, 12_345, LIMIT, rng.randint(1, rng.choice((30, 1000, LIMIT)))))
    fields = head(kind, capacity, [rng.randint(2 - kind, capacity) for _ in range(rng.randint(0, 9))])
    for _ in range(rng.choice((0, 1, 1, 2, 2, 3, 4, 5, 8))):
        chosen = random_table if capacity <= 30 and rng.randint(0, 1) else random_family
        step, capacity = chosen(rng, capacity)
        fields.append(step)
    return fields


def change_byte(rng, data):
    place = rng.randrange(len(data))
    byte = rng.choice((0, 1, 3, 6, 7, 8, 255, data[place] ^ 1, rng.randrange(256)))
    return data[:place] + bytes([byte]) + data[place + 1:]


def damaged(rng, fields):
    """The job with its fields or its bytes changed."""
    way, place = rng.randint(0, 9), rng.randrange(len(fields))
    if way == 0:
        fields = fields[:place] + fields[place + 1:]
    elif way == 1:
        fields = fields[:place] + [rng.choice(fields)] + fields[place:]
    elif way == 2:
        fields = rng.sample(fields, len(fields))
    data = b"".join(fields)
    cut = rng.randint(0, len(data))
    if way == 3:
        return data[:cut]
    if way == 4:
        return data[:cut] + bytes([rng.randrange(256)]) + data[cut:]
    if way == 5:
        return data[:cut] + data[cut + rng.randint(1, 4):]
    for _ in range(rng.choice((1, 1, 1, 2, 3)) if way > 5 else 0):
        data = change_byte(rng, data)
    return data


def changed_value(rng, fields):
    """The job with a byte of a value changed, tags and lengths kept."""
    place = rng.randrange(len(fields))
    part = fields[place]
    if len(part) > 3:
        part = part[:3] + change_byte(rng, part[3:])
    return b"".join(fields[:place] + [part] + fields[place + 1:])


def doubtful_step(rng, capacity):
    """A family or a table that may be refused at this capacity, for any reason."""
    if rng.randint(0, 1) or capacity > 100:
        number = rng.choice(FAMILIES + (0, 8, 77))
        return family(number, *(min(MAX, n) for n in parameters(rng, capacity, number)))
    entries = some_entries(rng, max(1, capacity + rng.choice((-1, 0, 0, 1, 5))))
    return tabled(*(spoiled(rng, entries) if rng.randint(0, 1) else entries))


def with_doubtful_steps(rng, fields):
    """Doubtful steps for the head's capacity, the last one at any place."""
    capacity = int.from_bytes(fields[1][3:], "big")
    steps = [doubtful_step(rng, capacity) for _ in range(rng.randint(1, 2))]
    return b"".join(fields[:3] + [family(1, 0)] * rng.randint(0, 6) + steps)


def random_jobs():
    rng = random.Random(3)
    for _ in range(350):
        yield b"".join(random_fields(rng))
        yield damaged(rng, random_fields(rng))
        yield changed_value(rng, random_fields(rng))
        yield with_doubtful_steps(rng, random_fields(rng))


PARTS = (reckoned, truncated, tag_orders, lengths, chains, refused_steps, kinds, rows, counts_and_blocks, limits,
         half_windows, longest, random_jobs)
JOB_PLACES = dict(images_places=SIZES, working_places=ENTRIES, list_places=ENTRIES - 1)


def short_and_long_buffers():
    """Each buffer too short, exact and longer, for jobs of every kind of answer."""
    full = tabled(0, 1, *[0] * (ENTRIES - 3), ENTRIES - 2)
    datas = (b"", job(1, 10, (6, 6, 6), family(1, 5)), job(1, ENTRIES - 1, (3,), full),
             job(1, 10, (4,), tabled(*range(10), 9)), job(3, 0, (1,)), job(2, 10, (0, 4), tabled(0, 0, 2, 1)),
             bytes(65_535), bytes(65_536))
    changes = ((-1, 0, 0), (0, -1, 0), (0, 0, -1), (0, 0, 0), (1, 1, 1), (52, 52, 53), (-2048, -2048, -2047),
               (-2048, 9, 9), (9, -2048, 9), (9, 9, -2047), (-1, -1, -1), (3, 0, 0), (0, 0, 3))
    for data, change in itertools.product(datas, changes):
        places = {name: least + more for (name, least), more in zip(JOB_PLACES.items(), change) if more}
        yield dict(job=data, **places)


def jobs():
    for part in PARTS:
        for data in part():
            yield dict(job=data)
    yield from short_and_long_buffers()


def texts():
    """Every job, and longer input."""
    for part in PARTS:
        for data in part():
            yield dict(job=data)
    good = job(1, 10, (6, 6, 6))
    for count in (65_536, 65_537, 200_000):
        yield dict(job=(good + bytes(count))[:count])


# Sweeps

def sweep(capacity, family, sizes, low, high):
    return dict(capacity=capacity, family=family, sizes=list(sizes), low=low, high=high)


FAULTS = (  # each makes a refused sweep of the accepted one in faults()
    dict(capacity=0), dict(capacity=LIMIT + 1), dict(capacity=MAX64), dict(family=0), dict(family=6),
    dict(family=255), dict(sizes=[3] * (SIZES + 1)), dict(sizes=[3] * SIZES + [0]), dict(sizes=[4, 4, 0]),
    dict(sizes=[11, 4]), dict(sizes=[MAX]), dict(low=6, high=5), dict(low=MAX64, high=0), dict(low=0, high=4096),
    dict(low=0, high=MAX64), dict(low=6, high=4101), dict(low=MAX64, high=MAX64))


def faults():
    for pair in itertools.combinations_with_replacement(FAULTS, 2):
        given = sweep(10, 1, (4, 4, 4), 1, 3)
        for fault in pair:
            given.update(fault)
        yield given


def ranges():
    """Ranges of one p, of the most and of one more, from 0, at the limits and at the last p."""
    starts = (0, 1, 2, 5, 50, 51, 100, 101, LIMIT - 4095, LIMIT - 1, LIMIT, LIMIT + 1, HIGHER - 4095, HIGHER,
              HIGHER + 1, 2**32 - 4095, 2**32, MAX64 - 4096, MAX64 - 4095, MAX64)
    for family, low, width in itertools.product((1, 2, 3, 4, 5), starts, (0, 1, 4095, 4096)):
        if low + width <= MAX64:
            yield sweep(100, family, (51, 51, 51, 26, 33, 40), low, low + width)


def edges():
    """Ranges whose first or last p alone passes; capacities and scales at the limits."""
    capacities = (1, 2, 3, 5, 6, 7, 60, 61, LIMIT - 1, LIMIT, LIMIT + 1, HIGHER)
    for family, capacity in itertools.product((1, 2, 3, 4, 5), capacities):
        sizes = [min(MAX, capacity), max(1, capacity // 2), capacity // 2 + 1, 1]
        last = {1: capacity // 2, 2: LIMIT // capacity, 3: capacity // 2}.get(family, capacity)
        yield sweep(capacity, family, sizes, 0, 3)
        for low, high in ((0, 0), (1, 1), (-2, 2), (1, 9), (2, 9)):
            yield sweep(capacity, family, sizes, max(0, last + low), last + high)
    for capacity in (1, 2, 3, 7, 1000, 31_623, 10**8):  # scales over this limit and over the higher one
        for limit in (LIMIT, HIGHER):
            last = limit // capacity
            yield sweep(capacity, 2, (capacity, capacity // 2 + 1, 1), max(0, last - 2), last + 3)
            yield sweep(capacity, 2, (capacity, capacity // 2 + 1, 1), last + 1, last + 3)


def lists():
    """The number of sizes at its limits, sums over 32 bits, floors that many p share."""
    for family, n in itertools.product((1, 2, 3, 4, 5), (0, 1, SIZES - 1, SIZES, SIZES + 1)):
        yield sweep(LIMIT, family, [LIMIT] * n, 1, 3)
        yield sweep(LIMIT, family, [1 + 400_000 * i for i in range(n)], 2, 6)
        yield sweep(60, family, [31] * n, 1, 31)
    for family in (1, 2, 3, 4, 5):
        yield sweep(1000, family, range(500, 1000, 50), 0, 4095)
        yield sweep(60, family, [60] * 6, 0, 60)
        yield sweep(60, family, [15, 24, 33, 42, 31, 31, 31], 0, 60)
        yield sweep(97, family, range(33, 45), 1, 97)


def odd_halves():
    """Family 1 of odd capacities: ranges up to the half, over it, and of it alone."""
    for capacity in (1, 3, 5, 7, 9, 11, 61, 99, 101, LIMIT - 1):
        half = (capacity + 1) // 2
        for low, high in ((0, half), (half, half), (half, half + 3), (half + 1, half + 3), (half // 2, half - 1)):
            for sizes in ((half,) * 3, (half, max(1, half - 1), capacity), ()):
                yield sweep(capacity, 1, sizes, low, high)


def random_sweeps():
    rng = random.Random(4)
    for _ in range(400):
        capacity = rng.randint(1, rng.choice((12, 60, 1000, LIMIT)))
        low = rng.choice((0, 1, rng.randint(0, capacity), capacity // rng.randint(1, 9)))
        sizes = [rng.randint(1, capacity) for _ in range(rng.randint(0, 9))]
        if rng.randint(0, 1):
            near = capacity // rng.randint(1, 5)
            sizes += [min(capacity, near + rng.randint(1, 3)) for _ in range(rng.randint(1, 9))]
        yield sweep(capacity, rng.randint(1, 5), sizes, low, low + rng.choice((0, 1, 7, 40, 300)))


def sweeps():
    for part in (faults, ranges, edges, lists, odd_halves, random_sweeps):
        yield from part()


def inputs():
    return dict(image=images(), table=tables(), job=jobs(), sweep=sweeps(), text=texts())
