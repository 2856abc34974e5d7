"""Numbers at which a refusal begins or a width ends (02, ticket 7), and the
parameters of each family about them."""

import windowfloor as wf

LIMIT = wf.LIMIT
BEFORE = 1_000_000_000  # the limit before ticket 7
MAX = 2**32 - 1
EDGES = LIMIT - 1, LIMIT, LIMIT + 1, MAX
DOUBLED = 2**31 - 1, 2**31, 2**31 + 1  # whose doubles end and pass 32 bits
EVEN_SCALES = 3, 4, 6  # families

# (family, p, q), one of each family, of scale LIMIT at capacity LIMIT.
AT_LIMIT = ((1, LIMIT // 2, 0), (2, 1, 0), (3, 2, 0), (4, LIMIT // 2 + 1, 0), (5, 8, 0),
            (6, LIMIT // 5 * 3, LIMIT // 2 - 1), (7, LIMIT // 5 * 3, 4))


def least_divisor(number):
    """The least whose quotient is within the limit."""
    return next(d for d in range(1, number + 1) if number % d == 0 and number // d <= LIMIT)


def of_scale(family, scale):
    """A capacity, p and q of this scale, also where it is over the limit: in families 1 and 5 it is the capacity."""
    divisor = least_divisor(scale)
    return {1: (scale, 0, 0), 2: (divisor, scale // divisor, 0), 3: (scale // 2, 1, 0), 4: (LIMIT, scale // 2 + 1, 0),
            5: (scale, 1, 0), 6: (3, 2, scale // 2 - 1), 7: (2 * divisor + 1, 2, scale // divisor - 1)}[family]


def scales_of(family):
    """Scales at the limit, on both sides of it and at the end of 32 bits, as near as the family has them."""
    if family in EVEN_SCALES:
        return LIMIT - 2, LIMIT, LIMIT + 2, MAX - 1
    return EDGES


def with_q(capacity, family, p):
    """The least legal q and the greatest whose scale is within the limit, each with its neighbour beyond."""
    least = wf.up(p, capacity % p) - 1
    greatest = LIMIT // wf.family_scale(capacity, family, p, 0) - 1
    return sorted({least, max(0, least - 1), max(0, greatest), greatest + 1} | set(EDGES))


def parameters_about(capacity):
    """(family, p, q) about what is legal at a capacity, about scales at the limit, and about 32 bits."""
    half, quotient = (capacity + 1) // 2, LIMIT // capacity
    single = {1: (0, 1, half, half + 1), 2: (1, quotient, quotient + 1), 3: (1, 2, capacity // 2, capacity // 2 + 1),
              4: (2, LIMIT // 2 + 1, LIMIT // 2 + 2, capacity, capacity + 1), 5: (1, 8, capacity - 1, capacity + 1)}
    for family, parameters in single.items():
        yield from ((family, p, 0) for p in sorted(set(parameters + EDGES + DOUBLED)) if p <= MAX)
    for family in (6, 7):
        yield from ((family, p, 3) for p in EDGES)
        for p in (7, half + 1, capacity - capacity // 4, capacity - 1):
            if 0 < p <= capacity and capacity % p > 0:
                yield from ((family, p, q) for q in with_q(capacity, family, p) if q <= MAX)
