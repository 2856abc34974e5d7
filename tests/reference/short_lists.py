"""Lists of a few copies, drawn about fractions of the capacity, and what simple ways
to assign them need."""


def first_fit(capacity, copies):
    """The windows of first fit: each copy in the first window that has room."""
    loads = []
    for size in copies:
        rooms = [window for window, load in enumerate(loads) if load + size <= capacity]
        if rooms:
            loads[rooms[0]] += size
        else:
            loads.append(size)
    return len(loads)


def first_fit_decreasing(capacity, copies):
    return first_fit(capacity, sorted(copies, reverse=True))


def about(capacity, parts):
    """Sizes about a part of the capacity, such as a half."""
    return [size for size in range(capacity // parts - 1, capacity // parts + 3) if 1 <= size <= capacity]


def near(rng, capacity, parts, n):
    """So many sizes, each a little more or less than a part of the capacity, or than what is left beside some."""
    spread = capacity // 12 + 1
    sizes = []
    for _ in range(n):
        size = capacity // parts + rng.randint(-spread, spread)
        sizes.append(min(capacity, max(1, capacity - size if rng.randint(0, 4) == 0 else size)))
    return sizes


def drawn_until(draw, holds):
    """What is drawn, again and again, until that is so."""
    while True:
        drawn = draw()
        if holds(*drawn):
            return drawn
