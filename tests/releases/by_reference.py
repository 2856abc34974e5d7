"""The answers of the independent implementation in tests/reference, in the names
of the stored form."""

import sys
from functools import lru_cache, partial
from pathlib import Path

sys.path.insert(0, str(Path(__file__).resolve().parents[1] / "reference"))
import windowfloor as wf

NARROW, WIDE = 4_294_000_000, 2**63  # what place 0 of a buffer holds before the call

# The buffers of the operations over a job, with the places that they have at least, and the fields of their answers.
SHARED = dict(images=2048, working=2048, list=2047)
LENT = dict(floor=SHARED | dict(blocks=64), cut=SHARED | dict(scales=64))
FIELDS = dict(floor="number n floor sum scale step length row total", cut="number n scale step length row")


def places_of(given, name, least):
    """As many as the case gives."""
    return range(given.get(name + "_places", least))


@lru_cache
def untouched(places, start):
    return list(range(start, start + places))


def lend(given, name, least, start=NARROW):
    return list(untouched(len(places_of(given, name, least)), start))


def changed(places, start=NARROW):
    before = untouched(len(places), start)
    if places == before:  # quicker
        return {}
    return {i: number for i, number in enumerate(places) if number != before[i]}


def named(names, numbers):
    return dict(zip(names.split(), numbers, strict=True))


def image(given):
    return named("number image scale", wf.image(**given))


def table(given):
    entries = given["entries"]
    working, listed = lend(given, "working", len(entries), WIDE), lend(given, "list", max(0, len(entries) - 1))
    answer = named("number length", wf.table_check(entries, working, listed))
    return answer | dict(working=changed(working, WIDE), list=changed(listed))


def shortest(given):
    """Which shortest list is shown is free: whether it overshoots is told, and its places are left out. The working
    buffers are free after acceptance and 25, and are left out then."""
    entries = given["entries"]
    working, second = (lend(given, name, len(entries), WIDE) for name in ("working", "second"))
    listed = lend(given, "list", max(0, len(entries) - 1))
    number, length = wf.shortest(entries, working, second, listed)
    right = number == wf.ACCEPTED and wf.shows(entries, listed[:length])
    behind = {place: size for place, size in changed(listed).items() if place >= length}
    kept = {} if number in (wf.ACCEPTED, wf.DUAL_FEASIBLE) else dict(
        working=changed(working, WIDE), second=changed(second, WIDE))
    return dict(number=number, length=length, right=int(right), list=behind) | kept


def over_a_job(operation, given):
    """The working buffer is free afterwards, and is left out."""
    lent = {name: lend(given, name, least, WIDE if name == "working" else NARROW)
            for name, least in LENT[operation].items()}
    answer = named(FIELDS[operation], getattr(wf, operation)(given["job"], *lent.values()))
    return answer | {name: changed(places) for name, places in lent.items() if name != "working"}


def counted(given):
    """A case without counts is called with a one for each size."""
    return dict(counts=[1] * len(given["sizes"])) | given


def sweep(given):
    return named("number floor p", wf.sweep(**counted(given)))


def exact(given):
    """Which assignment is shown is free: whether it fits is told, and its places are left out."""
    windows, given = lend(given, "windows", 10), counted(given)
    capacity, sizes, counts = given["capacity"], given["sizes"], given["counts"]
    number, fewest = wf.exact(capacity, sizes, counts, windows)
    copies = wf.copies_of(sizes, counts) if number == wf.ACCEPTED else []
    fits = number == wf.ACCEPTED and wf.is_assignment(capacity, copies, windows[:len(copies)], fewest)
    behind = {place: window for place, window in changed(windows).items() if place >= len(copies)}
    return dict(number=number, fewest=fewest, fits=int(fits), windows=behind)


def text(given):
    return dict(status=0, errors=0, text=wf.program(given["job"]).decode())


OPERATIONS = dict(image=image, table=table, shortest=shortest, floor=partial(over_a_job, "floor"),
                  cut=partial(over_a_job, "cut"), sweep=sweep, exact=exact, text=text)


def answer(operation, given):
    return OPERATIONS[operation](given)


def answers(operation, inputs):
    return [answer(operation, given) for given in inputs]
