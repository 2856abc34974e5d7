"""Answers of earlier releases that a request changes.

Each is a rule written from the words of its request, about what is given alone,
never about what was answered or is answered now:

    Rule(request, operations, applies, why, fields=(), now=None)

    request     the number of the request that changes the answers
    operations  the stored ones: of image, table, shortest, job, floor, cut, sweep, exact, text
    applies     whether the rule is about an input: a function of what is given,
                a dictionary with the names of the stored form
    why         the request's words, in a sentence
    fields      the fields and buffers of the answer that change; if empty, all
    now         if given, a function of the operation that is asked today and what is
                given: the answer that it must have, as by_reference.answer

A rule is about the releases before `request-N`. `fields_of` in stored.py gives
the fields of a job."""

from typing import Callable, NamedTuple, Optional

import by_reference
from by_reference import LENT, wf
from edges import BEFORE
from jobs import called, short
from stored import fields_of

BEFORE_9 = LENT["floor"] | LENT["cut"]  # the buffers of a job


class Rule(NamedTuple):
    request: int
    operations: tuple
    applies: Callable
    why: str
    fields: tuple = ()
    now: Optional[Callable] = None


def of_kind_3(given):
    """The first field is tag 1, of length 1, with the value 3."""
    return given["job"][:4] == b"\1\0\1\3"


def fourth_byte_3(given):
    return given["job"][3:4] == b"\3"


def is_read(given, lent=BEFORE_9):
    """Neither 12 nor 7 is told. Of the buffers their lengths count alone."""
    return len(given["job"]) <= wf.MOST_JOB_BYTES and not short(given, lent)


def lists_of(kind, fields):
    """Capacity, sizes, counts and blocks of the list, or of each row."""
    if kind == wf.ROWS:
        return [(right, coefficients, (), None) for right, *coefficients in wf.rows_of(fields)]
    return [(wf.number_of(fields[1][1]), wf.sizes_of(fields), wf.counts_of(fields), wf.blocks_of(fields))]


def judged_lists(given):
    """Capacity and steps of the list, or of each row, with the number that the list has before the steps: none if
    that is told which comes before the lists."""
    if not is_read(given):
        return
    number, fields = wf.read_fields(given["job"])
    if number != wf.ACCEPTED:
        return
    kind = wf.kind_of(fields)
    if kind not in (wf.FLOOR, wf.CUT, wf.ROWS) or (kind == wf.ROWS and wf.rows_refused(wf.rows_of(fields))):
        return
    for capacity, *numbers in lists_of(kind, fields):
        yield capacity, wf.steps_of(fields), wf.list_refusal(kind, capacity, *numbers)


def up_to_the_steps(given):
    """Capacity and steps of the list, or of each row, as far as all that is asked before the steps is in order."""
    for capacity, steps, number in judged_lists(given):
        if number != wf.ACCEPTED:
            return
        yield capacity, steps


def steps_taken(capacity, steps):
    """Each step with the capacity that it gets and its number, up to the first that is refused."""
    working, listed = [0] * wf.JOB_WORKING, [0] * wf.JOB_LIST
    for step in steps:
        number, _, _, scale = wf.take_step(step, capacity, [], working, listed)
        yield capacity, step, number
        if number != wf.ACCEPTED:
            return
        capacity = scale


def reaches(given, step_meets, capacity_meets=lambda capacity: False):
    """Whether a capacity that is reached, of the list or of a row, meets its test, or a step with the capacity that it
    gets. Nothing is reached behind what is refused."""
    for capacity, steps, number in judged_lists(given):
        if capacity_meets(capacity):
            return True
        if number != wf.ACCEPTED:
            return False
        taken = list(steps_taken(capacity, steps))
        if any(step_meets(present, step) for present, step, _ in taken):
            return True
        if any(number != wf.ACCEPTED for _, _, number in taken):
            return False
    return False


def parameters_of(value):
    """Family, p and q of a family step."""
    return value[0], wf.number_of(value[1:5]), wf.number_of(value[5:9])


def bad_table_of_another_capacity(given):
    """The first step that is not accepted is a table of another capacity, and its entries have 8 to 11 wrong. In rows
    the first decides: if it gets through, no table is bad."""
    working, listed = [0] * wf.JOB_WORKING, [0] * wf.JOB_LIST
    capacity, steps = next(up_to_the_steps(given), (0, []))
    for _, (_, value), number in steps_taken(capacity, steps):
        if number == wf.OTHER_CAPACITY:
            return wf.table_check(wf.numbers_of(value), working, listed)[0] != wf.ACCEPTED
    return False


def lies_within(field):
    """Neither header nor value of a part of the job is cut short."""
    return len(field) == 3 + wf.number_of(field[1:3])


def follows(given, tag, before):
    """The first fields of a job of kind 1, so many, pass 13 to 15, and the next one has this tag and lies within the
    job."""
    if not is_read(given):
        return False
    parts = fields_of(given["job"])
    number, fields = wf.read_fields(b"".join(parts[:before]))
    if number != wf.ACCEPTED or wf.kind_of(fields) != wf.FLOOR:
        return False
    return any(part[0] == tag and lies_within(part) for part in parts[before:before + 1])


def counts_behind_the_sizes(given):
    """Tag 7 right behind tags 1, 2 and 3."""
    return follows(given, wf.COUNTS, 3)


def blocks_behind_the_list(given):
    """Tag 8 right behind tags 1, 2 and 3, or right behind the tag 7 that follows these."""
    return follows(given, wf.BLOCKS, 3) or (follows(given, wf.COUNTS, 3) and follows(given, wf.BLOCKS, 4))


def is_half(capacity, family, p, q):
    """A threshold that is legal since request 5 and was not before."""
    return family == 1 and q == 0 and 2 * p == capacity + 1 and not wf.capacity_refused(capacity)


def image_of_a_half(given):
    return is_half(given["capacity"], given["family"], given["p"], given["q"])


def sweep_over_a_half(given):
    """Nothing is wrong before the p are tried, and one of them is half of an odd capacity."""
    counts = given.get("counts", [1] * len(given["sizes"]))
    capacity, family, low, high = (given[name] for name in ("capacity", "family", "low", "high"))
    half = (capacity + 1) // 2
    return (low <= half <= high and is_half(capacity, family, half, 0)
            and wf.sweep_refusal(capacity, family, given["sizes"], counts, low, high) == wf.ACCEPTED)


def is_half_step(capacity, step):
    tag, value = step
    return tag == wf.FAMILY_STEP and is_half(capacity, *parameters_of(value))


def job_with_a_half(given):
    """A step that is reached, in the list or in a row, is half of the odd capacity that it gets."""
    return reaches(given, is_half_step)


def is_raised(number):
    """Over the old limit and not over the new one."""
    return BEFORE < number <= wf.LIMIT


def was_refused(capacity, family, p, q):
    """A family step, at a capacity within the old limit, that was refused with 3 for p or q over that limit, or with
    4 for its scale."""
    if not 1 <= family <= 7:
        return False
    if is_raised(max(p, q)):
        return True
    return wf.legal(capacity, family, p, q) and is_raised(wf.family_scale(capacity, family, p, q))


def image_over_the_old_limit(given):
    capacity, family, p, q = (given[name] for name in ("capacity", "family", "p", "q"))
    return is_raised(capacity) or (not wf.capacity_refused(capacity) and was_refused(capacity, family, p, q))


def entries_over_the_old_limit(entries):
    """Neither 8 nor 9 is told, and the greatest entry is over the old limit."""
    return entries[0] == 0 and entries[-1] != 0 and is_raised(max(entries))


def table_over_the_old_limit(given):
    """6 to 10 are not told, and 10 was."""
    entries = given["entries"]
    working, listed = (by_reference.places_of(given, name, least)
                       for name, least in (("working", len(entries)), ("list", len(entries) - 1)))
    return wf.early_table_refusal(entries, working, listed) == wf.ACCEPTED and is_raised(max(entries))


def sweep_over_the_old_limit(given):
    """The capacity was refused with 1; or nothing is wrong before the p are tried, and one that passes was refused."""
    counts = given.get("counts", [1] * len(given["sizes"]))
    capacity, family, low, high = (given[name] for name in ("capacity", "family", "low", "high"))
    if is_raised(capacity):
        return True
    if wf.sweep_refusal(capacity, family, given["sizes"], counts, low, high) != wf.ACCEPTED:
        return False
    return any(was_refused(capacity, family, p, 0) and wf.family_refusal(capacity, family, p, 0) == wf.ACCEPTED
               for p in range(low, high + 1))


def step_over_the_old_limit(capacity, step):
    """Of a table its entries alone: before request 2 they came before its capacity."""
    tag, value = step
    if tag == wf.TABLE_STEP:
        return entries_over_the_old_limit(wf.numbers_of(value))
    return was_refused(capacity, *parameters_of(value))


def job_over_the_old_limit(given):
    """A capacity or a right side that is reached was refused with 1, or a step that is reached with 3, 4 or 10."""
    return reaches(given, step_over_the_old_limit, is_raised)


def short_of_the_others_buffer(given):
    """Before request 9 a job had the buffer of the other operation too, and 7 was told of it alone."""
    return is_read(given, LENT[called("job", given)]) and not is_read(given)


EXCEPTIONS = [
    Rule(1, ("job",), of_kind_3, "kind 3 is read by another grammar, as rows", now=by_reference.answer),
    Rule(1, ("text",), fourth_byte_3, "a refusal prints the row too if the job's fourth byte is 3; no job with that "
         "byte was accepted", now=by_reference.answer),
    Rule(2, ("job", "text"), bad_table_of_another_capacity, "a table of another capacity that gave 8, 9, 10 or 11 now "
         "gives 18, and its list buffer stays", now=by_reference.answer),
    Rule(4, ("job", "text"), counts_behind_the_sizes, "a tag 7 right after tag 3 where the kind byte is 1 was out of "
         "place, 14, and is now read", now=by_reference.answer),
    Rule(5, ("image",), image_of_a_half, "p of family 1 with 2p = C + 1 was not legal, 3, and is now",
         now=by_reference.answer),
    Rule(5, ("job", "text"), job_with_a_half, "a step of family 1 with 2p = C + 1 at the capacity that it gets was "
         "refused with 3, and is now accepted", now=by_reference.answer),
    Rule(5, ("sweep",), sweep_over_a_half, "a range of family 1 has a p with 2p = C + 1: its floor may rise, its 20 "
         "may go", now=by_reference.answer),
    Rule(6, ("job", "text"), blocks_behind_the_list, "a tag 8 that ends the list part, right after tag 3 or tag 7, "
         "where the kind byte is 1 was out of place, 14, and is now read", now=by_reference.answer),
    Rule(7, ("image",), image_over_the_old_limit, "a capacity, p, q or scale up to 4,000,000,000 was over the limit: "
         "1, 3 and 4 begin at higher values", now=by_reference.answer),
    Rule(7, ("table",), table_over_the_old_limit, "an entry up to 4,000,000,000 was over the limit: 10 begins at a "
         "higher value", now=by_reference.answer),
    Rule(7, ("job", "text"), job_over_the_old_limit, "a capacity, right side, p, q, scale or entry that is reached, up "
         "to 4,000,000,000, was over the limit: 1, 3, 4 and 10 begin at higher values", now=by_reference.answer),
    Rule(7, ("sweep",), sweep_over_the_old_limit, "a sweep reaches a capacity or parameters formerly refused for the "
         "limit", now=by_reference.answer),
    Rule(9, ("job",), short_of_the_others_buffer, "the block buffer goes with the floor operation, the buffer of each "
         "row's E with the cut operation: 7 goes where the one that is no longer lent was the only short one",
         now=by_reference.answer),
]
