"""Stored jobs of the releases before request 9, which split their operation, `job`, into `floor` and `cut`.

Each is asked of the one that the program calls for it, by the job's fourth byte, and of the other one, which must
refuse it."""

from by_reference import FIELDS, LENT, wf

OTHER = dict(floor="cut", cut="floor")

# What the request takes away from an answer, as it must be stored, so that nothing is lost.
TAKEN = dict(floor=dict(scales={}), cut=dict(floor=0, sum=0, total=0, blocks={}))


def called(operation, given):
    """The operation that a stored case is asked of today."""
    if operation != "job":
        return operation
    return "cut" if given["job"][3:4] in (b"\2", b"\3") else "floor"


def short(given, lent):
    """Whether one of these buffers has fewer places than the least."""
    return any(given.get(name + "_places", least) < least for name, least in lent.items())


def number_of_the_other(other, given, number):
    """What the other operation says where the own one is due to say this number, by the words of the request. 12, and
    what is wrong with the fields, both say; what passes is of a kind that the other one does not accept. Each tells 7
    of its own buffers: where it is told of the own one's alone, nothing is known of the fields, and they are read."""
    if number == wf.JOB_TOO_LONG:
        return number
    if short(given, LENT[other]):
        return wf.SHORT_BUFFER
    if number == wf.SHORT_BUFFER:
        number, _ = wf.read_fields(given["job"])
    return number if number in (wf.PAST_THE_END, wf.BAD_TAG, wf.BAD_LENGTH) else wf.BAD_KIND


def refused_by_the_other(own, given, number):
    """The other operation and its answer: all but the number is 0, and the buffers stay."""
    other = OTHER[own]
    fields = dict.fromkeys(FIELDS[other].split(), 0) | dict(number=number_of_the_other(other, given, number))
    return other, fields | {name: {} for name in LENT[other] if name != "working"}
