"""The stored form of cases, read and written.

A case is a line: what is given, ` -> `, and what was answered, each as words
NAME=VALUE. A value is

- a number;
- numbers with commas between, where `7*300` is 300 times 7 and `5+2*4` is 5,7,9,11;
- bytes in hexadecimal with points between parts, where `00000007*300` is a part
  300 times, and `00000005+2*4` is 4 numbers of as many bytes, each 2 more;
- the places of a buffer that changed, as PLACE:NUMBERS with `;` between parts
  (places from 0), or `same`. Before the call place i of a buffer of 32 bits holds
  4,294,000,000 + i, of a buffer of 64 bits 2**63 + i;
- for `text`, the last word of its line, what was printed, as a Python string."""

import ast
import re
from pathlib import Path
from typing import NamedTuple

FOLDER = Path(__file__).resolve().parent
LIST = "releases.txt"  # a line for each file of cases: release, operation, number of cases
LISTS = ("entries", "sizes", "counts")
BYTES = ("job",)
BUFFERS = ("images", "working", "second", "list", "scales", "blocks", "windows")
LEAST_RUN = 4  # shorter runs are written out


class Case(NamedTuple):
    release: str
    operation: str
    line: int
    given: dict
    answer: dict


# Numbers and bytes

def runs(numbers):
    """(first, step, count) of each run of numbers that go on by the same step."""
    at = 0
    while at < len(numbers):
        end, step = at + 1, 0
        if end < len(numbers):
            step = numbers[end] - numbers[at]
            while end < len(numbers) and numbers[end] - numbers[end - 1] == step:
                end += 1
        if end - at < LEAST_RUN:
            end, step = at + 1, 0
        yield numbers[at], step, end - at
        at = end


def run_text(first, step, count):
    if count == 1:
        return first
    return f"{first}*{count}" if step == 0 else f"{first}{step:+}*{count}"


PART = re.compile(r"([0-9a-f]+)([+-][0-9]+)?(?:\*([0-9]+))?")


def run_parts(part):
    """First, step and count of a part as it is written."""
    first, step, count = PART.fullmatch(part).groups()
    return first, int(step or 0), int(count or 1)


def pack_numbers(numbers):
    return ",".join(run_text(str(first), step, count) for first, step, count in runs(numbers))


def unpack_numbers(text):
    numbers = []
    for part in filter(None, text.split(",")):
        first, step, count = run_parts(part)
        numbers += [int(first) + i * step for i in range(count)]
    return numbers


def fields_of(job):
    """The bytes of each field in turn, header and value; the last part may be cut short."""
    fields = []
    while job:
        end = 3 + int.from_bytes(job[1:3], "big")
        fields.append(job[:end])
        job = job[end:]
    return fields


def word_parts(data):
    """Parts (first, step, count): runs of four-byte numbers, and what lies between them."""
    parts, plain = [], ""
    words = [int.from_bytes(data[at:at + 4], "big") for at in range(0, len(data) - 3, 4)]
    for first, step, count in runs(words):
        if count == 1:
            plain += f"{first:08x}"
        else:
            parts += [(plain, 0, 1), (f"{first:08x}", step, count)]
            plain = ""
    return parts + [(plain + data[4 * len(words):].hex(), 0, 1)]


def field_parts(data):
    """The same for each field, a short one in a part of its own."""
    parts = []
    for field in fields_of(data):
        if len(field) <= 24:
            parts.append((field.hex(), 0, 1))
        else:
            parts += [(field[:3].hex(), 0, 1)] + word_parts(field[3:])
    return parts


def parts_text(parts):
    """Equal parts in a row become one; empty ones are left out."""
    joined = []
    for first, step, count in parts:
        if joined and joined[-1][:2] == (first, 0) and step == 0:
            count += joined.pop()[2]
        joined.append((first, step, count))
    return ".".join(run_text(*part) for part in joined if part[0])


def pack_bytes(data):
    return min(parts_text(field_parts(data)), parts_text(word_parts(data)), key=len)


def unpack_bytes(text):
    data = b""
    for part in filter(None, text.split(".")):
        first, step, count = run_parts(part)
        width, number = len(first) // 2, int(first, 16)
        data += b"".join((number + i * step).to_bytes(width, "big") for i in range(count))
    return data


# Buffers: a dictionary from places to numbers

def pack_places(places):
    parts = []
    for place in sorted(places):
        if place - 1 not in places:
            parts.append((place, []))
        parts[-1][1].append(places[place])
    return ";".join(f"{place}:{pack_numbers(numbers)}" for place, numbers in parts) or "same"


def unpack_places(text):
    places = {}
    if text != "same":
        for part in text.split(";"):
            place, numbers = part.split(":")
            places.update(enumerate(unpack_numbers(numbers), int(place)))
    return places


# Lines

def pack(values, answer):
    """Words; as an answer, the names of buffers are those of their places."""
    words = []
    for name, value in values.items():
        if name in LISTS:
            value = pack_numbers(value)
        elif name in BYTES:
            value = pack_bytes(value)
        elif answer and name in BUFFERS:
            value = pack_places(value)
        elif name == "text":
            value = repr(value)
        words.append(f"{name}={value}")
    return " ".join(words)


def unpack(text, answer):
    values = {}
    before, found, printed = text.partition("text=")
    for word in before.split():
        name, value = word.split("=")
        if name in LISTS:
            values[name] = unpack_numbers(value)
        elif name in BYTES:
            values[name] = unpack_bytes(value)
        elif answer and name in BUFFERS:
            values[name] = unpack_places(value)
        else:
            values[name] = int(value)
    if found:
        values["text"] = ast.literal_eval(printed)
    return values


def read_file(path, release, operation):
    for number, line in enumerate(path.read_text().splitlines(), 1):
        given, answer = line.split(" -> ", 1)
        yield Case(release, operation, number, unpack(given, False), unpack(answer, True))


def write_file(path, pairs):
    path.write_text("".join(f"{pack(given, False)} -> {pack(answer, True)}\n" for given, answer in pairs))


def read_list(folder):
    """(release, operation, number of cases) of each file, in the order of the releases."""
    rows = [line.split() for line in (folder / LIST).read_text().splitlines()]
    return [(release, operation, int(count)) for release, operation, count in rows]


def case_file(folder, release, operation):
    return folder / release / f"{operation}.txt"
