"""The stored input and expected output of a case program: written, or with --check compared."""
import sys
from functools import lru_cache
from pathlib import Path

CRATES = Path(__file__).resolve().parents[2] / "crates"
BLOCK, MOST_BLOCKS = 65_536, 64  # the bytes that the program of the job cases reads at once, and how often it does


def line(row):
    return " ".join(map(str, row)) + "\n"


def lines(rows):
    return "".join(map(line, rows))


def in_blocks(rows):
    """The lines, and empty ones where the next would lie in two blocks."""
    text, room = [], BLOCK
    for row in map(line, rows):
        assert len(row) <= BLOCK
        if len(row) > room:
            text.append("\n" * room)
            room = BLOCK
        text.append(row)
        room -= len(row)
    text = "".join(text)
    assert len(text) <= BLOCK * MOST_BLOCKS
    return text


def store_or_check(crate, stdin, stdout):
    """Exit status: 1 if a stored file differs from what it should be."""
    status = 0
    for name, text in (("stdin", stdin), ("stdout", stdout)):
        path = CRATES / crate / name
        if "--check" not in sys.argv[1:]:
            path.parent.mkdir(parents=True, exist_ok=True)
            path.write_bytes(text.encode())
        elif not path.is_file() or path.read_bytes() != text.encode():
            print(f"differs: crates/{crate}/{name}")
            status = 1
    return status


@lru_cache
def stored(crate, name):
    """The numbers of each line that has some."""
    text = (CRATES / crate / name).read_text().splitlines()
    return [tuple(map(int, row.split())) for row in text if row]
