"""The answers of today's library and program, and of the C reference, in the names
of the stored form."""

import subprocess
from concurrent.futures import ThreadPoolExecutor
from pathlib import Path

from stored import BYTES, LISTS, unpack

ROOT = Path(__file__).resolve().parents[2]
LIBRARY = ROOT / "target/releases-answers"
C_REFERENCE = ROOT / "target/releases-reference"
PROGRAM = ROOT / "target/bin/windowfloor"


def plain(operation, given):
    """A case as the library's driver reads it."""
    words = [operation]
    for name, value in given.items():
        if name in LISTS:
            value = ",".join(map(str, value))
        elif name in BYTES:
            value = value.hex()
        words.append(f"{name}={value}")
    return " ".join(words) + "\n"


def library(operation, inputs, driver=LIBRARY):
    text = "".join(plain(operation, given) for given in inputs)
    done = subprocess.run([driver], input=text, stdout=subprocess.PIPE, text=True, check=True)
    answers = [unpack(line, True) for line in done.stdout.splitlines()]
    assert len(answers) == len(inputs)
    return answers


def printed(given):
    done = subprocess.run([PROGRAM], input=given["job"], capture_output=True, timeout=60)
    return {"status": done.returncode, "errors": len(done.stderr), "text": done.stdout.decode()}


def program(inputs):
    with ThreadPoolExecutor(2) as pool:
        return list(pool.map(printed, inputs))


def by_c_reference(operation, inputs):
    """The same by the C reference, which prints no text."""
    return library(operation, inputs, C_REFERENCE)


def answers(operation, inputs):
    """The answer to each input of an operation."""
    return program(inputs) if operation == "text" else library(operation, inputs)
