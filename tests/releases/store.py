"""Stores a release: python3 tests/releases/store.py NAME, where NAME is its version,
as 5.1.0; before that it was request-1 to request-9.

Makes the inputs of inputs_NAME.py, has today's library and program answer them,
holds the answers to the independent implementation, and writes them to the
folder NAME and to the list of releases. What is stored is never written again."""

import importlib
import re
import sys
from collections import Counter

sys.dont_write_bytecode = True
import by_reference
import today
from stored import FOLDER, LIST, case_file, write_file


def module_of(name):
    """The module of a release's inputs: inputs_5_1_0, inputs_request_9."""
    return "inputs_" + re.sub("[-.]", "_", name)


def distinct(inputs):
    """Each input once, in the order of their making."""
    return list({repr(given): given for given in inputs}.values())


def outcome(answer):
    """The number of refusal; of a text, its first word."""
    return answer["text"].split()[0] if "text" in answer else answer["number"]


def agreed(operation, pairs):
    """Whether the independent implementation gives the same answers; shows those that differ."""
    differ = [(given, answer, by_reference.answer(operation, given)) for given, answer in pairs]
    differ = [row for row in differ if row[1] != row[2]]
    for given, answer, expected in differ[:5]:
        print(f"differs: {operation} {given!r:.300}\n  {answer!r:.300}\n  {expected!r:.300}")
    seen = sorted(Counter(outcome(answer) for _, answer in pairs).items())
    counts = ", ".join(f"{which}: {count}" for which, count in seen)
    print(f"{operation}: {len(pairs)} cases, {len(differ)} differ; {counts}", flush=True)
    return not differ


def main(name):
    if (FOLDER / name).exists():
        print(f"{name} is stored already")
        return 1
    made = importlib.import_module(module_of(name)).inputs()
    inputs = {operation: distinct(given) for operation, given in made.items()}
    stored = {operation: list(zip(given, today.answers(operation, given))) for operation, given in inputs.items()}
    if not all([agreed(operation, pairs) for operation, pairs in stored.items()]):
        return 1
    (FOLDER / name).mkdir()
    for operation, pairs in stored.items():
        write_file(case_file(FOLDER, name, operation), pairs)
        with open(FOLDER / LIST, "a") as releases:
            releases.write(f"{name} {operation} {len(pairs)}\n")
    return 0


if __name__ == "__main__":
    sys.exit(main(*sys.argv[1:]))
