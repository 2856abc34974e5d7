#!/usr/bin/env python3
"""Brings the names of this repository's definitions and lemmas to snake case, once, after port.py.

usage: python3 tools/port_names.py [FOLDER]      the top of a checkout; this one if left out

tools/port_names.tsv has a row for each name: old, a tab, new, and where a name turns in some files alone, a tab
and the beginning of their paths. Whole words turn, in .antt files, in the clauses of .rt files, in must-fail edits
and in the code spans of README.md and docs/. It goes by spelling and proves nothing.
"""

import os
import re
import sys

HERE = os.path.dirname(os.path.abspath(__file__))
WORD = re.compile(r"[^\s(){}.;,@\"«»`]+")
CLAUSE = re.compile(r"(?:requires|ensures)\s*\*?\s*(?:\w+\s*)?\{|ghost\s+use\b")
EDIT = re.compile(r"^(?:old|new): ")
SPAN = re.compile(r"`[^`\n]+`")
MADE = re.compile(r"\.(?:ensures|result|requires|before|after|new|old|now|entry|exit)\b")


def imported(text, own):
    """The names that a file imports from outside of this repository, which stay."""
    names = set()
    for m in re.finditer(r"^use ([^\s{]+)\.\{([^}]*)\}", text, re.M):
        if m.group(1).split(".")[1] not in own:
            names |= {name.strip().split(" as ")[0] for name in m.group(2).split(",")}
    return names


def rows():
    everywhere, some = {}, []
    with open(os.path.join(HERE, "port_names.tsv"), encoding="utf-8") as f:
        for line in f:
            cells = line.rstrip("\n").split("\t")
            if len(cells) == 2:
                everywhere[cells[0]] = cells[1]
            else:
                some.append(cells)
    return everywhere, some


def turn(text, table):
    return WORD.sub(lambda m: table.get(m.group(0), m.group(0)), text)


def turn_walk(text, table):
    """As turn, but a step that Rattle names after the code, as `c.add-up.ensures`, stays."""

    def word(m):
        made = text[m.start() - 1 : m.start()] == "." and MADE.match(text, m.end())
        return m.group(0) if made else table.get(m.group(0), m.group(0))

    return WORD.sub(word, text)


def clause_end(text, at):
    """Where the clause or the `ghost use` item that begins at `at` ends."""
    depth = 0
    for i in range(at, len(text)):
        depth += (text[i] == "{") - (text[i] == "}")
        if depth == 0 and text[i] in "};" and i > at:
            return i + 1
    return len(text)


def turn_source(text, table):
    """The clauses, the `ghost use` items, and the code spans of comments."""
    out, at = [], 0
    for m in CLAUSE.finditer(text):
        if m.start() < at:
            continue
        end = clause_end(text, m.start())
        out += [spans(text[at : m.start()], table), turn(text[m.start() : end], table)]
        at = end
    return "".join(out) + spans(text[at:], table)


def spans(text, table):
    return SPAN.sub(lambda m: turn(m.group(0), table), text)


def turn_edit(text, table):
    """The whole of an edit's lines: its texts are clauses, definitions and code, and no code has such a name."""
    return "\n".join(turn(line, table) if EDIT.match(line) else line for line in text.split("\n"))


def turned(path, text, table):
    if path.endswith("/Proof.antt"):
        return turn_walk(text, table)
    if path.endswith(".antt"):
        return turn(text, table)
    if path.endswith(".rt"):
        return turn_source(text, table)
    if path.endswith(".edit"):
        return turn_edit(text, table)
    return spans(text, table)


def files(top):
    for folder, folders, names in os.walk(top):
        folders[:] = sorted(d for d in folders if d not in ("out", ".git", "target", "landings"))
        below = os.path.relpath(folder, top)
        for name in sorted(names):
            path = os.path.normpath(os.path.join(below, name))
            if path.startswith("crates" + os.sep) and path.endswith((".antt", ".rt", ".edit")):
                yield path
            elif path in ("README.md",) or (path.startswith("docs" + os.sep) and path.endswith(".md")):
                yield path


def main():
    top = sys.argv[1] if len(sys.argv) > 1 else os.path.dirname(HERE)
    everywhere, some = rows()
    own = set(os.listdir(os.path.join(top, "crates")))
    changed = 0
    for path in files(top):
        table = everywhere | {old: new for old, new, begin in some if path.startswith(begin)}
        with open(os.path.join(top, path), encoding="utf-8") as f:
            text = f.read()
        if path.endswith(".antt"):
            kept = imported(text, own)
            table = {old: new for old, new in table.items() if old not in kept}
        new = turned(path, text, table)
        if new != text:
            changed += 1
            with open(os.path.join(top, path), "w", encoding="utf-8") as f:
                f.write(new)
    print(f"port_names: {changed} files changed")


if __name__ == "__main__":
    main()
