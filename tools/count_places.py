#!/usr/bin/env python3
"""Lists the places in crates/*/src that an older form of the language would have left, a line each.

usage: python3 tools/count_places.py [--list] [FOLDER]      the top of a checkout; this one if left out

Prints a count for each kind of place, and with --list the places too. It goes by spelling: docs/DESIGN-PASS.md
says of each place that is left why it stays.
"""

import collections
import os
import re
import sys

FN = re.compile(r"^( *)(?:pub(?:\(crate\))? )?(?:const )?(?:extern \"C\" )?fn (\w+)", re.M)
NUMBER = re.compile(r"\b\d[\d_]*(?:u8|u16|u32|u64|usize)?\b")
TYPE = re.compile(r"\b(?:u8|u16|u32|u64|usize)\b")


class Function:
    def __init__(self, path, name, text, line):
        self.path, self.name, self.text, self.line = path, name, text, line
        opened = re.search(r"\n *\{\n", text)
        head, self.body = (text[: opened.start()], text[opened.end() :]) if opened else text.partition("{")[::2]
        self.head = re.sub(r"\s+", " ", head)

    def where(self):
        return f"{self.path}:{self.line} {self.name}"

    def parameters(self):
        listed = re.search(r"\((.*?)\)(?: ->| *requires| *ensures| *where| *$)", self.head)
        words = [w for w in re.split(r", ", listed.group(1).strip(" ,")) if w] if listed else []
        return [w.strip(" ,") for w in words]

    def clauses(self):
        said = " ".join(re.findall(r"requires(?: \w+)? \{(.*?)\}", self.head))
        return [c.strip(" ()") for c in said.split("×") if c.strip()]


def bare(text):
    """Without comments, ghost imports and tests."""
    text = text.split("#[cfg(test)]")[0]
    text = re.sub(r"//[^\n]*", "", text)
    return re.sub(r"ghost use [^;]*;", lambda m: "\n" * m.group(0).count("\n"), text)


def functions(path, text):
    found = []
    for m in FN.finditer(text):
        end = re.compile("^" + m.group(1) + r"\}", re.M).search(text, m.end())
        body = text[m.start() : end.end() if end else len(text)]
        found.append(Function(path, m.group(2), body, text.count("\n", 0, m.start()) + 1))
    return found


def sources(top):
    for folder, _, names in sorted(os.walk(os.path.join(top, "crates"))):
        for name in sorted(names):
            path = os.path.join(folder, name)
            if name.endswith(".rt") and "/src" in folder and "/out/" not in path:
                with open(path, encoding="utf-8") as f:
                    yield os.path.relpath(path, os.path.join(top, "crates")), bare(f.read())


def lines(path, text, pattern):
    at = lambda m: text.count("\n", 0, m.start()) + 1
    return [f"{path}:{at(m)} {' '.join(m.group(0).split())}" for m in re.finditer(pattern, text)]


def counted_loops(fn):
    """The loops of a function whose condition reads a variable that the body moves by a number."""
    for m in re.finditer(r"while ([^{]*)\{", fn.body):
        moved = re.findall(r"\b(\w+) [+-]= \d+;", fn.body[m.end() :])
        if any(re.search(rf"\b{name}\b", m.group(1)) for name in moved):
            yield fn.where()


def running_places(fn):
    """The numbers of a function that move over a slice in a loop and say where it is cut or read."""
    loop = re.search(r"\b(?:while|for) [^{]*\{", fn.body)
    for name in sorted(set(re.findall(r"let mut (\w+) = 0;", fn.body))) if loop else []:
        behind = fn.body[loop.end() :]
        moved = re.search(rf"\b{name} (?:\+= |= end)", behind)
        cut = re.search(rf"\[(?:\w+ \* )?{name}\b|, {name}, ", behind)
        if moved and cut:
            yield f"{fn.where()} {name}"


def alike(fns, shape):
    groups = collections.defaultdict(list)
    for fn in fns:
        groups[shape(fn)].append(fn)
    return [" = ".join(f.where() for f in group) for key, group in groups.items() if key and len(group) > 1]


def twin_shape(fn):
    body = re.sub(r"\s+", " ", fn.body)
    if fn.path.split("/")[0].endswith("_c") or len(body) < 40:
        return ""
    return TYPE.sub("T", NUMBER.sub("N", re.sub(r"\b\w+::", "", body)))


def repeated(fns, parts, least):
    """What stands in the heads of three or more functions of a crate."""
    seen = collections.defaultdict(set)
    for fn in fns:
        for part in parts(fn):
            seen[(fn.path.split("/")[0], part)].add(fn.where())
    return [f"{crate}: {part} ({len(at)})" for (crate, part), at in sorted(seen.items()) if len(at) >= 3 and len(part) >= least]


def travelling(fn):
    """Each three parameters in a row, as one text."""
    words = fn.parameters()
    return {", ".join(words[i : i + 3]) for i in range(len(words) - 2)}


def places(top):
    every, by_kind = [], collections.OrderedDict()
    texts = list(sources(top))
    for path, text in texts:
        every += functions(path, text)
    add = by_kind.__setitem__
    over = lambda pattern: [line for path, text in texts for line in lines(path, text, pattern)]
    where = lambda test: [fn.where() for fn in every if test(fn)]
    add("1 a field that is a refusal's number", over(r"pub(?:\(crate\))? number: u64"))
    add("1 a flag with values beside it", over(r"struct \w+(?:<[^>]*>)? \{[^}]*: bool,"))
    add("1 a function that answers refusals' numbers", where(lambda f: re.match(r"refuse", f.name) and "-> u64" in f.head))
    add("1 a number for a kind, a tag or a family", over(r"\b(?:kind|tag|family): u8\b"))
    add("1 numbers turned into refusals", where(lambda f: re.search(r"\b\d+ => Refusal::", f.body)))
    add("2 functions alike but for numbers and types", alike(every, twin_shape))
    add("3 a loop that counts by hand", [place for fn in every for place in counted_loops(fn)])
    add("3 other while loops", [fn.where() for fn in every for _ in re.findall(r"\bwhile\b", fn.body) if not list(counted_loops(fn))])
    add("3 numbers read at a place in a loop", where(lambda f: re.search(r"\b(?:for|while) [^{]*\{.*_at\(\w+, (?:\d \* |\w+\))", f.body, re.S)))
    add("4 a choice of the lesser or greater by hand", where(lambda f: re.search(r"if (\w+) < (\w+) \{\s*(?:return )?(?:\1|\2);?\s*\}", f.body)))
    add("4 a difference that stops at 0, by hand", where(lambda f: re.search(r"\{ (\w+) - (\w+) \} else \{ 0 \}", f.body)))
    add("4 a widening by `as`", over(r"\w[\w.\[\]()]* as (?:u32|u64|usize)\b"))
    add("4 an answer printed field by field", where(lambda f: len(re.findall(r"write_number\(out", f.body)) > 1))
    add("4 a range tested by two comparisons", over(r"\w+ <= \*?(\w+) && (?:u64::from\(\*)?\1\)? <= \w+|\b(\w+) < \w+ \|\| \w+ < \2\b"))
    add("5 a fact in the contracts of three or more functions", repeated(every, lambda f: set(f.clauses()), 12))
    add("5 three parameters that travel together", repeated(every, travelling, 0))
    add("6 a place and a length, or a count beside an array", over(r"struct \w+(?:<[^>]*>)? \{[^}]*\b(?:at|count|next): usize,"))
    add("6 a slice with its length beside it", where(lambda f: re.search(r"&\[u8\], n: usize", f.head)))
    add("6 a running place beside a slice", [place for fn in every for place in running_places(fn)])
    add("7 a tag or kind that chooses by a number", over(r"\b(?:tag|kind) [!=]= \d+\b"))
    add("7 arms that differ in the number they pass on", where(lambda f: len(re.findall(r"\b\d => (\w+(?:::\w+)*)\(", f.body)) > 2))
    add("8 helper lemmas that repeat another", second_lemmas(top))
    return by_kind


def second_lemmas(top):
    """Lemmas of an Answers.antt that stand once for each place of their function, with a number behind the name."""
    found = []
    for folder, _, names in sorted(os.walk(os.path.join(top, "crates"))):
        if "Answers.antt" in names and "/out/" not in folder:
            path = os.path.join(folder, "Answers.antt")
            with open(path, encoding="utf-8") as f:
                found += [f"{os.path.relpath(path, top)} {name}" for name in re.findall(r"^(\w+_[2-9]) : \(c : ", f.read(), re.M)]
    return found


def main():
    words = [w for w in sys.argv[1:] if w != "--list"]
    top = words[0] if words else os.path.dirname(os.path.dirname(os.path.abspath(__file__)))
    for kind, found in places(top).items():
        print(f"{len(found):4}  {kind}")
        if "--list" in sys.argv:
            print("".join(f"        {place}\n" for place in found), end="")


if __name__ == "__main__":
    main()
