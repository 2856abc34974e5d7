"""What include/windowfloor.h says, other files say too: python3 header.py TEXTS

The numbers of refusal are the same in the header's enum, in the file TEXTS,
where refusals.c has printed them with their texts, and in README.md; the newest
version of CHANGELOG.md is the header's; the text of 24 has the most copies; and the
limit's value stands once in the header. Exits with 1 if not."""

import re
import sys
from pathlib import Path

ROOT = Path(__file__).resolve().parents[2]
HEADER = (ROOT / "include/windowfloor.h").read_text()


def part_of(text, start, end):
    """From the only place of start to the next end."""
    _, rest = text.split(start)
    return rest[:rest.index(end)]


def constant(name):
    """A #define of the header, without the u of an unsigned number."""
    return re.search(rf'^#define {name} "?([0-9.]+)', HEADER, re.M)[1]


def numbers(pattern, text):
    return [int(number) for number in re.findall(pattern, text, re.M)]


def refusals(texts):
    """Lists of numbers that have to be the same, by where they stand. README.md leaves out 0, accepted."""
    table = part_of((ROOT / "README.md").read_text(), "## Refusals, in words\n", "\n## ")
    return {"WINDOWFLOOR_LAST_REFUSAL": list(range(int(constant("WINDOWFLOOR_LAST_REFUSAL")) + 1)),
            "the enum": numbers(r"^ +WINDOWFLOOR_\w+ = (\d+)", part_of(HEADER, "/* The numbers of refusal.", "};")),
            "the texts": numbers(r"^(\d+) ", texts),
            "README.md": [0] + numbers(r"^\| (\d+) \|", table)}


def versions():
    newest = re.search(r"^## (\S+)", (ROOT / "CHANGELOG.md").read_text(), re.M)
    return {"the header": constant("WINDOWFLOOR_VERSION"), "CHANGELOG.md": newest[1] if newest else None}


def most_copies(texts):
    return {"WINDOWFLOOR_MOST_COPIES": [int(constant("WINDOWFLOOR_MOST_COPIES"))],
            "the text of 24": numbers(r"^24 .* (\d+) copies", texts)}


def same(what, found):
    """Whether all are the same; tells them if not."""
    if all(value == next(iter(found.values())) for value in found.values()):
        return True
    print(f"header: not the same {what}:")
    for where, value in found.items():
        print(f"  {where}: {value}")
    return False


def main():
    texts = Path(sys.argv[1]).read_text()
    limit = HEADER.replace(",", "").count(constant("WINDOWFLOOR_LIMIT"))
    results = [same("numbers of refusal", refusals(texts)), same("versions", versions()),
               same("most copies", most_copies(texts)),
               same("count of the limit's value", {"wanted": 1, "the header": limit})]
    if all(results):
        print("header: refusals, version and limits as they stand elsewhere")
    return 0 if all(results) else 1


if __name__ == "__main__":
    sys.exit(main())
