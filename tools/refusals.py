#!/usr/bin/env python3
"""Holds every copy of the refusal numbers to the one list of them: `Refusal` in crates/rules/src/lib.rt.

    tools/refusals.py

The copies are `number` in crates/rules/specs/Refusals.antt, the tables of README.md, docs/RULES.md and
include/turbelicus.h, and the second program's constants and the numbers that its lines speak of. It exits 1 where a
number is missing, is not in the list, is out of order or has another name.
"""
import pathlib
import re
import sys

ROOT = pathlib.Path(__file__).resolve().parent.parent
LIST = "crates/rules/src/lib.rt"
RULES = "crates/rules/specs/Refusals.antt"
PAGES = ["README.md", "docs/RULES.md"]
HEADER = "include/turbelicus.h"
SECOND = "tests/second/src/refusals.rs"

Rows = list[tuple[int, str]]


def constant(name):
    """A name as constants are written: UT1_MINUS_UTC."""
    return re.sub(r"(?<=[a-z0-9])(?=[A-Z])", "_", name).upper()


def read(path: str) -> str:
    return (ROOT / path).read_text()


def part(path: str, begins: str, ends: str) -> str:
    """What stands between two lines of a file; nothing where there is no such part."""
    found = re.search(rf"^{begins}.*?\n(.*?)^{ends}", read(path) + "\n", re.M | re.S)
    return found[1] if found else ""


def numbered(path: str, rows: list[tuple[str, str]]) -> tuple[str, Rows]:
    return path, [(int(number), name) for number, name in rows]


def the_list() -> Rows:
    rows = re.findall(r"^    (\w+) = (\d+),$", part(LIST, r"pub enum Refusal \{", r"\}"), re.M)
    return [(int(number), constant(name)) for name, number in rows]


def copies_with_names() -> list[tuple[str, Rows]]:
    rule = re.findall(r"^number Refusal\.(\w+) = (\d+)$", read(RULES), re.M)
    second = re.findall(r"^pub const (\w+): Refusal = (\d+);$", read(SECOND), re.M)
    return [
        numbered(RULES, [(number, constant(name)) for name, number in rule]),
        numbered(SECOND, [(number, name) for name, number in second]),
    ]


def tables() -> list[tuple[str, list[int]]]:
    """The numbers of the tables that are for reading: each row has one and says when it is given."""
    pages = [
        (path, re.findall(r"^\| (\d+) \| \S", part(path, "## Refusal", r"(?:## |\Z)"), re.M))
        for path in PAGES if (ROOT / path).exists()
    ]
    header = re.findall(r"^ \* {2,4}(\d+)  \S", part(HEADER, r" \* Refusals\.", r"#ifndef"), re.M)
    return [(path, [int(number) for number in rows]) for path, rows in [*pages, (HEADER, header)]]


def spoken_of() -> list[tuple[str, int]]:
    """Every number that a line of the second program calls a refusal, with its file."""
    files = sorted((ROOT / "tests/second").rglob("*.rs"))
    form = re.compile(r"\brefus\w+ (\d+)|\bErr\((\d+)\)", re.I)
    found = ((file, match) for file in files for match in form.finditer(file.read_text()))
    return [(str(file.relative_to(ROOT)), int(match[1] or match[2])) for file, match in found]


def main() -> None:
    listed = the_list()
    numbers = [number for number, _ in listed]
    copies = copies_with_names()
    faults = [
        f"{path}: not as the list has it: {sorted(set(rows) ^ set(listed)) or 'the order'}"
        for path, rows in copies if rows != listed
    ]
    for path, rows in tables():
        if rows != numbers:
            faults.append(f"{path}: the table has the numbers {rows}, the list {numbers}")
    # 0 is that of a line of another form
    faults += [f"{path}: there is no refusal {number}" for path, number in spoken_of() if number not in [0, *numbers]]
    print("\n".join([*faults, f"{len(listed)} refusals, {len(copies) + len(tables())} copies; {len(faults)} faults"]))
    sys.exit(1 if faults or not listed else 0)


if __name__ == "__main__":
    main()
