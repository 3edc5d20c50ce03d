#!/usr/bin/env python3
"""The places of docs/DESIGN-PASS.md, counted in crates/*/src: tools/design.py [POINT] [-v] prints the counts, -v the places."""

import collections
import pathlib
import re
import sys

FUNCTION = re.compile(r"^( *)((?:pub )?(?:extern \"C\" )?fn (\w+)(?:<[^(]*>)?\(([^{]*?)\)(?: -> ([^{\n]*?))?)\n((?: +(?:requires|ensures)[^\n]*\n(?: {8}[^\n]*\n)*)*) *\{\n(.*?)\n\1\}\n", re.M | re.S)
SHORT = re.compile(r"^( *)((?:pub )?fn (\w+)(?:<[^(]*>)?\(([^{]*?)\)(?: -> ([^{\n]*?))?) \{\n(.*?)\n\1\}\n", re.M | re.S)


def sources():
    """Each file of src/ with its text without comments."""
    for path in sorted(pathlib.Path("crates").glob("*/src/**/*.rt")):
        yield path, re.sub(r"^ *//.*\n", "", path.read_text(), flags=re.M)


def functions():
    """Each function: its file, name, parameters, contract and body."""
    for path, text in sources():
        for m in FUNCTION.finditer(text):
            yield path, m.group(3), m.group(4), m.group(6), m.group(7)
        for m in SHORT.finditer(text):
            yield path, m.group(3), m.group(4), "", m.group(6)


def own_kinds():
    """Point 1: enums of two variants, flags or refusal numbers beside values, numbers for kinds."""
    for path, text in sources():
        for m in re.finditer(r"enum (\w+) \{\n(.*?)\n\}", text, re.S):
            if len(re.findall(r"^ {4}\w+", m.group(2), re.M)) == 2:
                yield f"{path}: enum {m.group(1)}"
        for m in re.finditer(r"struct (\w+) \{\n(.*?)\n\}", text, re.S):
            flags = re.findall(r"(\w+): (?:bool|i32|i64|Listed|Prepared)\b", m.group(2))
            flags = [f for f in flags if re.match(r"(has_|is_)|(refused|met|more|answer|night)$", f)]
            if flags:
                yield f"{path}: struct {m.group(1)}: {', '.join(flags)}"
    for path, name, parameters, _, _ in functions():
        kinds = re.findall(r"\b(axis|kind|mark|leap|q): \w+", parameters)
        if kinds:
            yield f"{path}: fn {name}: {', '.join(kinds)}"


def twins():
    """Point 2: functions of at least three lines that differ in names, types and numbers alone."""
    shapes = collections.defaultdict(list)
    for path, name, _, _, body in functions():
        lines = [line for line in body.split("\n") if line.strip()]
        if len(lines) >= 3 and "_c/" not in str(path):
            shape = re.sub(r"\b\w+\b", "x", re.sub(r"(\w+::)+", "", body))
            shapes[re.sub(r"\s+", " ", shape)].append(f"{path}: fn {name}")
    for group in shapes.values():
        if len(group) > 1:
            yield from (f"{place}, one of {len(group)}" for place in group)


def index_loops():
    """Point 3: loops that are no `for`."""
    for path, name, _, _, body in functions():
        for m in re.finditer(r"^ *(while .*|loop) \{", body, re.M):
            yield f"{path}: fn {name}: {m.group(1)}"


def by_hand():
    """Point 4: conversions and orders by hand."""
    names = r"\w+_out|number|flag|is_set|at_most|size_of|modulo_of|has_angle|or_nought|come_or|is_digit|length_before|copy|alike"
    for path, name, _, _, _ in functions():
        if re.fullmatch(names, name):
            yield f"{path}: fn {name}"


def facts():
    """Point 5: facts that stand in the `requires` of three functions, and functions with parameters that three take."""
    stands, together = collections.defaultdict(list), collections.defaultdict(list)
    for path, name, parameters, contract, _ in functions():
        if "_c/" in str(path) or "module/" in str(path):
            continue
        for m in re.finditer(r"requires(?: \w+)? \{ (.*?) \}\n", contract, re.S):
            head = re.sub(r"\b[a-z]\w*\b(\.\w+)*", "x", re.sub(r"\s+", " ", m.group(1)))
            stands[head].append(f"{path}: fn {name}")
        given = re.findall(r"(\w+): ([^,]+)", re.sub(r"\s+", " ", parameters))
        for i, first in enumerate(given):
            for second in given[i + 1:]:
                together[(": ".join(first), ": ".join(second))].append(f"{path}: fn {name}")
    for key, places in sorted(stands.items(), key=lambda item: -len(item[1])):
        if len(places) >= 3:
            yield from (f"{key}: {place}" for place in places)
    pairs = collections.defaultdict(list)
    for key, places in together.items():
        if len(places) >= 3:
            for place in places:
                pairs[place].append(" with ".join(key))
    yield from (f"{place}: {'; '.join(keys)}" for place, keys in sorted(pairs.items()))


def buffers():
    """Point 6: arrays with a length beside them, and places in lent memory with the memory."""
    for path, text in sources():
        for m in re.finditer(r"struct (\w+) \{\n(.*?)\n\}", text, re.S):
            if re.search(r": \[\w+; \w+\]", m.group(2)):
                yield f"{path}: struct {m.group(1)}"
    for path, name, parameters, _, _ in functions():
        if re.search(r"\bat: usize", parameters) or re.search(r"out: &mut \[u8", parameters):
            yield f"{path}: fn {name}"


def switches():
    """Point 7: a match or a flag that decides which step runs."""
    for path, name, parameters, _, body in functions():
        if re.search(r"match (program|kind|people)\b", body) or re.search(r"if people\b|if kind ==|if axis ==|if q ==|if k ==", body):
            yield f"{path}: fn {name}"


def answers():
    """Point 8: answers that the check finds alone."""
    for path in sorted(pathlib.Path("crates").glob("*/proofs/**/*.antt")):
        for m in re.finditer(r"^([\w'-]+) c = search rules$", path.read_text(), re.M):
            yield f"{path}: {m.group(1)}"


POINTS = [own_kinds, twins, index_loops, by_hand, facts, buffers, switches, answers]

if __name__ == "__main__":
    wanted = [int(a) for a in sys.argv[1:] if a.isdigit()] or range(1, 9)
    for number in wanted:
        places = list(POINTS[number - 1]())
        print(f"{number}: {len(places)} places. {POINTS[number - 1].__doc__}")
        if "-v" in sys.argv:
            print("\n".join(f"    {place}" for place in places))
