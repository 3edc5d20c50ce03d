#!/usr/bin/env python3
"""Holds what C and Rust declare of the exported functions, which is written by hand, to the sources.

    tools/exports.py

The exports are the `#[unsafe(no_mangle)] pub extern "C" fn` of the crates NAME_c, for each archive NAME of
tests/exports, and the `#[repr(C)]` structs that they answer or lend. include/turbelicus.h, tests/c/tests_exports.h,
tests/c/driver.c and tests/bridge/src/face.rs must say the same of each: names, number, order and types of the
parameters, the answer, the fields of every struct. And each export must be what its name is in the library NAME: the
same parameters, answer and clauses, and a body that is the call of it, so that what is promised of the library's
function is promised to C. It exits 1 where one does not.

The driver and the face pass 64-bit words: a float is the word of its 32 bits, and two fields of 32 bits are one word. That
word is named by both: by the last word of their names where it is the same (ra_motion and declination_motion are motions),
else by the two names joined (pressure_and_temperature).
"""
import pathlib
import re
import sys
from typing import NamedTuple

ROOT = pathlib.Path(__file__).resolve().parent.parent
PUBLIC, TESTS = "include/turbelicus.h", "tests/c/tests_exports.h"
DRIVER, FACE = "tests/c/driver.c", "tests/bridge/src/face.rs"

# a function that is exported, and one of a library: its name, parameters, answer, clauses and body
WHOLE = r'fn (\w+)\((.*?)\) -> (\w+)\n(.*?)^\{\n(.*?)^\}$'
EXPORT = re.compile(rf'^#\[unsafe\(no_mangle\)\]\npub extern "C" {WHOLE}', re.M | re.S)
OF_LIBRARY = re.compile(rf'^pub (?:extern "C" )?{WHOLE}', re.M | re.S)
STRUCT = re.compile(r"^#\[repr\(C\)\]\n(?:#\[derive\([^\n]*\)\]\n)*pub struct (\w+) \{\n(.*?)^\}", re.M | re.S)
SLICE = re.compile(r"&(mut )?\[(\w+)\]$")
# a row of the face's functions of numbers, and a function that is lent something
NUMBERS = re.compile(r"= (\w+)\(([^)]*)\) -> \(([^)]*)\);")
LENT = re.compile(
    r'name: "(\w+)",\s*given: \[(.*?)\],\s*answered: \[(.*?)\],\s*room: Room::(\w+),'
    r'.*?extern "C" \{\s*fn (\w+)\((.*?)\) -> ', re.S
)
C_TYPES = {"i64": "int64_t", "i32": "int32_t", "u8": "uint8_t", "usize": "size_t", "f32": "float"}
WORDS = {
    "i64": "given[{}]", "i32": "narrow(given[{}])", "usize": "(size_t)given[{}]", "f32": "float_of(given[{}])"
}
HALF_WORDS = ["i32", "f32"]

Fields = list[tuple[str, str]]


class Export(NamedTuple):
    parameters: Fields
    answer: str
    subjects: list[str]
    whole: str  # parameters, answer and clauses, as they stand
    body: str


def read(path: str) -> str:
    return (ROOT / path).read_text()


def one_line(text: str) -> str:
    """The text with single spaces, and none inside brackets or before a comma that ends a list."""
    text = re.sub(r"\s+", " ", text.replace("\\\n", " ")).strip()
    return re.sub(r",? ?([)\]])", r"\1", re.sub(r"([(\[]) ", r"\1", text))


# ---- what the sources export


def archives() -> list[tuple[str, str]]:
    """The archives, each with its subjects."""
    return re.findall(r"^(\w+): (.*)$", read("tests/exports"), re.M)


def sources(crate: str) -> list[pathlib.Path]:
    return sorted((ROOT / "crates" / crate / "src").rglob("*.rt"))


def exports() -> dict[str, Export]:
    found = {}
    for archive, subjects in archives():
        for source in sources(f"{archive}_c"):
            text = source.read_text()
            functions = EXPORT.findall(text)
            if len(functions) != text.count('extern "C" fn') or len(functions) != text.count("no_mangle"):
                sys.exit(f"{source.relative_to(ROOT)}: an export of another form")
            for name, parameters, answer, clauses, body in functions:
                whole = one_line(f"({parameters}) -> {answer} {clauses}")
                found[name] = Export(
                    re.findall(r"(\w+): ([^,]+)", parameters), answer, subjects.split(), whole, one_line(body)
                )
    return found


def faults_of_bodies(found: dict[str, Export]) -> list[str]:
    """Where an export is not the function of its name in the library of its archive, by clauses and body."""
    beside = {}
    for archive, _ in archives():
        for source in sources(archive):
            path = "::".join([archive, *source.relative_to(ROOT / "crates" / archive / "src").with_suffix("").parts])
            for name, parameters, answer, clauses, _ in OF_LIBRARY.findall(source.read_text()):
                beside[name] = path.removesuffix("::lib"), one_line(f"({parameters}) -> {answer} {clauses}")
    faults = [f"{name}: an export that no library has" for name in found.keys() - beside.keys()]
    for name in found.keys() & beside.keys():
        path, whole = beside[name]
        if found[name].whole != whole:
            faults.append(f"{name}\n    library: {whole}\n    export:  {found[name].whole}")
        given = ", ".join(parameter for parameter, _ in found[name].parameters)
        last = path.rpartition("::")[2]
        if found[name].body not in [f"{before}{name}({given})" for before in (f"{path}::", f"{last}::")]:
            faults.append(f"{name}: its body is not the call of {path}::{name}({given}): {found[name].body}")
    return sorted(faults)


def structs() -> dict[str, Fields]:
    """The fields of each struct that is laid out as in C, by the struct's name."""
    found = {}
    for source in sorted(ROOT.glob("crates/*/src/**/*.rt")):
        for name, body in STRUCT.findall(source.read_text()):
            found[name] = re.findall(r"^    pub (\w+): (\w+),$", body, re.M)
            if len(found[name]) != len(body.splitlines()):
                sys.exit(f"{source.relative_to(ROOT)}: {name}: a field of another form")
    return found


def used(found: dict[str, Export], known: dict[str, Fields]) -> set[str]:
    """The structs that the exports answer or lend, and those that are a field of one."""
    kinds = {export.answer for export in found.values()}
    kinds |= {SLICE.sub(r"\2", kind) for export in found.values() for _, kind in export.parameters}
    kinds &= known.keys()
    while inside := {kind for name in kinds for _, kind in known[name] if kind in known} - kinds:
        kinds |= inside
    return kinds


# ---- the same in C


def c_struct(name: str) -> str:
    """TurbelicusPlaced is turbelicus_placed; what names no product is of the tests: Entry is tests_entry."""
    small = re.sub(r"(?<!^)([A-Z])", r"_\1", name).lower()
    return small if small.startswith(("turbelicus_", "tests_")) else f"tests_{small}"


def c_type(kind: str) -> str:
    return C_TYPES.get(kind) or f"struct {c_struct(kind)}"


def c_parameters(name: str, kind: str) -> list[str]:
    lent = SLICE.match(kind)
    if not lent:
        return [f"{c_type(kind)} {name}"]
    return [f"{'' if lent[1] else 'const '}{c_type(lent[2])} *{name}", f"size_t {name}_length"]


def prototype(name: str, export: Export) -> str:
    parameters = [part for parameter in export.parameters for part in c_parameters(*parameter)]
    return f"{c_type(export.answer)} {name}({', '.join(parameters)})"


def fields_in_c(fields: Fields) -> str:
    return "; ".join(f"{c_type(kind)} {name}" for name, kind in fields)


def declared_in_c(path: str) -> tuple[dict[str, str], dict[str, str]]:
    """The functions and the structs that a header declares, by name, in the form of the two above."""
    text = re.sub(r"/\*.*?\*/|^#.*?$", "", read(path), flags=re.M | re.S)
    bodies = {}
    for name, body in re.findall(r"^struct (\w+) \{(.*?)^\};", text, re.M | re.S):
        rows = [row.rsplit(" ", row.count(",") + 1) for row in one_line(body).strip("; ").split("; ")]
        bodies[name] = "; ".join(f"{kind} {field.strip(',')}" for kind, *names in rows for field in names)
    declared = re.findall(r"^((?:struct )?\w+ (\w+)\([^;{]*\));", text, re.M)
    return {name: one_line(whole) for whole, name in declared}, bodies


# ---- the driver's rows and the bridge's face


def driver_row(export: Export) -> str:
    """The words given, the answer, and what the function is called with: the words in turn, and the slices lent."""
    arguments, words = [], 0
    for _, kind in export.parameters:
        if lent := SLICE.match(kind):
            place = "call->room" if lent[1] else "call->read"
            size = "" if lent[2] == "u8" else f" / sizeof({c_type(lent[2])})"
            arguments += [place, f"{place}_length{size}"]
        else:
            arguments.append(WORDS[kind].format(words))
            words += 1
    return ", ".join([str(words), c_type(export.answer), *arguments])


def driver_rows() -> dict[str, str]:
    rows = re.findall(r"^    FUNCTION\((\w+), (.*?)\)\s*\\?$(?=\n    FUNCTION|\n\n)", read(DRIVER), re.M | re.S)
    return {name: one_line(rest) for name, rest in rows}


def words_of(answer: str, fields: Fields) -> list[str]:
    """The names of an answer's words."""
    words, rest = [], list(fields)
    while rest:
        name, kind = rest.pop(0)
        if kind in HALF_WORDS:
            other, other_kind = rest.pop(0) if rest else ("", "")
            if other_kind not in HALF_WORDS:
                sys.exit(f"{answer}: {name} is half a word by itself")
            name = name_of_both(name, other)
        words.append(name)
    # so short a struct comes back in registers, and its floats in others than those of words
    if len(words) < 3 and any(kind == "f32" for _, kind in fields):
        sys.exit(f"{answer}: a float in an answer of less than three words")
    return words


def name_of_both(first: str, second: str) -> str:
    last = first.rsplit("_", 1)[-1]
    return f"{last}s" if second.rsplit("_", 1)[-1] == last else f"{first}_and_{second}"


def rust_parameters(name: str, kind: str) -> list[str]:
    lent = SLICE.match(kind)
    if not lent:
        return [f"{name}: {kind}"]
    # the bridge lends entries as the bytes that they are
    element = lent[2] if lent[2] in C_TYPES else "u8"
    return [f"{name}: *{'mut' if lent[1] else 'const'} {element}", f"{name}_length: usize"]


def face_of(export: Export, known: dict[str, Fields]) -> str:
    """What the face says of a function: what is declared, what is given and answered in words, what is lent."""
    parameters = [part for parameter in export.parameters for part in rust_parameters(*parameter)]
    given = [part for part, kind in export.parameters if not SLICE.match(kind)]
    # an answer that is one number has no name in the source
    answered = words_of(export.answer, known[export.answer]) if export.answer in known else ["_"]
    room = "Entries" if any(kind == "&mut [Entry]" for _, kind in export.parameters) else "Bytes"
    return said(", ".join(parameters), given, answered, room)


def said(parameters: str, given: list[str], answered: list[str], room: str) -> str:
    return f"({parameters}) given ({', '.join(given)}) answered ({', '.join(answered)}) room {room}"


def faces(found: dict[str, Export], known: dict[str, Fields]) -> dict[str, str]:
    """What the face says of each function, in the form of the one above, with its subject before it."""
    rows = {}
    parts = re.split(r'^#\[cfg\(exported = "(\w+)"\)\]\n', read(FACE), flags=re.M)
    for subject, part in zip(parts[1::2], parts[2::2]):
        text = re.sub(r"^ *//.*$", "", part, flags=re.M)
        short = [(name, parameters, names(re.sub(r": \w+", "", parameters)), answered, "Bytes", name)
                 for name, parameters, answered in NUMBERS.findall(text)]
        long = [(name, parameters, names(given), answered, room, declared)
                for name, given, answered, room, declared, parameters in LENT.findall(text)]
        for name, parameters, given, answered, room, declared in short + long:
            alone = name in found and found[name].answer not in known and len(names(answered)) == 1
            row = said(one_line(f"({parameters})")[1:-1], given, ["_"] if alone else names(answered), room)
            rows[name] = f"{subject}: {row}" if declared == name else f"{subject}: declares {declared}"
    return rows


def names(text: str) -> list[str]:
    return re.findall(r"\w+", text)


# ---- the comparison


def compare(where: str, expected: dict[str, list[str]], found: dict[str, str]) -> list[str]:
    """What is not there, what is no export, and what has none of the forms that the source allows."""
    faults = [f"{where}: {name}: not there" for name in expected.keys() - found.keys()]
    faults += [f"{where}: {name}: no such export" for name in found.keys() - expected.keys()]
    for name in expected.keys() & found.keys():
        if found[name] not in expected[name]:
            forms = "\n    or:     ".join(expected[name])
            faults.append(f"{where}: {name}\n    source: {forms}\n    here:   {found[name]}")
    return sorted(faults)


def faults_of_headers(found: dict[str, Export], known: dict[str, Fields], needed: set[str]) -> list[str]:
    faults = []
    for path, prefix in [(PUBLIC, "turbelicus_"), (TESTS, "tests_")]:
        functions, bodies = declared_in_c(path)
        expected = {name: [prototype(name, export)] for name, export in found.items() if name.startswith(prefix)}
        faults += compare(path, expected, functions)
        fields = {c_struct(name): [fields_in_c(known[name])] for name in needed if c_struct(name).startswith(prefix)}
        faults += compare(path, fields, bodies)
    return faults


def main() -> None:
    found, known = exports(), structs()
    needed = used(found, known)
    rows = {name: [driver_row(export)] for name, export in found.items()}
    face = {
        name: [f"{subject}: {face_of(export, known)}" for subject in export.subjects] for name, export in found.items()
    }
    faults = faults_of_bodies(found) + faults_of_headers(found, known, needed)
    faults += compare(DRIVER, rows, driver_rows()) + compare(FACE, face, faces(found, known))
    print("\n".join([*faults, f"{len(found)} exported functions, {len(needed)} structs; {len(faults)} faults"]))
    sys.exit(1 if faults or len(found) < 20 or len(needed) < 15 else 0)


if __name__ == "__main__":
    main()
