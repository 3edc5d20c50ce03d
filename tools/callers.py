#!/usr/bin/env python3
"""Holds `pub` to its meaning: every public function is called from another crate, by C, or from another file of its own.

    tools/callers.py

A function of a module that its crate keeps to itself (`mod name;`) has to be called from another file of the crate; any
other from another crate, or it is exported to C, or it stands in PROMISED. It prints each that is not, and exits 1 where
there is one.
"""
import pathlib
import re
import sys

ROOT = pathlib.Path(__file__).resolve().parent.parent
CRATES = ROOT / "crates"

# public so that promises can name their contracts: no other crate calls them, or none does any more; what puts bytes into
# lent memory is for a caller with a room of its own
PROMISED = {
    "calendar::dates::day_refused", "calendar::dates::day_number", "polynomials::instant_refused",
    "numerals::of_number", "numerals::signed", "numerals::tenths::of_tenths", "numerals::tenths::tenths_of",
    "line_dates::print_date", "decimals::put_digits", "decimals::put", "decimals::put_refused", "decimals::put_answer",
    "sexagesimal::put_hours", "sexagesimal::put_bearing", "sexagesimal::put_elevation", "line_entries::put_entry",
    "line_entries::observed::put_observed", "line_reads::begin", "line_reads::answer_read",
    "line_places::print_answer",
}

PUBLIC = re.compile(r'^ *pub (extern "C" )?fn (\w+)(?:<.*?>)?(\((?:&|&mut )?self\b)?', re.M)
# as rt fmt lays a call out; what a clause applies to something has a blank before it
CALL = re.compile(r"\b([a-z_]\w*(?:::\w+)*)(?:::<[^()]*>)?\(")
# a function that is handed to another, and a method
HANDED = re.compile(r"[(,]\s*([a-z_]\w*(?:::[a-z_]\w*)+)\s*[),]")
METHOD = re.compile(r"\.(\w+)\(")
USE = re.compile(r"^(?:pub )?use ([\w:]+?)(?:::\{([^}]*)\})?;", re.M)


def module_of(source: pathlib.Path) -> str:
    name = source.stem
    return "" if name in ("lib", "main") else name


def kept(crate: str, module: str) -> bool:
    """Whether a crate keeps a module to itself."""
    roots = [CRATES / crate / "src" / name for name in ("lib.rt", "main.rt")]
    return any(re.search(rf"^mod {module};", root.read_text(), re.M) for root in roots if root.exists())


def path(*parts: str) -> str:
    return "::".join(part for part in parts if part)


def uses(code: str) -> list[str]:
    """What a file's `use` lines name, each by its path: `use a::{b, c};` names a::b and a::c."""
    found = [path(head, name) for head, names in USE.findall(code) for name in re.findall(r"[\w:]+", names) or [""]]
    return [used.removesuffix("::self") for used in found]


def calls(crate: str, module: str, text: str) -> set[str]:
    """The functions that a file calls, by their full paths as far as its `use` lines tell them."""
    code = re.sub(r"//.*|^ghost use [^;]*;|^ghost .*$", "", text, flags=re.M)
    names = {used.split("::")[-1]: re.sub(r"^crate\b", crate, used) for used in uses(code)}
    found = set()
    for call in CALL.findall(code) + HANDED.findall(code):
        head, *rest = call.split("::")
        full = path(names.get(head, re.sub(r"^crate$", crate, head)), *rest)
        found |= {full, path(crate, full), path(crate, module, full)}
    return found


def main() -> None:
    sources = {
        source: (source.relative_to(CRATES).parts[0], module_of(source), source.read_text())
        for source in sorted(CRATES.glob("*/src/**/*.rt"))
    }
    called = {source: calls(*told) for source, told in sources.items()}
    methods = {source: set(METHOD.findall(text)) for source, (_, _, text) in sources.items()}
    faults, count = [], 0
    for source, (crate, module, text) in sources.items():
        inside = module and kept(crate, module)
        for for_c, name, of_self in PUBLIC.findall(text):
            count += 1
            full = path(crate, module, name)
            others = [other for other, (its, _, _) in sources.items() if other != source and (inside or its != crate)]
            if for_c or full in PROMISED or of_self and any(name in methods[other] for other in others):
                continue
            if not any(full in called[other] for other in others):
                faults.append(f"public, and called from {'no other file' if inside else 'no other crate'}: {full}")
    print("\n".join([*faults, f"{count} public functions; {len(faults)} faults"]))
    sys.exit(1 if faults or count < 100 else 0)


if __name__ == "__main__":
    main()
