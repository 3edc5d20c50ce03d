#!/usr/bin/env python3
"""Brings the names that this repository's specs and proofs declare to snake case, once, right after the kit's port.py.

usage: tools/spelling.py        at the top of the repository, as port.py left it

A function was written `dayOf` and a lemma `day-of`; both are in snake case now. Where the two fall together, the lemma
ends in `_lem`. Names of types, modules, functions of src/ and libraries stay as they are.
"""
import collections
import os
import re
import subprocess
import sys
import tempfile

SNAKE = "/opt/rattle/port/notes/2026-11-18-names-are-in-snake-case/snake.py"
WORD = re.compile(r"[^\s(){}\[\];,.]+")
# lemmas that fall together with a function in a file that cites both
LEMMAS = {name: re.sub("-", "_", name) + "_lem" for name in ("low-bytes", "in-range", "field-of", "same_bytes")}
LEMMAS |= {"upTo-le": "up_to_le"}
USE = re.compile(r"^(?:pub )?use (\S+?)\.\{([^}]*)\}", re.M)
DECLARED = re.compile(r"^\s*(?:(?:pub|abbrev|unfoldable) )*([^\s(){}\[\];,.]+) :(?= )", re.M)
RULESET = re.compile(r"^\s*(?:pub )?ruleset ([^\s]+)", re.M)


def texts():
    for folder, folders, names in os.walk("crates"):
        folders[:] = sorted(f for f in folders if f != "out")
        for name in sorted(names):
            if name.endswith(".antt"):
                with open(os.path.join(folder, name), encoding="utf-8") as f:
                    lines = [l.split(" -- ")[0] for l in f.read().split("\n") if not l.lstrip().startswith("--")]
                yield os.path.join(folder, name), "\n".join(lines)


def other_case(name):
    return ("-" in name.strip("-") and re.search("[A-Za-z]", name)) or re.match("^[a-zα-ω_].*[A-Z]", name)


def snake(name):
    name = re.sub(r"([a-z0-9])([A-ZℤℕΔΣ])", r"\1_\2", name)
    name = re.sub(r"([A-Z])([A-Z][a-z])", r"\1_\2", name)
    name = "".join(c.lower() if "A" <= c <= "Z" else c for c in name)
    return re.sub("(?<=.)-(?=.)", "_", name).replace("__", "_")


def table():
    with open("crates.txt", encoding="utf-8") as f:
        own = set(re.findall(r"^([a-z_0-9]+)[^:\n#]*:", f.read(), re.M))
    names, library = collections.Counter(), set()
    for path, text in texts():
        for use in USE.finditer(text):
            module = use[1].split(".")
            if module[0] != "Rattle" or module[1] not in own:
                library |= {n.split(" as ")[0].strip() for n in use[2].split(",")}
        names.update(DECLARED.findall(text) + RULESET.findall(text))
        parts = path.split("/")
        if not (parts[2] == "proofs" and len(parts) > 4):  # the proof of a function cites names that the check makes
            names.update(WORD.findall(text))
    old = sorted(n for n in names if other_case(n) and n not in library and not re.match("[A-Z#]", n) and "::" not in n)
    together = collections.Counter(snake(n) for n in old)
    return {n: snake(n) + ("_lem" if "-" in n and together[snake(n)] > 1 else "") for n in old} | LEMMAS


def replace(path, *pairs):
    with open(path, encoding="utf-8") as f:
        text = f.read()
    for old, new in pairs:
        text = re.sub(rf"(?<![^\s(){{}}.,;]){re.escape(old)}(?![^\s(){{}}.,;])", new, text)
    with open(path, "w", encoding="utf-8") as f:
        f.write(text)


def main():
    with tempfile.NamedTemporaryFile("w", suffix=".tsv", encoding="utf-8") as rows:
        rows.writelines(f"{old}\t{new}\n" for old, new in table().items())
        rows.flush()
        words = ["--table", rows.name, "--only", "antt,rt,md", "--prose", "none", "crates", "docs", "README.md"]
        subprocess.run([sys.executable, SNAKE, *words], check=True)
    # a name of this file's own that a library has too
    replace("crates/words/specs/Holds.antt", ("sub-le", "sub_le"))
    # the check makes a module specs.contracts
    os.rename("crates/promises/specs/Contracts.antt", "crates/promises/specs/OfContracts.antt")
    replace("crates/promises/specs/Lib.antt", ("Contracts", "OfContracts"))
    return 0


if __name__ == "__main__":
    raise SystemExit(main())
