#!/usr/bin/env python3
"""Says of every must-fail edit which fact it breaks and where the prover first refused it, as a table.

    tools/refused_at.py LOG >TABLE

It reads what `rt ci` or `rt must-fail` printed, which is the first refusal of each edit. It exits 1 where an edit was
not tried or was not refused, and where its refusal shows nothing: a text that is no proof or no definition, a contract
that is none, or names alone that the edit took away. So it does where the refusal is at a need of the code, and not at
what the function ensures: that a number fits, that a callee's condition holds. A need is told by its name, as the
prover makes it; of a proof that is written by hand, by the type of what is declared there.

Where the first refusal is at a need, or says only that something else was refused, the edited function is checked once
more, in a scratch copy of the tree over the libraries that rt has built, and the first refusal at a fact counts. An
edit that is to be refused at a need alone names it in a line `# need: NAME`.
"""
import os
import pathlib
import re
import shutil
import subprocess
import sys
import tempfile
from concurrent.futures import ThreadPoolExecutor
from typing import NamedTuple

ROOT = pathlib.Path(__file__).resolve().parent.parent

# what rt says of an edit, and of what it was refused at: a fact with its name, or a goal that nothing proves. The line
# is cut, so that a goal's name may be lost.
SAID = re.compile(r"^rt: must-fail (\w+)/([\w.-]+)\.edit: (.*)$", re.M)
REFUSED = re.compile(r"^refused, as it must be(?: \((.*?)\))?(?:: (.*))?$")
ERROR = re.compile(r"^(?:\./)?(\S+?:\d+:\d+): error(?:\[[\w-]+\])?: (?:`([^`]+)`: )?(.*)$")
NOTE = re.compile(r"^note: (?:\./)?(\S+?:\d+:\d+): it is not proved that ([^(;]*)(?:\((?!`)[^)]*\) ?)?(?:\(`([^`]+)`\))?")

# what a refusal says that is of the edit's shape, and not of what it claims
SHAPES = [
    (re.compile(r"that can be named from here"), "the function has no such need"),
    (re.compile(r"is not in scope|has no field|has no `"), "no such name"),
    (re.compile(r"^expected type `[^` ]+`, but this has type"), "a value of another type"),
    (re.compile(r"^\d+ declarations? that depends? on "), "something else was refused"),
]

# the type of a declaration that proves a need
NEED = re.compile(r"goal\.(?:Need-)?(\S+)")

# what the function ensures, and what a loop keeps
ENSURED = re.compile(r"^returns(-.*)?$|-(init|preserved)(-.*)?$")
ENSURED_WORDS = re.compile(r"what the function ensures|the invariant of the loop")

# what is asked at a place of the code apart from that
NEEDS = [
    (re.compile(r"-requires(-.*)?$"), "callee's condition"),
    (re.compile(r"^(overflow|nonzero|float)_"), "number that must fit"),
    (re.compile(r"^(\w+_)?bounds-"), "slot or length"),
    (re.compile(r"-smaller(-.*)?$"), "measure"),
]


class Refusal(NamedTuple):
    place: str
    fact: str
    words: str
    shape: str


def of_words(said: str) -> Refusal | None:
    """The refusal that rt tells of an edit, and why it shows nothing, if so; none where the edit was not refused."""
    refused = REFUSED.match(said)
    if not refused:
        return None
    refusal = of_line(refused[2] or "") or Refusal("–", "–", said, "nothing is said of where")
    aside = refused[1] or ""
    if aside.startswith("only because a proof file names"):
        return refusal._replace(shape="a proof file names what the edit took away")
    return refusal._replace(shape="a limit of the prover, and no verdict") if aside else refusal


def of_line(told: str) -> Refusal | None:
    """Where and at which fact a line refuses, and why that shows nothing, if so."""
    if found := NOTE.match(told):
        return Refusal(found[1], found[3] or found[2].strip(), found[2].strip(), "")
    if not (found := ERROR.match(told)):
        return None
    place, fact, words = found[1], found[2] or "", found[3]
    shape = next((why for form, why in SHAPES if form.search(words)), "")
    if not shape and not fact:
        shape = "the text is not read"
    elif not shape and place.startswith("src/"):
        shape = "the contract is none"
    elif not shape and fact[:1].isupper():
        shape = "a definition, and no fact"
    return Refusal(place, fact or words, words, shape)


def named_need(edit: str) -> str:
    """The need at which the edit says that it is refused."""
    line = re.search(r"^(?:# )?need: (\S+)$", edit, re.M)
    return line[1] if line else ""


def declared_type(file: pathlib.Path, line: int, name: str) -> str | None:
    """The type of the declaration of that name that the line belongs to: the last that begins at it or above."""
    if not file.exists():
        return None
    text = file.read_text()
    form = re.compile(rf"^ *(?:\w+ )*{re.escape(name)} :\s+(\S+)", re.M)
    types = [found[1] for found in form.finditer(text) if text.count("\n", 0, found.start()) < line]
    return types[-1] if types else None


def need_of(refusal: Refusal, crate: pathlib.Path) -> str:
    """The need of the code at which the edited crate was refused; none where a fact or a lemma was."""
    file, line, _ = refusal.place.rsplit(":", 2)
    if file.startswith("src/"):
        # a goal by its name, or where that is cut off by its words
        is_ensured = ENSURED.search(refusal.fact) or ENSURED_WORDS.search(refusal.words)
        return "" if is_ensured else refusal.fact
    if not re.match(r"proofs/.*/", file):
        return ""
    kind = NEED.match(declared_type(crate / file, int(line), refusal.fact) or "")
    name = kind[1] if kind else refusal.fact
    # what has no type of a need is a lemma beside the proof
    is_need = kind and not ENSURED.search(name) or any(form.search(name) for form, _ in NEEDS)
    return name if is_need else ""


def kind_of(need: str) -> str:
    if not need:
        return "fact"
    return next((kind for form, kind in NEEDS if form.search(need)), "need of the code")


class Copy:
    """A scratch copy of the tree, in which edited functions are checked."""

    def __init__(self, room: str):
        self.room = pathlib.Path(room)
        shutil.copy(ROOT / "crates.txt", room)
        for crate in (ROOT / "crates").iterdir():
            to = self.room / "crates" / crate.name
            for part in ("src", "specs", "proofs"):
                if (crate / part).exists():
                    shutil.copytree(crate / part, to / part)
            if (crate / "out/rlib").exists():
                shutil.copytree(crate / "out/rlib", to / "out/rlib", symlinks=True, copy_function=linked)

    def refusals(self, name: str, edit: str, place: str) -> list[Refusal]:
        """All refusals of the edited crate, where the function of that place is checked."""
        crate = self.room / "crates" / name
        file, old, texts = crate, "", {}
        for line in edit.splitlines():
            key, _, text = line.partition(": ")
            if key == "file":
                file = crate / text.strip()
                texts.setdefault(file, file.read_text())
            elif key == "old":
                old = text
            elif line.startswith("new:"):
                file.write_text(file.read_text().replace(old, line[len("new:"):].removeprefix(" ")))
        only = ["--only", function] if (function := function_at(crate, place)) else []
        ran = subprocess.run(["rt", "check", *only], cwd=crate, capture_output=True, text=True, errors="replace")
        for file, text in texts.items():
            file.write_text(text)
        return [refusal for line in ran.stdout.splitlines() if (refusal := of_line(line))]


def linked(one: str, other: str) -> None:
    try:
        os.link(one, other)
    except OSError:
        shutil.copy2(one, other)


def function_at(crate: pathlib.Path, place: str) -> str:
    """The function to which a place of a source or of its proof belongs, by its path in the crate; none where it is of neither."""
    file, line, _ = place.rsplit(":", 2)
    if proof := re.fullmatch(r"proofs/([\w/]+)/\w+\.antt", file):
        return proof[1].replace("/", "::")
    if source := re.fullmatch(r"src/([\w/]+)\.rt", file):
        text = "\n".join((crate / file).read_text().splitlines()[:int(line)])
        names = re.findall(r"^ *(?:pub )?(?:extern \"C\" )?fn (\w+)", text, re.M)
        path = [] if source[1] in ("lib", "main") else source[1].split("/")
        return "::".join([*path, names[-1]]) if names else ""
    return ""


def edits() -> list[tuple[str, pathlib.Path]]:
    """The edits by crate, in the order of crates.txt."""
    crates = re.findall(r"^(\w+)[^:#\n]*:", (ROOT / "crates.txt").read_text(), re.M)
    folders = [(crate, ROOT / "crates" / crate / "must-fail") for crate in crates]
    return [(crate, edit) for crate, folder in folders for edit in sorted(folder.rglob("*.edit"))]


def is_told(edit: pathlib.Path, refusal: Refusal) -> bool:
    """Whether the refusal is at a fact, or at the need that the edit names."""
    return not refusal.shape and named_need(edit.read_text()) == need_of(refusal, edit.parent.parent)


def looked_at_again(doubtful: dict[str, list[tuple[str, pathlib.Path, Refusal]]]) -> dict[str, Refusal]:
    """Of edits, by their crates, the refusal that tells the most, by their names: checks of several crates side by side."""
    def of_crate(crate: str) -> dict[str, Refusal]:
        told = {}
        # a copy for each crate, so that no check reads what another has edited below it
        with tempfile.TemporaryDirectory(prefix="refused-at-") as room:
            copy = Copy(room)
            for name, edit, first in doubtful[crate]:
                found = [it for it in copy.refusals(crate, edit.read_text(), first.place) if not it.shape]
                best = [it for it in found if is_told(edit, it)]
                told[name] = next(iter(best or found), first)
        return told

    with ThreadPoolExecutor(os.cpu_count()) as pool:
        return {name: refusal for told in pool.map(of_crate, doubtful) for name, refusal in told.items()}


def main() -> None:
    log = pathlib.Path(sys.argv[1]).read_text(errors="replace")
    said = {f"{crate}:{label}": words for crate, label, words in SAID.findall(log)}
    faults, refusals, doubtful = [], {}, {}
    tried = [(f"{crate}:{edit.stem}", crate, edit) for crate, edit in edits()]
    for name, crate, edit in tried:
        if name in refusals:
            faults.append(f"{name}: two edits of one name")
        refusals[name] = refusal = of_words(said.get(name, ""))
        if not refusal:
            faults.append(f"{name}: {'not refused: ' + said[name][:200] if name in said else 'not tried'}")
        elif refusal.place != "–" and not is_told(edit, refusal):
            doubtful.setdefault(crate, []).append((name, edit, refusal))
    refusals |= looked_at_again(doubtful)

    kinds: dict[str, int] = {}
    print("| Edit | Refused because | Refused at | Fact | Kind |\n|-|-|-|-|-|")
    for name, crate, edit in tried:
        refusal = refusals[name]
        if not refusal:
            continue
        need = "" if refusal.place == "–" else need_of(refusal, edit.parent.parent)
        kind = kind_of(need)
        if refusal.shape:
            faults.append(f"{name}: refused for its shape, at {refusal.place}: {refusal.shape}: {refusal.fact}")
        elif not is_told(edit, refusal):
            faults.append(f"{name}: refused at a {kind}, {refusal.place}: {refusal.fact}")
        kinds[kind] = kinds.get(kind, 0) + 1
        broken = edit.read_text().splitlines()[0].removeprefix("# ").replace("|", r"\|")
        print(f"| `{name}` | {broken} | `{refusal.place}` | `{refusal.fact}` | {kind} |")
    counted = ", ".join(f"{count} at a {kind}" for kind, count in sorted(kinds.items()))
    again = sum(map(len, doubtful.values()))
    print(f"\n{len(tried)} edits: {counted}; {again} looked at again; {len(faults)} show nothing")
    for fault in faults:
        print(fault)
    sys.exit(1 if faults else 0)


if __name__ == "__main__":
    main()
