#!/usr/bin/env python3
"""Writes crates/promises/proofs/OnlyOne/: for each public function, that no second answer fits its contract.

    tools/only_one.py [ROOT]

A file for each crate, from the functions and methods of crates/*/src and the form of their `ensures`, and from the
conversions by `From`, whose contract is their `from_gives`. Of a generic function it is so at every type. Whether it is so, the prover
says; tests/promises.sh looks that no public function is left out. With ROOT they are written below that folder, and not
in the tree. Afterwards, in the tree: rt fmt.
"""
import pathlib
import re
import shutil
import sys

TREE = pathlib.Path(__file__).resolve().parent.parent
WIDTH = 120

# what these crates answer comes from outside, so no contract can say it: docs/PROMISES.md lists their functions
FROM_OUTSIDE = {"input", "line_program"}

# a public function: its name, generics, parameters, answer and clauses
FUNCTION = re.compile(
    r'^pub (?:extern "C" )?fn (\w+)(?:<([^\n]*)>)?\((.*?)\)( -> [^\n]*)?\n((?:    (?:requires|ensures).*?)?)^\{', re.M | re.S
)

# the methods of a type, and of each its name, parameters, answer and clauses
METHODS = r"^impl {} \{{\n(.*?)^\}}"
METHOD = re.compile(
    r"^    pub fn (\w+)\((.*?)\)( -> [^\n]*)?\n((?:        (?:requires|ensures).*?)?)^    \{", re.M | re.S
)

# a conversion: from what, and to what
CONVERSION = re.compile(r"^impl From<(.*)> for (\w+) \{", re.M)

# how many arguments a contract takes for a parameter of its function, by the parameter's bound: its type, and for the
# bounds of the repository's own the ghost members and the dictionary of each, and of those that it stands on
TAKEN = {"const": 1, "Drop": 2, "Instant": 5}

# the form of a contract: the lemma of OfContracts.antt that serves it, and how many arguments are found by the prover
LEMMAS = {
    "one": 1, "one_and": 3, "one_text": 1, "one_shown": 1, "one_of_two": 1, "one_both": 4, "one_each": 4, "one_content": 3,
    "content_of_two": 3,
}


def crates():
    for line in (TREE / "crates.txt").read_text().splitlines():
        match = re.match(r"(\w+):", line)  # a static library has none of its own
        if match and match[1] not in FROM_OUTSIDE and (TREE / "crates" / match[1] / "src/lib.rt").exists():
            yield match[1]


def sources(crate):
    """The files whose `pub` functions another crate can call, each with its module's path."""
    folder = TREE / "crates" / crate / "src"
    root = (folder / "lib.rt").read_text()
    yield [], root
    for module in re.findall(r"^pub mod (\w+);", root, re.M):
        yield [module], (folder / f"{module}.rt").read_text()


def functions(crate):
    for path, text in sources(crate):
        for match in FUNCTION.finditer(text):
            name, generics, given, answer, clauses = match.groups()
            yield path, name, generics or "", re.findall(r"(\w+): ([^,]+)", given), answer or "", clauses


def methods(crate):
    """As the functions; the prover names a method by its type, in whichever file its impl stands."""
    files = sorted((TREE / "crates" / crate / "src").glob("*.rt"))
    for path, text in sources(crate):
        for target in re.findall(r"^pub (?:struct|enum) (\w+) ", text, re.M):
            for file in files:
                for body in re.findall(METHODS.format(target), file.read_text(), re.M | re.S):
                    for match in METHOD.finditer(body):
                        name, given, answer, clauses = match.groups()
                        yield [*path, target], name, "", re.findall(r"(\w+): ([^,]+)", given), answer or "", clauses


def conversions(crate):
    """The path of each contract, as the prover names an impl: by its words, each with a capital."""
    for path, text in sources(crate):
        for source, target in CONVERSION.findall(text):
            words = "".join(word[0].upper() + word[1:] for word in re.findall(r"\w+", source))
            yield [*path, f"{target}From{words}", "from"], f"{snake(target)}_from"


def snake(name):
    return re.sub(r"(?<!^)([A-Z])", r"_\1", name).lower()


def taken(generics):
    """The arguments that a contract takes before those that every one takes: of a parameter T they are T, T1, .."""
    found = []
    for bound, name, trait in re.findall(r"(const )?(\w+): (\w+)", generics):
        found += [name, *(f"{name}{k}" for k in range(1, TAKEN["const" if bound else trait]))]
    return found


def apart(known, name, path):
    """A name that no other contract of the crate has: the second of two has its module's before it."""
    return name if name not in known else "_".join([*path, name])


def lemma_of(written, answer, ensures):
    if written is None and "result.items" in ensures[0]:
        return "one_text"
    if written is None and "result.now" in ensures[0]:
        return "one_shown"
    if written is None and len(ensures) == 2:
        return "one_of_two"
    if written is None:
        return "one_and" if "×" in ensures[0] else "one"
    if not answer:
        return "content_of_two" if len(ensures) == 2 else "one_content"
    return "one_each" if len(ensures) == 2 else "one_both"


def theorem(name, generics, given, answer, clauses):
    ensures = re.split(r"^ +ensures", clauses, flags=re.M)[1:]
    lent = [i for i, (_, kind) in enumerate(given) if kind.startswith("&mut")]
    written = lent[0] if lent else None
    lemma = lemma_of(written, answer, ensures)
    claim = "OneAnswer" if written is None else "OneAnswerAndContent"
    content = ""
    if lemma == "one_shown":
        claim, content = "OneShown", " (λ κs r. r.now)"
    if written is not None:
        items = ".items" if f"{given[written][0]}.new.items" in clauses else ""
        content = f"\n      (λ κs x. x{'.1' * written}.0.now{items})"
    return lemma, stated(name, claim, lemma, taken(generics), content)


def stated(name, claim, lemma, arguments, content):
    """The theorem of a contract, and its proof."""
    given = "".join(f"({argument} : _) " for argument in arguments) + "→ " if arguments else ""
    ended = f"({' '.join([f'{name}.ended', *arguments])})" if arguments else f"{name}.ended"
    clauses = " ".join([f"({name}.clauses", *arguments, "𝓛 mem run)"])
    statement = f"  pub {name}_one : {given}{claim} 𝓤 {ended} {clauses}"
    if len(statement) > WIDTH:
        statement = statement.replace(f" ({name}.clauses", f"\n      ({name}.clauses", 1)
    bound = " ".join([f"{name}_one", *arguments, "κs passed g r s x y"])
    proof = f"  {bound} = {lemma} 𝓤 r s{' _' * LEMMAS[lemma]}\n"
    return f"{statement}{content}\n{proof}"


def page(crate):
    names, uses, lemmas, claims, theorems = set(), [], set(), set(), []
    for path, name, generics, given, answer, clauses in [*functions(crate), *methods(crate)]:
        known = apart(names, name, path)
        names.add(known)
        uses.append(f"use Rattle.{'.'.join([crate, 'specs.contracts', *path, name])} as {known}")
        lemma, text = theorem(known, generics, given, answer, clauses)
        lemmas.add(lemma)
        claims.add(re.search(r"One[A-Z]\w+", text)[0])
        theorems.append(text)
    for path, name in conversions(crate):
        uses.append(f"use Rattle.{'.'.join([crate, 'specs.contracts', *path])} as {name}")
        lemmas.add("one")
        claims.add("OneAnswer")
        theorems.append(stated(name, "OneAnswer", "one", [], ""))
    if not theorems:
        return None
    needed = ", ".join([*sorted(claims), *[lemma for lemma in LEMMAS if lemma in lemmas]])
    head = [
        f"-- No second answer fits: the functions of crate `{crate}`. Written by tools/only_one.py.",
        "use seplogic.Ra.Ura.{Ura}",
        "use base.Logic.{SProp}",
        "use prog.Memory.{Memory}",
        "use prog.Routine.{Routine}",
        "use types.Logic.{Logic}",
        "use contract.Monad.{Fun}",
        f"use Rattle.promises.specs.OfContracts.{{{needed}}}",
        *uses,
        "",
        "module _ {M : Type 1} {𝓤 : Ura M} (𝓛 : Logic 𝓤) (mem : Memory → SProp 𝓤) (run : Routine → Fun 𝓤) where",
    ]
    return "\n".join(head) + "\n" + "\n".join(theorems)


def main():
    proofs = pathlib.Path(sys.argv[1] if len(sys.argv) > 1 else TREE) / "crates/promises/proofs"
    shutil.rmtree(proofs / "OnlyOne", ignore_errors=True)
    (proofs / "OnlyOne").mkdir(parents=True)
    index = ["-- No second answer fits, nor a second content of lent memory: of each public function, by its contract."]
    for crate in crates():
        text = page(crate)
        if text:
            name = crate.title().replace("_", "")
            (proofs / "OnlyOne" / f"{name}.antt").write_text(text)
            index.append(f"pub mod {name}")
    (proofs / "OnlyOne.antt").write_text("\n".join(index) + "\n")


main()
