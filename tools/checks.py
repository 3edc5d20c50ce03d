#!/usr/bin/env python3
"""Writes docs/CHECKS.md from the log of a gate run: how long its parts took, and how much of them was done in that run.

    .ci/run | tee LOG
    tools/checks.py LOG
"""
import pathlib
import re
import subprocess
import sys

ROOT = pathlib.Path(__file__).resolve().parent.parent

HEAD = """# How long the checks take

`tools/checks.py` writes this page from the log of `.ci/run`. `rt ci` (the part `proofs`) proves every crate, tries the
must-fail edits, each over what the crate's own check proved, and runs the programs. What it passed is kept on the
machine: of that a later run says so, and takes no time.

"""


def minutes(seconds: int) -> str:
    return f"{seconds // 60} min {seconds % 60:02} s"


def main() -> None:
    log = pathlib.Path(sys.argv[1]).read_text(errors="replace")
    machine = re.search(r"^machine: (.+)$", log, re.M)
    passed = re.search(r"^(\d+) passed, 0 failed$", log, re.M)
    done = re.search(r"^rt: ok; .*?must-fail edits: (\d+) refused.*?; ([^;\n]*)(?:;.*)?$", log, re.M)
    parts = re.findall(r"^== (.+): passed \((\d+) s\)$", log, re.M)
    if not machine or not passed or not done or not parts:
        sys.exit("the log is not of a gate that passed")

    proved = dict(re.findall(r"^== (\w+)\n(?:(?!== ).*\n)*?logic=proved functions=(\d+)", log, re.M))
    edits: dict[str, int] = {}
    for name in re.findall(r"^rt: must-fail (\w+)/\S+: refused", log, re.M):
        edits[name] = edits.get(name, 0) + 1
    kit = subprocess.run(["rt", "version"], capture_output=True, text=True, check=True).stdout.strip()
    lines = [HEAD, f"`rt ci`: {passed[0]}; {done[1]} edits refused; {done[2]}. Kit: `{kit}`.\n"]
    lines.append(f"Taken on {machine[1]}; another machine may take a half more or less.\n\n")
    lines.append("| part of the gate | time |\n|-|-|\n")
    lines += [f"| {name} | {minutes(int(seconds))} |\n" for name, seconds in parts]
    lines.append(f"| all | {minutes(sum(int(seconds) for _, seconds in parts))} |\n\n")
    lines.append("| crate | functions proved in this run | edits |\n|-|-|-|\n")
    for name in re.findall(r"^(\w+)[^:#\n]*:", (ROOT / "crates.txt").read_text(), re.M):
        lines.append(f"| `{name}` | {proved.get(name, '–')} | {edits.get(name, '–')} |\n")
    (ROOT / "docs/CHECKS.md").write_text("".join(lines))


if __name__ == "__main__":
    main()
