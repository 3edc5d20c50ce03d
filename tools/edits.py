#!/usr/bin/env python3
"""Writes docs/EDITS.md, the must-fail edits with the fact that each breaks: the first line of an edit says it.

    tools/edits.py [ROOT]

With ROOT it is written below that folder, and not in the tree.
"""
import pathlib
import re
import sys

TREE = pathlib.Path(__file__).resolve().parent.parent
HEAD = """# The must-fail edits, and the fact that each breaks

`tools/edits.py` writes this page from `crates/NAME/must-fail/`. An edit `crate:label` makes a source or a statement of
its crate wrong, and the crate with it must be refused: `rt ci` tries each. `docs/PROMISES.md` names those of each
sentence.
"""
COLUMNS = "| Edit | Refused because |\n|-|-|\n"


def table() -> str:
    """The edits of each crate, in the order of crates.txt."""
    crates = re.findall(r"^(\w+)[^:#\n]*:", (TREE / "crates.txt").read_text(), re.M)
    rows = []
    for crate in crates:
        for edit in sorted((TREE / "crates" / crate / "must-fail").glob("*.edit")):
            fact = edit.read_text().splitlines()[0].removeprefix("# ").replace("|", r"\|")
            rows.append(f"| `{crate}:{edit.stem}` | {fact} |\n")
    return COLUMNS + "".join(rows)


def main() -> None:
    root = pathlib.Path(sys.argv[1]) if len(sys.argv) > 1 else TREE
    page = root / "docs/EDITS.md"
    page.parent.mkdir(parents=True, exist_ok=True)
    page.write_text(f"{HEAD}\n{table()}")


if __name__ == "__main__":
    main()
