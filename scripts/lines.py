"""Writes the table of each crate's lines of code, of specs and of proofs into docs/PROOFS.md, between two marks.

Lines without blanks and comments; code counts contracts and tests. `python3 scripts/lines.py`, from anywhere."""
import os
import pathlib

import tables

PARTS = (("src", ".rt", "//"), ("specs", ".antt", "--"), ("proofs", ".antt", "--"))


def count(crate, part, ending, comment):
    """How many lines of the crate's files in this folder are neither blank nor a comment."""
    found = 0
    for folder, _, names in os.walk(tables.ROOT / "crates" / crate / part):
        for name in names:
            if name.endswith(ending):
                text = (pathlib.Path(folder) / name).read_text(encoding="utf-8")
                lines = map(str.strip, text.split("\n"))
                found += sum(bool(line) and not line.startswith(comment) for line in lines)
    return found


def table():
    crates = tables.crates()
    rows = [[count(crate, *part) for part in PARTS] for crate in crates]
    sums = [sum(row[place] for row in rows) for place in range(len(PARTS))]
    named = [[crate, *row] for crate, row in zip([*crates, "together"], [*rows, sums])]
    return ["", tables.row("Crate", "lines of code", "of specs", "of proofs"), "|---|---|---|---|", *[tables.row(*line) for line in named], ""]


if __name__ == "__main__":
    tables.put("lines", table())
