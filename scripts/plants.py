"""Runs `rt plant` with the whole of its plants in each crate that is named, or in all that have contracts to plant in, and
writes what it counted into docs/PROOFS.md, between two marks: a row for each crate; the rows of the others stay. What it
prints of functions that are untested, or whose plants are proved, goes to standard output. The crates have to be proved
(`rt check`), or it proves them first. It takes minutes for each crate, and isn't in the gate."""
import re
import subprocess
import sys

import tables

COLUMNS = ("refused", "same", "proves", "elsewhere", "not-judged", "not-source", "not-run", "planted-in", "untested")
SUITES = ("suite", "thread_suite", "program_suite", "beside_suite", "join_suite")
WITHOUT = ("cubeboard", "cubejoin", "fixtures", "devices", *SUITES)


def crates():
    return [name for name in tables.crates() if name not in WITHOUT]


def counts(crate):
    """The numbers of a crate's last line, by name."""
    words = ["rt", "plant", "--max", "100000", "--minutes", "1000", "--jobs", "1"]
    ran = subprocess.run(words, cwd=tables.ROOT / "crates" / crate, stdout=subprocess.PIPE, text=True, check=False)
    print(f"== {crate}\n{ran.stdout}", flush=True)
    last = re.search(r"^plants crate=.*$", ran.stdout, re.MULTILINE)
    if not last:
        sys.exit(f"plants: {crate}: rt plant ended without its last line")
    return dict(pair.split("=") for pair in last[0].split()[1:])


def main(names):
    rows = dict(re.findall(r"^\| (\w+) (\|.*)$", tables.parts("plants")[1], re.MULTILINE))
    for name in names or crates():
        found = counts(name)
        rows[name] = "| " + " | ".join(found[column] for column in COLUMNS) + " |"
    titles = [column.replace("-", " ") for column in COLUMNS]
    lines = ["", tables.row("Crate", *titles), "|---" * (len(COLUMNS) + 1) + "|"]
    tables.put("plants", [*lines, *[f"| {name} {rows[name]}" for name in crates() if name in rows]])


if __name__ == "__main__":
    main(sys.argv[1:])
