#!/usr/bin/env python3
"""Measures the first call: builds the program from nothing in a clean clone of what is committed, and writes what that took into docs/PROOFS.md, each
crate's share between two marks, and into the texts that name it: README.md and the launcher's line in scripts/build.py. Run it with nothing else running.

    python3 scripts/first_call.py            measures
    python3 scripts/first_call.py --check    measures nothing; exits 1 where the three texts don't name one time
"""
import os
import pathlib
import re
import subprocess
import sys
import tempfile
import textwrap
import time

import tables

ROOT = tables.ROOT
# The columns of a page.
WIDTH = 100
NAMED = r"\d+ minutes and [\d,]+ processor seconds on \d+ cores"
# The texts that name the time, and what stands before it there.
TEXTS = {"README.md": r"The first call took ", "scripts/build.py": r'FIRST_CALL = "', "docs/PROOFS.md": r"The first call from a clean clone: "}


def processor():
    """What the system says of the machine's processor."""
    found = re.search(r"(?m)^model name\s*: (.*)$", pathlib.Path("/proc/cpuinfo").read_text())
    return found[1] if found else "no name"


def measured(folder):
    """Builds the program in this folder: the wall seconds, and for each crate its wall and processor seconds."""
    start = time.monotonic()
    subprocess.run([sys.executable, "scripts/build.py", "cubeboard"], cwd=folder, check=True)
    wall = time.monotonic() - start
    lines = (folder / "crates/cubeboard/out/times").read_text().splitlines()
    return wall, [(name, float(took), float(used)) for name, took, used in map(str.split, lines)]


def table(named, rows):
    """The part of docs/PROOFS.md."""
    used = sum(row[2] for row in rows)
    told = [
        f"The first call from a clean clone: {named} (a virtual machine, its processor an {processor()}).",
        f"On two cores it takes some {used / 2 / 60 * 1.1:.0f} minutes, reckoned: half of the processor seconds and a tenth more.",
        "Crates that don't stand on each other are proved side by side, so the minutes are fewer than the sum of the second column.",
    ]
    return [
        *textwrap.wrap(" ".join(told), WIDTH),
        "",
        tables.row("Crate", "seconds from start to end", "processor seconds"),
        "|---|---|---|",
        *[tables.row(name, f"{took:.0f}", f"{spent:.0f}") for name, took, spent in rows],
        tables.row("together", "", f"{used:.0f}"),
    ]


def names():
    """What each text names as the time of a first call."""
    found = {}
    for file, before in TEXTS.items():
        told = re.search(f"{before}({NAMED})", (ROOT / file).read_text())
        found[file] = told[1] if told else "no time"
    return found


def write(wall, rows):
    used = sum(row[2] for row in rows)
    named = f"{wall / 60:.0f} minutes and {used:,.0f} processor seconds on {os.cpu_count()} cores"
    tables.put("first call", table(named, rows))
    for file, before in TEXTS.items():
        text = (ROOT / file).read_text()
        (ROOT / file).write_text(re.sub(f"({before}){NAMED}", rf"\g<1>{named}", text))


def main():
    if sys.argv[1:] != ["--check"]:
        with tempfile.TemporaryDirectory() as room:
            subprocess.run(["git", "clone", "-q", ROOT, f"{room}/clone"], check=True)
            write(*measured(pathlib.Path(room) / "clone"))
    found = names()
    print(*[f"{file}: {told}" for file, told in found.items()], sep="\n")
    return 0 if len({*found.values()}) == 1 and "no time" not in found.values() else 1


if __name__ == "__main__":
    sys.exit(main())
