#!/usr/bin/env python3
"""Counts instructions: count.py PROGRAM [SET|FILE]... README.md says what the columns are."""
import glob
import hashlib
import os
import subprocess
import sys
import tempfile
from typing import NamedTuple

ANCHOR = os.path.abspath(os.environ.get("ANCHOR", "bin/anchor"))
CALLGRIND = ["valgrind", "--tool=callgrind", "--branch-sim=yes"]
# The C library clears and copies by vectors: callgrind would count each byte of a `rep stosb`.
LIMIT = "0x7fffffff"
TUNABLES = ":".join(f"glibc.cpu.x86_rep_{name}_threshold={LIMIT}" for name in ("movsb", "stosb"))
# The sizes of a hostile kind that are counted.
SIZES = (1, 2)


class Count(NamedTuple):
    """Instructions, branches that callgrind's predictor foresees badly, status and report."""

    instructions: int
    missed: int
    status: int
    report: bytes


def count(program, path):
    """One run with one worker."""
    with tempfile.TemporaryDirectory() as folder:
        out = os.path.join(folder, "out")
        words = [*CALLGRIND, f"--callgrind-out-file={out}", program, "--workers", "1", path]
        environment = {**os.environ, "GLIBC_TUNABLES": TUNABLES}
        told = subprocess.run(words, capture_output=True, env=environment)
        with open(out, encoding="ascii", errors="replace") as file:
            lines = [line.split(":") for line in file if line.startswith(("events:", "totals:"))]
    found = {name: words.split() for name, words in lines}
    events = dict(zip(found["events"], map(int, found["totals"])))
    missed = events["Bcm"] + events["Bim"]
    return Count(events["Ir"], missed, told.returncode, told.stdout)


def bundles_of(words):
    """The bundles of these sets, and these files; of the set `hostile` none."""
    for word in words:
        if not os.path.isdir(f"corpus/{word}"):
            yield word
        elif word != "hostile":
            yield from sorted(glob.glob(f"corpus/{word}/*.icnf"))


def facts(path):
    """Megabytes, and the first digits of the SHA-256."""
    with open(path, "rb") as file:
        text = file.read()
    return f"{len(text) / 1e6:>7.2f}  {hashlib.sha256(text).hexdigest()[:8]}"


def show(program, path):
    """Prints a line for a bundle, and answers whether program and anchor say the same."""
    anchor, other = count(ANCHOR, path), count(program, path)
    same = anchor[2:] == other[2:]
    name = os.path.basename(path).removesuffix(".icnf")
    executed = f"{anchor.instructions / 1e6:>10.1f}{other.instructions / 1e6:>10.1f}"
    missed = f"{anchor.missed / 1e6:>10.3f}{other.missed / 1e6:>10.3f}"
    ratio = f"{other.instructions / anchor.instructions:>7.2f}"
    line = f"{name:<20}{facts(path)}{executed}{ratio}{missed}"
    print(f"{line}  {'equal' if same else 'DIFFERS'}", flush=True)
    return same


def show_hostile(program):
    """Prints for each hostile kind what it costs the program at each size."""
    sizes = "".join(f"{f'size {size}':>10}" for size in SIZES)
    print(f"{'':<24}{'instructions a byte':>20}{'missed a thousand':>20}")
    print(f"{'kind':<24}{sizes}{sizes}")
    for first in sorted(glob.glob("corpus/hostile/*-1.icnf")):
        paths = [first.replace("-1.icnf", f"-{size}.icnf") for size in SIZES]
        found = [(count(program, path), os.path.getsize(path)) for path in paths]
        costs = "".join(f"{by.instructions / size:>10.1f}" for by, size in found)
        missed = "".join(f"{1000 * by.missed / size:>10.1f}" for by, size in found)
        name = os.path.basename(first).removesuffix("-1.icnf")
        print(f"{name:<24}{costs}{missed}", flush=True)


def main():
    program, words = os.path.abspath(sys.argv[1]), sys.argv[2:] or ["cuts"]
    paths = list(bundles_of(words))
    if paths:
        columns = f"{'anchor':>10}{'program':>10}{'ratio':>7}{'missed':>10}{'missed':>10}"
        print(f"{'millions':<20}{'MB':>7}  {'SHA-256':<8}{columns}  reports")
    differ = sum(not show(program, path) for path in paths)
    if "hostile" in words:
        show_hostile(program)
    return 1 if differ else 0


if __name__ == "__main__":
    sys.exit(main())
