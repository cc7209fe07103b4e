#!/usr/bin/env python3
"""Runs a program and the anchor in turn on bundles and compares reports, times and memory: bench.py PROGRAM [SET|FILE]..."""
import glob
import math
import os
import statistics
import subprocess
import sys
from typing import NamedTuple

ANCHOR = os.path.abspath(os.environ.get("ANCHOR", "bin/anchor"))
RUNS = int(os.environ.get("RUNS", "5"))
# Both get the option `--workers` with each of these numbers.
WORKERS = os.environ.get("WORKERS", "1").split()


class Run(NamedTuple):
    wall: float
    processor: float
    megabytes: float
    status: int
    report: bytes


class Line(NamedTuple):
    """A line of the table: the ratios are program over anchor, the seconds of processor time those of anchor and program."""

    name: str
    workers: str
    megabytes: float
    same: bool
    wall: float
    processor: float
    busy: list[float]


def cases_of(words):
    """The program's words for each bundle of these sets, and for each of these files."""
    cases = []
    for word in words:
        if not os.path.isdir(f"corpus/{word}"):
            cases.append([word])
            continue
        cases += [[name] for name in sorted(glob.glob(f"corpus/{word}/*.icnf"))]
        folder = f"corpus/{word}/folder"
        if os.path.isdir(folder):
            cases.append(["--proofs", f"{folder}/proofs", f"{folder}/case.icnf"])
    return cases


def run(program, words):
    out = f"corpus/out.{os.getpid()}"
    told = subprocess.run(["bin/measure", out, program] + words, capture_output=True, text=True, check=True)
    wall, processor, kilobytes, status = map(int, told.stdout.split())
    with open(out, "rb") as file:
        report = file.read()
    os.remove(out)
    return Run(wall / 1e9, processor / 1e6, kilobytes * 1024 / 1e6, status, report)


def facts(words):
    """Megabytes, leaves and steps of a case, the last two as the anchor counts them."""
    told = subprocess.run([ANCHOR, "--workers", "1", "--stats"] + words, capture_output=True, text=True)
    counts = told.stderr.split()
    steps = dict(zip(counts[::2], counts[1::2])).get("steps", "0") if len(counts) % 2 == 0 else "0"
    first = (told.stdout.split("\n")[0].split() + ["0", "0", "0"])[1:3]
    size = os.path.getsize(words[-1])
    if "--proofs" in words:
        size += sum(os.path.getsize(name) for name in glob.glob(words[1] + "/*"))
    return size / 1e6, int(first[0]) + int(first[1]), int(steps)


def compare(program, words, workers):
    """The runs of the anchor and those of the program, in turn, after one that warms the page cache."""
    words = ["--workers", workers] + words
    run(ANCHOR, words)
    anchor, other = [], []
    for turn in range(RUNS):
        for first in (turn % 2 == 0, turn % 2 != 0):
            if first:
                anchor.append(run(ANCHOR, words))
            else:
                other.append(run(program, words))
    return anchor, other


def geometric_mean(ratios):
    return math.exp(sum(map(math.log, ratios)) / len(ratios)) if ratios else float("nan")


def show(words, workers, anchor, other):
    """Prints one line of the table."""
    name = words[-1].removeprefix("corpus/").removesuffix(".icnf")
    size, leaves, steps = facts(words)
    same = len({(r.status, r.report) for r in anchor + other}) == 1
    seconds = [statistics.median(r.wall for r in runs) for runs in (anchor, other)]
    busy = [max(statistics.median(r.processor for r in runs), 1e-6) for runs in (anchor, other)]
    memory = [max(r.megabytes for r in runs) for runs in (anchor, other)]
    print(
        f"{name:<28}{size:>8.1f}{leaves:>7}{steps:>10}{workers:>4}{seconds[0]:>10.3f}{seconds[1]:>10.3f}"
        f"{seconds[1] / seconds[0]:>7.2f}{busy[1] / busy[0]:>7.2f}{memory[0]:>10.0f}{memory[1]:>10.0f}"
        f"  {'equal' if same else 'DIFFERS'}",
        flush=True,
    )
    return Line(name, workers, size, same, seconds[1] / seconds[0], busy[1] / busy[0], busy)


def nanoseconds(line, side):
    """Processor time for each byte, of the anchor (0) or the program (1)."""
    return line.busy[side] * 1e3 / line.megabytes


def show_growth(lines):
    """For each kind of the set `hostile` what a byte costs at its three sizes, and that in terms of harmless bytes."""
    found = {(line.name.removeprefix("hostile/"), line.workers): line for line in lines if line.name.startswith("hostile/")}
    names = dict.fromkeys((name[:-2], workers) for name, workers in found)
    kinds = [(kind, workers) for kind, workers in names if all((f"{kind}-{size}", workers) in found for size in (1, 2, 3))]
    if kinds:
        print(f"\n{'nanoseconds a byte':<28}{'w':>4}{'':>10}{'size 1':>12}{'size 2':>12}{'size 3':>12}{'growth':>8}{'harmless':>10}")
    for kind, workers in kinds:
        for side, who in ((1, "program"), (0, "anchor")):
            costs = [nanoseconds(found[f"{kind}-{size}", workers], side) for size in (1, 2, 3)]
            harmless = nanoseconds(found["harmless-3", workers], side)
            numbers = "".join(f"{cost:>12.1f}" for cost in costs)
            print(f"{kind:<28}{workers:>4}{who:>10}{numbers}{costs[2] / costs[0]:>8.2f}{costs[2] / harmless:>10.1f}")


def main():
    program = os.path.abspath(sys.argv[1])
    print(
        f"{'bundle':<28}{'MB':>8}{'leaves':>7}{'steps':>10}{'w':>4}{'anchor s':>10}{'program s':>10}{'ratio':>7}{'cpu':>7}"
        f"{'anchor MB':>10}{'prog. MB':>10}  reports"
    )
    lines = []
    for words in cases_of(sys.argv[2:] or ["smoke", "medium"]):
        for workers in WORKERS:
            lines.append(show(words, workers, *compare(program, words, workers)))
    differ = sum(not line.same for line in lines)
    print(f"reports that differ: {differ}")
    print(f"geometric mean of the ratios of processor time: {geometric_mean([line.processor for line in lines]):.3f}")
    print(f"geometric mean of the ratios of wall time: {geometric_mean([line.wall for line in lines]):.3f}")
    show_growth(lines)
    return 1 if differ else 0


if __name__ == "__main__":
    sys.exit(main())
