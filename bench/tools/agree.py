#!/usr/bin/env python3
"""Tries the anchor: agree.py PROGRAM [RUNS [SEED]]. README.md says what is compared with what."""
import glob
import itertools
import os
import random
import shutil
import subprocess
import sys
import tempfile
from typing import NamedTuple

TOP = os.path.abspath(os.path.join(os.path.dirname(os.path.abspath(__file__)), "..", ".."))
ANCHOR = os.path.abspath(os.environ.get("ANCHOR", os.path.join(TOP, "bench", "bin", "anchor")))
ROWS = os.path.join(TOP, "tests", "rows")
# The words of the program that the anchor has.
OPTIONS = ("--workers", "--cut", "--proofs")


class Answer(NamedTuple):
    status: int
    report: bytes
    fault: bytes


def bytes_of(path):
    with open(path, "rb") as file:
        return file.read()


def answer(program, words, text=b"", folder=None):
    command = [program, *words]
    told = subprocess.run(command, input=text, capture_output=True, cwd=folder, timeout=60)
    return Answer(told.returncode, told.stdout, told.stderr)


def is_binary(folder):
    """Whether one of the folder's proofs is binary."""
    proofs = filter(os.path.isfile, glob.glob(folder + "/*.lrat"))
    return any(bytes_of(path)[:1] in (b"a", b"d") for path in proofs)


def can_judge(row, words):
    """Whether the anchor has these words, and reads each proof of the row's folder."""
    known = all(word.split("=")[0] in OPTIONS for word in words if word.startswith("--"))
    return known and not is_binary(row + ".proofs")


def compare_row(row, here):
    """The anchor's answer to a row, and the row's; nothing if the anchor has no answer to it."""
    said = row + ".args"
    words = bytes_of(said).decode().split("\n")[:-1] if os.path.exists(said) else []
    if not can_judge(row, words):
        return None
    folder = os.path.join(here, "run")
    shutil.rmtree(folder, ignore_errors=True)
    os.mkdir(folder)
    if os.path.exists(row + ".icnf"):
        shutil.copy(row + ".icnf", os.path.join(folder, "case.icnf"))
    if os.path.isdir(row + ".proofs"):
        shutil.copytree(row + ".proofs", os.path.join(folder, "proofs"))
    wanted = Answer(int(bytes_of(row + ".status")), bytes_of(row + ".out"), bytes_of(row + ".err"))
    return answer(ANCHOR, words, bytes_of(row + ".in"), folder), wanted


def rows(here):
    """For each row that the anchor can judge its name and both answers."""
    for path in sorted(glob.glob(ROWS + "/*.in")):
        both = compare_row(path.removesuffix(".in"), here)
        if both:
            yield os.path.basename(path), *both


def examples():
    """For each example its name and both answers, as a bundle and as a folder of proofs."""
    for path in sorted(glob.glob(TOP + "/examples/*.report")):
        base, report = path.removesuffix(".report"), bytes_of(path)
        wanted = Answer(0 if report.endswith(b"s REFUTED\n") else 1, report, b"")
        if os.path.exists(base + ".icnf"):
            yield base + ".icnf", answer(ANCHOR, [base + ".icnf"]), wanted
        if os.path.isdir(base):
            words = ["--proofs", base + "/proofs", base + "/case.icnf"]
            yield base, answer(ANCHOR, words), wanted


def soak_bundles(runs, seed, folder):
    """So many bundles of scripts/soak.awk."""
    for first in range(1, runs + 1, 500):
        some = min(500, runs - first + 1)
        told = {"seed": seed, "first": first, "count": some, "folder": folder}
        words = [word for name, value in told.items() for word in ("-v", f"{name}={value}")]
        command = ["awk", *words, "-f", TOP + "/scripts/soak.awk"]
        environment = {**os.environ, "LC_ALL": "C"}
        subprocess.run(command, check=True, stdout=subprocess.DEVNULL, env=environment)
        for path in sorted(glob.glob(folder + "/*.in")):
            yield bytes_of(path)
            os.remove(path)


def tree_bundles(runs, seed):
    """So many bundles of scripts/random_bundle.py."""
    for number in range(seed, seed + runs):
        command = [sys.executable, TOP + "/scripts/random_bundle.py", str(number), os.devnull]
        yield subprocess.run(command, check=True, capture_output=True).stdout


def random_runs(program, runs, seed, here):
    """For each random bundle both answers: from standard input, and as a file."""
    path, made = os.path.join(here, "case.icnf"), os.path.join(here, "random")
    os.mkdir(made)
    bundles = itertools.chain(soak_bundles(runs, seed, made), tree_bundles(runs // 4, seed))
    for number, text in enumerate(bundles, 1):
        wanted = answer(program, ["--workers", "1"], text)
        with open(path, "wb") as file:
            file.write(text)
        yield number, answer(ANCHOR, ["--workers", "1"], text), wanted
        yield number, answer(ANCHOR, ["--workers", "4", path]), wanted


def count(kind, answers):
    """Prints how many answers there were and which are wrong, and answers how many these are."""
    total, wrong = 0, []
    for name, found, wanted in answers:
        total += 1
        if found != wanted:
            wrong.append(name)
            print(f"{kind} {name}: {found} in the place of {wanted}")
    print(f"{kind}: {total} answers, {len(wrong)} wrong", flush=True)
    return len(wrong)


def main():
    program = os.path.abspath(sys.argv[1])
    runs = int(sys.argv[2]) if len(sys.argv) > 2 else 1000
    seed = int(sys.argv[3]) if len(sys.argv) > 3 else random.randrange(10**6)
    with tempfile.TemporaryDirectory() as here:
        wrong = count("rows", rows(here)) + count("examples", examples())
        wrong += count(f"random bundles by seed {seed}", random_runs(program, runs, seed, here))
    return 1 if wrong else 0


if __name__ == "__main__":
    sys.exit(main())
