#!/usr/bin/env python3
"""Solves a formula under each of its cubes with CaDiCaL and writes the bundle: the formula, the cubes and the proofs.

bundle.py OUT.icnf FORMULA.cnf CUBES [OPTIONS]; the tool drat2lrat makes the solver's proofs into text LRAT.
"""
import argparse
import os
import random
import shutil
import subprocess
import tempfile
import time

HERE = os.path.dirname(os.path.abspath(__file__))
TOOL = os.path.join(HERE, "..", "bin", "drat2lrat")


def words():
    parser = argparse.ArgumentParser(description=__doc__)
    parser.add_argument("out")
    parser.add_argument("formula")
    parser.add_argument("cubes")
    parser.add_argument("--trim", action="store_true", help="only the lemmas that the refutation uses")
    parser.add_argument("--renumber", action="store_true", help="ids without gaps")
    parser.add_argument("--pure", action="store_true", help="pure literals of each leaf become RAT units")
    parser.add_argument("--lead", action="store_true", help="RAT steps have leading hints too")
    parser.add_argument("--drat", help="a DRAT proof to take instead of the solver's")
    parser.add_argument("--noproof", default="", help="numbers of cubes that stay without a proof")
    parser.add_argument("--first", type=int, help="only so many cubes get a proof, the first ones")
    parser.add_argument("--drop", default="", help="numbers of cubes that are left out")
    parser.add_argument("--shuffle", type=int, help="seed of another order of the cubes and of the sections")
    parser.add_argument("--folder", help="writes the proofs to this folder instead of the bundle")
    return parser.parse_args()


def numbers(text):
    return {int(word) for word in text.split(",") if word}


def proof_of(options, cube, folder):
    """The file of the cube's proof, or nothing where the solver doesn't refute it."""
    leaf, before, drat, lrat = (os.path.join(folder, n) for n in ("leaf.cnf", "before.drat", "proof.drat", "proof.lrat"))
    pure = ["--pure"] if options.pure else []
    subprocess.run([TOOL, "leaf", options.formula, leaf, before] + pure + ["--"] + cube, check=True)
    if options.drat:
        drat = options.drat
    elif subprocess.run(["cadical", "-q", "-n", leaf, drat], capture_output=True).returncode != 20:
        return None
    flags = [f"--{name}" for name in ("trim", "renumber", "lead") if getattr(options, name)]
    subprocess.run([TOOL, "make", options.formula, lrat, "--pre", before, drat] + flags + ["--"] + cube, check=True)
    return lrat


def main():
    options = words()
    skipped, dropped = numbers(options.noproof), numbers(options.drop)
    cubes = [line.split()[1:-1] for line in open(options.cubes) if line.startswith("a ")]
    cubes = [cube for k, cube in enumerate(cubes, 1) if k not in dropped]
    order = list(range(1, len(cubes) + 1))
    if options.shuffle is not None:
        random.Random(options.shuffle).shuffle(cubes)
        random.Random(options.shuffle + 1).shuffle(order)
    order = order[: options.first]
    if options.folder:
        os.makedirs(options.folder, exist_ok=True)
    clauses = [line for line in open(options.formula) if line[0] not in "cp"]
    folder = tempfile.mkdtemp(dir=os.path.join(HERE, "..", "corpus"))
    begun, size, without = time.time(), 0, sorted(skipped)
    with open(options.out, "wb") as out:
        out.write(b"p inccnf\n" + "".join(clauses).encode())
        out.write("".join("a " + " ".join(cube + ["0"]) + "\n" for cube in cubes).encode())
        for k in order:
            lrat = None if k in skipped else proof_of(options, cubes[k - 1], folder)
            if lrat is None:
                without = without if k in skipped else without + [k]
                continue
            size += os.path.getsize(lrat)
            if options.folder:
                shutil.move(lrat, os.path.join(options.folder, f"{k}.lrat"))
                continue
            out.write(f"l {k}\n".encode())
            with open(lrat, "rb") as proof:
                shutil.copyfileobj(proof, out, 1 << 20)
    shutil.rmtree(folder)
    seconds = time.time() - begun
    print(f"{len(cubes)} cubes, {size / 1e6:.1f} MB of proof in {seconds:.0f} s, without a proof: {without}", flush=True)


if __name__ == "__main__":
    main()
