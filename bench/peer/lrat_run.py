#!/usr/bin/env python3
"""Times a run of many leaves: lrat_run.py PROGRAM RUN. RUN is a folder with formula.cnf, cubes,
proofs/K.lrat, and leaves/K.cnf, the formula with the literals of cube K as units. lrat-check is
called once a leaf, and its processor times are added up; the program is called once, with one
worker and with four. The times are the least of 3, in turn; the memory is the greatest. The status
is 1 if a leaf isn't refuted."""
import os
import sys

import runs


def all_leaves(folder, count):
    """The seconds and megabytes of lrat-check on each leaf in turn, and its verdicts."""
    done = [runs.lrat_check(f"{folder}/leaves/{k}.cnf", f"{folder}/proofs/{k}.lrat")
            for k in range(1, count + 1)]
    verdicts = {r.lrat_verdict() for r in done}
    return sum(r.seconds for r in done), max(r.megabytes for r in done), verdicts


def one_call(path, workers, folder):
    run = runs.with_proofs(path, workers, folder, f"{folder}/cubes")
    return run.seconds, run.megabytes, {run.verdict()}


def main():
    path, folder = sys.argv[1:]
    sizes = [os.path.getsize(it) for it in os.scandir(f"{folder}/proofs")]
    print(f"\n{len(sizes)} leaves, {sum(sizes) / 1e6:.0f} MB of proofs")
    calls = {
        "lrat-check, once a leaf": lambda: all_leaves(folder, len(sizes)),
        "program, 1 worker": lambda: one_call(path, 1, folder),
        "program, 4 workers": lambda: one_call(path, 4, folder),
    }
    found = {name: [] for name in calls}
    for _ in range(3):
        for name, call in calls.items():
            found[name].append(call())
    all_verdicts = set()
    for name, those in found.items():
        verdicts = set().union(*(it[2] for it in those))
        all_verdicts |= verdicts
        print(f"{name:<26}{min(it[0] for it in those):>8.3f} s{max(it[1] for it in those):>6.0f} MB"
              f"  {', '.join(sorted(verdicts))}", flush=True)
    return 0 if all_verdicts == {"refuted"} else 1


if __name__ == "__main__":
    sys.exit(main())
