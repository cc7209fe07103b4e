#!/usr/bin/env python3
"""Times lrat-check and a program on leaves: lrat_time.py PROGRAM CUBES LEAF.. prints a line of a
table for each. LEAF is a folder with formula.cnf and proofs/1.lrat, CUBES a file with one empty
cube. The processor time is the least of 3 runs of lrat-check and of 9 of the program with one
worker, in turn; the memory the greatest. The status is 1 if one of them doesn't refute a leaf."""
import os
import sys

import runs


def facts(leaf):
    """The megabytes of the proof, its additions, and how many of these have groups."""
    path, count, rats = f"{leaf}/proofs/1.lrat", 0, 0
    with open(path) as file:
        for line in file:
            if line.split(maxsplit=2)[1] != "d":
                count += 1
                rats += " -" in line.partition(" 0 ")[2]
    return os.path.getsize(path) / 1e6, count, rats


def main():
    path, cubes, *leaves = sys.argv[1:]
    print(f"{'leaf':<12}{'MB':>7}{'additions':>11}{'groups':>8}{'lrat-check s':>14}{'MB':>6}"
          f"{'program s':>11}{'MB':>6}{'times':>7}  verdicts")
    all_verdicts = set()
    for leaf in leaves:
        size, count, rats = facts(leaf)
        peer, own = [], []
        for _ in range(3):
            peer.append(runs.lrat_check(f"{leaf}/formula.cnf", f"{leaf}/proofs/1.lrat"))
            own += [runs.with_proofs(path, 1, leaf, cubes) for _ in range(3)]
        seconds = [min(r.seconds for r in peer), min(r.seconds for r in own)]
        memory = [max(r.megabytes for r in peer), max(r.megabytes for r in own)]
        verdicts = {r.lrat_verdict() for r in peer} | {r.verdict() for r in own}
        all_verdicts |= verdicts
        ratio = seconds[0] / seconds[1]
        print(f"{os.path.basename(leaf):<12}{size:>7.1f}{count:>11}{rats:>8}{seconds[0]:>14.3f}"
              f"{memory[0]:>6.0f}{seconds[1]:>11.4f}{memory[1]:>6.0f}{ratio:>7.1f}"
              f"  {', '.join(sorted(verdicts))}", flush=True)
    return 0 if all_verdicts == {"refuted"} else 1


if __name__ == "__main__":
    sys.exit(main())
