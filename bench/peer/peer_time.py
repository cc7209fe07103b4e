#!/usr/bin/env python3
"""Times ACL2's checker and a program on leaves: peer_time.py PROGRAM LEAF... prints a line of a table for each. The processor time is the
least of 3 runs of ACL2, without that of the image alone, and the least of 9 runs of the program; the memory the greatest."""
import math
import os
import sys

import runs
from steps import Addition, step_of


def facts(leaf):
    """The bytes of the proof as text, its steps, and how many of these have groups."""
    with open(f"{leaf}.icnf") as file:
        proof = file.read().partition("\nl 1\n")[2]
    steps = [step_of(line) for line in proof.splitlines()]
    rats = sum(isinstance(step, Addition) and any(hint < 0 for hint in step.hints) for step in steps)
    return len(proof), len(steps), rats


def main():
    path, *leaves = sys.argv[1:]
    start = min(runs.acl2().seconds for _ in range(5))
    print(f"ACL2's image alone: {start:.2f} s\n")
    print(f"{'leaf':<16}{'MB':>6}{'steps':>8}{'RAT':>7}{'ACL2 s':>9}{'MB':>6}{'program s':>11}{'MB':>6}{'times':>7}  verdicts")
    ratios = {False: [], True: []}
    for leaf in leaves:
        size, steps, rats = facts(leaf)
        peer, own = [], []
        for _ in range(3):
            peer.append(runs.acl2(leaf))
            own += [runs.program(path, leaf) for _ in range(3)]
        seconds = [min(r.seconds for r in peer) - start, min(r.seconds for r in own)]
        memory = [max(r.megabytes for r in peer), max(r.megabytes for r in own)]
        verdicts = ", ".join(sorted({r.verdict() for r in peer + own}))
        ratios[rats > 0].append(seconds[0] / seconds[1])
        print(f"{os.path.basename(leaf):<16}{size / 1e6:>6.1f}{steps:>8}{rats:>7}{seconds[0]:>9.3f}{memory[0]:>6.0f}"
              f"{seconds[1]:>11.4f}{memory[1]:>6.0f}{ratios[rats > 0][-1]:>7.0f}  {verdicts}", flush=True)
    for rats, found in ratios.items():
        if found:
            mean = math.exp(sum(map(math.log, found)) / len(found))
            print(f"geometric mean {'with' if rats else 'without'} RAT steps: {mean:.0f} times")


if __name__ == "__main__":
    main()
