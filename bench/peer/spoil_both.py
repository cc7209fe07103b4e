#!/usr/bin/env python3
"""Spoils the proofs of leaves, one fault at a time, and asks ACL2's checker and a program: spoil_both.py PROGRAM LEAF SEED.. prints how
often both verdicts, refuted or not, are the same, and each pair that isn't. Faults that need groups are tried where there are some."""
import os
import sys
import tempfile

import runs
from faults import FAULTS, GROUP_FAULTS, possible, rats
from leaf import items_of, write
from steps import step_of


def main():
    path, leaf, *seeds = sys.argv[1:]
    with open(f"{leaf}.icnf") as file:
        head, _, proof = file.read().partition("\nl 1\n")
    clauses, steps = items_of(head)[0], [step_of(line) for line in proof.splitlines()]
    faults = FAULTS | (GROUP_FAULTS if rats(steps) else {})
    same = count = 0
    with tempfile.TemporaryDirectory() as folder:
        for name, fault in faults.items():
            for seed in seeds if name != "nothing" else seeds[:1]:
                spoiled = possible(fault, steps, f"{seed} {name}")
                if spoiled is None:
                    continue
                write(f"{folder}/spoiled", clauses, spoiled)
                peer = runs.acl2(f"{folder}/spoiled").verdict()
                own = runs.program(path, f"{folder}/spoiled").verdict()
                count += 1
                if (peer == "refuted") == (own == "refuted"):
                    same += 1
                else:
                    print(f"  {name}: program: {own}; ACL2: {peer[:130]}", flush=True)
    print(f"{os.path.basename(leaf)}: {count} runs, {same} with the same verdict, {count - same} with another", flush=True)


if __name__ == "__main__":
    main()
