#!/usr/bin/env python3
"""Spoils proofs, one fault at a time, and asks lrat-check and a program: lrat_spoiled.py PROGRAM
FOLDER SEED.. takes NAME.cnf and NAME.lrat of FOLDER. If the two verdicts differ, that is put into a
class by what was done and by the program's reason, and the classes are counted. What the program
alone accepts has to be a refutation by redundant.py, too. The status is 1 if a difference is in no
class."""
import collections
import glob
import os
import sys
from typing import NamedTuple

import runs
from leaf import items_of, write_text
from lrat_faults import ALL
from faults import possible
from redundant import is_refutation
from steps import step_of


class Kind(NamedTuple):
    """A class of differences: its name; the program's reasons, `refuted` among them; and the
    faults, all of them if none is named."""

    name: str
    reasons: set[str]
    faults: set[str]


BEHIND = "groups behind a conflict, and of the next step the last hint alone"
KINDS = [
    # lrat-check alone accepts.
    Kind("an empty clause without a conflict", {"empty"}, set()),
    Kind("marks that stay", {"unit", "candidate"}, {BEHIND}),
    Kind("32 bits of a greater number", {"hint", "unreadable"},
         {"a hint 2^32 higher", "a literal 2^32 higher", "an id far away"}),
    Kind("an id that is live", {"id"}, set()),
    Kind("a plus sign or an end mark too many", {"unreadable"},
         {"a plus sign", "an end mark too many"}),
    # The program alone accepts.
    Kind("behind the empty clause nothing is read", {"refuted"},
         {"a wrong step behind the empty clause"}),
    Kind("a comment within a step", {"refuted"}, {"a comment within a step"}),
    Kind("a literal counts once", {"refuted"}, {"the last literal twice", "a literal added"}),
    Kind("a leading zero is no octal mark", {"refuted"}, {"a literal with a leading zero"}),
    Kind("a candidate that needs no group", {"refuted"},
         {"a group is lost", "all groups are lost", "a hint made negative"}),
    Kind("groups in any order, and of no candidate", {"refuted"},
         {"two groups swapped", "a group twice, the second without hints", "a group of no clause",
          "a group of no candidate, in order", "a group of no candidate, at the end"}),
    Kind("ids far away and in any order", {"refuted"},
         {"two steps swapped", "an id far away", "a deletion of no clause"}),
    Kind("RAT without a candidate", {"refuted"},
         {"all hints are lost", "the last hint is lost", "a hint is lost", "another hint",
          "a deletion is lost", "all deletions are lost", "a literal negated"}),
]


def kind_of(fault, reason):
    """The name of the class; None if there is none."""
    for kind in KINDS:
        if reason in kind.reasons and (not kind.faults or fault in kind.faults):
            return kind.name
    return None


class Difference(NamedTuple):
    proof: str
    fault: str
    peer: str
    own: str
    kind: str | None


def ask(path, place, clauses, text):
    """Both verdicts on this text: that of lrat-check and the program's."""
    write_text(place, clauses, text)
    with open(f"{place}.lrat", "w") as file:
        file.write(text)
    peer = runs.lrat_check(f"{place}.cnf", f"{place}.lrat").lrat_verdict()
    return peer, runs.program(path, place).verdict()


def spoil(path, proof, seeds, place):
    """Yields for each spoiled proof a Difference, or None if the verdicts are the same."""
    name = os.path.basename(proof).removesuffix(".lrat")
    with open(proof.removesuffix(".lrat") + ".cnf") as file:
        clauses = items_of(file.read())[0]
    with open(proof) as file:
        steps = [step_of(line) for line in file.read().splitlines() if line]
    for fault, edit in ALL.items():
        for seed in seeds if fault != "nothing" else seeds[:1]:
            text = possible(edit, steps, f"{seed} {fault}")
            if text is None:
                continue
            peer, own = ask(path, place, clauses, text)
            if (peer == "refuted") == (own == "refuted"):
                yield None
                continue
            kind = kind_of(fault, own.split()[-1])
            if own == "refuted" and not is_refutation(clauses, text):
                kind = None
            yield Difference(name, fault, peer, own, kind)


def show(title, differences):
    """A table of the classes of these differences."""
    print(f"\n{title}: {len(differences)}")
    found = collections.defaultdict(list)
    for it in differences:
        found[it.kind].append(it)
    for kind, those in sorted(found.items(), key=lambda pair: -len(pair[1])):
        print(f"{len(those):>6}  {kind or 'IN NO CLASS'}")
        pairs = collections.Counter((it.fault, it.peer, it.own.split()[-1]) for it in those)
        for (fault, peer, own), count in sorted(pairs.items()):
            print(f"{count:>12}  {fault}: lrat-check: {peer}; program: {own}")


def main():
    path, folder, *seeds = sys.argv[1:]
    proofs = sorted(glob.glob(f"{folder}/*.lrat"))
    outcomes = []
    for proof in proofs:
        outcomes += spoil(path, proof, seeds, f"{folder}/work/spoiled")
    differences = [it for it in outcomes if it]
    print(f"{len(proofs)} proofs, {len(ALL)} faults, {len(outcomes)} runs: "
          f"{len(outcomes) - len(differences)} with the same verdict, {len(differences)} without")
    show("lrat-check alone accepts", [it for it in differences if it.peer == "refuted"])
    show("the program alone accepts", [it for it in differences if it.own == "refuted"])
    unclassed = [it for it in differences if it.kind is None]
    for it in unclassed:
        said = f"lrat-check: {it.peer}; program: {it.own}"
        print(f"in no class: {it.proof}, {it.fault}: {said}")
    return 1 if unclassed else 0


if __name__ == "__main__":
    sys.exit(main())
