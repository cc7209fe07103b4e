#!/usr/bin/env python3
"""Takes the leaf with the longest proof out of a bundle: leaf.py BUNDLE OUT writes OUT.cnf and OUT.clrat, the formula with the cube's
literals as units and the proof compressed, for ACL2's checker; and OUT.icnf, a bundle of the same clauses with one empty cube, and
the same proof as text. Prints the bytes and the steps of that text, and how many steps have groups."""
import sys

from acl2_profile import clause_in_profile, in_profile
from steps import Addition, compressed, step_of, text_of


def items_of(text):
    """The clauses and the cubes of an iCNF text; of a DIMACS text the clauses."""
    lines = [line for line in text.splitlines() if not line.startswith(("c", "p"))]
    words = [word for line in lines for word in line.split()]
    clauses, cubes, item, target = [], [], [], None
    for word in words:
        if word == "a":
            target = cubes
        elif word == "0":
            (clauses if target is None else target).append(item)
            item, target = [], None
        else:
            item.append(int(word))
    return clauses, cubes


def longest(bundle):
    """The clauses, the cube's literals and the lines of the longest proof below a cube's label."""
    head, *sections = bundle.split("\nl ")
    clauses, cubes = items_of(head)
    proofs = [section.partition("\n") for section in sections]
    label, _, proof = max((p for p in proofs if p[0].isdigit()), key=lambda p: len(p[2]))
    return clauses, cubes[int(label) - 1], proof.splitlines()


def write_text(out, clauses, proof):
    """The formula, and the bundle with this text for a proof."""
    lines = "".join(" ".join(map(str, [*clause, 0])) + "\n" for clause in clauses)
    variables = max(abs(literal) for clause in clauses for literal in clause)
    with open(f"{out}.cnf", "w") as file:
        file.write(f"p cnf {variables} {len(clauses)}\n{lines}")
    with open(f"{out}.icnf", "w") as file:
        file.write(f"p inccnf\n{lines}a 0\nl 1\n{proof}")


def write(out, clauses, steps):
    """The three files for these clauses and steps."""
    write_text(out, clauses, text_of(steps))
    with open(f"{out}.clrat", "wb") as file:
        file.write(compressed(steps))


def main():
    with open(sys.argv[1]) as file:
        clauses, cube, lines = longest(file.read())
    steps = [step_of(line) for line in lines if line]
    additions = [step.literals for step in steps if isinstance(step, Addition)]
    fresh = 1 + max(abs(literal) for literals in clauses + additions for literal in literals)
    clauses = [clause_in_profile(clause, fresh) for clause in clauses + [[literal] for literal in cube]]
    steps = list(in_profile(clauses, steps))
    write(sys.argv[2], clauses, steps)
    rats = sum(isinstance(step, Addition) and any(hint < 0 for hint in step.hints) for step in steps)
    print(len(text_of(steps)), len(steps), rats)


if __name__ == "__main__":
    main()
