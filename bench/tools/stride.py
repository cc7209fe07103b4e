#!/usr/bin/env python3
"""Renames the ids of lemmas as solvers with many threads number them: stride.py IN OUT STEP [START].

The n-th id after those of the formula and the path becomes the one at n * STEP + START after them.
"""
import sys


def is_clause(line):
    return line and line[0] not in "cpa"


def renamed(line, base, step, start):
    """One step of a proof."""

    def name(word):
        number = int(word)
        if abs(number) <= base:
            return word
        other = base + start + (abs(number) - base) * step
        return str(other if number > 0 else -other)

    words = line.split()
    if words[1] == "d":
        return [name(words[0]), "d"] + [name(word) for word in words[2:]]
    end = words.index("0")
    return [name(words[0])] + words[1 : end + 1] + [name(word) for word in words[end + 1 :]]


def main():
    source, target, step = sys.argv[1], sys.argv[2], int(sys.argv[3])
    start = int(sys.argv[4]) if len(sys.argv) > 4 else 0
    head, *sections = open(source).read().split("\nl ")
    lines = head.split("\n")
    clauses = sum(1 for line in lines if is_clause(line))
    cubes = [line.split()[1:-1] for line in lines if line.startswith("a ")]
    with open(target, "w") as out:
        out.write(head)
        for section in sections:
            label, *steps = section.split("\n")
            base = clauses + len(cubes[int(label) - 1])
            out.write("\nl " + label + "\n")
            for line in filter(None, steps):
                out.write(" ".join(renamed(line, base, step, start)) + "\n")


if __name__ == "__main__":
    main()
