#!/usr/bin/env python3
"""Writes copies of bundles beside them in which proofs are spoiled, each kind of fault in turn: spoil.py BUNDLE..."""
import random
import sys


def spoiled(kind, words):
    """One addition, spoiled."""
    end = words.index("0")
    match kind:
        case 1:  # a hint is lost
            return words[: end + 1] + words[end + 2 :]
        case 2:  # an end mark is lost
            return words[:-1]
        case 3:  # a hint names no live clause
            return words[: end + 1] + ["999999"] + words[end + 1 :]
        case 4:  # the id is live
            return ["1"] + words[1:]
        case 5:  # no hints
            return words[: end + 1] + ["0"]
        case 6:  # a token that can't stand there
            return words[:-1] + ["-0"]
    return words


def main():
    for name in sys.argv[1:]:
        head, *sections = open(name).read().split("\nl ")
        r = random.Random(7)
        out = [head]
        for place, section in enumerate(sections):
            label, *steps = section.split("\n")
            steps = [line for line in steps if line]
            r.randrange(len(steps) // 2, len(steps))
            k = r.choice([n for n in range(len(steps) // 3, len(steps)) if " d " not in steps[n]])
            steps[k] = " ".join(spoiled(place % 8, steps[k].split()))
            if place % 8 == 7:  # the proof ends early
                steps = steps[:k]
            out.append("\n".join([label] + steps))
        with open(name.replace(".icnf", "-spoiled.icnf"), "w") as target:
            target.write("\nl ".join(out) + "\n")


if __name__ == "__main__":
    main()
