#!/usr/bin/env python3
"""Tries the formula `pentagon` on real points: points.py N SETS [SEED]

Draws SETS sets of N points. Whether a set has an empty convex pentagon is found from the
coordinates: five points are one if no point of the set lies in a triangle of three of them. The
formula for N points, with what the set says of `below` as unit clauses, must have a model if and
only if there is none. `cadical` says whether it has. The status is 0 if this is so for each set.
"""
import itertools
import math
import random
import subprocess
import sys

sys.dont_write_bytecode = True  # nothing new stands beside formulas.py
import formulas


def turn(a, b, c):
    """Positive if b lies below the line through a and c, where a, b, c go from left to right."""
    return (b[0] - a[0]) * (c[1] - a[1]) - (b[1] - a[1]) * (c[0] - a[0])


def lies_in(p, triangle):
    a, b, c = triangle
    return len({turn(a, b, p) > 0, turn(b, c, p) > 0, turn(c, a, p) > 0}) == 1


def has_pentagon(points):
    full = {t for t in itertools.combinations(points, 3)
            if any(p not in t and lies_in(p, t) for p in points)}
    fives = itertools.combinations(points, 5)
    return any(full.isdisjoint(itertools.combinations(five, 3)) for five in fives)


def place(i, ring):
    """Where the point with the number i is drawn: near one of three curved arms, or with the first
    five on a ring and the others inside. Among points that are drawn evenly it is rare that no
    convex pentagon is empty, and that there is one with points in it."""
    radius = random.random()
    angle = 2 * math.pi * (i % 3) / 3 + radius / 2 + random.gauss(0, 0.2)
    if ring and i < 5:
        radius, angle = 1, 2 * math.pi * i / 5 + random.gauss(0, 0.1)
    elif ring:
        radius, angle = radius / 3, 2 * math.pi * random.random()
    return tuple(int(10**6 * radius * f(angle)) for f in (math.cos, math.sin))


def draw(n, ring):
    """Points from left to right, no two above each other and no three on a line."""
    while True:
        points = sorted(place(i, ring) for i in range(n))
        distinct = len({x for x, _ in points}) == n
        if distinct and all(turn(*abc) for abc in itertools.combinations(points, 3)):
            return points


def has_model(variables, clauses):
    lines = [f"p cnf {variables} {len(clauses)}", *(" ".join(map(str, c)) + " 0" for c in clauses)]
    run = subprocess.run(["cadical", "-q"], input="\n".join(lines) + "\n", text=True,
                         stdout=subprocess.DEVNULL)
    if run.returncode not in (10, 20):
        sys.exit(f"points.py: the status of cadical is {run.returncode}")
    return run.returncode == 10


def main():
    n, sets, seed = map(int, (*sys.argv[1:], 1)[:3])
    random.seed(seed)
    variables, clauses = formulas.pentagon(n)
    without = wrong = 0
    for number in range(sets):
        points = draw(n, number % 2)
        # The variables `below` are the first ones, in the order of the triples.
        triples = enumerate(itertools.combinations(points, 3), 1)
        units = [[v if turn(*abc) > 0 else -v] for v, abc in triples]
        empty = has_pentagon(points)
        without += not empty
        wrong += has_model(variables, clauses + units) == empty
    print(f"{sets} sets of {n} points: {without} without an empty convex pentagon, {wrong} wrong")
    sys.exit(wrong != 0)


if __name__ == "__main__":
    main()
