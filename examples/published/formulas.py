#!/usr/bin/env python3
"""Writes the formula of a published theorem as DIMACS: formulas.py NAME NUMBERS..

    formulas.py pentagon 10             N points
    formulas.py schur 45 4              the numbers 1 to N, and how many colors
    formulas.py van_der_waerden 109 4 7 the numbers 1 to N, and the lengths of two progressions

A function's first line is the theorem. A counterexample to it would be a model of the formula. So
if the formula has no model, the theorem is true. That a counterexample makes all clauses true is
what a person has to read here: the comments say what the variables and each kind of clause say.
"""
import itertools
import sys


def pentagon(n):
    """Each n points of the plane, no three on one line, have an empty convex pentagon.

    The points are numbered from left to right; no two are above each other, or the plane is turned
    a little. The variable below[a, b, c], for a < b < c, says that b lies below the line through a
    and c. The variable within[p, a, b, c, side] says that p lies in the triangle of a < b < c, and
    that b lies below the line through a and c (side 1) or above it (side -1).
    """
    points = range(1, n + 1)
    below = {abc: i for i, abc in enumerate(itertools.combinations(points, 3), 1)}
    within = {}
    clauses = []
    # Of four points: from one of these four triples to the next the sign changes at most once. So
    # of no three of them, in this order, the middle one differs from both others.
    for a, b, c, d in itertools.combinations(points, 4):
        signs = [below[a, b, c], below[a, b, d], below[a, c, d], below[b, c, d]]
        for x, y, z in itertools.combinations(signs, 3):
            clauses += [[-x, y, -z], [x, -y, z]]
    # A point p within a triangle a < b < c: b lies on its side of the line ac, so does p, and p
    # lies on the other side of ab, if p is left of b, or else of bc.
    for a, b, c in itertools.combinations(points, 3):
        for p, side in itertools.product(range(a + 1, c), (1, -1)):
            if p != b:
                inside = within[p, a, b, c, side] = len(below) + len(within) + 1
                edge = below[a, p, b] if p < b else below[b, p, c]
                clauses += [[-inside, side * below[a, b, c]], [-inside, side * below[a, p, c]]]
                clauses += [[-inside, -side * edge]]
    # No five points form an empty convex pentagon, whichever of the middle three are on the lower
    # way from the first to the last.
    for five in itertools.combinations(points, 5):
        for sides in itertools.product((1, -1), repeat=3):
            clauses.append(full_or_not_convex(five, sides, below, within))
    return len(below) + len(within), clauses


def full_or_not_convex(five, sides, below, within):
    """The clause for five points a < b < c < d < e, of which b, c and d lie on the lower way from a
    to e (side 1) or on the upper one (side -1), as `sides` says: a way doesn't bend outward
    somewhere, or another point lies in the pentagon, which is cut into triangles at its corner a.
    """
    a, *middle, e = five
    clause = []
    for side in (1, -1):
        way = [a, *(x for x, s in zip(middle, sides) if s == side), e]
        clause += [-side * below[abc] for abc in zip(way, way[1:], way[2:])]
        for b, c in zip(way[1:], way[2:]):
            others = [p for p in range(a + 1, c) if p not in five]
            clause += [within[p, a, b, c, side] for p in others]
    return clause


def schur(n, colors):
    """The numbers 1 to n can't be colored so that no a + b = c has one color; a, b may be equal.

    The variable has[i, k] says that the number i has the color k.
    """
    numbers = range(1, n + 1)
    has = {ik: v for v, ik in enumerate(itertools.product(numbers, range(colors)), 1)}
    # Each number has a color. (More than one does no harm: take one of them.)
    clauses = [[has[i, k] for k in range(colors)] for i in numbers]
    # No color has a, b and a + b.
    for a, b in itertools.combinations_with_replacement(numbers, 2):
        if a + b <= n:
            clauses += [[-has[i, k] for i in sorted({a, b, a + b})] for k in range(colors)]
    return len(has), clauses


def van_der_waerden(n, first, second):
    """The numbers 1 to n can't be colored red and blue without a red arithmetic progression of
    so many numbers as `first` says, and a blue one of as many as `second` says.

    Variable i says that the number i is red.
    """
    clauses = []
    # No progression of these lengths is all red, or all blue.
    for length, red in ((first, 1), (second, -1)):
        for a, step in itertools.product(range(1, n + 1), repeat=2):
            if a + step * (length - 1) <= n:
                clauses.append([-red * (a + step * i) for i in range(length)])
    return n, clauses


def main():
    theorems = {f.__name__: f for f in (pentagon, schur, van_der_waerden)}
    name, *numbers = sys.argv[1:]
    variables, clauses = theorems[name](*map(int, numbers))
    lines = ["c " + " ".join(sys.argv[1:]), f"p cnf {variables} {len(clauses)}"]
    lines += [" ".join(map(str, clause)) + " 0" for clause in clauses]
    print("\n".join(lines))


if __name__ == "__main__":
    main()
