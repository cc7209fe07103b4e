"""Makes a small bundle by a number, the same one for the same number with the same Python: SEED FINDINGS. It goes to standard output, and to the file
FINDINGS go the lines `a`, `m` and `n` that a report on it has, which are known from how it is made.

Its tree has up to 14 levels below the root, and some negative branches are missing. Some leaves and inner nodes have a section: of most of them the path
is refuted by a clause of the formula and units, of the others the proof names a clause that isn't there."""
import random
import sys

VARIABLES = 20


def tree_of(draw):
    """All nodes, each before those below it, the positive branch before the negative one: the path of each, and whether it is a leaf."""
    nodes, pending, deepest = [], [()], draw.randrange(15)
    while pending:
        path = pending.pop()
        inner = len(path) < deepest and draw.random() < (0.95 if len(path) < 3 else 0.6)
        nodes.append((path, not inner))
        if inner:
            used = {abs(literal) for literal in path}
            variable = draw.choice([v for v in range(1, VARIABLES + 1) if v not in used])
            pending += [path + (-variable,), path + (variable,)]
    return nodes


def text_of(literals):
    return " ".join(map(str, (*literals, 0)))


def bundle_of(draw):
    """The lines of a bundle, and those of its report that say what is found of its leaves and inner nodes."""
    clauses, cubes, sections, findings = [[1, -1]], [], [], {"a": [], "m": [], "n": []}
    for path, leaf in tree_of(draw):
        if not leaf:
            kind, name, label = "n", text_of(path), "n " + text_of(path)
        elif path and path[-1] < 0 and draw.random() < 0.3:
            label = f"m{len(findings['m']) + 1}"
            kind, name = "m", f"{label[1:]} {text_of(path)}"
        else:
            cubes.append(path)
            kind, name, label = "a", str(len(cubes)), str(len(cubes))
        status = None if kind == "n" else "open"
        if path and draw.random() < (0.6 if leaf else 0.1):
            refuted = draw.random() < 0.8
            status = "refuted" if refuted else "rejected 1 hint"
            if refuted:
                clauses.append([-literal for literal in path])
            sections.append((label, len(path), len(clauses) if refuted else None))
        if status:
            findings[kind].append(f"{kind} {name} {status}")
    lines = ["p inccnf", *map(text_of, clauses), *("a " + text_of(cube) for cube in cubes)]
    for label, units, clause in draw.sample(sections, len(sections)):
        last = len(clauses) + units
        hints = [*range(len(clauses) + 1, last + 1), clause] if clause else [last + 7]
        lines += ["l " + label, f"{last + 1} 0 {text_of(hints)}"]
    return lines, findings["a"] + findings["m"] + findings["n"]


def main(seed, path):
    lines, findings = bundle_of(random.Random(int(seed)))
    with open(path, "w", encoding="utf-8") as file:
        file.writelines(line + "\n" for line in findings)
    print("\n".join(lines))


main(*sys.argv[1:])
