"""Draws the picture of a bundle's tree as docs/FORMATS.md says, from the bundle's cubes and from the report on it, without the program: BUNDLE REPORT.
Each cube has a line of its own in the bundle. The picture goes to standard output."""
import sys

SIZE = '<svg xmlns="http://www.w3.org/2000/svg" viewBox="0 0 2048 {0}" width="2048" height="{0}">\n'
STYLE = (
    "<style>text{font:18px sans-serif}rect{fill:#FFFFFF;stroke:#FFFFFF;stroke-width:0.2}"
    'rect[width="1"],rect[width="2"]{stroke-width:0}'
    ".c{fill:#BBBBBB}.r{fill:#0072B2}.x{fill:#D55E00}.o{fill:#F0E442}.p{fill:#56B4E9}rect.n{stroke:#000000;stroke-width:2}</style>\n"
)
LEGEND = (
    ("r", 760, "refuted"),
    ("x", 900, "rejected"),
    ("o", 1050, "open"),
    ("p", 1170, "partly open"),
    ("c", 1350, "under a refuted node"),
    ("n", 1620, "own proof"),
)
LAST_ROW = 11


class Node:
    """A node of the tree: its path and its branches, and where it is a cube's leaf the cube's number."""

    def __init__(self, path):
        self.path, self.branches, self.cube = path, [], None


def tree_of(cubes):
    """All nodes of the cubes' tree, each before those below it, the positive branch before the negative one."""
    root = {}
    for number, cube in enumerate(cubes, 1):
        place = root
        for literal in cube:
            place = place.setdefault(literal, {})
        place[0] = number
    nodes, pending = [], [(root, Node(()))]
    while pending:
        place, node = pending.pop()
        nodes.append(node)
        node.cube = place.pop(0, None)
        for literal in place:
            variable = abs(literal)
            node.branches = [Node(node.path + (variable,)), Node(node.path + (-variable,))]
            pending += [(place.get(-variable, {}), node.branches[1]), (place.get(variable, {}), node.branches[0])]
            break
    return nodes


def statuses_of(report):
    """What the report says: of each cube by its number, and of each missing leaf and each inner node by its path."""
    statuses = {}
    for fields in map(str.split, report):
        if fields[0] == "a":
            statuses[int(fields[1])] = fields[2:]
        elif fields[0] in "mn":
            start = 2 if fields[0] == "m" else 1
            end = fields.index("0", start)
            statuses[tuple(map(int, fields[start:end]))] = fields[end + 1:]
    return statuses


def judge(nodes, statuses):
    """Gives each node its status, whether it is marked, what weighs open under it, and what is marked or rejected in its subtree."""
    for node in reversed(nodes):
        below = node.branches
        node.status = statuses.get(node.path if node.cube is None else node.cube)
        refuted = node.status == ["refuted"]
        node.rejected = bool(node.status) and node.status[0] == "rejected"
        node.marked = refuted or bool(below) and all(branch.marked for branch in below)
        node.some_marked = node.marked or any(branch.some_marked for branch in below)
        node.some_rejected = node.rejected or any(branch.some_rejected for branch in below)
        node.weight = sum(branch.weight for branch in below) or 2 ** max(60 - len(node.path), 0)
        node.open = 0 if node.marked else sum(branch.open for branch in below) if below else node.weight


def told(node):
    """What is told of a node."""
    status = node.status or []
    if node.cube is not None:
        return " ".join(["a", str(node.cube), *status])
    if not node.branches:
        return " ".join(["m", *map(str, node.path), "0", *status])
    return " ".join(["n", *map(str, node.path), "0", *status, "w", str(node.open)])


def color(node, row, covered):
    """The class of a node's cell in a row, where a node above may be marked."""
    if node.marked:
        return "r"
    if covered:
        return "c"
    if node.some_rejected if row == LAST_ROW else node.rejected:
        return "x"
    return "p" if node.some_marked else "o"


def rectangle(name, left, top, width):
    return f'<rect class="{name}" x="{left}" y="{top}" width="{width}" height="22">'


def draw(nodes):
    """The picture of the tree whose nodes were judged."""
    root = nodes[0]
    head = []
    for name, left, word in LEGEND:
        head.append(f'{rectangle(name, left, 8, 22)}</rect><text x="{left + 30}" y="26">{word}</text>\n')
    answer = "REFUTED" if root.marked else "OPEN"
    # In tenths of a per cent, rounded up.
    share = -(-1000 * root.open // root.weight)
    told_open = f"{share // 10}.{share % 10} % open, w {root.open} of {root.weight}"
    head.append(f'<text x="8" y="26">s {answer}\n</text>\n<text x="130" y="26">{told_open}</text>\n')
    cells, last = cells_of(root)
    return "".join([SIZE.format(40 + 24 * (last + 1) + 2), STYLE, *head, *cells, "</svg>\n"])


def cells_of(root):
    """The cells of the nodes that have one, and their last row."""
    lines, last, pending = [], 0, [(root, 0, 0, False)]
    while pending:
        node, row, left, covered = pending.pop()
        last = max(last, row)
        width = 2048 >> row
        name = color(node, row, covered) + (" n" if node.branches and node.status else "")
        lines.append(f"{rectangle(name, left, 40 + 24 * row, width)}<title>{told(node)}</title></rect>\n")
        if node.branches and row < LAST_ROW:
            covered = covered or node.marked
            pending.append((node.branches[1], row + 1, left + width // 2, covered))
            pending.append((node.branches[0], row + 1, left, covered))
    return lines, last


def cubes_of(bundle):
    """The cubes of a bundle, each the list of its literals."""
    cubes = []
    for line in bundle:
        if line.startswith("l"):
            break
        if line.startswith("a"):
            cubes.append([int(word) for word in line.split()[1:-1]])
    return cubes


with open(sys.argv[1], encoding="utf-8") as bundle, open(sys.argv[2], encoding="utf-8") as report:
    nodes = tree_of(cubes_of(bundle))
    judge(nodes, statuses_of(report))
sys.stdout.write(draw(nodes))
