"""What the scripts that write tables share: crates.txt, and the tables of docs/PROOFS.md, each between the two marks of its name."""
import pathlib

ROOT = pathlib.Path(__file__).resolve().parent.parent
DOCUMENT = ROOT / "docs" / "PROOFS.md"


def crate_lines(root=ROOT):
    """What each crate of crates.txt stands on, in its order."""
    lines = [line.partition("#")[0].partition(":") for line in (root / "crates.txt").read_text(encoding="utf-8").splitlines()]
    return {crate.split()[0]: lower.split() for crate, _, lower in lines if crate.strip()}


def crates():
    """The names of crates.txt, in its order."""
    return list(crate_lines())


def parts(name):
    """The document before a table, the table, and what stands behind it, the marks with neither."""
    head, begin, rest = DOCUMENT.read_text(encoding="utf-8").partition(f"<!-- {name}: begin -->")
    table, end, tail = rest.partition(f"<!-- {name}: end -->")
    if not end:
        raise ValueError(f"{DOCUMENT} has no table {name}")
    return head + begin, table, end + tail


def put(name, lines):
    """Puts these lines in the place of a table."""
    head, _, tail = parts(name)
    DOCUMENT.write_text("\n".join([head, *lines, tail]), encoding="utf-8")


def row(*cells):
    return f"| {' | '.join(map(str, cells))} |"
