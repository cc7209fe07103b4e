#!/usr/bin/env python3
"""Writes a bundle, a folder of long proofs of its leaves, and the report on them.

    large_folder.py FOLDER GIGABYTES PROOFS [rising]

In FOLDER: case.icnf, proofs/K.lrat and report. PROOFS is a power of two. A proof adds and deletes
100 clauses again and again before it refutes its leaf: the same ones, or with `rising` new ones by
ids that rise, as solvers write them, beside 100 of the first ids that stay.
"""
import os
import sys
from typing import TextIO

from hostile import CORE, cubes, lemmas, refutation, text_of

LEMMAS = 100


def round_of(first: int) -> str:
    """Additions of so many clauses by ids from the first on, and their deletion."""
    ids = range(first, first + LEMMAS)
    return "\n".join([*lemmas(ids, LEMMAS), f"{ids.stop - 1} d {text_of(ids)} 0\n"])


def write_proof(file: TextIO, first: int, size: int, is_rising: bool) -> None:
    """A proof of about so many bytes, by ids from the first on."""
    written, begin = 0, first
    if is_rising:
        file.write("\n".join([*lemmas(range(first, first + LEMMAS), LEMMAS), ""]))
        begin += LEMMAS
    block = round_of(begin)
    while written < size:
        file.write(block)
        written += len(block)
        if is_rising:
            begin += LEMMAS
            block = round_of(begin)
    file.write("\n".join(refutation(begin)) + "\n")


def write_case(folder: str, proofs: int, depth: int) -> None:
    """The formula with all cubes of some variables, and the report that each is refuted."""
    with open(os.path.join(folder, "case.icnf"), "w") as case:
        case.writelines(line + "\n" for line in ["p inccnf", *CORE, *cubes(depth)])
    with open(os.path.join(folder, "report"), "w") as report:
        refuted = (f"a {k} refuted" for k in range(1, proofs + 1))
        lines = [f"t {proofs} 0 {1 << 60}", *refuted, "w 0", "s REFUTED"]
        report.writelines(line + "\n" for line in lines)


def main() -> None:
    folder, gigabytes, proofs = sys.argv[1], float(sys.argv[2]), int(sys.argv[3])
    depth = proofs.bit_length() - 1
    if proofs != 1 << depth:
        sys.exit("the number of proofs isn't a power of two")
    write_case(folder, proofs, depth)
    first, size = len(CORE) + depth + 1, int(gigabytes * 1e9) // proofs
    os.mkdir(os.path.join(folder, "proofs"))
    for number in range(1, proofs + 1):
        with open(os.path.join(folder, "proofs", f"{number}.lrat"), "w") as file:
            write_proof(file, first, size, sys.argv[4:] == ["rising"])


if __name__ == "__main__":
    main()
