#!/usr/bin/env python3
"""Prints which functions and rooms a check of a crate took longest for.

    python3 scripts/slow_functions.py CRATE [N]

CRATE is a crate's name, or a folder that a check wrote with `--incremental`. A check writes a file for each module that it has
checked, so that the time between two files is the later one's; that holds only of a check from nothing by one job. So first:

    rm -rf crates/CRATE/out/incremental; (cd crates/CRATE && rt check --jobs 1)

It prints the seconds in all, the N greatest (25 where N is left out), and what they were for: `Lts` is what follows the body
and its loans, `Proof` its goals, `lemma` a room of proofs/ or specs/. A gate takes these seconds twice for a crate with more
than one must-fail edit, and once more for each edit of the function.
"""
import os
import re
import sys

ROOT = os.path.dirname(os.path.dirname(os.path.abspath(__file__)))
MODULE = re.compile(r"Rattle-\w+-(?:proofs|specs)\.(.*?)(?:\.decls)?\.oantt$")


def written(folder):
    """The files below a folder, each with the time at which it was written, first to last."""
    files = [os.path.join(at, name) for at, _, names in os.walk(folder) for name in names]
    return sorted((os.stat(file).st_mtime, os.path.basename(file)) for file in files)


def subject_of(name):
    """The function or the room that a file is of, and which part of its check."""
    module = MODULE.match(name)
    if not module:
        return "(the rest)", "rest"
    words = module[1].split(".")
    if words[0] in ("declared", "contracts"):
        return module[1], "declared"
    function = max((at for at, word in enumerate(words) if word[0].islower()), default=-1)
    if function < 1:
        return module[1], "lemma"
    return ".".join(words[: function + 1]), words[function + 1] if function + 1 < len(words) else "lemma"


def main():
    if len(sys.argv) not in (2, 3):
        sys.exit("usage: slow_functions.py CRATE [N]")
    folder = sys.argv[1]
    if not os.path.isdir(folder):
        folder = f"{ROOT}/crates/{folder}/out/incremental"
    files = written(folder)
    if not files:
        sys.exit(f"slow_functions.py: {folder} has no files: check the crate first")
    subjects, parts = {}, {}
    for (before, _), (after, name) in zip(files, files[1:]):
        for key, sums in zip(subject_of(name), (subjects, parts)):
            sums[key] = sums.get(key, 0) + after - before
    print(f"{files[-1][0] - files[0][0]:.0f} seconds")
    greatest = sorted(subjects.items(), key=lambda it: -it[1])
    for subject, seconds in greatest[: int(sys.argv[2]) if len(sys.argv) == 3 else 25]:
        print(f"{seconds:7.1f} {subject}")
    print(", ".join(f"{part} {seconds:.0f}" for part, seconds in sorted(parts.items(), key=lambda it: -it[1]) if seconds >= 1))


main()
