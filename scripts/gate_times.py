#!/usr/bin/env python3
"""Runs the gate, .ci/run, in a clean clone of what is committed, and writes into docs/PROOFS.md what
it took: the wall time, the processor time in all, and the processor seconds of each crate's proof,
tests and must-fail edits. Run it with nothing else running. The status is that of the gate.

What each process of the prover has used is read from /proc a few times a second; its command line says of which crate it is, and
whether it proves the crate, its tests, or the crate with an edit."""
import os
import resource
import subprocess
import sys
import tempfile
import time

import tables
import wrong_bodies

TICK = os.sysconf("SC_CLK_TCK")
PARTS = ("proof", "tests", "edits")


def read(path):
    try:
        with open(path, "rb") as file:
            return file.read()
    except OSError:
        return b""


def label_of(process):
    """The crate and the part that a process of the prover works on, or None."""
    words = read(f"/proc/{process}/cmdline").split(b"\0")
    if not words[0].endswith(b"/rattle") or b"--crate-name" not in words:
        return None
    try:
        folder = os.readlink(f"/proc/{process}/cwd")
    except OSError:
        return None
    crate = words[words.index(b"--crate-name") + 1].decode()
    if "/rt-edit-" in folder or f"/{wrong_bodies.ROOM}" in folder:
        return crate, "edits"
    return crate, "tests" if b"--test" in words else "proof"


def look(labels, used):
    """Notes how much each process of the prover has used so far. (A check of wrong bodies has a session of its own, so that of the gate tells nothing.)"""
    for process in filter(str.isdigit, os.listdir("/proc")):
        fields = read(f"/proc/{process}/stat").rpartition(b")")[2].split()
        if len(fields) < 20:
            continue
        key = process, fields[19]
        if not labels.get(key):
            labels[key] = label_of(process)
        if labels[key]:
            used[key] = (int(fields[11]) + int(fields[12])) / TICK


def run(folder):
    """Runs the gate: its status, the wall seconds, the processor seconds, and those of each crate's parts."""
    labels, used, begun = {}, {}, time.monotonic()
    started = subprocess.Popen(["sh", ".ci/run"], cwd=folder, stdin=subprocess.DEVNULL, start_new_session=True)
    while started.poll() is None:
        look(labels, used)
        time.sleep(0.2)
    spent = resource.getrusage(resource.RUSAGE_CHILDREN)
    parts = {}
    for key, seconds in used.items():
        parts[labels[key]] = parts.get(labels[key], 0) + seconds
    return started.returncode, time.monotonic() - begun, spent.ru_utime + spent.ru_stime, parts


def edit_count(folder, crate):
    must_fail = f"{folder}/crates/{crate}/must-fail"
    names = os.listdir(must_fail) if os.path.isdir(must_fail) else []
    return sum(name.endswith(".edit") for name in names)


def table_of(folder, wall, total, parts):
    """The lines of the document."""
    crates = tables.crates()
    rows = [[parts.get((crate, part), 0) for part in PARTS] for crate in crates]
    edits = [edit_count(folder, crate) for crate in crates]
    sums = [sum(row[place] for row in rows) for place in range(len(PARTS))]
    seconds = [[f"{it:.0f}" for it in row] for row in [*rows, sums]]
    return [
        "",
        f"`./check` from a clean clone: {wall / 60:.0f} minutes on {os.cpu_count()} cores, "
        f"{total / 60:.0f} processor minutes. In processor seconds:",
        "",
        tables.row("Crate", "its proof", "its tests", "its edits", "number of edits"),
        "|---|---|---|---|---|",
        *[tables.row(*line) for line in zip([*crates, "together"], *zip(*seconds), [*edits, sum(edits)])],
        "",
        f"Compiling, linking, running the tests and the scripts took {total - sum(sums):.0f} more.",
    ]


def main():
    with tempfile.TemporaryDirectory() as room:
        clone = f"{room}/clone"
        subprocess.run(["git", "clone", "-q", tables.ROOT, clone], check=True)
        status, *found = run(clone)
        lines = table_of(clone, *found)
    print(*lines, sep="\n")
    if status == 0:
        tables.put("times", lines)
    return status


if __name__ == "__main__":
    sys.exit(main())
