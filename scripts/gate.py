#!/usr/bin/env python3
"""The gate: `rt ci` proves all from nothing, builds it and runs it, and beside it all wrong bodies are tried, many at a time.

    python3 scripts/gate.py FOLDER MARK

FOLDER is made: a copy of this one without the must-fail edits, in which `rt ci` works. As soon as that has said that the programs and the tests of suite are
proved, what it has made of these is copied to the crates' folders out/, and the file MARK is made: from then on ./check tries the programs, beside what is
still to be proved.

`rt ci` would try each edit in a check of its own, which takes longer than all proofs together. And it proves a chain of crates one after the other, each by one
processor, so that two of four are idle. Those try the wrong bodies of a crate as soon as `rt ci` has said that each library below it is proved, over the
libraries that it has made. scripts/wrong_bodies.py judges them: it asks more of each than `rt ci` does, that its own function is refused by a goal of its own.

The last line counts the wrong bodies; that of `rt ci` stands above it. The status is 0 where `rt ci` passed and each wrong body is refused.
"""
import concurrent.futures
import os
import pathlib
import re
import shutil
import subprocess
import sys
import tempfile

import build
import turn
import wrong_bodies

# (a crate that an earlier run on this machine proved is told as kept)
PROVED = re.compile(r"rt: (\w+)(?:(: its tests are)? proved$| is kept:)")
LEFT_OUT = shutil.ignore_patterns("out", "must-fail", ".git")


class Kept(build.Kept):
    """The libraries that `rt ci` makes in the copy, each in the folder of its crate."""

    def __init__(self, copy):
        self.libraries = copy / "crates"

    def library(self, crate):
        return self.libraries / crate.name / "out" / "rlib" / f"{crate.name}.rlib"

    def searched(self, crate):
        return [self.library(low).parent for low in build.below(crate.name)[:-1]]


class Bodies:
    """The crates whose wrong bodies are still to be tried, and what is told of the others."""

    def __init__(self, kept, room):
        self.kit, self.kept, self.room = build.Kit(), kept, room
        self.left = wrong_bodies.crates_of([])
        self.beside = concurrent.futures.ThreadPoolExecutor(len(self.left))
        self.lanes = wrong_bodies.Lanes(wrong_bodies.lane_count())
        self.below = {it.name: {low.name for low in build.below(it.name)[:-1]} for it in self.left}
        self.proved, self.given = set(), []

    def note(self, names):
        """These crates are proved: the wrong bodies are tried of those that wait for nothing else."""
        self.proved.update(names)
        ready = [it for it in self.left if self.below[it.name] <= self.proved]
        self.left = [it for it in self.left if it not in ready]
        for crate in ready:
            edits = wrong_bodies.edits_of(crate.folder, [])
            self.given.append(self.beside.submit(wrong_bodies.try_crate, self.kit, self.kept, crate, edits, self.room, False, self.lanes))

    def told(self, is_well):
        """Whether each is refused; those that are not begun are given up where `rt ci` has failed."""
        if not is_well:
            self.lanes.close()
        self.beside.shutdown()
        wanted = [it for it in self.given if not isinstance(it.exception(), wrong_bodies.GivenUp)]
        return [it for one in wanted for it in one.result()]


class Made:
    """What `rt ci` makes in the copy: what ./check tries is handed over as soon as it is proved."""

    # What the scripts try: both programs, and by refused.sh the tests of suite.
    TRIED = {*turn.PROGRAMS, "suite: its tests are"}

    def __init__(self, copy, mark):
        self.copy, self.mark, self.proved = copy, mark, set()

    def note(self, name):
        """This is proved: a crate, or the tests of one."""
        self.proved.add(name)
        if self.TRIED <= self.proved:
            self.hand_over()

    def hand_over(self):
        """Copies that, and the libraries that the programs stand on, to where `rt ci` would have put it here, once. It leaves alone what may still be made."""
        if self.mark.exists():
            return
        for name in sorted({it.name for program in turn.PROGRAMS for it in build.below(program)} | {"suite"}):
            for made in (self.copy / "crates" / name / "out").iterdir():
                to = build.ROOT / made.relative_to(self.copy)
                to.parent.mkdir(exist_ok=True)
                shutil.rmtree(to, ignore_errors=True)
                to.unlink(missing_ok=True)
                (shutil.copytree if made.is_dir() else shutil.copy2)(made, to)
        self.mark.touch()


def stand_back():
    """What is started from here on has the lowest priority, and what runs has not: wrong bodies have what `rt ci` leaves idle. This one begins a session,
    which has the lowest, too."""
    os.nice(build.LOWEST)
    try:
        os.setsid()
    except OSError:
        return
    build.stand_back("self")


def run_beside(copy, mark, room):
    """Runs `rt ci` in the copy and tries the wrong bodies beside it. Answers the status of `rt ci`, whether each body is refused, and the crates left out."""
    ran = subprocess.Popen(["rt", "ci"], cwd=copy, stdin=subprocess.DEVNULL, stdout=subprocess.PIPE, text=True, errors="replace")
    stand_back()
    bodies, made = Bodies(Kept(copy), room), Made(copy, mark)
    bodies.note([])
    for line in ran.stdout:
        print(line, end="", flush=True)
        if found := PROVED.match(line.rstrip()):
            made.note(found[1] + (found[2] or ""))
            bodies.note([] if found[2] else [found[1]])
    status = ran.wait()
    if not status:
        # (of tests that an earlier run has proved `rt ci` says nothing)
        made.hand_over()
    return status, bodies.told(not status), [it.name for it in bodies.left]


def main(folder, mark):
    copy = pathlib.Path(folder).resolve()
    shutil.copytree(build.ROOT, copy, ignore=LEFT_OUT, symlinks=True)
    with tempfile.TemporaryDirectory(prefix=wrong_bodies.ROOM) as room:
        status, told, left = run_beside(copy, pathlib.Path(mark), pathlib.Path(room))
    if left:
        print(f"gate.py: not tried, since a library below isn't proved: the wrong bodies of {', '.join(left)}")
    print(f"wrong_bodies: {sum(told)} passed, {len(told) - sum(told)} failed")
    return 1 if status or left or not told or not all(told) else 0


if __name__ == "__main__":
    sys.exit(main(*sys.argv[1:]))
