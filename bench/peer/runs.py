"""Runs of ACL2's checker, of lrat-check and of a program on one leaf, as leaf.py writes it."""
import os
import re
import shutil
import subprocess
from typing import NamedTuple

HERE = os.path.dirname(os.path.abspath(__file__))
MEASURE = os.path.join(HERE, "../bin/measure")


class Run(NamedTuple):
    """The seconds of processor time, the peak of resident memory, what was printed, and the
    status: 256 more than the number of a signal, if one ended the run."""

    seconds: float
    megabytes: float
    lines: list[str]
    status: int

    def verdict(self):
        """Of ACL2 or the program: `refuted`, or else why not, in its own words."""
        last = self.lines[-1] if self.lines else ""
        if last in ("s VERIFIED", "s REFUTED"):
            return "refuted"
        text = "\n".join(self.lines)
        reason = re.search(r"^a 1 (rejected .*)$|HARD ACL2 ERROR in [^:]*::[^:]*: *((?:.+\n)+)", text, re.M)
        return " ".join((reason[1] or reason[2]).split()) if reason else last or "no answer"

    def lrat_verdict(self):
        """Of lrat-check: `refuted` if it says so and ends with 0, or else how it ended."""
        if self.status >= 256:
            return f"ended by signal {self.status - 256}"
        if "c VERIFIED" in self.lines and self.status == 0:
            return "refuted"
        return "not verified" if "c NOT VERIFIED" in self.lines else "no verdict"


def run(words):
    out = f"{HERE}/../bin/peer.{os.getpid()}"
    told = subprocess.run([MEASURE, out, *words], capture_output=True, text=True, check=True)
    _, microseconds, kilobytes, status = map(int, told.stdout.split())
    with open(out, encoding="utf-8", errors="replace") as file:
        lines = file.read().splitlines()
    os.remove(out)
    return Run(microseconds / 1e6, kilobytes * 1024 / 1e6, lines, status)


def acl2(leaf=None):
    """A run of ACL2's checker; without a leaf, of its image alone."""
    files = [] if leaf is None else [f"{leaf}.cnf", f"{leaf}.clrat"]
    return run(["/bin/sh", f"{HERE}/check.sh", *files])


def program(path, leaf):
    return run([path, "--workers", "1", f"{leaf}.icnf"])


def lrat_check(formula, proof):
    """A run of the lrat-check of the PATH."""
    return run([shutil.which("lrat-check"), formula, proof])


def with_proofs(path, workers, folder, cubes):
    """A run of the program on a formula's own file and a folder of proofs."""
    files = ["--formula", f"{folder}/formula.cnf", "--proofs", f"{folder}/proofs", cubes]
    return run([path, "--workers", str(workers), *files])
