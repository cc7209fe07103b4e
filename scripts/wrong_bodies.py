#!/usr/bin/env python3
"""Tries the must-fail edits of the crates, many at a time: in the gate, by scripts/gate.py, and for who writes one or changes a contract.
`./check --whole` has `rt ci` try each in a check of its own, too.

    python3 scripts/wrong_bodies.py                  tries all
    python3 scripts/wrong_bodies.py CRATE [NAME ..]  tries those of a crate, or of these the ones whose names begin so
    python3 scripts/wrong_bodies.py --each [CRATE [NAME ..]]
                                                     tries each in a check of its own
    python3 scripts/wrong_bodies.py --turn CRATE [NAME ..]
                                                     over what scripts/turn.py has proved, beginning with what it kept of the crate

Each file crates/CRATE/must-fail/NAME.edit has a line `# function: PATH`, which `rt` passes over: the function that has to be refused, as a check prints it
below its crate.

A function is proved against the contracts of those that it calls, and never against their bodies. So wrong bodies of different functions don't touch
each other, and they are tried together, in as many checks of a crate as one function has wrong bodies. Each has to be refused by itself: the check has
to say of its function that a goal of its own isn't proved. That it calls one that isn't proved doesn't count, and neither does a proof that only lacks
a name that the edit took away; `rt ci` counts each refusal of the crate. The libraries below are those of the launchers, which are built first where a
source has changed: a refusal says something only where the right bodies are proved.

A refusal is either `by an open goal`, where all that proofs/ has of the function still fits, or `at a written answer`, where some of it doesn't: with an
answer written anew, such a body might be proved. So an edit that is refused at a written answer has to have a line

    # forbidden by: CLAUSE - WHY

which names what rules out the body itself, whatever proof is written: a clause of its function's contract, one that a function which it calls requires,
or a type. Whether that is so is for a reader to judge: the line stands in the verdict. Without it the edit fails.

The last line tells how many were refused; the status is 0 where all of them were.
"""
import concurrent.futures
import contextlib
import os
import pathlib
import re
import shutil
import subprocess
import sys
import tempfile
import threading

import build
import turn

# How the folder's name begins in which edits are tried.
ROOM = "wrong-bodies-"
# The names of edits, and of pages about them, which nothing tries.
NAMED = re.compile(r"[A-Za-z0-9_-][A-Za-z0-9_.-]*\.(edit|md)")
# How often a check that is killed, most likely for memory, is tried in all, and what a check may take, in bytes.
TRIES = 2
MEMORY_OF_A_CHECK = 4_000_000_000
VERDICT = re.compile(r"fn (\S+): (.*)")
UNPROVED = re.compile(r"note: (\S+:\d+:\d+: it is not proved .*|\S+:\d+:\d+: .*not proved.*)")
IN_PROOFS = re.compile(r"(?:\./)?proofs/(\S+)/(?:Answers|Invariants|Proof)\.antt:\d+:\d+: error: (.*)")
NAMES = re.compile(r"has no field|is not in scope|has no `|was not admitted")
PLACE = re.compile(r"(\S+?):(\d+):")
BEGINS = re.compile(r"\s*(?:pub(?:\(\w+\))? )?(?:const )?fn (\w+)")
BEFORE = ("#[", "///")


class Edit:
    """A wrong body: its function, what forbids it where that is told, and the texts that change places in files of the crate."""

    def __init__(self, file):
        self.name, self.function, self.forbidden, self.changes = file.stem, "", "", []
        path = old = ""
        for line in file.read_text().splitlines():
            word, _, rest = line.removeprefix("# ").partition(":")
            if word == "file":
                path = rest.strip()
            elif word == "function":
                self.function = rest.strip()
            elif word == "forbidden by":
                self.forbidden = rest.strip()
            elif word == "old":
                old = rest[1:]
            elif word == "new":
                self.changes.append((path, old, rest[1:]))

    def changed(self, texts, folder):
        """The files that it changes, where others have these texts; None where what it takes away isn't there once."""
        made = {}
        for path, old, new in self.changes:
            text = made.get(path) or texts.get(path) or (folder / path).read_text()
            if text.count(old) != 1:
                return None
            made[path] = text.replace(old, new)
        return made

    def fault(self, folder):
        """Why it can't be tried by itself, if it can't."""
        if not self.function or not self.changes:
            return "it has no function, or no text to change"
        if lost := [path for path, old, _ in self.changes if not (old and path.startswith("src/") and (folder / path).is_file())]:
            return f"there is no file {lost[0]} in src/, or no text to change"
        return None if self.changed({}, folder) else "a text that it changes doesn't stand in its file once"


def edits_of(folder, names):
    """The wrong bodies of a crate whose names begin with one of these; all where there are none."""
    files = sorted((folder / "must-fail").glob("*.edit"))
    return [Edit(it) for it in files if not names or it.stem.startswith(tuple(names))]


def strangers_of(folder):
    """The names below a crate's must-fail/ that are no edit's, and that nothing would try."""
    found = [it.relative_to(folder / "must-fail") for it in (folder / "must-fail").rglob("*") if not it.is_dir()]
    return sorted(str(it) for it in found if not NAMED.fullmatch(str(it)))


def rounds_of(edits, folder, is_each):
    """The edits in as few rounds as there can be with no function twice in one, each with the texts that it makes."""
    rounds = []
    for edit in edits:
        for taken, texts in [] if is_each else rounds:
            made = None if any(it.function == edit.function for it in taken) else edit.changed(texts, folder)
            if made:
                taken.append(edit)
                texts.update(made)
                break
        else:
            rounds.append(([edit], edit.changed({}, folder)))
    return rounds


def function_at(folder, note):
    """The name of the function in which the place of a note stands, with what stands right before it; empty where there is none."""
    path, line = PLACE.match(note).groups()
    if not (folder / path).is_file():
        return ""
    lines, name = (folder / path).read_text().splitlines(), ""
    for at, text in enumerate(lines, 1):
        if found := BEGINS.match(text):
            while at > 1 and lines[at - 2].strip().startswith(BEFORE):
                at -= 1
            if at > int(line):
                break
            name = found[1]
    return name


class Answer:
    """What a check of the crate in a folder said of its functions."""

    def __init__(self, crate, said, folder):
        self.said, self.verdicts, self.reasons, self.by_proof, notes = said, {}, {}, {}, []
        for line in said.splitlines():
            if found := UNPROVED.match(line):
                notes.append(found[1])
            elif found := IN_PROOFS.match(line):
                self.by_proof.setdefault(found[1].replace("/", "::"), []).append(found[2])
            elif found := VERDICT.match(line):
                name = found[1].removeprefix(f"{crate}::")
                here = [it for it in notes if function_at(folder, it) == name.split("::")[-1]]
                self.verdicts[name], self.reasons[name], notes = found[2], here, []

    def refusal(self, edit):
        """Whether the check refuses the function of a wrong body for a goal of its own, and what is told of it."""
        verdict, told = self.verdicts.get(edit.function), self.by_proof.get(edit.function, [])
        if verdict is None:
            return False, "FAILED: the check says nothing of the function"
        if verdict.startswith(("proved", "no proof: it calls", "could not tell")):
            return False, f"FAILED: NOT REFUSED: {verdict}"
        goals = [*self.reasons[edit.function], *([verdict] if "did not prove" in verdict else [])]
        if goals and not told:
            return True, f"refused, as it must be, by an open goal: {goals[0]}"
        goals += [it for it in told if not NAMES.search(it)]
        if not goals:
            return False, f"FAILED: refused by a name alone, which shows nothing of a contract: {(told or [verdict])[0]}"
        if not edit.forbidden:
            return False, f"FAILED: refused at a written answer, and no line `# forbidden by:` says what rules out the body itself: {goals[0]}"
        return True, f"refused, as it must be, at a written answer; forbidden by {edit.forbidden}"


def linked(one, other):
    """Copies a file that was kept, by a link where that can be made: a check replaces such a file, and changes none."""
    try:
        os.link(one, other)
    except OSError:
        shutil.copy2(one, other)


class GivenUp(Exception):
    """A check that is no longer wanted."""


class Lanes:
    """How many checks run at once. A check that runs beside fewer has the jobs that the others would have."""

    def __init__(self, count):
        self.count, self.free, self.lock = count, threading.Semaphore(count), threading.Lock()
        self.wanted, self.is_open = 0, True

    def close(self):
        """Begins no more checks."""
        self.is_open = False

    @contextlib.contextmanager
    def lane(self):
        """Waits for a lane, and lends it with the number of jobs for its check."""
        with self.lock:
            self.wanted += 1
        try:
            with self.free:
                if not self.is_open:
                    raise GivenUp
                yield max(self.count // self.wanted, 1)
        finally:
            with self.lock:
                self.wanted -= 1


class Tries:
    """The checks of one crate. The first proves what it stands on, and each of the others begins with a copy of what that has left."""

    def __init__(self, kit, kept, crate, room, lanes):
        self.crate, self.room, self.kit, self.lanes = crate, room / crate.name, kit, lanes
        self.words = [*build.Prover(kit, kept, None).words(crate), "--logic-built", f"{kit.folder}/logic_built"]
        before = crate.folder / "out" / "incremental"
        self.proved = before if isinstance(kept, turn.Kept) and before.is_dir() else None

    def folder_of(self, edits, texts):
        """A folder for one check: the crate, in which the files have these texts, and what was proved."""
        folder = self.room / edits[0].name
        shutil.copytree(self.crate.folder, folder / "crate", ignore=shutil.ignore_patterns("out", "must-fail"))
        for path, text in texts.items():
            (folder / "crate" / path).write_text(text)
        if self.proved:
            shutil.copytree(self.proved, folder / "proved", copy_function=linked)
        else:
            (folder / "proved").mkdir()
        return folder

    def check(self, edits, folder):
        """What a check of this folder says of the functions of these edits."""
        words = [f"{self.kit.folder}/bin/rattle", "check", *self.words, "--incremental", str(folder / "proved")]
        words += [it for edit in edits for it in ("--only", edit.function)]
        how = {"cwd": folder / "crate", "stdin": subprocess.DEVNULL, "stdout": subprocess.PIPE, "stderr": subprocess.STDOUT, "text": True}
        with self.lanes.lane() as jobs:
            for _ in range(TRIES):
                ran = subprocess.run([*words, "--jobs", str(jobs)], **how)
                if ran.returncode >= 0:
                    break
                jobs = 1
        return Answer(self.crate.name, ran.stdout, folder / "crate")

    def round(self, edits, texts):
        """Whether each of these edits is refused, and what is told of it. Where the check doesn't come to functions, each is tried by itself."""
        folder = self.folder_of(edits, texts)
        answer = self.check(edits, folder)
        if not self.proved:
            self.proved = self.room / "proved"
            (folder / "proved").rename(self.proved)
        shutil.rmtree(folder)
        if answer.verdicts or len(edits) == 1:
            lost = "" if answer.verdicts else "; ".join(it for it in answer.said.splitlines() if "error" in it)[:300]
            return [(it, *((False, f"FAILED: BAD: {lost}") if lost else answer.refusal(it))) for it in edits]
        return self.rounds(rounds_of(edits, self.crate.folder, True))

    def rounds(self, rounds):
        """The same of these rounds: of the first by itself where nothing is proved yet, and then of all others side by side."""
        alone = 0 if self.proved else 1
        told = [it for one in rounds[:alone] for it in self.round(*one)]
        with concurrent.futures.ThreadPoolExecutor(len(rounds) + 1) as beside:
            return told + [it for one in beside.map(lambda one: self.round(*one), rounds[alone:]) for it in one]


def try_crate(kit, kept, crate, edits, room, is_each, lanes):
    """Tries the edits of a crate, prints a line for each, and answers for each whether it is refused."""
    strangers = strangers_of(crate.folder)
    faults = [(it, False, f"FAILED: BAD: {why}") for it in edits if (why := it.fault(crate.folder))]
    bad = {it for it, _, _ in faults}
    tries = Tries(kit, kept, crate, room, lanes)
    told = faults + tries.rounds(rounds_of([it for it in edits if it not in bad], crate.folder, is_each))
    shutil.rmtree(tries.room, ignore_errors=True)
    for edit, _, why in told:
        print(f"wrong body {crate.name}/{edit.name}: {' '.join(why.split())[:200]}", flush=True)
    for name in strangers:
        print(f"wrong body {crate.name}/{name}: FAILED: BAD: it stands below must-fail/ and its name is no edit's", flush=True)
    return [is_refused for _, is_refused, _ in told] + [False for _ in strangers]


def work_of(crate):
    """How long the wrong bodies of a crate take, in a measure of its own: the crate's bytes for each round."""
    functions = [it.function for it in edits_of(crate.folder, [])]
    return sum(map(os.path.getsize, crate.files())) * max(map(functions.count, functions), default=0)


def crates_of(names):
    """The crates with wrong bodies, those first that take longest, each as a launcher's build knows it."""
    found = [it for it in build.lines_of_crates() if (build.ROOT / "crates" / it / "must-fail").is_dir()]
    made = [build.below(it)[-1] for it in found if not names or it == names[0]]
    return sorted(made, key=work_of, reverse=True)


def lane_count():
    """How many checks run at once: as many as there are processors and there is memory for, and one at least."""
    told = re.search(r"MemAvailable:\s+(\d+)", pathlib.Path("/proc/meminfo").read_text())
    held = int(told[1]) * 1024 // MEMORY_OF_A_CHECK if told else 1
    return max(min(len(os.sched_getaffinity(0)), held), 1)


def tried(names, is_each, is_turn=False):
    """Tries wrong bodies over libraries that are proved, those of a turn where that is said, and answers the status: names as on the command line."""
    crates = crates_of(names)
    if not crates:
        sys.exit("wrong_bodies.py: there is no such crate with wrong bodies")
    # (all programs share their libraries)
    kit, kept = build.Kit(), turn.kept_of() if is_turn else build.Kept(crates[0])
    with tempfile.TemporaryDirectory(prefix=ROOM) as at, concurrent.futures.ThreadPoolExecutor(len(crates)) as beside:
        room, lanes = pathlib.Path(at), Lanes(lane_count())
        given = [beside.submit(try_crate, kit, kept, it, edits_of(it.folder, names[1:]), room, is_each, lanes) for it in crates]
        told = [it for one in given for it in one.result()]
    print(f"wrong_bodies: {sum(told)} passed, {len(told) - sum(told)} failed")
    return 0 if told and all(told) else 1


def main():
    words = sys.argv[1:]
    is_each, is_turn = words[:1] == ["--each"], words[:1] == ["--turn"]
    names = words[is_each or is_turn :]
    # (before the launchers' libraries are built, which may take long)
    if any(name.startswith("-") for name in names):
        print(__doc__)
        return 0 if names == ["--help"] else 2
    if not crates_of(names):
        sys.exit("wrong_bodies.py: there is no such crate with wrong bodies")
    for program in () if is_turn else turn.PROGRAMS:
        built = subprocess.run([sys.executable, str(build.ROOT / "scripts/build.py"), program])
        if built.returncode:
            return built.returncode
    return tried(names, is_each, is_turn)


if __name__ == "__main__":
    sys.exit(main())
