#!/usr/bin/env python3
"""The turn of whoever changes a crate: what has changed is proved over what earlier turns kept, and tried. It is no gate.

    python3 scripts/turn.py              what has changed since the last turn that passed
    python3 scripts/turn.py CRATE ..     the same, and these crates are tried whether or not they have changed

First it proves each crate that has changed, and each above it for which something else is stated than when it was proved: a contract, a type, a definition
or a lemma of a crate below. Where only a body has changed, that is its own crate alone. Of a crate that is proved, a function is proved anew only where it, or a
statement that it stands on, has changed: crates/CRATE/out/incremental has what is kept, the folder that `rt check` uses. Both programs are then built of what all
crates are by now, as out/turn.NAME of their folders; they are slower than the launchers', since the kit's own compiler makes them. The libraries lie in
crates/cubeboard/out/rlib/turn, with their proofs: the launchers' have none, so that what stands on one serves for no other.

Then come tests/rows over these programs and, side by side, the scripts that try what the changed crates do (SCRIPTS), the wrong bodies of these crates
(scripts/wrong_bodies.py), and the tests of the suites above them, unproved (`rt try --test`). The last lines say what was done and what was left out.

What is proved so rests on files below out/, as the prover says (incremental=trusted), and on libraries of which not all were proved
over each other: `./check` takes nothing from it, nor do the launchers, nor it from them. A first turn, with nothing kept, takes as long as a first call, and
tries rows and scripts alone. The status is 0 where all of it passed, 1 where something did not, 70 where the
turn can't be made.
"""
import concurrent.futures
import contextlib
import fcntl
import hashlib
import os
import subprocess
import sys
import time

import build

PROGRAMS = ("cubeboard", "cubejoin")
# Which script tries what which crates do. tests/rows try all of them, so that one isn't here.
SCRIPTS = {
    "explain": {"lrat_binary", "run_terms", "cube_explain", "cube_command", "cube_report", "cubeboard"},
    "files": {"byte_flow", "file_store", "bundle_files", "run_watch", "cube_command", "join_command", "cubeboard", "cubejoin"},
    "pipes": {"byte_flow", "lrat_binary", "case_core", "check_crew", "file_store", "bundle_files", "run_watch", "cube_command", "cubeboard"},
    "picture": {"tree_map", "node_fields", "split_tree", "mark_board"},
    "questions": {"cube_report", "node_fields", "cube_command"},
    "cluster": {"join_command", "cube_join", "cubejoin"},
    "threads": {"byte_flow", "board_hall", "cube_jobs", "check_crew", "file_store", "bundle_files", "run_watch", "cube_command", "cubeboard"},
    "refused": {"lrat_binary", "hint_check", "case_core", "check_crew", "file_store", "bundle_files", "join_command"},
}
WORDS = {"cluster": ["loop"]}
LANES = 4
# What of a library's files no other crate can name: how its functions are proved, and sums of all. So it is with lines of its file `format`.
OWN = {"Answers.antt", "Invariants.antt", "Proof.antt", "made.json"}
OWN_LINES = ("checked ", "sum ")


class Kept(build.Kept):
    """Libraries and programs of a turn, beside those of the launchers."""

    def __init__(self, program):
        super().__init__(program)
        self.libraries = build.SHARED / "rlib" / "turn"
        self.passed = build.SHARED / "turn.passed"

    def made(self, crate):
        return crate.folder / "out" / f"turn.{crate.name}" if crate.is_program else self.library(crate)

    def sum_file(self, crate):
        return crate.folder / "out" / "turn.sum" if crate.is_program else super().sum_file(crate)

    def log(self, crate):
        return self.libraries / f"{crate.name}.log"

    def forget(self, crate):
        """Forgets a crate alone: what stands on it may serve on."""
        self.sum_file(crate).unlink(missing_ok=True)

    def note(self, crate, wanted):
        if not crate.is_program:
            self.stated_file(crate).write_text(f"{stated_by(self.library(crate))}\n")
        super().note(crate, wanted)

    def stated_file(self, crate):
        return self.libraries / f"{crate.name}.stated"

    def stated(self, crate):
        """A sum of what the library of a crate states, as it was made last."""
        file = self.stated_file(crate)
        return file.read_text().strip() if file.is_file() else None

    def changed(self, owns):
        """The crates whose own files aren't those of the last turn that passed; None where no turn has passed yet."""
        if not self.passed.is_file():
            return None
        noted = dict(line.split() for line in self.passed.read_text().splitlines())
        return {name for name, own in owns.items() if noted.get(name) != own}

    def note_passed(self, owns):
        self.passed.write_text("".join(f"{name} {own}\n" for name, own in owns.items()))


def stated_by(library):
    """A sum of what a library states: all of its interface and its definitions and lemmas, but for what its own proofs alone can name."""
    files = [it for part in ("interface", "lang/antt") for it in (library / part).rglob("*") if it.is_file() and it.name not in OWN]
    lines = (library / "format").read_text().splitlines()
    made = hashlib.sha256("\n".join(it for it in lines if not it.startswith(OWN_LINES)).encode())
    for file in sorted(files):
        made.update(f"{file.relative_to(library)} {hashlib.sha256(file.read_bytes()).hexdigest()}\n".encode())
    return made.hexdigest()


class Sums:
    """For each crate a sum of what it has to be proved over: of its own files and of what each crate below states by now; for a program also of the files of these,
    which it is made of."""

    def __init__(self, crates, kept):
        self.crates, self.kept, self.files = {it.name: it for it in crates}, kept, build.sums_of(crates)
        self.handles = (build.ROOT / "HANDLES").read_text()

    def __getitem__(self, name):
        crate = self.crates[name]
        if crate.is_program:
            return self.files[name]
        stated = [(it.name, self.kept.stated(it)) for it in below(crate)]
        return hashlib.sha256(f"{build.NEEDED}\n{self.handles}\n{crate.own} {stated}".encode()).hexdigest()


def below(crate):
    """The crates that one stands on, in the order of their names."""
    found, left = {}, [*crate.lower]
    while left:
        it = left.pop()
        if it.name not in found:
            found[it.name] = it
            left += it.lower
    return [found[name] for name in sorted(found)]


class Prover(build.Prover):
    """Proves over what earlier turns kept of a crate. Its programs are compiled by the kit's own compiler, which takes a third of the time that LLVM takes."""

    backend = "rattle"

    def keeping(self, crate):
        return ["--incremental", "out/incremental"]

    def prove(self, crate, jobs, log):
        (crate.folder / "out").mkdir(exist_ok=True)
        with alone_in(crate.folder):
            return super().prove(crate, jobs, log)


@contextlib.contextmanager
def alone_in(folder):
    """Waits until no `rt` works in a crate's folder, and keeps others out."""
    held = os.open(folder, os.O_RDONLY)
    try:
        fcntl.flock(held, fcntl.LOCK_EX)
        yield
    finally:
        os.close(held)


def kept_of():
    """What the last turn left."""
    return Kept(crates_of_programs()[-1])


def crates_of_programs():
    """The crates that the programs stand on, and the programs, each after those that it names."""
    found = {}
    for program in PROGRAMS:
        for crate in build.below(program):
            if crate.name not in found:
                crate.lower = [found.get(it.name, it) for it in crate.lower]
                found[crate.name] = crate
    return [*found.values()]


def suites():
    """The crates of tests, each with the names of all that it stands on and its own."""
    named = [it for it in build.lines_of_crates() if it.endswith("suite")]
    return {it: {one.name for one in build.below(it)} for it in named}


def owns_of(crates):
    """The sums of the own files of the programs' crates and of those of tests."""
    owns = {it.name: it.own for it in crates}
    for name in suites():
        owns.update({it.name: it.sum() for it in build.below(name) if it.name not in owns})
    return owns


def prove(crates, kept, sums):
    """Proves what has to be proved, and answers these crates."""
    kit = build.Kit()
    kept.make_folders()
    with open(build.SHARED / "lock", "w") as lock:
        fcntl.flock(lock, fcntl.LOCK_EX)
        run = build.Build(crates, kit, kept, sums)
        run.prover = Prover(kit, kept, run.teller)
        failed = run.run()
    if failed:
        print(*kept.log(failed).read_text(errors="replace").splitlines()[-25:], sep="\n", file=sys.stderr)
        raise build.Failure(f"the crate {failed.name} isn't proved; all that was said stands in {kept.log(failed)}")
    return [it.name for it in crates if it.name in run.prover.used]


class Tries:
    """What is tried of a turn: commands that run side by side, what each says in one piece when it has ended, and which of them failed."""

    def __init__(self, crates, kept):
        programs = {it.name: str(kept.made(it)) for it in crates if it.is_program}
        self.env = {**os.environ, "CUBEBOARD_PROGRAM": programs["cubeboard"], "CUBEJOIN_PROGRAM": programs["cubejoin"]}
        self.lanes = concurrent.futures.ThreadPoolExecutor(LANES)
        self.given, self.start = [], time.monotonic()

    def one(self, name, folder, words):
        """Runs a command and answers its name and whether it passed."""
        start, out = time.monotonic(), subprocess.STDOUT
        ran = subprocess.run(words, cwd=folder, env=self.env, stdin=subprocess.DEVNULL, stdout=subprocess.PIPE, stderr=out, text=True)
        lines = ran.stdout.splitlines()
        is_well = not ran.returncode
        print(*(lines[-1:] if is_well else lines[-40:]), sep="\n")
        build.say(f"{name}: {'passed' if is_well else 'failed'}, {time.monotonic() - start:.0f} s")
        return name, is_well

    def give(self, name, words, folder=build.ROOT):
        self.given.append(self.lanes.submit(self.one, name, folder, words))

    def script(self, name):
        self.give(name, ["sh", f"scripts/{name}.sh", *WORDS.get(name, [])])

    def failed(self):
        """The names of those that failed, when all have ended."""
        return [name for name, is_well in (it.result() for it in self.given) if not is_well]


def try_all(tries, tried, is_first):
    """Tries rows first, and beside them what these crates do; answers what was done and left out."""
    tries.script("rows")
    scripts = [it for it, crates in SCRIPTS.items() if is_first or crates & tried]
    for name in scripts:
        tries.script(name)
    left = [it for it in SCRIPTS if it not in scripts]
    if is_first:
        return ["rows", *scripts], ["all wrong bodies", "all tests"]
    wrong = sorted(it for it in tried if (build.ROOT / "crates" / it / "must-fail").is_dir())
    for name in wrong:
        words = [sys.executable, "scripts/wrong_bodies.py", "--turn", name]
        tries.give(f"wrong bodies of {name}", words)
    above = [it for it, below in suites().items() if below & tried]
    for name in above:
        tries.give(f"tests of {name}", ["rt", "try", "--test"], build.ROOT / "crates" / name)
    left += [f"tests of {it}" for it in suites() if it not in above]
    done = ["rows", *scripts, *(f"wrong bodies of {it}" for it in wrong), *(f"tests of {it}, unproved" for it in above)]
    return done, left


def turn(names):
    """Makes a turn, and answers its status."""
    start, crates = time.monotonic(), crates_of_programs()
    if unknown := [it for it in names if it not in build.lines_of_crates()]:
        raise build.Failure(f"crates.txt has no line of {unknown[0]}")
    kept = Kept(crates[-1])
    sums, owns = Sums(crates, kept), owns_of(crates)
    changed = kept.changed(owns)
    tried = {*names} | (changed or set())
    proved = prove(crates, kept, sums)
    build.say(f"proved: {', '.join(proved) or 'nothing, since nothing has changed'}; {time.monotonic() - start:.0f} s")
    tries = Tries(crates, kept)
    done, left = try_all(tries, tried, changed is None and not names)
    failed = tries.failed()
    build.say(f"tried: {', '.join(done)}")
    build.say(f"left out: {', '.join(left)}; the proofs of tests; what each wrong body does alone; the scripts that only ./check runs")
    told = f"{len(failed)} failed: {', '.join(failed)}" if failed else "passed"
    build.say(f"{told}, after {time.monotonic() - start:.0f} s. This is a turn over kept work, and no gate: that is ./check")
    if not failed:
        kept.note_passed(owns)
    return 1 if failed else 0


if __name__ == "__main__":
    build.Speaker.name = "turn"
    try:
        sys.exit(turn(sys.argv[1:]))
    except build.Failure as why:
        build.say(why)
        sys.exit(build.FAILED)
    except KeyboardInterrupt:
        build.say("interrupted. What is proved is kept")
        sys.exit(build.INTERRUPTED)
