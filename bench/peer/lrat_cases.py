#!/usr/bin/env python3
"""Tries the cases of cases/README.md: lrat_cases.py PROGRAM. Of each folder there the model has to
make each clause of the formula true. lrat-check and the program have to print the lines, and end
with the statuses, of the page's table. Prints a line for each case; the status is 1 if one isn't
so."""
import os
import re
import subprocess
import sys

CASES = os.path.join(os.path.dirname(os.path.abspath(__file__)), "cases")
# Name, what lrat-check prints and its status, what the program prints and its status.
ROW = re.compile(r"\| \[(.+)\]\(\1\) \| `(.+)`, (\d) \| `(.+)`, (\d) \|")


def rows():
    with open(f"{CASES}/README.md") as file:
        return [match.groups() for match in map(ROW.fullmatch, file.read().splitlines()) if match]


def numbers(path):
    """The numbers of a file, but for lines that begin with `c` or `p`."""
    with open(path) as file:
        lines = [line for line in file if not line.startswith(("c", "p"))]
    return [int(word) for line in lines for word in line.removeprefix("v ").split()]


def has_model(folder):
    """Whether the literals of `model` are no contradiction and one of each clause is among them."""
    true, clause = set(numbers(f"{folder}/model")), set()
    if any(-literal in true for literal in true if literal):
        return False
    for number in numbers(f"{folder}/formula.cnf"):
        if number:
            clause.add(number)
        elif not clause & true:
            return False
        else:
            clause.clear()
    return not clause


def told(words):
    """The lines of standard output and error, and the status."""
    run = subprocess.run(words, cwd=CASES, capture_output=True, text=True, timeout=60)
    return (run.stdout + run.stderr).splitlines(), run.returncode


def says(words, line, status):
    """Whether a call prints a line that begins so, and ends so."""
    lines, ended = told(words)
    return any(it.startswith(line) for it in lines) and ended == int(status)


def try_case(program, row):
    """What isn't as the page says it, or nothing."""
    name, peer_line, peer_status, own_line, own_status = row
    proofs = f"{name}/proofs"
    peer = ["lrat-check", f"{name}/formula.cnf", f"{proofs}/1.lrat"]
    own = [program, "--formula", f"{name}/formula.cnf", "--proofs", proofs, "cubes"]
    wrong = [] if has_model(f"{CASES}/{name}") else ["the model"]
    wrong += [] if says(peer, peer_line, peer_status) else ["lrat-check"]
    wrong += [] if says(own, own_line, own_status) else ["the program"]
    return wrong


def main():
    table = rows()
    folders = sorted(it.name for it in os.scandir(CASES) if it.is_dir())
    named = sorted(row[0] for row in table)
    failed = named != folders
    if failed:
        print(f"the page names {named}, and there are {folders}")
    for row in table:
        wrong = try_case(sys.argv[1], row)
        failed |= bool(wrong)
        print(f"{row[0]}: {'not so: ' + ', '.join(wrong) if wrong else 'as the page says'}")
    return 1 if failed else 0


if __name__ == "__main__":
    sys.exit(main())
