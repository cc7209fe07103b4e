#!/usr/bin/env python3
"""Writes docs/DEFINITIONS.md: for each claim, the definitions of specs/ that its clauses stand on.

    python3 scripts/definitions.py            writes the document
    python3 scripts/definitions.py --check    writes nothing; exits 1 where the document isn't what would be written, or
                                              README.md has other numbers of the first three claims
    python3 scripts/definitions.py --count    prints how many definitions and lines each claim stands on
    --root DIR                                the repository, by default the folder above this script's

It stops where a clause of a claim isn't in the code, where a name in one, or in a definition, can't be resolved, and
where a public contract or another crate names a word of specs/Inner.
"""
import argparse
import re
import sys
import textwrap
from collections import namedtuple
from pathlib import Path

# The claims: a title, what it says, and its clauses, each by file, function (or type) and names; - is a clause without one.
CLAIMS = [
    ("`s REFUTED` means that the formula has no model", """
If the program ends with status 0, no assignment makes all clauses true of the formula of the bundle that it read, from
FILE or from its input. That holds whatever the arguments, the number of workers and the schedule of their threads.
`command` is the call that `main` makes. Whoever chose the cubes and made the proofs is trusted for nothing. The
libraries say the same of a report that ends with the line `s REFUTED`, and of `run_io` if it answers true. To say that,
no definition of trees, proofs or marks is needed.

`command` is proved for all readers and all stores of files. No contract says what the system's own files and streams
hold, so there any text without a model meets `sound`. Its force is that this same code is proved for every store.
`handed`, the next claim, speaks of the bytes that readings handed over.

What there is to read says

- what a clause, an assignment and a model are (`Literal`, `Formula`);
- which clauses a text has, however many and long (`Tokens`, `Numbers`, `Icnf`);
- where in a bundle that text ends (`Bundle`);
- which argument is FILE and which bundle is read (`Words`, `Files`);
- the statement: `IsFormulaOf`, `IsUnsatisfiable`, and for callers of the libraries `SaysRefuted` (`Correct`).""",
     ["cube_command/program.rt command sound",
      "cube_report/engine.rt run_one sound",
      "cube_report/engine.rt run sound",
      "cube_report/engine.rt run_io sound"]),
    ("It is said of what was read", """
Let the program end with status 0. Then the formula that it has by one reading of FILE, or by its input, has no model.
The same holds of the DIMACS text that one reading of CNF gave (`handed`). The clauses above say this of files of which
it is known what they hold. This one needs no such knowledge, and a path may hold another text at each reading. `hands`
is a relation of the store: which texts the readings of a path hand over. `command` is proved for each store and each
such relation that holds of what the files that it opens give up to their ends. The code of a store does not depend on
it. So take for it, for the built program and one call, exactly the texts that its readings of each path gave. Proofs of leaves have no part
in it: they may be read at any time, and are trusted for nothing.""",
     ["cube_command/program.rt command handed",
      "file_store/store.rt Store::open handed"]),
    ("With `--formula` the formula of a published file has no model", """
Let the program end with status 0, and let `--formula CNF` be asked for. Then the text of that file is a DIMACS text of
a formula of which no assignment makes all clauses true. What a bundle is, how the file and FILE become one, and what a
cube or a label line is, has no part in it. As with `sound`, of the system's own files no contract says what they hold:
there any DIMACS text of a formula without a model meets `published`. `handed` says it of the text that a reading of CNF
gave.""",
     ["cube_command/program.rt command published"]),
    ("A refusal names the first fault", """
If a bundle is refused for its own sake, and not for want of memory, a failed device or a refused thread, the fault is
the bundle's first one. With status 3 the bundle has a fault, or with `--formula` CNF has one, or FILE has clauses that
CNF has not. Nothing is written to standard output then (`nothing`, which is in claim 7). Standard error gets, behind
what `--progress` prints, exactly one line: that of the first fault. If a write to standard error fails, it gets a
beginning of that line.""",
     ["cube_command/program.rt command fault",
      "cube_report/engine.rt run_one fault",
      "cube_report/engine.rt run fault",
      "cube_report/engine.rt run_io fault"]),
    ("Every line of the report is the definition's", """
The report is one text, fixed by the case that the bundle stands for and by the mark of each node. A node's mark is what
its section's proof is judged to be from the formula and the node's path alone, or open if it has no section. With DIR
the case is that of the bundle with sections added. For each leaf whose file is there, in order and each at most once,
there is a section under the leaf's own label. With `--map` the picture is another text of the same case and marks.
With `--list-open` `command` writes, in the place of the report, the names of the leaves whose lines in it do not say
that they are refuted (`shown`).""",
     ["cube_command/program.rt command refuted open",
      "cube_report/engine.rt run_one text correct",
      "cube_report/engine.rt run text correct",
      "cube_report/engine.rt run_io written answer correct",
      "cube_report/engine.rt judge_bundle outcome",
      "cube_report/report.rt report_of -"]),
    ("A record names its formula", """
With `--record` the file gets the very report that is written to standard output, or whose open leaves are, under a line with the SHA-256 of the
iCNF text that was read. So two records with one line are on one text, unless SHA-256 gives two texts one digest.
`refuted` and `open` say it beside the report (`recorded` of `IsReported`), `records` that nothing else may be written
there.""",
     ["cube_command/program.rt command refuted open records",
      "cube_command/record.rt digest_line_of -"]),
    ("Streams and status", """
This claim says what the program and `run_io` have written if something fails, and which files they leave as they are.
It also says which lines go to standard error, and which status comes when. Of `command`: the status is 2 if and only if
the arguments cannot be taken, unless memory is refused (`usage`, `taken`). With 4, standard error gets the line of F6
or of F14 (`memory`). The status is 5 if a call that reads or writes failed. To ask for a file that is not there is
such a call. Otherwise it is 5 only if LOG could not be made. Then nothing was read or written (`failed`, `broken`). Status 5
comes with the line of F13 (`device`). Standard output has nothing then or, if a write failed, a beginning of what is
shown of the report (`beginning`). The store changes no file that is read (`kept`): not CNF, not FILE, not LRAT, and none of DIR that ends in `.lrat`,
as their paths are written. These clauses speak of the store. Of LOG, which has a device of its own, and of what names
one file by two paths they say nothing. scripts/files.sh tries both, and scripts/rows.sh LOG, too.""",
     ["cube_command/program.rt command status quiet elsewhere undrawn kept nothing beginning usage unread taken none memory device failed broken",
      "cube_command/telling.rt own_words ok err",
      "cube_report/engine.rt run_io nothing beginning device"]),
    ("Nothing else is written, also by a call that never returns", """
A call that may wait need not return, and then its clauses on what it has written say nothing. So each write asks for
its leave: a text has to be one that the outlet allows. `command` and `run_io` are proved for all outlets that allow

- what is shown of the report on the bundle that is judged;
- its picture at the path of `--map` and its record at that of `--record`, and nowhere else;
- the line of a fault that this bundle has;
- the lines of want of memory, of a thread or of a device, which are allowed at any time;
- if the arguments cannot be taken, the parser's text.

Whatever they write is one of these, before they end or never ending, because each `write` of `Sink` and `Store` asks
for that. After a report nothing is known to be allowed. That the program's own outlets allow each text changes nothing:
`command` cannot ask which they are. This is said of `output`, `errors` and `store`. Four more devices are lent to
`command`. No clause says what they write. They are `gate`, `watch` (for `--progress`, standard error), `log` (LOG), and
`explain` (standard error; its type reads files and cannot write any).""",
     ["cube_command/program.rt command reports pictures records faults words",
      "cube_command/telling.rt own_words words memory",
      "cube_report/engine.rt run_io allowed",
      "cube_report/engine.rt write_report allowed",
      "byte_flow/device.rt Sink::write allowed rest",
      "file_store/store.rt Store::open allowed",
      "file_store/store.rt Store::write allowed beside",
      "file_store/store.rt Store::write_counted allowed beside"]),
    ("Reports of several runs, joined: `s REFUTED` means that the formula has no model", """
Let `cubejoin` end with status 0. Let each RECORD that it has read be one that `cubeboard` wrote, on whichever files,
none of which has FILE's SHA-256 with another text. Then no assignment makes all clauses of FILE true. `join_command` is
the call that `main` of `cubejoin` makes. What is assumed is where the texts come from, and not on which formula they
are. A record of another formula, or of the same formula in other bytes, is refused. With `--unbound` the texts are
plain reports, and the premise is that each is the report on FILE's formula and cubes with some proofs. What `cubejoin`
writes is the report by the joined marks. By these marks a node is refuted if some RECORD refutes it. That text is a
report again, so it can be joined with others. If two runs split the sections between them, the joined marks of what
they found are those of the one run. No true record or report is refused. With `--formula CNF` the premise is of the
bundle that CNF and FILE make. Then the text of CNF is a DIMACS text of a formula of which no assignment makes all
clauses true. `handed` says the same of what one reading of CNF, of FILE and of each RECORD gave, whatever lies there. A
RECORD's digest and its marks are those of one text.""",
     ["join_command/program.rt join_command sound published refuted open",
      "join_command/program.rt join_command handed",
      "join_command/program.rt join_command status quiet held nothing beginning usage unread taken fault memory device failed broken",
      "join_command/program.rt join_command reports faults words",
      "cube_join/joining.rt Join::new tree none",
      "cube_join/joining.rt Join::add tree joined stranger kept err",
      "cube_join/joining.rt Join::report text refuted",
      "cube_join/laws.rt a_report_tells_what_is_refuted -",
      "cube_join/laws.rt joined_reports_are_sound -",
      "cube_join/laws.rt a_join_is_a_report -",
      "cube_join/laws.rt a_split_run_is_one_run -"]),
    ("bundle_files: the bundle that is judged", """
The bundle is the file's or the input's, with the proofs of a folder added for the leaves of its tree, in order and each
under its own label. A run may read each of these proofs when a worker comes to its leaf. A bundle without a folder's
proofs is judged while it is read, and so is the one proof of a formula. What such a run says is what a run on this bundle
promises.""",
     ["file_store/source.rt append_given held appended handed ok err kept",
      "bundle_files/formula.rt begin_bundle held read handed plain fault ok err",
      "bundle_files/formula.rt read_from held bundle handed case fault ok err kept",
      "bundle_files/judge.rt judge_with_folder held outcome fault ok err",
      "bundle_files/judge.rt of_input ok err",
      "bundle_files/one_proof.rt begin_one held read handed case tree free fault ok err",
      "bundle_files/one_proof.rt judge_proof_of outcome fault ok err",
      "bundle_files/while_read.rt read_front front ok err",
      "bundle_files/while_read.rt judge_while_read outcome fault ok err",
      "file_store/store.rt Store::open held lies none ok err",
      "file_store/store.rt Store::close held failures",
      "file_store/source.rt append_file held read handed ok err",
      "file_store/store.rt Store::write written elsewhere nothing ok err",
      "file_store/store.rt Store::write_counted written elsewhere ok err failed",
      "file_store/store.rt Store::reader held binary none",
      "file_store/store.rt Store::settle held failures",
      "file_store/store.rt Store::folder gives none",
      "file_store/store.rt Store::settle_folder held failures"]),
    ("cnf_text: the iCNF text and the DIMACS text", """
The file that is read is what the text stands for, or the fault is the text's first one. So it is with what the problem
line of a DIMACS text says.""",
     ["cnf_text/icnf.rt read_icnf ok only err",
      "cnf_text/dimacs.rt read_problem ok only err"]),
    ("lrat_text: the steps of a proof", """
A reader starts with all whole steps of its text. Each call takes the next of them, or says that the rest is blank, or
that it is unreadable.""",
     ["lrat_text/steps.rt Steps::new value",
      "lrat_text/steps.rt Steps::next_into step end err"]),
    ("lrat_binary: the text that a proof stands for", """
A proof whose first byte is `a` or `d` is binary, and stands for the text of its steps. Any other is its own text.""",
     ["lrat_binary/form.rt binary_text -",
      "lrat_binary/form.rt turn_from -"]),
    ("hint_check: the judgement of a proof", """
The answer is the judgement of the live clauses and the proof, with RUP and RAT over all live clauses. If it is
`Refuted`, the formula and the path have no model together.""",
     ["hint_check/checker.rt Checker::judge judgement refuted",
      "hint_check/judge.rt Judge::judge judgement refuted"]),
    ("split_tree: the tree of the cubes", """
The answer is the tree of the cubes, no two of which clash, or it is the first clash.""",
     ["split_tree/tree.rt build tree fit total fault"]),
    ("case_core: the case of a bundle, and what is found of a target", """
The case is the one that the bundle stands for, or the fault is its first one. What is found of a target is the
judgement of its section, or, for a leaf without one, of the text of a proof that a source gives. The type of a finding
keeps that a refuted target has no model with the formula.""",
     ["case_core/bundle.rt read_bundle ok only err",
      "case_core/examiner.rt examine -",
      "case_core/examiner.rt Examiner::examine found",
      "case_core/examiner.rt Examiner::examine_read read",
      "case_core/bundle.rt icnf_part -",
      "case_core/label_line.rt LabelLine::target has named fault",
      "case_core/label_line.rt LabelLine::twice -",
      "case_core/finding.rt Finding here only is sound"]),
    ("mark_board: marks, open weight and open branches", """
A post marks the node of its finding and no other. Marks, open weight and open branches are the definition's, by all
nodes' marks. A refuted target has no model with its path. If the root is marked, the formula has no model. On a single
board the findings of a node stand at its own row, and the verdict of a part at the part's.""",
     ["mark_board/boards.rt Boards::post same new marks",
      "mark_board/boards.rt Boards::mark_of mark sound",
      "mark_board/boards.rt Boards::root_marked marked sound",
      "mark_board/boards.rt Boards::open_weight -",
      "mark_board/boards.rt Boards::open_branches -",
      "mark_board/marks.rt Marks::of -",
      "mark_board/marked_tree.rt open_branches_of -",
      "mark_board/board.rt Board::row_of -",
      "mark_board/board.rt Board::row_of_part -"]),
    ("board_hall: boards shared by threads", """
Whenever a board's lock is free, it is the board of exactly what was posted on it. What it marks has no model together
with the formula. An inner node is marked if and only if its own refutation was posted or both its branches are marked.
Its open word is the sum of the weights of the leaves under no marked node. Each call answers by what its pass has seen,
and a hall that is closed gives the boards of all that was posted.

The laws speak of each state that is `Reached` from a hall's start by the steps of a hall. That a running hall is in
such a state at every moment is the rule of its table: `InHall` in board_hall/src/rule.rt. Its `holds` says that the
table's words, the boards at home and the views of all passes are `Reached`. They are so for the case, the cut and the
number of passes that the hall was opened with. What a rule means is the kit's word (its crate `atomic_table`): it holds
of a new table and between any two atomic steps of any threads. That is so because a call may take a step only if the
rule holds again after it, and that is proved where the step is taken. `Hall::close` says it of the state in which a
hall ends.""",
     ["board_hall/laws.rt free_is_whole -",
      "board_hall/laws.rt free_is_whole_of_leaves posts sections",
      "board_hall/opening.rt Hall::open hall count passes",
      "board_hall/opening.rt Hall::open_for_proofs_elsewhere hall count passes",
      "board_hall/hall.rt Hall::post own stays posted back",
      "board_hall/hall.rt Hall::post_part own stays posted",
      "board_hall/hall.rt Hall::mark_of own stays nothing mark",
      "board_hall/hall.rt Hall::open_weight own stays nothing seen weight",
      "board_hall/closing.rt Hall::close all boards same"]),
    ("cube_jobs and check_crew: one report for every number of threads", """
Each section's place is claimed once. Once all workers are joined, each node of the boards has the mark of its finding,
for every number of workers, every cut, every gate and every schedule. That is `conquer` of check_crew, by which `run_io` of
cube_report makes its report.

`command` makes the report by `judge_while_read` of bundle_files, over `conquer_while_read`: a bundle of FILE or of the
input is judged by all workers while one of them reads it. The boards of the one that reads have the mark of each finding,
whatever the others do.

With DIR `command` makes it by `judge_with_folder` of bundle_files. Each proof is judged while a worker reads it, when the
worker comes to its leaf. That goes over `conquer_elsewhere`, in a hall for FILE's case whose proofs lie elsewhere. There
the laws of board_hall hold word for word, and what a board marks refuted has no model. That a target is marked by the
judgement of its own proof is no law of that hall. It is compared, for each node, when all workers are joined, and
`conquer_elsewhere` gives boards only if it is so. Each report is written by `write_all` of byte_flow.""",
     ["cube_jobs/jobs.rt Jobs::fill sections count passes",
      "cube_jobs/jobs.rt Jobs::claim same place later claimed none",
      "cube_jobs/jobs.rt Jobs::finish exactly once",
      "check_crew/crew.rt conquer case findings",
      "check_crew/elsewhere.rt conquer_elsewhere apart failed",
      "check_crew/while_read.rt conquer_while_read case boards"]),
    ("tree_map: the picture of a tree", """
The bytes are one picture, fixed by the case and by the mark of each node.""",
     ["tree_map/picture.rt map_of -"]),
]

# Where README.md has how many definitions and lines the claims of `sound`, `handed` and `published` stand on.
README_COUNTS = r"\[(\d+) definitions in (\d+) lines\].*For `handed` it is (\d+) in (\d+)\. .* it is (\d+) in (\d+), for `published`"

HEAD = """<!-- written by scripts/definitions.py: change the script, not this file -->
# What a skeptic has to read

A claim is worth what its definitions say. The proofs tie the program to them, and nothing but reading ties them to what
you have in mind. So here is, claim by claim, what there is to read. That is the clauses that state the claim, and all
definitions that they stand on, in the order in which they are best read. No other definition can change what the claim
says. The first claim matters most, and its list is short.

An assignment is any test on variables, that is a function from numbers to true or false. A literal is a variable and a
sign. A clause is a list of literals, and a formula is a list of clauses. A text is the list of its bytes, which are
numbers.

From the second claim on, a list has only what no claim before it has listed, so that each definition is read once.
Lines are counted without blank lines and comments, and one that is broken for its width counts once. A type counts with
its constructors and fields. What a call asks of its caller counts with its clauses, but for the leave to write,
`allows`. The outlets of the program allow each text, so there no definition can change what is asked. The claim on what
is written has that leave.

Not among the definitions are:

- the words of the kit's library (`Rattle.std.specs`), such as `map` or `flat_map`: each claim names those that it uses,
  operators and numerals apart;
- the enums and structs of the code: each claim names those that its definitions name, and src/ has their variants;
- how a clause sees a value of the code, as a list, a set or a number. It sees a `Vec` as the list of its items, a
  `Formula` as its clauses, a `Boards` as its case and all nodes' marks. The `impl Model` beside a type says that. By
  which function it is told from private fields no caller has to know, because the contracts of the calls say what the
  values are;
- what a reader, a writer or a store of files says of itself in a clause, as `R.remaining`, `W.contents` or `D.held`.
  The traits `Source` and `Sink` ([byte_flow/device.rt](../crates/byte_flow/src/device.rt)), `Store`
  ([file_store/store.rt](../crates/file_store/src/store.rt)) and the kit's `Read` and `Write` say that.
"""

LAWS = """
These are public functions that do nothing. The contract of each is a law over the definitions. No claim stands on them:
each is a check, already proved, that the definitions mean what they should."""

REST = """
A claim stands on a few calls. The other public calls, types and traits have contracts of their own, and so have private
functions. Here is how many definitions of specs/ each crate has, and how many of them a claim or a law above stands on.
The table also counts the other definitions. Some are reached by other public contracts. Some are reached by private
contracts alone, or by the function by which a value is told from private fields. The others are reached by none.

| Crate | Definitions | Lines | Claims and laws | Other public contracts | Private contracts alone | None |
|---|---|---|---|---|---|---|"""

UNUSED = """
No contract reaches these, so that only proofs can use them:
"""

COLUMNS = 100
STAYS = "[|#]|<!--"  # how a line begins that isn't broken

# Words without an import: of the language, of clauses, and of patterns.
BUILT_IN = set("_ : = λ → × ¬ ⊥ | ↦ Type Unit tt absurd record data where pub let in elim as if then else abbrev "
               "unfoldable unfolding Self self result None Some Ok Err usize u8 u16 u32 u64 Prim".split())
CONSTRUCTORS = set("true false zero suc pos negsuc refl None Some Ok Err".split())
UNSEEN = set("view coded invariant inverse inverse_ok laws by".split())  # ghost members and terms that no caller sees

NAME = r"[^\s(){}\[\],;.\"]+"
TOKEN = re.compile(r"\.?%s(?:\.%s)*" % (NAME, NAME))
STRING = r'"(?:\\.|[^"\\])*"'
HEAD_NAME = r" *(?:(?:abbrev|unfoldable|pub|record|data) )*(%s)" % NAME
PUB = r"(?:pub(?:\(\w+\))? )?"
BLOCK = r"(?ms)^(%s(?:impl|trait|struct|enum)\b[^;{]*?)\s*\{\n(.*?)^\}" % PUB
USE = r"(?m)^ *(?:ghost )?use ((?:Rattle|lib|mathlib)\.[^\s{;]+?)(?:\.\{([^}]*)\})?(?: as (\S+?))?;?$"
BINDERS = [r"λ([^.]+)\.", r"[({]\s*([^(){}:=]+?)\s+:\s", r"\blet\s+(\S+)"]

Definition = namedtuple("Definition", "crate room name lines")
Clause = namedtuple("Clause", "crate file owner kind name text scope variables public")
# What a name means. Its kind: a definition, a type of the code, a word of a library; or all names of a file or a type of
# one of these: room, variants, words.
Target = namedtuple("Target", "kind crate path name")


class Problem(Exception):
    pass


def read(path):
    return path.read_text(encoding="utf-8") if path.exists() else ""


def without(text, pattern):
    return re.sub(pattern, "", text)


def imported(text, target):
    """The names that the use lines of a text bring; one without a list brings a whole file."""
    scope = {}
    for path, items, alias in re.findall(USE, text):
        for item in re.findall(r"[^\s,][^,]*", items):
            name, _, other = item.strip().partition(" as ")
            scope[other or name] = target(path.split("."), name)
        if not items:
            scope[alias or path.split(".")[-1]] = target(path.split("."), None)
    return scope


# ---- reading specs

def definitions_in(crate, room, text):
    """The definitions of a file; each goes on to the next one."""
    found, lines = [], []
    for line in text.splitlines():
        if re.match(r"(?:pub|abbrev|unfoldable|record|data|use) |%s :" % NAME, line):
            lines = []
            if not re.match(r"use |pub mod ", line):
                found.append(Definition(crate, room, re.match(HEAD_NAME, line).group(1), lines))
        lines.append(line)
    return found


def is_type(definition):
    return re.match(r"(pub )?(record|data) ", definition.lines[0])


def parts_of(definition):
    """The head of a definition, and then each of its equations, constructors or fields."""
    parts = []
    for line in definition.lines:
        if not parts or re.match(r"  [^\s}]" if is_type(definition) else r"(?!unfolding )[^\s}]", line):
            parts.append("")
        parts[-1] += without(line, STRING) + "\n"
    return parts


# ---- reading sources

def braced(text, place):
    """The text from here to the brace that closes it."""
    depth, end = 1, place
    while depth:
        depth += {"{": 1, "}": -1}.get(text[end], 0)
        end += 1
    return text[place:end - 1]


def contract(text, start):
    """The signature of a function, its clauses as (kind, name, text), and whether its body is empty."""
    clauses, depth, place, end = [], 0, start, None
    while True:
        found = re.compile(r"\b(requires|ensures|ghost)\b\*?\s*(\w*):?\s*\{|[()\[\];{]").search(text, place)
        place = found.end()
        if found.group(1):
            inside = braced(text, place)
            clauses.append((found.group(1), found.group(2) or "-", inside))
            end, place = end or found.start(), place + len(inside) + 1
        elif found.group() in ";{" and depth == 0:
            return text[start:end or found.start()], clauses, text[place - 1:place + 1] == "{}"
        else:
            depth += {"(": 1, "[": 1, ")": -1, "]": -1}.get(found.group(), 0)


def variables_in(signature):
    """Parameters, fields and type parameters."""
    found = re.findall(r"\b(\w+)\s*:(?!:)|[<,]\s*(?:const )?([A-Z]\w*)\s*(?=[:,>])", signature)
    return {name for pair in found for name in pair if name}


def clauses_of(crate, file, header, text, scope, exported):
    """The clauses of the functions of a block (an impl, a trait, a type, the rest of a file), and its ghost members."""
    plain = without(header, r"<[^<>]*(<[^<>]*>[^<>]*)*>")
    owner = re.split(r" where|:", without(plain, r"^.* for |^%s(impl|trait|struct|enum) " % PUB))[0].strip()
    members = variables_in(header) | set(re.findall(r"ghost (\w+):", text))
    for found in re.finditer(r"(?m)^ {0,4}(pub )?(?:pub\(\w+\) )?(?:const |unsafe )*fn (\w+)", text):
        signature, clauses, is_law = contract(text, found.end())
        name = owner + "::" + found.group(2) if owner else found.group(2)
        public = (found.group(1) or " trait " in " " + header) and bool({"*", owner or name} & exported)
        variables = members | variables_in(signature)
        for kind, label, inside in clauses:
            yield Clause(crate, file, name, "law" if is_law else kind, label, inside, scope, variables, public)
    for found in re.finditer(r"(?m)(?:^ *(pub )?ghost (\w+)(:| =)|\} (by)) \{", text):
        name, is_member = found.group(2) or "by", found.group(3) == " ="
        public = (found.group(1) or is_member) and name not in UNSEEN and bool({"*", owner} & exported)
        variables = members if is_member else variables_in(text)
        yield Clause(crate, file, owner, "ghost", name, braced(text, found.end()), scope, variables, public)


def exported_names(text, module):
    """The names that a crate gives away, with * for all names of a public module."""
    lists = re.findall(r"(?m)^pub use \w+::(\{[^}]*\}|\w+);", text)
    open_modules = ["lib"] + re.findall(r"(?m)^pub mod (\w+);", text)
    return set(re.findall(r"\w+", " ".join(lists))) | ({"*"} if module in open_modules else set())


class Repository:
    """The definitions of specs/ and the clauses of src/, and what their names mean."""

    def __init__(self, root):
        self.root = root
        listed = [line.split(":") for line in read(root / "crates.txt").splitlines() if ":" in line]
        self.crates = [crate.split()[0] for crate, _ in listed]
        self.kit = {"std"}.union(*[names.split() for _, names in listed]) - set(self.crates)
        sources = [(crate, path, without(read(path), r"(?m)^\s*//.*\n?|\s+// [^\"\n]*$"))
                   for crate in self.crates for path in sorted((root / "crates" / crate / "src").rglob("*.rt"))]
        self.types = {}  # of the code, (crate, name): the modules that declare it
        for crate, path, text in sources:
            for name in re.findall(r"(?m)^%s(?:struct|enum) (\w+)" % PUB, text):
                self.types.setdefault((crate, name), []).append(path.stem)
        self.order = [(crate, room) for crate in self.crates for room in self.rooms_of(crate, "")]
        self.read_specs()
        self.clauses = [clause for crate, path, text in sources for clause in self.clauses_in(crate, path, text)]

    def path(self, crate, room):
        return self.root / "crates" / crate / "specs" / (room.replace(".", "/") + ".antt")

    def rooms_of(self, crate, room):
        """The files of specs/ in the order of Lib.antt, each before those of its folder."""
        for name in re.findall(r"(?m)^pub mod (\w+)", read(self.path(crate, room or "Lib"))):
            inner = room + "." + name if room else name
            yield from [inner] + list(self.rooms_of(crate, inner))

    def handed_on(self):
        """The modules that a crate hands on from a lower one, by a line of Lib.antt: where each of them stands."""
        line = r"(?m)^pub use (Rattle\.\S+?\.(\w+))(?: as (\w+))?$"
        return {(crate, alias or name): path.split(".") for crate in self.crates
                for path, name, alias in re.findall(line, read(self.path(crate, "Lib")))}

    def read_specs(self):
        self.handed = self.handed_on()
        self.definitions, self.names = {}, {key: {} for key in self.order}
        comments = r"(?m)^\s*--.*\n|^\s*\n|\s+-- [^\"\n]*$"
        texts = {key: without(read(self.path(*key)), comments) for key in self.order}
        for key, text in texts.items():
            for found in definitions_in(*key, text):
                target = Target("definition", *key, found.name)
                inner = re.findall(r"(?m)^  (%s) :" % NAME, "\n".join(found.lines)) if is_type(found) else []
                self.definitions[target] = found
                self.names[key].update({name: target for name in inner + [found.name]})
        self.scopes = {key: dict(imported(text, self.target), **self.names[key]) for key, text in texts.items()}

    def target(self, parts, name):
        """What a use line brings: the name, or without one all of the file."""
        if parts[0] != "Rattle":  # the library of the logic
            return Target("word", parts[0], "", name)
        while parts[2] == "specs" and (parts[1], parts[3]) in self.handed:
            parts = self.handed[parts[1], parts[3]] + parts[4:]
        crate, rest, room = parts[1], parts[2:], ".".join(parts[3:])
        if rest[0] == "proofs" or crate in self.kit or rest[-1] == "TheConstants":
            return Target("word", crate, "", name) if name else Target("words", crate, rest[-1], None)
        if rest[:2] == ["specs", "declared"]:
            *path, last = [part for part in rest[2:] if part != "TheVariants"]
            if (path or ["lib"])[-1] in self.types.get((crate, last), []):
                return Target("type" if name else "variants", crate, (path or ["lib"])[-1], last)
        if (crate, room) in self.names and (not name or name in self.names[crate, room]):
            return self.names[crate, room][name] if name else Target("room", crate, room, None)
        raise Problem("%s: no %s there" % (".".join(parts), name or "file"))

    def clauses_in(self, crate, path, text):
        exported = exported_names(read(self.root / "crates" / crate / "src" / "lib.rt"), path.stem)
        rest = without(text, BLOCK)
        shared = dict(self.code_types(crate, path.stem, text), **imported(rest, self.target))
        for header, inside in [("", rest)] + re.findall(BLOCK, text):
            scope = dict(shared, **imported(inside, self.target))
            yield from clauses_of(crate, path.name, header, inside, scope, exported)

    def code_types(self, crate, module, text):
        """The types and constants of the code that a file names: those of its use lines, and its own."""
        found = {}
        for path, items in re.findall(r"(?m)^(?:pub )?use (\w[\w:]*)::(\{[^}]*\}|\w+(?: as \w+)?);", text):
            for name, alias in re.findall(r"(\w+)(?: as (\w+))?", items):
                found[alias or name] = self.code_type(crate, path.split("::"), name)
        own = re.findall(r"(?m)^%s(?:struct|enum|const) (\w+)" % PUB, text)
        return dict({name: target for name, target in found.items() if target},
                    **{name: Target("type", crate, module, name) for name in own})

    def code_type(self, crate, path, name):
        """The type that a use line of the code brings, also from a crate that hands on what it has from another."""
        home = crate if path[0] == "crate" else path[0]
        if home not in self.crates:
            return Target("word", home, "", name)
        for key in [(home, name)] + [(other, name) for other in self.crates]:
            if key in self.types:
                modules = self.types[key]
                return Target("type", key[0], path[-1] if path[-1] in modules else modules[0], name)
        return None

    # ---- what a text names

    def named(self, text, scope, bound, where):
        """The targets that a text names. A name that can't be resolved is an error, unless `where` is empty."""
        for token in TOKEN.findall(without(text, r"(?<=[{;])\s*%s\s+=(?=\s)" % NAME)):
            head, *rest = token.split(".")
            if not head or head[0].isdigit() or head in bound or head in BUILT_IN:
                continue
            found = scope.get(head) or scope.get("◌%s◌" % head)
            if found and found.kind == "room":
                found = self.names[found.crate, found.path].get((rest + [""])[0])
            if found and found.kind == "words":
                yield Target("word", found.crate, "", ".".join([found.path] + rest))
            elif found:
                yield found._replace(kind="type") if found.kind == "variants" else found
            elif where:
                raise Problem("%s: can't resolve %s" % (where, token))

    def bound_in(self, text, scope):
        """The variables that a text binds: by λ, in (x : T), by let, and in the patterns of elim."""
        groups = [group for binder in BINDERS for group in re.findall(binder, text)]
        cases = [self.variables(pattern, scope) for pattern in re.findall(r"[\[|]([^\[|↦]*)↦", text)]
        return {name for group in groups for name in TOKEN.findall(group)}.union(*cases)

    def variables(self, pattern, scope):
        """The names in a pattern, without constructors."""
        names = {name for name in TOKEN.findall(pattern) if "." not in name} - CONSTRUCTORS
        found = {name: scope.get(name) or Target("word", "", "", name) for name in names}
        return {name for name in names if found[name].kind == "word" or found[name][0::3] == ("definition", name)}

    def named_by(self, definition):
        """What a definition names. Each part has its own variables; those of a type's head, and its fields, go on."""
        scope, kept = self.scopes[definition.crate, definition.room], {definition.name}
        is_lemma = definition.lines[0].startswith("pub ") and not is_type(definition)
        where = "" if is_lemma else "%s/specs/%s.antt, %s" % definition[:3]
        for part in parts_of(definition):
            own, text = re.match(HEAD_NAME + r"(.*)", part, re.S).groups()
            pattern = re.split(r"\s=\s", text)[0] if part.startswith(definition.name + " ") else ""
            bound = kept | self.variables(pattern, scope) | self.bound_in(text, scope)
            yield from self.named(text, scope, bound, where)
            kept |= bound if own == definition.name and is_type(definition) else {own}

    def stated(self, clauses, strict=True):
        """What clauses name."""
        for clause in clauses:
            where = "crates/%s/src/%s: %s, clause %s" % (clause[:3] + (clause.name,)) if strict else ""
            text = without(clause.text, STRING)
            yield from self.named(text, clause.scope, clause.variables | self.bound_in(text, clause.scope), where)

    def reach(self, clauses, strict=True):
        """All that clauses stand on: definitions, types of the code and words."""
        found, left = set(), list(self.stated(clauses, strict))
        while left:
            target = left.pop()
            if target not in found and target.kind == "definition":
                left.extend(self.named_by(self.definitions[target]))
            found.add(target)
        return found

    def check_inner(self):
        """The words of specs/Inner are for private contracts of their own crate."""
        public = self.reach([clause for clause in self.clauses if clause.public], False)
        for target in sorted(public, key=str):
            if target.kind == "definition" and target.path.startswith("Inner."):
                raise Problem("%s/specs: a public contract stands on %s" % (target.crate, target.name))
        scopes = [(crate, scope) for (crate, _), scope in self.scopes.items()]
        for crate, scope in scopes + [(clause.crate, clause.scope) for clause in self.clauses]:
            for target in scope.values():
                if target.kind in ("definition", "room") and target.path.startswith("Inner.") and target.crate != crate:
                    raise Problem("%s names %s, a word of private contracts of %s" % (crate, target.name, target.crate))

    def clauses_of_claim(self, line):
        """The clauses that a line of a claim lists, and what the call asks of its caller."""
        place, owner, *names = line.split()
        own = [clause for clause in self.clauses if "%s/%s" % clause[:2] == place and clause.owner == owner]
        for name in names:
            if not any(clause.name == name and (clause.kind != "requires" or is_leave(clause)) for clause in own):
                told = "without a name" if name == "-" else name
                raise Problem("crates/%s: %s has no clause %s" % (place.replace("/", "/src/"), owner, told))
        return [clause for clause in own if clause.name in names or clause.kind == "requires" and not is_leave(clause)]


def is_leave(clause):
    """Whether a clause says what an outlet allows to be written."""
    return clause.kind == "requires" and re.search(r"\b[aA]llows", clause.text)


# ---- the document

def link(crate, folder, file):
    return "[%s/%s](../crates/%s/%s/%s)" % (crate, file, crate, folder, file)


def spec_link(target):
    return link(target.crate, "specs", target.path.replace(".", "/") + ".antt")


def quoted(names):
    return ", ".join("`%s`" % name for name in names)


def clause_line(line):
    place, owner, *names = line.split()
    crate, file = place.split("/")
    told = "the clause" if names == ["-"] else quoted(names)
    return "- %s of `%s` in %s" % (told, owner, link(crate, "src", file))


def written(repository):
    """The document, and how many definitions and lines each claim stands on."""
    seen, counts, lines = set(), [], []
    for title, text, sources in CLAIMS:
        clauses = [clause for line in sources for clause in repository.clauses_of_claim(line)]
        lines += ["", "## %d. %s" % (len(counts) + 1, title), text, "", "Clauses:", ""]
        lines += [clause_line(line) for line in sources] + [""]
        lines += list_of(repository, repository.reach(clauses), seen, counts)
    laws = [clause for clause in repository.clauses if clause.kind == "law" and clause.public]
    lines += ["", "## %d. Laws" % (len(counts) + 1), LAWS, ""] + [law_line(repository, law) for law in laws] + [""]
    lines += list_of(repository, repository.reach(laws), seen, counts)
    return broken(HEAD + "\n".join(lines + rest_of(repository, seen)) + "\n"), counts


def broken(text):
    """A page with its paragraphs and the items of its lists broken at COLUMNS columns. Headings, comments and tables stay."""
    blocks = []
    for line in text.split("\n"):
        if line and blocks and blocks[-1] and not re.match(STAYS, blocks[-1]) and not re.match(STAYS + "|- ", line):
            blocks[-1] += " " + line.strip()
        else:
            blocks.append(line)
    return "\n".join(line for block in blocks for line in ([block] if re.match(STAYS, block) else wrapped(block)))


def wrapped(block):
    indent = "  " if block.startswith("- ") else ""
    return textwrap.wrap(block, COLUMNS, subsequent_indent=indent, break_long_words=False, break_on_hyphens=False) or [""]


def counted(repository, targets):
    own = [repository.definitions[target] for target in targets if target.kind == "definition"]
    return len(own), sum(not line.startswith("    ") for definition in own for line in definition.lines)


def list_of(repository, targets, seen, counts):
    """How many definitions these are, and those that are new, file by file."""
    new = targets - seen
    seen |= targets
    counts.append(counted(repository, targets))
    told = "%d definitions, %d lines" % counts[-1]
    lines = []
    for key in repository.order:
        own = [target for target in repository.definitions if target in new and target[1:3] == key]
        if own:
            file = str(repository.path(*key).relative_to(repository.root))
            names = quoted(target.name for target in own)
            lines.append("- [%s](../%s) (%d lines): %s" % (file, file, counted(repository, own)[1], names))
    words = [target for target in new if target.kind == "word" and "◌" not in target.name]
    for crate in sorted({word.crate for word in words}, key=lambda crate: (crate != "std", crate)):
        lines.append("- words of %s: %s" % (crate, quoted(sorted({word.name for word in words if word.crate == crate}))))
    files = {}
    for it in sorted((target for target in new if target.kind == "type"), key=str):
        files.setdefault(link(it.crate, "src", it.path + ".rt"), []).append(it.name)
    types = ["%s in %s" % (quoted(names), file) for file, names in files.items()]
    lines += ["- types of the code: " + ", ".join(types)] if types else []
    told += " (%d of them, %d lines, new)" % counted(repository, new) if counts[1:] else ""
    return [told + ":", ""] + lines if lines else [told + "."]


def law_line(repository, law):
    stated = [target for target in dict.fromkeys(repository.stated([law])) if target.kind == "definition"]
    rooms = ", ".join(dict.fromkeys(map(spec_link, stated)))
    return "- `%s` (%s): %s in %s" % (law.owner, link(law.crate, "src", law.file), quoted(t.name for t in stated), rooms)


def rest_of(repository, seen):
    """How many definitions serve other contracts, and which serve none."""
    given = repository.reach([clause for clause in repository.clauses if clause.public], False) | seen
    used = repository.reach(repository.clauses, False) | seen
    lines = []
    for crate in repository.crates:
        own = {target for target in repository.definitions if target.crate == crate}
        sizes = len(own & seen), len((own & given) - seen), len((own & used) - given), len(own - used)
        lines += ["| %s | %d | %d | %d | %d | %d | %d |" % ((crate,) + counted(repository, own) + sizes)] if own else []
    unused = ["- `%s` in %s" % (t.name, spec_link(t)) for t in repository.definitions if t not in used]
    return ["", "## What no claim stands on", REST] + lines + ([UNUSED] + unused if unused else [])


def check_readme(root, counts):
    """README.md has the numbers of the first three claims."""
    found = re.search(README_COUNTS, " ".join(read(root / "README.md").split()))
    told = tuple(map(int, found.groups())) if found else ()
    wanted = tuple(number for sizes in counts[:3] for number in sizes)
    if told != wanted:
        raise Problem("README.md: the first three claims stand on %s definitions and lines, and it says %s" % (wanted, told))


def difference(old, new):
    """The first line in which the document isn't what would be written."""
    pairs = zip(old + [""] * len(new), new + [""] * len(old))
    return next("line %d is %r and should be %r" % (number, *pair) for number, pair in enumerate(pairs, 1) if pair[0] != pair[1])


def run(options):
    path = options.root / "docs" / "DEFINITIONS.md"
    repository = Repository(options.root)
    repository.check_inner()
    text, counts = written(repository)
    if options.count:
        for number, sizes in enumerate(counts, 1):
            print("claim %d: %d definitions, %d lines" % ((number,) + sizes))
    elif not options.check:
        path.write_text(text, encoding="utf-8")
    elif read(path) != text:
        raise Problem("docs/DEFINITIONS.md: " + difference(read(path).split("\n"), text.split("\n")))
    else:
        check_readme(options.root, counts)


def main():
    parser = argparse.ArgumentParser(description=__doc__, formatter_class=argparse.RawDescriptionHelpFormatter)
    parser.add_argument("--check", action="store_true")
    parser.add_argument("--count", action="store_true")
    parser.add_argument("--root", type=Path, default=Path(__file__).resolve().parent.parent)
    try:
        run(parser.parse_args())
    except Problem as problem:
        sys.exit("definitions.py: %s" % problem)


if __name__ == "__main__":
    main()
