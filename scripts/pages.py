#!/usr/bin/env python3
"""Looks at the pages: all *.md of the repository but those below out/, bench/bin and bench/corpus; and at how wide the
crates' sources are.

    python3 scripts/pages.py [DIR ..]        prints each place that is against a claim; the status is 1 if there is one
    python3 scripts/pages.py --sentences     prints for each page how many of its sentences are long
    python3 scripts/pages.py --write         writes the last column of CONTRIBUTING's table of crates

DIR is a repository, by default the one of this script. The claims:

links      Each link in the repository leads to a file or a folder that is there. If it has an anchor, the page there
           has a heading of that name. Links to the net are not looked up.
archive    Each link in a page of the archive that scripts/package.sh makes leads to what the archive has, or the page
           says that some don't, by the sentence LEADS_OUT.
width      No line is wider than 100 columns. Left out are tables, whose rows can't be broken; blocks of code, which
           are commands and sources as they are; and a line of one word, as a long link.
sources    No line of the crates' .rt and .antt files is wider than 100 columns, in src/, specs/ or proofs/. Left out are
           an attribute and a `use` of one name, each of which `rt fmt` keeps in one line. Scripts have wider lines, and
           so has an edit below must-fail/, which repeats a line of a source.
meanings   A public word of specs/ has one meaning: no other room of specs/, of this crate or another, defines it, too. Left
           out are the rooms below Inner/, whose words no public contract names, and variants of `data`.
cells      No cell of a table has more than 15 words. A code span is one word, and a link counts by its text. In the last
           column of CONTRIBUTING's table of crates each name is a word.
examples   Each piece of code, up to a blank line, in a crate's README and in the parts README_PARTS of README stands
           line by line in a source. The paragraph above it links the .rt or .antt file, or several. If it stands in
           none, that paragraph begins with "A sketch".
crates     CONTRIBUTING's table of crates has the lines of crates.txt, in their order, and says of each crate what it
           stands on. What a crate is about is text of the page.
clauses    What a page calls a clause of a function is one: in `CLAUSE` of `FUNCTION`, also with several names before the
           "of", a function of this name in crates/*/src has clauses of all these names, `ensures` or `requires`. If it
           is a type or a definition, or a crate, the names are words of its file, or of its sources. Types that no crate
           defines are the kit's, and left out; so are blocks of code.
           In a crate's README, below an item that begins with a call, **`CALL`**, also several, each name before a colon
           is a clause of such a call, or a function of the crate. Of a type it is a clause of any call of the crate.
           On a page that says "Clauses without a function are those of `FUNCTION`", of several names in parentheses or
           in a cell all are clauses of that function if one is.
rooms      In an item of a crate's README the names in parentheses, in capitals as (Files, Formula of bundle_files), are
           rooms of specs/: of that crate, or of the crate that is named behind the room or a room after it.
tested     Each paragraph and item of a crate's README that says that something is only tested names what tests it: a crate
           of tests, a script, or the crate's own stdin.
names      Each code span that is one name stands as a word in a source: in crates/, scripts/, bench/ or examples/. A name
           is a word with a `_`, one whose capitals are as in FormulaText, or one behind `::`. One from elsewhere stands
           without a code span. Left out is CHANGELOG, which also says what is gone.
paths      Each path below scripts/, tests/, crates/, bench/, docs/ or examples/ that a page names outside of a block of
           code is there; for a row of tests/rows its name is enough. A path of an .rt or .antt file below src/, specs/
           or proofs/ is there in some crate. Left out are paths with a name in capitals, as NAME, those of what is built
           (LEFT_OUT), and those with a wildcard.

A sentence is long if it has more than 40 words. A code span is one word. Each paragraph, item of a list and cell of a
table ends its last sentence. The share is printed, and no status follows from it.
"""
import argparse
import itertools
import os
import re
import sys
from collections import namedtuple
from functools import lru_cache
from pathlib import Path

import tables

COLUMNS = 100
WORDS = 40
WORDS_OF_CELL = 15
LEFT_OUT = {"out", "bench/bin", "bench/corpus"}
LEADS_OUT = "A link that is dead in the archive of the programs leads to a file of the repository."
SKETCH = "A sketch"
# The parts of README whose blocks are no commands.
README_PARTS = {"What a report means", "As a library"}
HEADS = ("Crate", "What it is about", "Stands on")
UNSAID = "(say what it is about)"

# Names in code spans, one after the other, and what they are said to be of.
NAME = r"`[A-Za-z_]\w*`"
OF = re.compile(rf"({NAME}(?:,? (?:and )?{NAME})*) of `((?:\w+::)?[A-Za-z_]\w*)`(?!')")
FUNCTION = re.compile(r"^\s*(?:pub(?:\(\w+\))? )?(?:const )?fn (\w+)")
CLAUSE = re.compile(r"^\s*(?:ensures|requires) (\w+) \{")
# What a page says of clauses without a function, and names in parentheses that may be such.
DEFAULT = re.compile(r"Clauses without a function are those of `(\w+)`")
BARE = re.compile(rf"(?:\((?:clauses )?|\| )((?:{NAME}, )+{NAME})(?:[;)]| \|)")
# An item of a crate's README that begins with calls, and names before a colon, with rooms in parentheses behind them.
CALLS = re.compile(r"- ((?:\*\*`[^`]+`\*\*(?:,? (?:and )?)?)+)")
TOLD = re.compile(rf"(?:^|[.:] |\) )((?:{NAME}(?:, | and )?)+)(?: \([^)]*\))?(?:, [^:.]{{0,20}})?:")
DEFINED = re.compile(r"^\s*(?:pub(?:\(\w+\))? )?(?:abbrev |record |data |struct |enum |trait |type |union )(?:pub )?(\w+)", re.M)
# Rooms in parentheses, and one of them.
ROOMS = re.compile(r"\(([A-Z][A-Za-z]*(?: of \w+)?(?:(?:, | and )[A-Z][A-Za-z]*(?: of \w+)?)*)\)")
ROOM = re.compile(r"([A-Z]\w*)(?: of (\w+))?")
# What is only tested, and what tests.
ONLY_TESTED = re.compile(r"\b[Oo]nly tested\b")
TESTS = re.compile(r"crates/\w*suite\b|scripts/\w+\.sh|\bstdin\b")
# A code span that is one name, if it is of several words.
SPAN = re.compile(r"`((?:\w+::)?[A-Za-z][\w-]*)`")
OF_WORDS = re.compile(r"_|::|^[A-Z][a-z]+[A-Z]")
# The crates' sources, and what `rt fmt` keeps in one line, however wide it is.
OF_CRATES = ("crates/*/src/**/*.rt", "crates/*/specs/**/*.antt", "crates/*/proofs/**/*.antt")
IN_ONE = re.compile(r"\s*(?:#!?\[.*\]|(?:ghost |pub )*use [^\s,]+)")
# A public word of specs/.
PUBLIC = re.compile(r"(?:abbrev |unfoldable )?pub (?!mod |use )(?:data |record )?([\w?'-]+)")
# Where names stand.
SOURCES = (*OF_CRATES, "scripts/*", "bench/**/*.py", "bench/**/*.sh", "bench/**/*.rs", "examples/**/*")
# Paths of the repository, and those in a crate.
PATH = re.compile(r"(?<![\w./*-])(?:scripts|tests|crates|bench|docs|examples)/[\w./*-]*[\w/*]|(?<![\w./*-])((?:src|specs|proofs)/[\w/*-]+\.(?:rt|antt))")
PLACEHOLDER = re.compile(r"\*|[A-Z]{2,}(?!\w*\.md)")

LINK = re.compile(r"!?\[(?:[^\[\]]|\[[^\]]*\])*\]\(([^()\s]+)\)")
ITEM = re.compile(r"^\s*(?:[-*]|\d+\.) ")
# A full stop and its like, with what closes behind it; two dots in a row are none.
END = re.compile(r"(?<=[^.\s][.!?])[\"')*_]*\s+")

# A part of a page: what it is (code, table, heading, text or comment), the number of its first line, and its lines. Code
# has a part up to each blank line.
Part = namedtuple("Part", "kind first lines")


@lru_cache(maxsize=None)
def pages(root):
    """The paths of all pages, from the root on."""
    found = []
    for folder, inner, names in os.walk(root):
        at = Path(folder).relative_to(root)
        inner[:] = [name for name in inner if not name.startswith(".") and name not in LEFT_OUT and str(at / name) not in LEFT_OUT]
        found += [str(at / name) for name in names if name.endswith(".md")]
    return sorted(found)


def kind_of(line, before, is_fenced):
    """What a line is, by the kind of the line before it, which is empty behind a blank line."""
    if is_fenced or line.startswith("```") or line.startswith("    ") and before in ("", "code"):
        return "code"
    if line.startswith("|"):
        return "table"
    if line.startswith("#"):
        return "heading"
    if line.startswith("<!--"):
        return "comment"
    return "text"


@lru_cache(maxsize=None)
def parts(root, page):
    """The parts of a page. A paragraph is one, and so are an item of a list, a heading and a row of a table."""
    found, before, is_fenced = [], "", False
    for number, line in enumerate((root / page).read_text(encoding="utf-8").split("\n"), 1):
        if not line.strip() and not is_fenced:
            before = ""
            continue
        kind = kind_of(line, before, is_fenced)
        is_fenced ^= line.startswith("```")
        if kind == before == "code" or kind == before == "text" and not ITEM.match(line):
            found[-1].lines.append(line)
        else:
            found.append(Part(kind, number, [line]))
        before = kind
    return found


def without_code(text):
    """A text whose code spans are one word each."""
    return re.sub(r"(`+)(?!`).*?(?<!`)\1(?!`)", "CODE", text)


def plain(part):
    """The text of a part, in which a code span is one word, and a link is its text."""
    return LINK.sub(lambda link: link[0].lstrip("![").split("](")[0], without_code(" ".join(part.lines)))


def links(root, page):
    """The links of a page, each with the number of the first line of its part."""
    for part in parts(root, page):
        if part.kind != "code":
            for target in LINK.findall(without_code(" ".join(part.lines))):
                if not re.match(r"[a-z]+:", target):
                    yield part.first, target


@lru_cache(maxsize=None)
def anchors(root, page):
    """The anchors of a page's headings, as the readers of Markdown make them."""
    found, counts = set(), {}
    for part in parts(root, page):
        if part.kind == "heading":
            name = LINK.sub(lambda link: link[0].split("]")[0], part.lines[0].lstrip("#").strip())
            name = re.sub(r"[^\w\- ]", "", name.lower()).replace(" ", "-")
            counts[name] = counts.get(name, -1) + 1
            found.add(f"{name}-{counts[name]}" if counts[name] else name)
    return found


def place_of(root, page, target):
    """The path that a link leads to, from the root on, or above it, and its anchor."""
    path, _, anchor = target.partition("#")
    return os.path.normpath(Path(page).parent / path if path else page), anchor


def against_links(root):
    for page in pages(root):
        for number, target in links(root, page):
            path, anchor = place_of(root, page, target)
            if path.startswith("..") or not (root / path).exists():
                yield page, number, f"the link {target} leads nowhere"
            elif anchor and anchor not in anchors(root, path):
                yield page, number, f"{path} has no heading for the link {target}"


def archived(root):
    """What the archive has: files, and folders with all that is in them."""
    found = re.search(r'(?m)^packed="([^"]*)"$', (root / "scripts/package.sh").read_text(encoding="utf-8"))
    return found[1].split() if found else ["the line packed="]


def is_below(path, packed):
    """Whether a path is one of these, or lies in one of them."""
    return any(path == it or path.startswith(it + "/") for it in packed)


def against_archive(root):
    packed = archived(root)
    yield from (("scripts/package.sh", 1, f"there is no {it}") for it in packed if not (root / it).exists())
    for page in [page for page in pages(root) if is_below(page, packed)]:
        out = [(number, target) for number, target in links(root, page) if not is_below(place_of(root, page, target)[0], packed)]
        texts = [" ".join(map(str.strip, part.lines)) for part in parts(root, page)]
        if not any(LEADS_OUT in text for text in texts):
            yield from ((page, number, f"the archive lacks {target}, and the page doesn't say so") for number, target in out)


def against_width(root):
    for page in pages(root):
        for part in parts(root, page):
            for number, line in enumerate(part.lines, part.first):
                words = ITEM.sub("", line, count=1).split()
                if part.kind not in ("code", "table") and len(line) > COLUMNS and len(words) > 1:
                    yield page, number, f"{len(line)} columns"


def against_sources(root):
    for path in itertools.chain(*(root.glob(ways) for ways in OF_CRATES)):
        for number, line in enumerate(path.read_text(encoding="utf-8").split("\n"), 1):
            if len(line) > COLUMNS and not IN_ONE.fullmatch(line):
                yield str(path.relative_to(root)), number, f"{len(line)} columns"


def against_meanings(root):
    found = {}
    for path in sorted(root.glob("crates/*/specs/*.antt")):
        for number, line in enumerate(path.read_text(encoding="utf-8").split("\n"), 1):
            if word := PUBLIC.match(line):
                found.setdefault(word[1], []).append((str(path.relative_to(root)), number))
    for word, places in found.items():
        yield from ((path, number, f"{word} is defined in {places[0][0]}, too") for path, number in places[1:])


def cells(part):
    """The cells of a row of a table."""
    return plain(part).strip().strip("|").split("|")


def against_cells(root):
    for page in pages(root):
        for part in parts(root, page):
            if part.kind == "table":
                counts = [len(cell.split()) for cell in cells(part)]
                yield from ((page, part.first, f"a cell of {count} words") for count in counts if count > WORDS_OF_CELL)


def stands_in(lines, source):
    """Whether lines stand in a source one behind the other, all of them moved by one number of columns."""
    least = min(len(line) - len(line.lstrip()) for line in lines)
    wanted = [line[least:].rstrip() for line in lines]
    for start, line in enumerate(source):
        if line.lstrip() == wanted[0].lstrip():
            depth = len(line) - len(line.lstrip()) - (len(wanted[0]) - len(wanted[0].lstrip()))
            moved = [" " * depth + it if it else it for it in wanted]
            if depth >= 0 and source[start:start + len(moved)] == moved:
                return True
    return False


def introduced(found):
    """Each piece of code of a page with the text of the paragraph above it, and the heading above both."""
    told = heading = ""
    for part in found:
        if part.kind == "code":
            yield part, told, heading
        else:
            told = " ".join(map(str.strip, part.lines))
            heading = told.lstrip("# ") if part.kind == "heading" else heading


def against_examples(root):
    for page in pages(root):
        of_crate = re.fullmatch(r"crates/\w+/README\.md", page)
        for piece, told, heading in introduced(parts(root, page)):
            if of_crate or page == "README.md" and heading in README_PARTS:
                yield from against_piece(root, page, piece, told)


def against_piece(root, page, piece, told):
    paths = [place_of(root, page, target)[0] for target in LINK.findall(told) if target.endswith((".rt", ".antt"))]
    if not paths and not told.startswith(SKETCH):
        yield page, piece.first, "the paragraph above the example links no source, and doesn't begin with " + SKETCH
    sources = [(root / path).read_text(encoding="utf-8").split("\n") for path in paths if (root / path).exists()]
    if paths and not any(stands_in(piece.lines, source) for source in sources):
        yield page, piece.first, f"{piece.lines[0].strip()} .. doesn't stand in {', '.join(paths)}"


def table_of_crates(root):
    """CONTRIBUTING's lines, and where its table of crates has its rows."""
    lines = (root / "CONTRIBUTING.md").read_text(encoding="utf-8").split("\n")
    first = lines.index(tables.row(*HEADS)) + 2
    last = first
    while lines[last].startswith("|"):
        last += 1
    return lines, first, last


def rows_of_crates(root):
    """The rows that the table has, by its own text of each crate and by crates.txt."""
    lines, first, last = table_of_crates(root)
    about = {cells[0].strip(): cells[1].strip() for cells in (line.strip("|").split("|") for line in lines[first:last])}
    rows = [(name, about.get(name, UNSAID), ", ".join(lower)) for name, lower in tables.crate_lines(root).items()]
    return [tables.row(*cells).replace("|  |", "| |") for cells in rows]


def against_crates(root):
    lines, first, last = table_of_crates(root)
    for place, (row, wanted) in enumerate(itertools.zip_longest(lines[first:last], rows_of_crates(root), fillvalue="no row")):
        if row != wanted or UNSAID in row:
            yield "CONTRIBUTING.md", first + place + 1, f"{row} has to be {wanted}"


def write_crates(root):
    lines, first, last = table_of_crates(root)
    lines[first:last] = rows_of_crates(root)
    (root / "CONTRIBUTING.md").write_text("\n".join(lines), encoding="utf-8")


@lru_cache(maxsize=None)
def functions(root, crate="crates/*"):
    """The clauses of all functions, or of a crate's: for each name a list with a set of names for each of these."""
    found = {}
    for path in sorted(root.glob(f"{crate}/src/**/*.rt")):
        clauses = set()
        for line in path.read_text(encoding="utf-8").split("\n"):
            if name := FUNCTION.match(line):
                clauses = set()
                found.setdefault(name[1], []).append(clauses)
            elif name := CLAUSE.match(line):
                clauses.add(name[1])
    return found


@lru_cache(maxsize=None)
def words_of(root):
    """For each type and each definition the words of the files that define it, and for each crate those of its sources."""
    found = {}
    for path in sorted([*root.glob("crates/*/src/**/*.rt"), *root.glob("crates/*/specs/**/*.antt")]):
        text = path.read_text(encoding="utf-8")
        words = set(re.findall(r"\w+", text))
        for name in {*DEFINED.findall(text), path.relative_to(root).parts[1]}:
            found.setdefault(name, set()).update(words)
    return found


def against_bare(root):
    for page in pages(root):
        texts = [(part.first, " ".join(map(str.strip, part.lines))) for part in parts(root, page) if part.kind != "code"]
        told = [name for _, text in texts for name in DEFAULT.findall(text)]
        for clauses in functions(root).get(told[0], []) if told else []:
            for first, names in ((first, set(re.findall(r"\w+", it))) for first, text in texts for it in BARE.findall(text)):
                if names & clauses and not names <= clauses:
                    yield page, first, f"{told[0]} has no clause {', '.join(sorted(names - clauses))}"


def against_clauses(root):
    yield from against_calls(root)
    yield from against_bare(root)
    for page in pages(root):
        for part in parts(root, page):
            if part.kind != "code":
                for names, of in OF.findall(" ".join(map(str.strip, part.lines))):
                    name = of.split("::")[-1]
                    wanted = set(re.findall(r"\w+", names)) - {"and"}
                    if name in functions(root):
                        if not any(wanted <= clauses for clauses in functions(root)[name]):
                            yield page, part.first, f"no function {of} has the clauses {', '.join(sorted(wanted))}"
                    elif not wanted <= words_of(root).get(name, wanted if name[0].isupper() else set()):
                        yield page, part.first, f"there is no {', '.join(sorted(wanted))} of {of}"


def against_calls(root):
    for page in pages(root):
        if crate := re.fullmatch(r"(crates/\w+)/README\.md", page):
            yield from ((page, *it) for it in against_calls_of(root, crate[1], parts(root, page)))


def against_calls_of(root, crate, found):
    """What is against the names that a crate's README has for clauses: the line and the text."""
    here = functions(root, crate)
    calls = []
    for part in found:
        text = " ".join(map(str.strip, part.lines))
        if head := CALLS.match(text):
            calls = [name.split("::")[-1] for name in re.findall(r"`([^`]+)`", head[1])]
            text = text[head.end():]
        elif part.kind != "text" or not part.lines[0].startswith("  "):
            calls = []
        text = text.removeprefix("- ")
        # (of a trait these are the clauses of its calls, wherever in the crate)
        known = set(here).union(*(clauses for name in calls for clauses in here.get(name, itertools.chain(*here.values()))))
        for names in TOLD.findall(text) if calls else []:
            for name in re.findall(r"`(\w+)`", names):
                if name not in known:
                    yield part.first, f"{name} is no clause of {', '.join(calls)}"


def against_rooms(root):
    for page in pages(root):
        crate = re.fullmatch(r"crates/(\w+)/README\.md", page)
        for part in parts(root, page) if crate else []:
            text = " ".join(map(str.strip, part.lines))
            for told in ROOMS.findall(text) if part.kind == "text" and text.startswith("- ") else []:
                rooms = ROOM.findall(told)
                for place, (room, _) in enumerate(rooms):
                    of = next((name for _, name in rooms[place:] if name), crate[1])
                    if not any([*root.glob(f"crates/{name}/specs/{room}.antt")] for name in (of, crate[1])):
                        yield page, part.first, f"{room} is no room of {of}"


def against_tested(root):
    for page in pages(root):
        for part in parts(root, page) if re.fullmatch(r"crates/\w+/README\.md", page) else []:
            text = " ".join(map(str.strip, part.lines))
            if part.kind != "code" and ONLY_TESTED.search(text) and not TESTS.search(text):
                yield page, part.first, "what is only tested, and by what it is"


@lru_cache(maxsize=None)
def names_of(root):
    """All words of the sources."""
    found = set()
    for path in itertools.chain(*(root.glob(ways) for ways in SOURCES)):
        if path.is_file() and path.suffix in ("", ".rt", ".antt", ".py", ".sh", ".rs", ".awk", ".c"):
            text = path.read_text(encoding="utf-8")
            found.update(re.findall(r"\w+", text), re.findall(r"\w[\w-]+", text))
    return found


def against_names(root):
    for page in pages(root):
        for part in parts(root, page) if page != "CHANGELOG.md" else []:
            for name in SPAN.findall(" ".join(part.lines)) if part.kind != "code" else []:
                if OF_WORDS.search(name) and name.split("::")[-1] not in names_of(root):
                    yield page, part.first, f"no source has the name {name}"


def against_paths(root):
    for page in pages(root):
        for part in parts(root, page):
            if part.kind != "code":
                # (a link leads from its page on: the claim on links looks at it)
                text = LINK.sub(lambda link: link[0].split("](")[0], " ".join(map(str.strip, part.lines)))
                for found in PATH.finditer(text):
                    path = found[0].rstrip("/")
                    if PLACEHOLDER.search(path) or set(path.split("/")) & LEFT_OUT or is_below(path, LEFT_OUT):
                        continue
                    ways = [f"crates/*/{path}"] if found[1] else [path, f"{path}.in"]
                    if not any(any(root.glob(way)) for way in ways):
                        yield page, part.first, f"there is no {path}"


def sentences(part):
    """The sentences of a part of a page."""
    for cell in cells(part) if part.kind == "table" else [ITEM.sub("", plain(part), count=1)]:
        yield from (it for it in END.split(cell.strip()) if re.search(r"\w", it))


def tell_sentences(root):
    """Prints for each page how many of its sentences are long, in prose and in cells of tables."""
    print(f"pages: sentences of more than {WORDS} words, in prose and in tables:")
    for page in pages(root):
        told = []
        for kind in ("text", "table"):
            counts = [len(it.split()) for part in parts(root, page) if part.kind == kind for it in sentences(part)]
            long = sum(count > WORDS for count in counts)
            told.append(f"{long} of {len(counts)} ({100 * long / max(len(counts), 1):.0f} %)")
        print(f"pages: {page}: {', '.join(told)}")


CLAIMS = {
    "links": against_links,
    "archive": against_archive,
    "width": against_width,
    "sources": against_sources,
    "meanings": against_meanings,
    "cells": against_cells,
    "examples": against_examples,
    "crates": against_crates,
    "clauses": against_clauses,
    "rooms": against_rooms,
    "tested": against_tested,
    "names": against_names,
    "paths": against_paths,
}


def look(root):
    """Prints what is against each claim; whether nothing is."""
    told = [f"{claim}: {root / page}:{number}: {text}" for claim, against in CLAIMS.items() for page, number, text in sorted(set(against(root)))]
    print(*told, sep="\n", end="\n" if told else "")
    return not told


def main():
    parser = argparse.ArgumentParser(description=__doc__, formatter_class=argparse.RawDescriptionHelpFormatter)
    does = parser.add_mutually_exclusive_group()
    does.add_argument("--sentences", dest="does", action="store_const", const=tell_sentences, default=look)
    does.add_argument("--write", dest="does", action="store_const", const=write_crates)
    parser.add_argument("roots", metavar="DIR", nargs="*", type=Path, default=[Path(os.path.relpath(tables.ROOT))])
    options = parser.parse_args()
    return 0 if all([options.does(root) in (True, None) for root in options.roots]) else 1


if __name__ == "__main__":
    sys.exit(main())
