#!/usr/bin/env python3
"""Writes the bundles that are made to be slow, and harmless ones to compare: hostile.py FOLDER [KIND]... Equal words give equal bytes."""
import itertools
import os
import random
import sys
from collections.abc import Callable, Iterable, Iterator, Sequence

Lines = Iterator[str]

# Each formula begins with these four clauses, which refute themselves.
CORE = ["1 2 0", "1 -2 0", "-1 2 0", "-1 -2 0"]
WHOLE = ["a 0", "l 1"]
# What the kit's hash maps and sets hash by, and how many entries a group of theirs has on average when they grow.
HASH_SEED, HASH_FACTOR, GROUP_LOAD = 0x243F6A8885A308D3, 0x9E3779B97F4A7C15, 9
FARTHEST_VARIABLE = 268_435_455
NEAR_VARIABLE = 32_767


def text_of(numbers: Iterable[int]) -> str:
    return " ".join(map(str, numbers))


def refutation(first: int) -> list[str]:
    """The end of each proof, by the core."""
    return [f"{first} 1 0 1 2 0", f"{first + 1} 0 {first} 3 4 0"]


def lemmas(ids: Sequence[int], window: int) -> Lines:
    """Additions whose hints name those before them, as far back as the window."""
    r = random.Random(5)
    for place, own in enumerate(ids):
        hints = [ids[r.randrange(max(0, place - window), place)] for _ in range(8)] if place else []
        yield f"{own} 1 3 4 5 6 7 8 {9 + place % 1000} 0 {text_of(hints)} 1 2 0"


def look_ups(ids: Sequence[int], window: int) -> Lines:
    """A leaf with many live clauses of its own, whose hints name them. The last id stays for the end."""
    return itertools.chain(CORE, WHOLE, lemmas(ids[:-1], window), refutation(ids[-1]))


def harmless(size: int) -> Lines:
    """An ordinary proof: reverse unit propagation, ids side by side, hints that name clauses from not long before."""
    return look_ups(range(5, 75_000 * size), 4096)


def harmless_formula(size: int) -> Lines:
    """An ordinary formula: many clauses of three literals over few variables."""
    r = random.Random(6)
    yield from CORE
    for _ in range(375_000 * size):
        yield f"{r.randint(3, 999)} {-r.randint(3, 999)} {r.randint(3, 999)} 0"
    yield from WHOLE + refutation(5 + 375_000 * size)


def strided_ids(size: int) -> Lines:
    """Ids 997 apart."""
    return look_ups(range(5, 5 + 997 * 50_000 * size, 997), 1 << 30)


def far_ids(size: int) -> Lines:
    """Ids anywhere up to 2^62."""
    return look_ups(random.Random(7).sample(range(5, 1 << 62), 40_000 * size), 1 << 30)


def colliding_ids(size: int) -> Lines:
    """Ids that agree in their low bits: multiples of 2^32, and in turn with them multiples of 2^20."""
    pairs = ((k << 32, (1 << 61) + (k << 20)) for k in range(1, 25_000 * size))
    return look_ups(list(itertools.chain.from_iterable(pairs)), 1 << 30)


def one_deletion(size: int) -> Lines:
    """One deletion that names all the clauses that were added."""
    ids = range(5, 5 + 400_000 * size)
    yield from CORE + WHOLE
    for own in ids:
        yield f"{own} 1 {3 + own % 1000} 0 1 2 0"
    yield f"0 d {text_of(ids)} 0"
    yield from refutation(ids.stop)


def many_groups(size: int) -> Lines:
    """Eight RAT steps, each with a group for each of thousands of candidates."""
    candidates = range(5, 5 + 60_000 * size)
    yield from CORE
    for candidate in candidates:
        yield f"-3 1 {4 + candidate % 1000} 0"
    yield from WHOLE
    groups = " ".join(f"-{candidate} 1 2" for candidate in candidates)
    for own in range(candidates.stop, candidates.stop + 8):
        yield f"{own} 3 0 {groups} 0"
    yield from refutation(candidates.stop + 8)


def many_candidates(size: int) -> Lines:
    """Short RAT steps, each with all of the formula as candidates; all of them hold a true literal, so no group is needed."""
    count = 2048 * size
    yield from CORE + [f"-3 4 {5 + k % 1000} 0" for k in range(count)] + WHOLE
    for own in range(5 + count, 5 + 2 * count):
        yield f"{own} 3 -4 0 0"
    yield from refutation(5 + 2 * count)


def many_tautologies(size: int) -> Lines:
    """Short RAT steps, each with all of the formula as candidates; all of them are tautologies, so no group is needed."""
    count = 1024 * size
    yield from CORE + ["-3 4 -4 5 6 7 8 9 10 0"] * count + WHOLE
    for own in range(5 + count, 5 + 2 * count):
        yield f"{own} 3 11 0 0"
    yield from refutation(5 + 2 * count)


def far_variables(size: int) -> Lines:
    """A formula of three literals a clause over variables up to 268,000,000."""
    r = random.Random(8)
    yield from CORE
    for _ in range(250_000 * size):
        yield f"{r.randint(3, 268_000_000)} {-r.randint(3, 268_000_000)} {r.randint(3, 268_000_000)} 0"
    yield from WHOLE + refutation(5 + 250_000 * size)


def cubes(depth: int) -> Lines:
    """All cubes of so many variables, from the third one on."""
    for signs in itertools.product((1, -1), repeat=depth):
        yield "a " + text_of(sign * v for v, sign in enumerate(signs, 3)) + " 0"


def empty_sections(size: int) -> Lines:
    """All cubes of 17 to 19 variables, each with an empty section."""
    depth = 16 + size.bit_length()
    yield from CORE
    yield from cubes(depth)
    for number in range(1, 2**depth + 1):
        yield f"l {number}"


def deep_tree(size: int) -> Lines:
    """A tree in which one branch of each node is a leaf, 1,024 to 4,096 deep."""
    depth = 1024 * size
    yield from CORE
    before = "a"
    for v in range(3, 3 + depth):
        yield f"{before} {v} 0"
        before += f" -{v}"
    yield f"{before} 0"
    for number in range(1, depth + 2):
        yield f"l {number}"
        yield from refutation(5 + depth)


def missing_leaves(size: int) -> Lines:
    """One cube of 1,024 to 4,096 literals, and a small proof for each branch that has no cube, whose path is as long."""
    depth = 1024 * size
    yield from CORE + [f"a {text_of(range(3, 3 + depth))} 0"]
    for name in ["1", *(f"m{number}" for number in range(1, depth + 1))]:
        yield f"l {name}"
        yield from refutation(5 + depth)


def equal_cubes(size: int) -> Lines:
    """As many equal cubes as each has literals."""
    count = 1024 * size
    cube = f"a {text_of(range(3, 3 + count))} 0"
    return itertools.chain(CORE, itertools.repeat(cube, count))


def late_clash(size: int) -> Lines:
    """All cubes of 15 to 17 variables, and a last one that the first one begins; the answer is one line, F9."""
    depth = 14 + size.bit_length()
    return itertools.chain(CORE, cubes(depth), [f"a {text_of(range(3, 4 + depth))} 0"])


def long_clause(size: int) -> Lines:
    """One clause of very many literals, which four steps falsify by a unit for each of them."""
    count = 150_000 * size
    yield from CORE + [text_of(range(3, 3 + count)) + " 0"]
    for v in range(3, 3 + count):
        yield f"-{v} 0"
    yield from WHOLE
    hints = text_of([*range(6, 6 + count), 5])
    for own in range(6 + count, 10 + count):
        yield f"{own} {own} 0 {hints} 0"
    yield from refutation(10 + count)


def repeated_hint(size: int) -> Lines:
    """A step that holds all literals of a long clause but one, and names the clause in as many hints."""
    lits = range(3, 3 + 8000 * size)
    yield from CORE + [text_of(lits) + " 0"] + WHOLE
    yield f"6 1 {text_of(lits[1:])} 0{' 5' * len(lits)} 1 2 0"
    yield from refutation(7)


def repeated_literal(size: int) -> Lines:
    """A clause that repeats one literal, and a step that names it in as many hints."""
    count = 4096 * size
    yield from CORE + ["3 " * count + "0"] + WHOLE
    yield f"6 1 0{' 5' * count} 1 2 0"
    yield from refutation(7)


def repeated_candidate(size: int) -> Lines:
    """A clause that repeats the negation of the pivot of four RAT steps, and holds a true literal behind that."""
    yield from CORE + ["-3 " * 4096 * size + "4 0"] + WHOLE
    for own in range(6, 10):
        yield f"{own} 3 -4 0 0"
    yield from refutation(10)


def skipped_group(size: int) -> Lines:
    """A RAT step that has as many groups for one long clause, which is no candidate, as that has literals."""
    lits = range(4, 4 + 8000 * size)
    step = "6 3 0" + " -5" * len(lits) + " 0"
    return itertools.chain(CORE, [text_of(lits) + " 0"], WHOLE, [step], refutation(7))


def stale_index(size: int) -> Lines:
    """Many clauses come and go; then RAT steps are added and deleted one by one, so that an index has ever less to name."""
    gone = range(5, 5 + 8192 * size)
    yield from CORE + WHOLE
    for own in gone:
        yield f"{own} 1 3 0 1 2 0"
    yield f"0 d {text_of(gone)} 0"
    for own in gone:
        yield f"{own} 3 0 0\n0 d {own} 0"
    yield from refutation(gone.stop)


def kit_hash(key: int, length: int) -> int:
    """The hash of a key of 4 or 8 bytes in the kit's hash maps."""
    product = (HASH_SEED ^ (key if length == 8 else key << 32 | key)) * (HASH_FACTOR ^ 2 * length)
    folded = (product ^ product >> 64) & 0xFFFF_FFFF_FFFF_FFFF
    return (folded ^ folded >> 32) & 0xFFFF_FFFF


def close_together(keys: Iterable[int], length: int, count: int) -> list[int]:
    """So many of the keys that the kit puts into the first sixteenth of its groups."""
    groups = 1 << ((count - 1) // GROUP_LOAD).bit_length()
    return list(itertools.islice((key for key in keys if kit_hash(key, length) % groups < groups // 16), count))


def colliding_groups(size: int) -> Lines:
    """A RAT step with groups for very many ids whose hashes are close together."""
    ids = close_together(range(1 << 32, 1 << 62), 8, 2**14 * size)
    return itertools.chain(CORE, WHOLE, [f"5 3 0 -{' -'.join(map(str, ids))} 0"], refutation(6))


def colliding_variables(size: int) -> Lines:
    """A formula of three literals a clause over variables whose literals' hashes are close together."""
    numbers = close_together(range(2 * NEAR_VARIABLE + 2, 2 * FARTHEST_VARIABLE, 2), 4, 3 * 2**12 * size)
    clauses = [f"{a // 2} {b // 2} {c // 2} 0" for a, b, c in zip(*[iter(numbers)] * 3)]
    return itertools.chain(CORE, clauses, WHOLE, refutation(5 + len(clauses)))


def leaves_with(depth: int, own: int, step: str) -> Lines:
    """All cubes of so many variables, each with a proof that begins with one step; then ids from this one on are free."""
    yield from cubes(depth)
    for number in range(1, 2**depth + 1):
        yield f"l {number}\n{step}"
        yield from refutation(own)


def leaf_deletions(size: int) -> Lines:
    """A formula of very many clauses, and many leaves that delete one of them each."""
    count = 2**19 * size
    depth = 11 + size.bit_length()
    yield from CORE
    yield from itertools.repeat("3 0", count)
    yield from leaves_with(depth, 5 + count + depth, "0 d 5 0")


def leaf_variables(size: int) -> Lines:
    """Many leaves, each of which sets the greatest variable that there is."""
    depth = 6 + size.bit_length()
    step = f"{5 + depth} {FARTHEST_VARIABLE} -{FARTHEST_VARIABLE} 0 0"
    return itertools.chain(CORE, leaves_with(depth, 6 + depth, step))


def leaf_index(size: int) -> Lines:
    """Many leaves with a RAT step each, whose variable is the last of those that have rows in a list."""
    depth = 8 + size.bit_length()
    return itertools.chain(CORE, leaves_with(depth, 6 + depth, f"{5 + depth} {NEAR_VARIABLE} 0 0"))


def far_pages(size: int) -> Lines:
    """A step whose literals are 512 variables apart, so that each of them takes a page of stamps."""
    spread = text_of(range(512, 512 * 2**17 * size, 512))
    return itertools.chain(CORE, WHOLE, [f"5 -512 {spread} 0 0"], refutation(6))


KINDS: list[Callable[[int], Lines]] = [
    harmless, harmless_formula,
    strided_ids, far_ids, colliding_ids, colliding_groups, one_deletion,
    many_groups, many_candidates, many_tautologies, repeated_candidate, skipped_group, stale_index,
    long_clause, repeated_hint, repeated_literal,
    far_variables, far_pages, colliding_variables,
    leaf_variables, leaf_index, leaf_deletions,
    empty_sections, deep_tree, missing_leaves, equal_cubes, late_clash,
]  # fmt: skip


def write(name: str, lines: Iterable[str]) -> None:
    """Writes a bundle, unless it is there."""
    if os.path.exists(name):
        return
    with open(name + ".new", "w", buffering=1 << 20) as out:
        out.write("p inccnf\n")
        out.writelines(line + "\n" for line in lines)
    os.rename(name + ".new", name)


def main() -> None:
    folder, *words = sys.argv[1:]
    kinds = {kind.__name__.replace("_", "-"): kind for kind in KINDS}
    for word in words or kinds:
        for number, size in enumerate((1, 2, 4), 1):
            write(os.path.join(folder, f"{word}-{number}.icnf"), kinds[word](size))


if __name__ == "__main__":
    main()
