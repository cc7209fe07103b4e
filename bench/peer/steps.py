"""The steps of a text LRAT proof, and how they are written: as text, and compressed, as ACL2's checker reads them."""
from typing import NamedTuple


class Addition(NamedTuple):
    """The hints are the leading ones, and then groups, each of which begins with a candidate's id, negated."""

    id: int
    literals: list[int]
    hints: list[int]


class Deletion(NamedTuple):
    ids: list[int]


def step_of(line):
    """The step of a line."""
    words = line.split()
    if words[1] == "d":
        return Deletion([int(word) for word in words[2:-1]])
    numbers = [int(word) for word in words]
    end = numbers.index(0)
    return Addition(numbers[0], numbers[1:end], numbers[end + 1 : -1])


def text_of(steps):
    return "".join(line_of(step) for step in steps)


def line_of(step):
    match step:
        case Addition(id, literals, hints):
            return " ".join(map(str, [id, *literals, 0, *hints, 0])) + "\n"
        case Deletion(ids):
            return " ".join(map(str, [0, "d", *ids, 0])) + "\n"


def compressed(steps):
    out = bytearray()
    for step in steps:
        match step:
            case Addition(id, literals, hints):
                out += b"a" + packed([id, *literals, 0, *hints, 0])
            case Deletion(ids):
                out += b"d" + packed([*ids, 0])
    return bytes(out)


def packed(numbers):
    """Each number doubled, and 1 more where it is negative, in groups of seven bits, the lowest first."""
    out = bytearray()
    for number in numbers:
        rest = 2 * abs(number) + (number < 0)
        while rest > 127:
            out.append(rest % 128 + 128)
            rest //= 128
        out.append(rest)
    return out


def groups_of(hints):
    """The leading hints, and the groups: pairs of a candidate and its hints."""
    starts = [place for place, hint in enumerate(hints) if hint < 0] + [len(hints)]
    groups = [(-hints[a], hints[a + 1 : b]) for a, b in zip(starts, starts[1:])]
    return hints[: starts[0]], groups


def hints_of(leading, groups):
    return leading + [number for candidate, hints in groups for number in [-candidate, *hints]]
