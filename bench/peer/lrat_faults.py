"""Faults that lrat-check is asked about beside those of faults.py. A fault gets the steps and a
source of random numbers, and gives the text of a proof; it raises IndexError if no step fits it."""
from faults import (FAULTS, GROUP_FAULTS, additions, changed, deletions, group_fault, hint_fault,
                    literal_fault, rats, swapped, without)
from steps import Addition, Deletion, text_of

FAR = 2**32


def as_text(fault):
    """A fault of steps as one of the text."""
    return lambda steps, r: text_of(fault(steps, r))


def line_fault(edit):
    """A fault of one line of the text: `edit` answers another text for it."""
    def fault(steps, r):
        lines = text_of(steps).splitlines()
        n = r.randrange(len(lines))
        return "\n".join(lines[:n] + [edit(lines[n])] + lines[n + 1 :]) + "\n"
    return fault


def greatest(steps):
    return max(step.id for step in steps if isinstance(step, Addition))


def last_empty(steps):
    return next(n for n, step in enumerate(steps)
                if isinstance(step, Addition) and not step.literals)


def hint_of_one_deleted(steps, r):
    n = r.choice(deletions(steps))
    k = r.choice([k for k in additions(steps) if k > n])
    return changed(steps, k, hints=[r.choice(steps[n].ids)] + steps[k].hints)


def hint_of_itself(steps, r):
    n = r.choice(additions(steps))
    return changed(steps, n, hints=[steps[n].id] + steps[n].hints)


def next_id_as_hint(steps, r):
    n = r.choice(additions(steps))
    return changed(steps, n, hints=[greatest(steps) + 1] + steps[n].hints)


def far_literal(literals, r):
    first = literals[0]
    return [first + FAR if first > 0 else first - FAR] + literals[1:]


def leading_zero(steps, r):
    """The first literal of a step with a zero in front."""
    n = r.choice(additions(steps))
    lines = text_of(steps).splitlines()
    words = lines[n].split()
    words[1] = f"-0{words[1][1:]}" if words[1][0] == "-" else f"0{words[1]}"
    return "\n".join(lines[:n] + [" ".join(words)] + lines[n + 1 :]) + "\n"


def negative_hint(hints, r):
    n = r.randrange(len(hints))
    return hints[:n] + [-hints[n]] + hints[n + 1 :]


def far_hint(hints, r):
    n = r.randrange(len(hints))
    return hints[:n] + [hints[n] + FAR] + hints[n + 1 :]


def groups_that_stay(steps, r):
    """Groups behind a conflict, and of the next step no hint but the last."""
    plain = additions(steps)
    n = r.choice([n for n in plain if n + 1 in plain and len(steps[n + 1].hints) > 1])
    steps = changed(steps, n, hints=steps[n].hints + [-1, -2, -3, -4])
    return changed(steps, n + 1, hints=steps[n + 1].hints[-1:])


def steps_swapped(steps, r):
    return swapped(steps, r)


def deletions_lost(steps, r):
    if not deletions(steps):
        raise IndexError
    return [step for step in steps if isinstance(step, Addition)]


def cut_within(steps, r):
    """The text ends within a step of its second half."""
    lines = text_of(steps).splitlines()
    n = r.randrange(len(lines) // 2, len(lines))
    words = lines[n].split()
    return "\n".join(lines[:n] + [" ".join(words[: r.randrange(1, len(words))])])


def empty_early(hints):
    """The empty clause before a step: `hints` answers its hints."""
    def fault(steps, r):
        n = r.choice(additions(steps))
        return steps[:n] + [Addition(greatest(steps) + 1, [], hints(steps[n]))] + steps[n:]
    return fault


def empty_with(edit):
    """The empty clause by other hints."""
    def fault(steps, r):
        n = last_empty(steps)
        return changed(steps, n, hints=edit(steps[n].hints))
    return fault


def strange_group(steps, r, place):
    """A group of a clause that is no candidate, at a place of the groups."""
    def edit(groups, r):
        strange = r.choice([k for k in range(1, 50) if all(k != group[0] for group in groups)])
        return groups + [(strange, [])] if place else sorted(groups + [(strange, [])])
    return group_fault(edit)(steps, r)


def pivot_behind(steps, r):
    n = r.choice([n for n in rats(steps) if len(steps[n].literals) > 1])
    return changed(steps, n, literals=steps[n].literals[1:] + steps[n].literals[:1])


def group_without_hints(groups, r):
    n = r.choice([n for n, group in enumerate(groups) if group[1]])
    return groups[:n] + [(groups[n][0], [])] + groups[n + 1 :]


STEP_FAULTS = {
    "hints reversed": hint_fault(lambda hints, r: hints[::-1]),
    "a hint just above all ids": next_id_as_hint,
    "a hint 2^32 higher": hint_fault(far_hint, least=1),
    "a hint of a deleted clause": hint_of_one_deleted,
    "the step's own id as a hint": hint_of_itself,
    "a hint made negative": hint_fault(negative_hint),
    "two groups behind the conflict": hint_fault(lambda hints, r: hints + [-1, -2]),
    "groups behind a conflict, and of the next step the last hint alone": groups_that_stay,
    "a literal added": literal_fault(lambda literals, r: literals + [r.randrange(1, 20)]),
    "the first two literals swapped": literal_fault(
        lambda literals, r: [literals[1], literals[0]] + literals[2:]),
    "a literal 2^32 higher": literal_fault(far_literal, least=1),
    "two steps swapped": steps_swapped,
    "all deletions are lost": deletions_lost,
    "no empty clause": lambda steps, r: steps[: last_empty(steps)],
    "the empty clause without hints": empty_with(lambda hints: []),
    "the empty clause without its last hint": empty_with(lambda hints: hints[:-1]),
    "the empty clause early, without hints": empty_early(lambda step: []),
    "the empty clause early, by the next step's hints": empty_early(lambda step: step.hints),
}

TEXT_FAULTS = {
    "a literal with a leading zero": leading_zero,
    "an end within a step": cut_within,
    "an end mark is lost": line_fault(lambda line: line.removesuffix(" 0")),
    "an end mark too many": line_fault(lambda line: line + " 0"),
    "a comment within a step": line_fault(lambda line: line.replace(" ", "\nc within\n", 1)),
    "a plus sign": line_fault(lambda line: "+" + line),
    "a word behind the empty clause": lambda steps, r: text_of(steps) + "word\n",
    "a wrong step behind the empty clause":
        lambda steps, r: text_of(steps) + f"{greatest(steps) + 1} 1 2 0 {greatest(steps) + 9} 0\n",
}

RAT_FAULTS = {
    "all groups are lost": group_fault(lambda groups, r: []),
    "a group without its hints": group_fault(group_without_hints),
    "a group of no candidate, in order": lambda steps, r: strange_group(steps, r, 0),
    "a group of no candidate, at the end": lambda steps, r: strange_group(steps, r, 1),
    "the pivot of a RAT step behind": pivot_behind,
}

ALL = {
    name: as_text(fault)
    for name, fault in (FAULTS | GROUP_FAULTS | STEP_FAULTS | RAT_FAULTS).items()
} | TEXT_FAULTS
