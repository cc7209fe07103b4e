"""Ways to spoil the steps of a proof, one fault at a time. A fault gets the steps and a source of
random numbers, and gives other steps; it raises IndexError if no step fits it."""
import random

from steps import Addition, Deletion, groups_of, hints_of


def changed(steps, place, **parts):
    """The steps with other parts of one."""
    return steps[:place] + [steps[place]._replace(**parts)] + steps[place + 1 :]


def additions(steps, least_literals=1, least_hints=1):
    return [n for n, step in enumerate(steps) if isinstance(step, Addition)
            and len(step.literals) >= least_literals
            and len(step.hints) >= least_hints and min(step.hints) > 0]


def rats(steps, least=1):
    return [n for n, step in enumerate(steps)
            if isinstance(step, Addition) and len(groups_of(step.hints)[1]) >= least]


def deletions(steps):
    return [n for n, step in enumerate(steps) if isinstance(step, Deletion) and step.ids]


def hint_fault(edit, least=2):
    """A fault of a step's hints: `edit` answers other ones."""
    def fault(steps, r):
        n = r.choice(additions(steps, least_hints=least))
        return changed(steps, n, hints=edit(list(steps[n].hints), r))
    return fault


def literal_fault(edit, least=2):
    def fault(steps, r):
        n = r.choice(additions(steps, least_literals=least))
        return changed(steps, n, literals=edit(list(steps[n].literals), r))
    return fault


def id_fault(edit):
    def fault(steps, r):
        n = r.choice(additions(steps)[1:])
        return changed(steps, n, id=edit(steps, n, r))
    return fault


def group_fault(edit, least=1):
    """A fault of a step's groups: `edit` answers other ones."""
    def fault(steps, r):
        n = r.choice(rats(steps, least))
        leading, groups = groups_of(steps[n].hints)
        return changed(steps, n, hints=hints_of(leading, edit(groups, r)))
    return fault


def without(numbers, place):
    return numbers[:place] + numbers[place + 1 :]


def twice(numbers, place):
    return numbers[: place + 1] + numbers[place:]


def swapped(numbers, r):
    n = r.randrange(len(numbers) - 1)
    return numbers[:n] + [numbers[n + 1], numbers[n]] + numbers[n + 2 :]


def step_twice(steps, r):
    return twice(steps, r.choice(additions(steps)))


def step_lost(steps, r):
    return without(steps, r.choice(additions(steps)[:-1]))


def deletion_twice(steps, r):
    return twice(steps, r.choice(deletions(steps)))


def deletion_of_none(steps, r):
    n = r.choice(deletions(steps))
    return changed(steps, n, ids=steps[n].ids + [10**9])


def deletion_lost(steps, r):
    return without(steps, r.choice(deletions(steps)))


def deletion_early(steps, r):
    """A clause is deleted before the step that names it."""
    n = r.choice(additions(steps))
    return steps[:n] + [Deletion([steps[n].hints[0]])] + steps[n:]


def early_end(steps, r):
    return steps[: r.randrange(len(steps) // 2, len(steps) - 1)]


FAULTS = {
    "nothing": lambda steps, r: steps,
    "a hint is lost": hint_fault(lambda hints, r: without(hints, r.randrange(len(hints)))),
    "the last hint is lost": hint_fault(lambda hints, r: hints[:-1]),
    "all hints are lost": hint_fault(lambda hints, r: []),
    "a hint twice": hint_fault(lambda hints, r: twice(hints, r.randrange(len(hints) - 1))),
    "two hints swapped": hint_fault(swapped),
    "a hint of no clause": hint_fault(lambda hints, r: [10**9] + hints),
    "another hint": hint_fault(lambda hints, r: [r.randrange(1, 50)] + hints[1:]),
    "a hint behind the conflict": hint_fault(lambda hints, r: hints + [1]),
    "a literal is lost": literal_fault(
        lambda literals, r: without(literals, r.randrange(len(literals)))),
    "the last literal twice": literal_fault(lambda literals, r: literals + literals[-1:]),
    "a literal negated": literal_fault(lambda literals, r: [-literals[0]] + literals[1:]),
    "a literal and its negation": literal_fault(lambda literals, r: literals + [-literals[-1]]),
    "the last two literals swapped": literal_fault(
        lambda literals, r: literals[:-2] + literals[:-3:-1], least=3),
    "an id that is live": id_fault(lambda steps, n, r: 1),
    "an id of a step before": id_fault(lambda steps, n, r: steps[additions(steps)[0]].id),
    "an id far away": id_fault(lambda steps, n, r: 10**12),
    "a step twice": step_twice,
    "a step is lost": step_lost,
    "a deletion twice": deletion_twice,
    "a deletion of no clause": deletion_of_none,
    "a deletion is lost": deletion_lost,
    "a deletion too early": deletion_early,
    "an early end": early_end,
}

GROUP_FAULTS = {
    "a group is lost": group_fault(lambda groups, r: without(groups, r.randrange(len(groups)))),
    "two groups swapped": group_fault(swapped, least=2),
    "a group twice, the second without hints": group_fault(
        lambda groups, r: groups + [(groups[-1][0], [])]),
    "a group of no clause": group_fault(lambda groups, r: groups + [(10**9, [])]),
}


def possible(fault, steps, seed):
    """What the fault makes of the steps; None if there is no step for this fault."""
    try:
        return fault(steps, random.Random(seed))
    except IndexError:
        return None
