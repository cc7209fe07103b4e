"""Brings a proof into the profile of ACL2's checker, which asks more of it than cubeboard does: no hint to a clause that is
satisfied; behind the pivot the literals by rising variable; groups by rising candidate, and one for each live clause that has the
pivot's negation, also for one that has another true literal. What comes out is good for both."""
from collections import defaultdict

from steps import Addition, groups_of, hints_of


class Clauses:
    """The live clauses, by id, and the ids by literal."""

    def __init__(self, clauses):
        self.live = {}
        self.having = defaultdict(set)
        for id, literals in enumerate(clauses, 1):
            self.add(id, literals)

    def add(self, id, literals):
        self.live[id] = literals
        for literal in literals:
            self.having[literal].add(id)

    def delete(self, id):
        for literal in self.live.pop(id, []):
            self.having[literal].discard(id)

    def follow(self, hints, true):
        """The hints that are needed, up to the conflict; and whether there is one. Puts into `true` what they make true."""
        kept = []
        for hint in hints:
            left = [literal for literal in self.live[hint] if -literal not in true]
            if len(left) > 1:
                raise ValueError(f"the clause of hint {hint} isn't a unit")
            if not left or left[0] not in true:
                kept.append(hint)
                true.update(left)
            if not left:
                return kept, True
        return kept, False


def clause_in_profile(literals, fresh):
    """A clause of the formula without repeats; a tautology is replaced by the unit of a fresh variable."""
    literals = list(dict.fromkeys(literals))
    return [fresh] if any(-literal in literals for literal in literals) else literals


def in_profile(clauses, steps):
    """The steps, for these clauses, up to the empty clause."""
    clauses = Clauses(clauses)
    for step in steps:
        if isinstance(step, Addition):
            step = addition_in_profile(clauses, step)
            clauses.add(step.id, step.literals)
            yield step
            if not step.literals:
                return
        else:
            for id in step.ids:
                clauses.delete(id)
            yield step
    raise ValueError("the proof has no empty clause")


def addition_in_profile(clauses, step):
    literals = list(dict.fromkeys(step.literals))
    literals[1:] = sorted(literals[1:], key=abs)
    true = {-literal for literal in literals}
    if any(literal in true for literal in literals):
        raise ValueError(f"step {step.id} adds a tautology")
    leading, groups = groups_of(step.hints)
    leading, conflict = clauses.follow(leading, true)
    if not conflict:
        groups = all_groups(clauses, literals[0], dict(groups), true)
    return Addition(step.id, literals, hints_of(leading, [] if conflict else groups))


def all_groups(clauses, pivot, given, true):
    groups = []
    for candidate in sorted(clauses.having[-pivot]):
        others = [literal for literal in clauses.live[candidate] if literal != -pivot]
        hints = []
        if not any(literal in true for literal in others):
            hints, conflict = clauses.follow(given[candidate], true | {-literal for literal in others})
            if not conflict:
                raise ValueError(f"the group of {candidate} has no conflict")
        groups.append((candidate, hints))
    return groups
