"""Whether the steps of a proof are redundant at all, by unit propagation over all live clauses and
without a look at a hint. It is written from the definitions of RUP and RAT, and from no checker."""


def steps_in(text):
    """The whole steps with which the text begins: (literals, None), or (None, ids) for a deletion,
    each behind its id. Comments are skipped."""
    lines = [line for line in text.splitlines() if not line.lstrip().startswith("c")]
    words = [word for line in lines for word in line.split()]
    place = 0
    while place < len(words):
        deletes = words[place + 1 : place + 2] == ["d"]
        try:
            first = int(words[place])
            end = words.index("0", place + 1)
            listed = [int(word) for word in words[place + 1 + deletes : end]]
            place = end + 1 if deletes else words.index("0", end + 1) + 1
        except ValueError:
            return
        yield (first, None, listed) if deletes else (first, listed, None)


def has_conflict(clauses, true):
    """Whether unit propagation from these true literals makes all literals of a clause false."""
    true = set(true)
    grows = True
    while grows:
        grows = False
        for clause in clauses:
            if any(literal in true for literal in clause):
                continue
            left = {literal for literal in clause if -literal not in true}
            if not left:
                return True
            if len(left) == 1:
                true |= left
                grows = True
    return False


def is_redundant(clauses, literals):
    """Whether the clause is a tautology, RUP, or RAT on its first literal."""
    false = {-literal for literal in literals}
    if false & set(literals) or has_conflict(clauses, false):
        return True
    if not literals:
        return False
    pivot = literals[0]
    for clause in clauses:
        if -pivot in clause:
            others = {-literal for literal in clause if literal != -pivot}
            true = pivot in clause or any(-literal in others for literal in others | false)
            if not true and not has_conflict(clauses, false | others):
                return False
    return True


def is_refutation(clauses, text):
    """Whether all steps up to an empty clause are redundant, and there is one."""
    live = dict(enumerate(clauses, 1))
    for id, literals, deleted in steps_in(text):
        if deleted is not None:
            for other in deleted:
                live.pop(other, None)
            continue
        if not is_redundant(list(live.values()), literals):
            return False
        if not literals:
            return True
        live[id] = literals
    return False
