"""Reads the domain text of a written task, and counts what a planner gets.

A form is a tuple: its word, and then its parts, each a form. So `(not (f1))` is `('not', ('f1',))`.
"""

import re
from collections import Counter

TOKENS = re.compile(r"[()]|[^\s()]+")
TRUE, FALSE = ("and",), ("or",)
# What docs/MANUAL.md says of `compile-flat`: an action with more different conditions is refused.
MOST_CONDITIONS = 12
# A conjunction with more parts is not looked into by `compile-flat`.
MOST_PARTS = 16
# The copies of steps. All other actions stand in lists of which the layout leaves none out: the answers to
# questions of wide steps, and what is collected or forgone.
COPY = re.compile(r"s\d+v")


def sections(text):
    """Gives the lists directly inside the `(define ..)`, one by one."""
    lists = []
    for token in TOKENS.finditer(text):
        word = token[0]
        if word == "(":
            lists.append([])
        elif word != ")":
            lists[-1].append(word)
        else:
            closed = tuple(lists.pop())
            if len(lists) == 1:
                yield closed
            elif lists:
                lists[-1].append(closed)


def negation(form):
    """Gives the negation as a tidy form has it."""
    constants = {TRUE: FALSE, FALSE: TRUE}
    return constants.get(form) or (form[1] if form[0] == "not" else ("not", form))


def nodes(form):
    """Counts the atoms and words of a form."""
    return 1 + sum(map(nodes, form[1:]))


def is_always(form, value):
    """Whether a form has that value in every state, as far as its constants show."""
    if form[0] == "not":
        return is_always(form[1], not value)
    if form[0] not in ("and", "or"):
        return False
    some = any if (form[0] == "or") == value else all
    return some(is_always(part, value) for part in form[1:])


def spread(kind, form):
    """Gives the parts of a conjunction or disjunction, with nested ones of the same kind joined."""
    if form[0] != kind:
        yield form
    else:
        for part in form[1:]:
            yield from spread(kind, part)


def has_beside(form):
    """Whether a form stands beside its negation in one conjunction or disjunction."""
    if form[0] in ("and", "or"):
        parts = set(spread(form[0], form))
        if any(part[0] == "not" and part[1] in parts for part in parts):
            return True
    return any(map(has_beside, form[1:]))


def facts(form):
    """Gives what plainly holds where a form does."""
    yield form
    if form[0] == "and":
        for part in form[1:]:
            yield from facts(part)


def is_excluded(known, form):
    """Whether `compile-flat` sees that a form does not hold where all that is known does."""
    if FALSE in known or form == FALSE:
        return True
    looked_at = [form]
    if form[0] == "and" and len(form) - 1 <= MOST_PARTS:
        looked_at += form[1:]
    return any(("not", one) in known or one[0] == "not" and one[1] in known for one in looked_at)


def flat_copies(precondition, conditions):
    """Counts the copies that `compile-flat` makes of an action, by its rule: one for each choice of which
    conditions hold, but for choices in which it sees a pair of opposites. A choice is a number whose
    bits say which halves it has; a condition has two halves, that it fails and that it holds."""
    halves = [half for one in conditions for half in (negation(one), one)]
    known = [set(facts(half)) for half in halves]
    bars = [sum(1 << old for old in range(new) if is_excluded(known[old], half)) for new, half in enumerate(halves)]
    sure = set(facts(precondition))
    choices = [0]
    for place in range(0, len(halves), 2):
        choices = [
            choice | 1 << new
            for new in (place, place + 1)
            if not is_excluded(sure, halves[new])
            for choice in choices
            if not choice & bars[new]
        ]
    return len(choices)


def counted_action(name, precondition, effect):
    """Counts one action."""
    changes = effect[1:] if effect[0] == "and" else (effect,)
    conditions = [change[1] for change in changes if change[0] == "when"]
    different = list(dict.fromkeys(one for one in conditions if one != TRUE))
    is_wide = len(different) > MOST_CONDITIONS
    is_never = is_always(precondition, False)
    is_copy = bool(COPY.match(name))
    return Counter(
        actions=1,
        effects=len(conditions),
        nodes=sum(map(nodes, conditions)),
        pre=nodes(precondition),
        flat=0 if is_wide else flat_copies(precondition, different),
        wide=is_wide,
        beside=sum(map(has_beside, [precondition, *conditions])),
        never=is_never and is_copy,
        listed=is_never and not is_copy,
    )


def counted(text):
    """Counts all actions of a written domain."""
    all_actions = Counter()
    for section in sections(text):
        if section[0] == ":action":
            said = dict(zip(section[::2], section[1::2]))
            all_actions.update(counted_action(said[":action"], said[":precondition"], said[":effect"]))
    return all_actions
