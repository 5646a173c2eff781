#!/usr/bin/env python3
"""Finds a cheapest plan of a task that `pddl3c compile` wrote.

usage: planner.py [--seconds N] [--quiet] DOMAIN PROBLEM PLAN

It is a stand-in, so that the whole way from a task to its best plan works with no planner at hand, and
it is for small tasks. It reads what `compile` and `compile-flat` write and no other PDDL: actions without
parameters, `and`, `or`, `not`, `when`, and `increase` by a number.

It is an A* search. What a plan will at least pay behind `finish` is known beforehand: a preference that
is violated and can never be mended has to be forgone. A state's end is looked at as soon as the state is
found, so there is a plan soon, then better ones, and the last is a cheapest one where nothing
cheaper is left to look at. All states that were seen are kept.

  --seconds N  stops after N seconds, as by Ctrl-C, with the best plan so far; Ctrl-C twice ends at once
  --quiet      shows no progress on standard error

It prints the plan's cost, and whether that is the least. The status is 0 where it wrote a plan, 1 where
there is none, or none was found in time, 2 where it cannot read the files, 4 where it cannot write PLAN,
and 64 where the words have another shape.
"""

import heapq
import re
import signal
import sys
import time
from collections import Counter
from functools import reduce
from operator import or_


class Unread(Exception):
    """Says what cannot be read."""


def read(path):
    """Reads the one expression of a file, as lists of lists of words."""
    with open(path, encoding="ascii", errors="replace") as file:
        text = re.sub(r";[^\n]*", "", file.read()).lower()
    outer = [[]]
    for word in re.findall(r"[()]|[^()\s]+", text):
        if word == "(":
            outer.append([])
        elif word == ")" and len(outer) > 1:
            inner = outer.pop()
            outer[-1].append(inner)
        else:
            outer[-1].append(word)
    if len(outer) == 1 and len(outer[0]) == 1 and isinstance(outer[0][0], list):
        return outer[0][0]
    raise Unread(f"{path}: it is not one expression")


def sections(task, key):
    """Gives what stands behind a word in the sections of a task that begin with it."""
    return [section[1:] for section in task[1:] if section[:1] == [key]]


# ---- conditions: each is True, False, a literal (atom, positive), or ("and" or "or", parts)


class Atoms:
    """Numbers the atoms, so that a state is a number with a bit for each atom that holds."""

    def __init__(self, declared):
        self.bits = {name: 1 << place for place, (name,) in enumerate(declared)}

    def bit(self, form):
        """Gives the bit of an atom, such as (f0)."""
        if len(form) != 1 or form[0] not in self.bits:
            raise Unread(f"not an atom of the written task: {form}")
        return self.bits[form[0]]

    def condition(self, form, positive=True):
        """Gives the condition that a form stands for, or its negation."""
        word, *parts = form or [""]
        if word == "not" and len(parts) == 1:
            return self.condition(parts[0], not positive)
        if word not in ("and", "or"):
            return (self.bit(form), positive)
        return joined(word if positive else {"and": "or", "or": "and"}[word], [self.condition(part, positive) for part in parts])


def joined(word, parts):
    """Joins conditions by a word, with what is nested by the same word taken apart."""
    ends = word == "or"
    flat = []
    for part in parts:
        if part is ends:
            return ends
        if part is not (not ends):
            flat += part[1] if isinstance(part, tuple) and part[0] == word else [part]
    return flat[0] if len(flat) == 1 else (word, flat) if flat else not ends


def literals(condition):
    """Gives the literals that all have to hold, and the other parts."""
    parts = condition[1] if isinstance(condition, tuple) and condition[0] == "and" else [] if condition is True else [condition]
    return [part for part in parts if is_literal(part)], [part for part in parts if not is_literal(part)]


def is_literal(condition):
    """Whether a condition is a literal."""
    return isinstance(condition, tuple) and not isinstance(condition[0], str)


def code(condition):
    """Writes a condition as Python, over the state `s`."""
    if isinstance(condition, bool):
        return str(condition)
    if is_literal(condition):
        return f"s & {condition[0]}" if condition[1] else f"not s & {condition[0]}"
    if condition[0] == "or":
        return "(" + " or ".join(code(part) for part in condition[1]) + ")"
    needed, others = literals(condition)
    mask, value = sum({bit for bit, _ in needed}), sum({bit for bit, positive in needed if positive})
    if any((bit, not positive) in needed for bit, positive in needed):
        return "False"
    words = [code(needed[0])] if len(needed) == 1 else [f"s & {mask} == {value}"] if needed else []
    return "(" + " and ".join(words + [code(part) for part in others]) + ")"


def atoms_of(condition):
    """Gives the atoms of a condition."""
    if isinstance(condition, bool):
        return 0
    if is_literal(condition):
        return condition[0]
    return reduce(or_, map(atoms_of, condition[1]))


def may_come(condition, added, deleted):
    """Gives the weaker condition that one may come to hold, where some atoms are added and deleted later."""
    if isinstance(condition, bool):
        return condition
    if is_literal(condition):
        bit, positive = condition
        return True if (added if positive else deleted) & bit else condition
    return joined(condition[0], [may_come(part, added, deleted) for part in condition[1]])


class Action:
    """Is an action of the written task: its condition, its changes and its cost."""

    def __init__(self, atoms, words):
        self.name = words[0]
        parts = dict(zip(words[1::2], words[2::2]))
        if parts.get(":parameters"):
            raise Unread(f"{self.name} has parameters")
        self.condition = atoms.condition(parts.get(":precondition", ["and"]))
        needed, self.others = literals(self.condition)
        self.needed = frozenset(needed)
        self.cost, self.adds, self.dels, self.changes = 0, 0, 0, []
        effect = parts.get(":effect", ["and"])
        for part in effect[1:] if effect[:1] == ["and"] else [effect]:
            self.take(atoms, part)
        self.added = self.adds | sum({bit for _, bit, positive in self.changes if positive})
        self.deleted = self.dels | sum({bit for _, bit, positive in self.changes if not positive})

    def take(self, atoms, part):
        """Adds one part of the effect."""
        if part[:2] == ["increase", ["total-cost"]] and len(part) == 3 and str(part[2]).isdigit():
            self.cost += int(part[2])
            return
        condition, change = part[1:] if part[:1] == ["when"] and len(part) == 3 else (None, part)
        literal = atoms.condition(change)
        if not is_literal(literal):
            raise Unread(f"{self.name} has an effect that is not of the written task")
        bit, positive = literal
        if condition is not None:
            self.changes.append((atoms.condition(condition), bit, positive))
        elif positive:
            self.adds |= bit
        else:
            self.dels |= bit

    def code(self, number):
        """Writes the lines that put the state behind the action into `found`. An add wins."""
        changes = [change for change in self.changes if not (self.adds & change[1] or not change[2] and self.dels & change[1])]
        if not changes:
            return [f"found.append((s & ~{self.dels} | {self.adds}, {self.cost}, {number}))"]
        lines = [f"a = {self.adds}; d = {self.dels}"]
        lines += [f"if {code(condition)}: {'a' if positive else 'd'} |= {bit}" for condition, bit, positive in changes]
        return lines + [f"found.append((s & ~d | a, {self.cost}, {number}))"]


def function(lines):
    """Makes a function of the state of lines of Python."""
    room = {}
    exec("\n".join(["def made(s):", *("    " + line for line in lines)]), room)  # noqa: S102
    return room["made"]


def tests(actions, numbers, known=frozenset()):
    """Writes the lines that find which actions fit: what many of them need is asked once."""
    left, lines = numbers, []
    while len(left) > 3 and len(known) < 30:
        common = Counter(literal for number in left for literal in actions[number].needed - known)
        literal, count = min(common.items(), key=lambda one: (-one[1], one[0]), default=(None, 0))
        if count < 2:
            break
        inside = [number for number in left if literal in actions[number].needed]
        lines.append(f"if {code(literal)}:")
        lines += ["    " + line for line in tests(actions, inside, known | {literal})]
        left = [number for number in left if literal not in actions[number].needed]
    for number in left:
        rest = joined("and", sorted(actions[number].needed - known) + actions[number].others)
        lines += [f"if {code(rest)}:", *("    " + line for line in actions[number].code(number))]
    return lines or ["pass"]


def successors(actions, numbers):
    """Makes the function that gives, of a state, the states behind each action that fits, with cost and number."""
    return function(["found = []", *tests(actions, numbers), "return found"])


# ---- the search


class Task:
    """A task: its steps, and the end phase, which is a chain of atoms that leads to the goal."""

    def __init__(self, domain, problem):
        atoms = Atoms(sections(domain, ":predicates")[0])
        self.actions = [Action(atoms, section) for section in sections(domain, ":action")]
        self.start = sum({atoms.bit(form) for form in sections(problem, ":init")[0] if form[0] != "="})
        goal = atoms.condition(sections(problem, ":goal")[0][0])
        self.drop_needless(atoms_of(goal))
        chain = self.chain(goal) if is_literal(goal) and goal[1] else []
        ends = {number for _, link in chain for number in link}
        steps = [number for number in range(len(self.actions)) if number not in ends]
        self.after = successors(self.actions, steps)
        self.links = [successors(self.actions, link) for _, link in chain]
        self.has_goal = function([f"return {code(goal)}"])
        self.at_least = function(["h = 0", *self.bounds(chain, steps), "return h"])

    def drop_needless(self, needed):
        """Drops the atoms that nothing on the way to the goal asks for, and the actions that change no others."""
        before = None
        while needed != before:
            before = needed
            for action in self.actions:
                if (action.added | action.deleted) & needed:
                    asked = [condition for condition, bit, _ in action.changes if bit & needed]
                    needed |= reduce(or_, map(atoms_of, asked), atoms_of(action.condition))
        self.actions = [action for action in self.actions if (action.added | action.deleted) & needed]
        for action in self.actions:
            for name in ("adds", "dels", "added", "deleted"):
                setattr(action, name, getattr(action, name) & needed)
            action.changes = [change for change in action.changes if change[1] & needed]
        self.start &= needed

    def chain(self, goal):
        """Gives the links of the end phase: for each atom of the chain the actions that lead to it."""
        bit, links = goal[0], []
        while True:
            link = [number for number, action in enumerate(self.actions) if action.added & bit]
            links.insert(0, (bit, link))
            needed = [{one for one, positive in self.actions[number].needed if positive} for number in link]
            before = [one for one in (set.intersection(*needed) if needed else ()) if all(self.actions[number].dels & one for number in link)]
            if len(before) != 1:
                return []
            bit = before[0]
            # What all other actions need, and what nothing brings back, is where the end phase begins.
            if not any(action.added & bit for action in self.actions):
                ends = {number for _, link in links for number in link}
                is_end = [not action.changes if number in ends else (bit, True) in action.needed for number, action in enumerate(self.actions)]
                return links if all(is_end) else []
            if len(links) > len(self.actions):
                return []

    def bounds(self, chain, steps):
        """Writes the lines that add up what each link of the end phase costs at least."""
        added = deleted = 0
        for number in steps:
            added |= self.actions[number].added
            deleted |= self.actions[number].deleted
        passed = sum(bit for bit, _ in chain)
        for _, link in chain:
            priced = sorted((self.actions[number].cost, number) for number in link)
            yield f"h += {priced[0][0]}"
            for at in range(1, len(priced)):
                dearer = priced[at][0] - priced[at - 1][0]
                cheaper = [may_come(self.actions[number].condition, added | passed, deleted | passed) for _, number in priced[:at]]
                if dearer and joined("or", cheaper) is not True:
                    yield f"if not {code(joined('or', cheaper))}: h += {dearer}"

    def end(self, state):
        """Gives the cost and the actions of the end phase from a state, the cheapest of each link; or nothing."""
        spent, plan = 0, []
        for link in self.links:
            found = link(state)
            if not found:
                return None
            state, cost, number = min(found, key=lambda one: one[1:])
            spent += cost
            plan.append(number)
        return (spent, plan) if self.has_goal(state) else None


def plan_of(task, came, state, end):
    """Gives the names of the actions that lead to a state, and of its end."""
    path = []
    while state in came:
        state, number = came[state]
        path.append(number)
    return [task.actions[number].name for number in [*reversed(path), *end]]


def search(task, seconds, tell, stop):
    """Gives a plan, as names, its cost, and whether that is the least; or nothing where there is no plan so far.
    It ends early where `stop` has something in it."""
    until = time.monotonic() + seconds
    best, came, done = {task.start: 0}, {}, set()
    queue = [(task.at_least(task.start), 0, task.start)]
    least, found, told = float("inf"), None, time.monotonic()
    while queue:
        bound, _, state = heapq.heappop(queue)
        if bound >= least:
            break
        if state in done:
            continue
        done.add(state)
        spent = best[state]
        now = time.monotonic() if len(done) % 256 == 0 else told
        if now > told + 1:
            told = now
            tell(f"{len(done)} states, {len(queue)} to look at; costs at least {bound}" + (f", at most {least}" if found else ""))
        if now > until or stop:
            return (plan_of(task, came, *found), least, False) if found else None
        end = task.end(state) if task.links else (0, []) if task.has_goal(state) else None
        if end and spent + end[0] < least:
            least, found = spent + end[0], (state, end[1])
        for after, price, number in task.after(state):
            cost = spent + price
            if cost < best.get(after, cost + 1):
                bound = cost + task.at_least(after)
                if bound < least:
                    best[after], came[after] = cost, (state, number)
                    heapq.heappush(queue, (bound, -cost, after))
    return (plan_of(task, came, *found), least, True) if found else None


def asked(words):
    """Gives the seconds, whether progress is shown, and the three files; or nothing."""
    seconds, loud, words = float("inf"), True, list(words)
    while words and words[0].startswith("--"):
        word = words.pop(0)
        if word == "--quiet":
            loud = False
        elif word == "--seconds" and words and re.fullmatch(r"\d+(\.\d+)?", words[0]):
            seconds = float(words.pop(0))
        else:
            return None
    return (seconds, loud, words) if len(words) == 3 else None


def main(words):
    """Runs the command."""
    if words in (["-h"], ["--help"]):
        print(__doc__.strip())
        return 0
    wish = asked(words)
    if not wish:
        print((__doc__ or "").strip(), file=sys.stderr)
        return 64
    seconds, loud, (domain, problem, plan) = wish
    sys.setrecursionlimit(10_000)
    stop = []
    for number in (signal.SIGINT, signal.SIGTERM):
        signal.signal(number, lambda number, _: sys.exit(128 + number) if stop else stop.append(number))
    try:
        task = Task(read(domain), read(problem))
    except (Unread, OSError, IndexError, ValueError, TypeError, AttributeError) as error:
        print(f"planner.py: this is no task that compile wrote: {error}", file=sys.stderr)
        return 2
    found = search(task, seconds, lambda said: print(f"planner.py: {said}", file=sys.stderr) if loud else None, stop)
    if found is None:
        print("planner.py: no plan was found in time" if stop or seconds < float("inf") else "planner.py: there is no plan", file=sys.stderr)
        return 1
    names, cost, is_least = found
    try:
        with open(plan, "w", encoding="ascii") as file:
            file.writelines(f"({name})\n" for name in names)
    except OSError as fault:
        print(f"planner.py: {plan} cannot be written: {fault.strerror}", file=sys.stderr)
        return 4
    print(f"found a plan of {len(names)} actions, cost {cost}" + ("" if is_least else ", the best so far"))
    return 0


if __name__ == "__main__":
    sys.exit(main(sys.argv[1:]))
