"""Reads what the program prints."""

import re
from decimal import Decimal
from typing import Dict, List, Optional, Union

from .results import (
    Constraint,
    Embedding,
    Error,
    Evaluation,
    Explanation,
    Fault,
    Instance,
    Invalid,
    Lifted,
    NotRun,
    OutOfMemory,
    Refused,
    Shown,
    Translation,
    Unread,
    Unwritten,
    Violation,
)

Watched = Union[Evaluation, Fault, Refused]
Report = Union[Translation, Embedding, Lifted, Evaluation, Explanation, List[Watched], Dict[str, str]]

PLACED = re.compile(r"refused (\d+) ([a-z ]+): ([a-z-]+) (\d+):(\d+) (.*)")
PLAIN = re.compile(r"refused (\d+) (file too long|not plain|mismatch)(?:: (.*))?")
SHOWN = (
    (True, re.compile(r"holds(?: in state (?P<holds>\d+))?")),
    (False, re.compile(r"holds in no state")),
    (False, re.compile(r"fails in state (?P<fails>\d+)")),
    (False, re.compile(r"holds in states (?P<first>\d+) and (?P<again>\d+), not in state (?P<gap>\d+)")),
)


def unawaited(line: str) -> NotRun:
    """Says that another line was awaited."""
    return NotRun(f"the program prints another line than was awaited: {line}")


def fault_of(line: str) -> Optional[Fault]:
    """Reads the line of a fault."""
    found = re.fullmatch(r"invalid(?: step (\d+): (.*)|: goal|: constraint (\d+))", line)
    if not found:
        return None
    step, why, constraint = found.groups()
    return Fault(line, int(step) if step else None, why, int(constraint) if constraint else None)


def refusal_of(line: str) -> Optional[Refused]:
    """Reads the line of a refusal."""
    placed = PLACED.fullmatch(line)
    if placed:
        code, text, role, row, column, word = placed.groups()
        return Refused(line, int(code), text, role, int(row), int(column), word)
    plain = PLAIN.fullmatch(line)
    if plain:
        is_file = plain[2] == "file too long"
        return Refused(line, int(plain[1]), plain[2], plain[3] if is_file else None, word=None if is_file else plain[3])
    return None


def words_of(lines: List[str]) -> Dict[str, str]:
    """Gives the lines by their first words."""
    return dict(line.split(" ", 1) for line in lines if " " in line)


def translation(lines: List[str]) -> Translation:
    """Reads what `compile` prints."""
    said = words_of(lines)
    return Translation(
        int(said["steps"]), int(said["preferences"]), Decimal(said["base"]), said["direction"], int(said.get("scale", 1))
    )


def embedding(lines: List[str]) -> Embedding:
    """Reads what `embed` prints."""
    said = words_of(lines)
    made = translation(lines)
    return Embedding(
        made.steps,
        made.preferences,
        made.base,
        made.direction,
        made.scale,
        embedded=int(said["embedded"]),
        cost=Decimal(said["cost"]),
    )


def lifted(lines: List[str]) -> Lifted:
    """Reads what `lift` prints."""
    said = words_of(lines)
    return Lifted(int(said["steps"]), Decimal(said["cost"]), Decimal(said["metric"]))


def evaluation(lines: List[str]) -> Evaluation:
    """Reads what `evaluate` prints of a valid plan."""
    said = words_of([line for line in lines[1:] if not line.startswith("violated ")])
    counts = [line.split(" ") for line in lines if line.startswith("violated ")]
    violated = {name: int(count) for _, name, count in counts}
    return Evaluation(int(said["steps"]), Decimal(said["cost"]), violated, Decimal(said["metric"]))


def shown(text: str) -> Shown:
    """Reads the states that show whether an operator is satisfied."""
    for satisfied, pattern in SHOWN:
        found = pattern.fullmatch(text)
        if found:
            states = {name: int(state) for name, state in found.groupdict().items() if state is not None}
            holds = tuple(states[name] for name in ("holds", "first", "again") if name in states)
            fails = tuple(states[name] for name in ("fails", "gap") if name in states)
            return Shown(text, satisfied, holds, fails)
    raise unawaited(text)


def named(word: str) -> Optional[str]:
    """Gives the name of a preference, which may have none."""
    return None if word == "-" else word


def explanation(lines: List[str]) -> Explanation:
    """Reads what `explain` prints."""
    constraints: List[Constraint] = []
    instances: List[Instance] = []
    violations: List[Violation] = []
    fault = fault_of(lines[0])
    if lines[0] != "valid" and fault is None:
        raise unawaited(lines[0])
    for line in lines[1:]:
        hard = re.fullmatch(r"constraint (\d+): (.*)", line)
        soft = re.fullmatch(r"instance (\d+) (\S+) part (\d+): (.*)", line)
        step = re.fullmatch(r"step (\d+) (\S+) number (\d+): fails in state (\d+)", line)
        if hard:
            constraints.append(Constraint(int(hard[1]), shown(hard[2])))
        elif soft:
            instances.append(Instance(int(soft[1]), named(soft[2]), int(soft[3]), shown(soft[4])))
        elif step:
            violations.append(Violation(int(step[1]), named(step[2]), int(step[3]), int(step[4])))
        else:
            raise unawaited(line)
    return Explanation(fault, tuple(constraints), tuple(instances), tuple(violations))


def watched(lines: List[str]) -> List[Watched]:
    """Reads what `watch` prints: a block for each line with a step."""
    blocks: List[Watched] = []
    at = 0
    while at < len(lines):
        if lines[at] == "valid":
            end = next((place for place in range(at, len(lines)) if lines[place].startswith("metric ")), None)
            if end is None:
                raise unawaited(lines[-1])
            blocks.append(evaluation(lines[at : end + 1]))
            at = end
        else:
            block = fault_of(lines[at]) or refusal_of(lines[at])
            if block is None:
                raise unawaited(lines[at])
            blocks.append(block)
        at += 1
    return blocks


READERS = {
    "compile": translation,
    "compile-flat": translation,
    "lift": lifted,
    "embed": embedding,
    "evaluate": evaluation,
    "explain": explanation,
    "watch": watched,
    "generate": words_of,
}


def error_of(status: int, lines: List[str]) -> Error:
    """Gives what a status other than 0 raises."""
    first = lines[0] if lines else ""
    fault, refusal = fault_of(first), refusal_of(first)
    if status == 1 and fault:
        return Invalid(fault)
    if status == 2 and refusal:
        return refusal
    if status == 3 and first.startswith("read fault: "):
        return Unread(first[12:])
    if status == 4 and first.startswith("write fault: "):
        return Unwritten(first[13:])
    if status == 5:
        return OutOfMemory("want of memory")
    how = f"is ended by signal {-status}" if status < 0 else f"ends with status {status}"
    return NotRun(f"the program {how}" + (f": {first}" if first else ""))


def read(command: str, status: int, text: str) -> Report:
    """Reads what a command printed, or raises what its status means."""
    lines = text.split("\n")[:-1]
    if status != 0:
        raise error_of(status, lines)
    try:
        return READERS[command](lines)  # type: ignore[operator]
    except (KeyError, ValueError, IndexError, ArithmeticError) as fault:
        raise unawaited(text[:200]) from fault
