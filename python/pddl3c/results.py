"""What the functions answer, and what they raise."""

from dataclasses import dataclass, field
from decimal import Decimal
from typing import Dict, Optional, Tuple


@dataclass(frozen=True)
class Translation:
    """A plain task, and what `compile` or `compile-flat` prints of it."""

    steps: int
    preferences: int
    base: Decimal
    direction: str  # "minimize" or "maximize"
    scale: int  # by which losses are multiplied in the costs of the plain task
    domain: str = field(default="", repr=False)
    problem: str = field(default="", repr=False)


@dataclass(frozen=True)
class Embedding(Translation):
    """A translation, and the one plan of it that lifts to the plan embedded."""

    embedded: int = 0
    cost: Decimal = Decimal(0)
    plan: str = field(default="", repr=False)


@dataclass(frozen=True)
class Lifted:
    """A plan of the task, from one of the plain task whose cost is `cost`."""

    steps: int
    cost: Decimal
    metric: Decimal
    plan: str = field(default="", repr=False)


@dataclass(frozen=True)
class Evaluation:
    """What a valid plan is worth, with a count for each preference name."""

    steps: int
    cost: Decimal
    violated: Dict[str, int]
    metric: Decimal


@dataclass(frozen=True)
class Fault:
    """Says why a plan is not valid: a step that does not fit, the goal, or a hard constraint."""

    text: str  # as it is printed
    step: Optional[int] = None  # counted from 1
    why: Optional[str] = None  # of a step: "unknown action", "arguments", "precondition" or "no cost"
    constraint: Optional[int] = None  # counted from 0


@dataclass(frozen=True)
class Shown:
    """Says whether an operator is satisfied, and which states show it."""

    text: str  # as it is printed
    satisfied: bool
    holds: Tuple[int, ...] = ()
    fails: Tuple[int, ...] = ()


@dataclass(frozen=True)
class Constraint:
    """A hard constraint, and where it is decided."""

    number: int
    shown: Shown


@dataclass(frozen=True)
class Instance:
    """An operator of a preference instance in constraints or goal, and where it is decided."""

    number: int
    name: Optional[str]
    part: int
    shown: Shown


@dataclass(frozen=True)
class Violation:
    """A preference of a step's precondition that is false in the state before the step."""

    step: int
    name: Optional[str]
    number: int
    state: int


@dataclass(frozen=True)
class Explanation:
    """Where each constraint and preference of a plan is decided; `fault` is nothing where it is valid."""

    fault: Optional[Fault]
    constraints: Tuple[Constraint, ...]
    instances: Tuple[Instance, ...]
    violations: Tuple[Violation, ...]


class Error(Exception):
    """Is what the functions raise."""


class Invalid(Error):
    """Says that a plan is not valid, with status 1 of the program."""

    def __init__(self, fault: Fault) -> None:
        super().__init__(fault.text)
        self.fault = fault


class Refused(Error):
    """Says that a text is refused, with status 2 of the program. A refusal without a place has no line."""

    def __init__(
        self,
        said: str,
        code: int,
        text: str,
        role: Optional[str] = None,
        line: Optional[int] = None,
        column: Optional[int] = None,
        word: Optional[str] = None,
    ) -> None:
        super().__init__(said)
        self.code, self.text, self.role = code, text, role
        self.line, self.column, self.word = line, column, word

    def __repr__(self) -> str:
        return f"Refused({str(self)!r})"


class Unread(Error):
    """Says that a file was not read, with status 3 of the program."""

    def __init__(self, role: str) -> None:
        super().__init__(f"read fault: {role}")
        self.role = role


class Unwritten(Error):
    """Says that a file was not written, with status 4 of the program."""

    def __init__(self, role: str) -> None:
        super().__init__(f"write fault: {role}")
        self.role = role


class OutOfMemory(Error):
    """Says that memory was wanting, with status 5 of the program."""


class NotRun(Error):
    """Says that the program is not there, took too long, was stopped, or printed something else."""
