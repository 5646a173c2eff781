"""Runs pddl3c from Python, and answers what it prints as dataclasses.

    from pathlib import Path
    import pddl3c

    with pddl3c.Task(Path("domain.pddl"), Path("problem.pddl")) as task:
        written = task.compile()
        lifted = task.lift(written, plan_of_a_planner)
        for judged in task.evaluate_all(Path("plans").glob("*.plan")):
            print(judged)

A text that is handed in is a `str` or `bytes`, and a file is a `Path`. Each call runs the program once;
what it prints and its status are the program's, and this module adds nothing to what is proved. A plan
that is not valid raises `Invalid`, a text that is refused `Refused`; all errors are an `Error`.
"""

from .results import (
    Constraint,
    Embedding,
    Error,
    Evaluation,
    Explanation,
    Fault,
    Instance,
    Invalid,
    Lifted,
    NotRun,
    OutOfMemory,
    Refused,
    Shown,
    Translation,
    Unread,
    Unwritten,
    Violation,
)
from .running import find_program
from .tasks import Source, Task, compile, compile_flat, embed, evaluate, explain, lift, watch

__all__ = [
    "Constraint",
    "Embedding",
    "Error",
    "Evaluation",
    "Explanation",
    "Fault",
    "Instance",
    "Invalid",
    "Lifted",
    "NotRun",
    "OutOfMemory",
    "Refused",
    "Shown",
    "Source",
    "Task",
    "Translation",
    "Unread",
    "Unwritten",
    "Violation",
    "compile",
    "compile_flat",
    "embed",
    "evaluate",
    "explain",
    "find_program",
    "lift",
    "watch",
]
