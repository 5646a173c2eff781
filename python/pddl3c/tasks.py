"""Tasks, and the commands as functions."""

import os
import tempfile
from concurrent.futures import ThreadPoolExecutor
from dataclasses import replace
from pathlib import Path
from typing import Any, Iterable, Iterator, List, Optional, Tuple, Type, Union

from . import reports
from .results import Embedding, Error, Evaluation, Explanation, Lifted, Translation
from .running import Program, find_program, run

Source = Union[str, bytes, "os.PathLike[str]"]
Written = Union[Translation, Tuple[Source, Source]]


class Task:
    """A domain and a problem. Texts are put into a folder of files, which goes with the task."""

    def __init__(
        self, domain: Source, problem: Source, *, program: Optional[Program] = None, seconds: Optional[float] = None
    ) -> None:
        self._room = tempfile.TemporaryDirectory(prefix="pddl3c-")
        self._made = 0
        self._program = os.path.abspath(program) if program is not None and os.sep in os.fspath(program) else program
        self._seconds = seconds
        self._task = [self._file(domain), self._file(problem)]

    def __enter__(self) -> "Task":
        return self

    def __exit__(self, kind: Optional[Type[BaseException]], *rest: Any) -> None:
        self.close()

    def close(self) -> None:
        """Removes the folder."""
        self._room.cleanup()

    def compile(self) -> Translation:
        """Translates the task."""
        return self._compiled("compile")

    def compile_flat(self) -> Translation:
        """Translates the task without conditional effects."""
        return self._compiled("compile-flat")

    def lift(self, written: Written, plan: Source) -> Lifted:
        """Brings a plan of a translation home."""
        texts = (written.domain, written.problem) if isinstance(written, Translation) else written
        with self._place() as room:
            names = [self._file(text, room) for text in (*texts, plan)]
            made: Lifted = self._run("lift", names, [f"{room}/lifted"])
            return replace(made, plan=text_of(f"{room}/lifted"))

    def embed(self, plan: Source) -> Embedding:
        """Translates the task, and the plan with it."""
        with self._place() as room:
            outputs = [f"{room}/{name}" for name in ("domain", "problem", "written")]
            made: Embedding = self._run("embed", [self._file(plan, room)], outputs)
            domain, problem, written = map(text_of, outputs)
            return replace(made, domain=domain, problem=problem, plan=written)

    def evaluate(self, plan: Source) -> Evaluation:
        """Judges a plan; raises `Invalid` where it is not valid."""
        return self._judged("evaluate", plan)

    def explain(self, plan: Source) -> Explanation:
        """Says where each constraint and preference of a plan is decided."""
        return self._judged("explain", plan)

    def watch(self, lines: Source) -> List[reports.Watched]:
        """Judges a plan line by line: an `Evaluation`, a `Fault` or a `Refused` for each line with a step."""
        return self._judged("watch", lines)

    def evaluate_all(self, plans: Iterable[Source], jobs: Optional[int] = None) -> Iterator[Union[Evaluation, Error]]:
        """Judges many plans, several at a time; gives for each, in order, an `Evaluation` or the error."""

        def judged(plan: Source) -> Union[Evaluation, Error]:
            try:
                return self.evaluate(plan)
            except Error as error:
                # (a traceback would keep the folder)
                return error.with_traceback(None)

        if self._program is None:
            self._program = find_program()
        with ThreadPoolExecutor(max_workers=jobs or os.cpu_count() or 1) as pool:
            yield from pool.map(judged, plans)

    def _compiled(self, command: str) -> Translation:
        with self._place() as room:
            made: Translation = self._run(command, [], [f"{room}/domain", f"{room}/problem"])
            return replace(made, domain=text_of(f"{room}/domain"), problem=text_of(f"{room}/problem"))

    def _judged(self, command: str, plan: Source) -> Any:
        with self._place() as room:
            return self._run(command, [self._file(plan, room)], [])

    def _run(self, command: str, inputs: List[str], outputs: List[str]) -> Any:
        words = [command, *self._task, *inputs, *outputs]
        return reports.read(command, *run(words, self._program, self._seconds))

    def _place(self) -> "tempfile.TemporaryDirectory[str]":
        return tempfile.TemporaryDirectory(dir=self._room.name)

    def _file(self, source: Source, room: Optional[str] = None) -> str:
        """Gives the name of a file that holds a text."""
        if isinstance(source, os.PathLike):
            return os.path.abspath(source)
        with tempfile.NamedTemporaryFile(dir=room or self._room.name, delete=False) as file:
            file.write(source if isinstance(source, bytes) else source.encode("utf-8", "surrogateescape"))
        return file.name


def text_of(name: str) -> str:
    """Gives the text of a file that the program wrote."""
    return Path(name).read_bytes().decode("utf-8", "surrogateescape")


def compile(domain: Source, problem: Source, **options: Any) -> Translation:  # noqa: A001
    """Translates a task into a plain task."""
    with Task(domain, problem, **options) as task:
        return task.compile()


def compile_flat(domain: Source, problem: Source, **options: Any) -> Translation:
    """Translates a task into a plain task without conditional effects."""
    with Task(domain, problem, **options) as task:
        return task.compile_flat()


def lift(domain: Source, problem: Source, written: Written, plan: Source, **options: Any) -> Lifted:
    """Brings a plan of a translation home."""
    with Task(domain, problem, **options) as task:
        return task.lift(written, plan)


def embed(domain: Source, problem: Source, plan: Source, **options: Any) -> Embedding:
    """Translates a task, and a plan of it with it."""
    with Task(domain, problem, **options) as task:
        return task.embed(plan)


def evaluate(domain: Source, problem: Source, plan: Source, **options: Any) -> Evaluation:
    """Judges a plan; raises `Invalid` where it is not valid."""
    with Task(domain, problem, **options) as task:
        return task.evaluate(plan)


def explain(domain: Source, problem: Source, plan: Source, **options: Any) -> Explanation:
    """Says where each constraint and preference of a plan is decided."""
    with Task(domain, problem, **options) as task:
        return task.explain(plan)


def watch(domain: Source, problem: Source, lines: Source, **options: Any) -> List[reports.Watched]:
    """Judges a plan line by line."""
    with Task(domain, problem, **options) as task:
        return task.watch(lines)
