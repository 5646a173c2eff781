"""Finds the program, and runs it."""

import os
import shutil
import subprocess
from functools import lru_cache
from pathlib import Path
from typing import List, Optional, Tuple, Union

from .results import NotRun

Program = Union[str, "os.PathLike[str]"]


@lru_cache(maxsize=None)
def beside() -> Optional[str]:
    """Gives the program of the folder in which this module lies, or of the path."""
    finder = Path(__file__).resolve().parents[2] / "bin/parts/program"
    if finder.is_file():
        found = subprocess.run([finder], stdout=subprocess.PIPE, text=True, check=False)
        return found.stdout.strip() if found.returncode == 0 else None
    return shutil.which("pddl3c")


def find_program() -> str:
    """Gives the path of the program: that of PROGRAM in the environment, or else of bin/pddl3c."""
    found = os.environ.get("PROGRAM") or beside()
    if not found:
        raise NotRun("the program is not there; PROGRAM in the environment may name it")
    return found


def run(words: List[str], program: Optional[Program] = None, seconds: Optional[float] = None) -> Tuple[int, str]:
    """Runs the program; gives its status and what it prints."""
    path = os.fspath(program) if program is not None else find_program()
    try:
        ran = subprocess.run([path, *words], stdin=subprocess.DEVNULL, stdout=subprocess.PIPE, timeout=seconds, check=False)
    except OSError as fault:
        raise NotRun(f"the program {path} cannot be run: {fault.strerror}") from fault
    except subprocess.TimeoutExpired as fault:
        raise NotRun(f"no answer in {seconds} seconds") from fault
    return ran.returncode, ran.stdout.decode("utf-8", "surrogateescape")
