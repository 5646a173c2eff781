"""Runs a command of pddl3c, and prints what it says as JSON.

usage: python3 -m pddl3c COMMAND --json WORD..

The words are those of pddl3c, and so is the status. With --json one object of JSON is printed, on a
line; numbers have all their digits. Without it the program prints what it prints.
"""

import json
import re
import subprocess
import sys
from dataclasses import asdict, is_dataclass
from decimal import Decimal
from typing import Any, Dict, List

from . import reports
from .results import Error, Invalid, NotRun, Refused, Unread, Unwritten
from .running import find_program, run

TEXTS = ("domain", "problem", "plan")


def plain(value: Any) -> Any:
    """Gives a value as JSON can hold it; a decimal is marked, to be written with all its digits."""
    if isinstance(value, Refused):
        return {"refused": refusal(value)}
    if is_dataclass(value) and not isinstance(value, type):
        return plain(asdict(value))
    if isinstance(value, Decimal):
        return f"\x01{value}"
    if isinstance(value, dict):
        return {key: plain(part) for key, part in value.items()}
    return [plain(part) for part in value] if isinstance(value, (list, tuple)) else value


def refusal(error: Refused) -> Dict[str, Any]:
    """Gives the fields of a refusal."""
    return {name: getattr(error, name) for name in ("code", "text", "role", "line", "column", "word")}


def failure(error: Error) -> Dict[str, Any]:
    """Gives what an error says."""
    if isinstance(error, Invalid):
        return {"fault": asdict(error.fault)}
    if isinstance(error, Refused):
        return {"refused": refusal(error)}
    if isinstance(error, (Unread, Unwritten)):
        return {"unread" if isinstance(error, Unread) else "unwritten": error.role}
    return {"error": str(error)}


def as_json(command: str, status: int, text: str) -> str:
    """Gives what a command printed as an object of JSON."""
    said: Dict[str, Any] = {"command": command, "status": status}
    try:
        report = reports.read(command, status, text)
        if isinstance(report, list):
            said["lines"] = plain(report)
        else:
            said.update(plain(report))
            for name in TEXTS if is_dataclass(report) else ():
                said.pop(name, None)
    except Error as error:
        said.update(failure(error))
    return re.sub(r'"\\u0001(-?[0-9.]+)"', r"\1", json.dumps(said))


def main(words: List[str]) -> int:
    """Runs the command."""
    if not words or words[0] in ("-h", "--help"):
        print((__doc__ or "").strip(), file=sys.stdout if words else sys.stderr)
        return 0 if words else 64
    wanted = "--json" in words[:2]
    if wanted:
        words.remove("--json")
    try:
        if not wanted:
            return subprocess.run([find_program(), *words], check=False).returncode
        if not words or words[0] not in reports.READERS:
            print(f"pddl3c: there is no command {' '.join(words[:1])}", file=sys.stderr)
            return 64
        status, text = run(words)
    except (NotRun, OSError) as error:
        print(f"pddl3c: {error}", file=sys.stderr)
        return 70
    print(as_json(words[0], status, text))
    return status if status >= 0 else 128 - status


if __name__ == "__main__":
    sys.exit(main(sys.argv[1:]))
