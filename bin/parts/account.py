"""Reads what `pddl3why plan` prints of a plan: its headings, each with the states that show what it says."""

import re
from dataclasses import dataclass, field

OPERATOR = r"(?P<operator>at end|[a-z-]+)"
BOUND = r"(?P<bound>(?:, \S+ = \S+)*)"  # (a name may have commas, and no blank)
HEADINGS = (
    ("goal", r"the goal does not hold"),
    ("constraint", rf"constraint (?P<name>\d+), {OPERATOR}{BOUND}: not satisfied"),
    ("preference", rf"preference (?P<name>\S+), {OPERATOR}{BOUND}: not satisfied"),
    ("step", rf"preference (?P<name>\S+) of step (?P<step>\d+) \([^()]*\){BOUND}: not satisfied"),
)


@dataclass
class Heading:
    """A reason: what it is of, where that stands, and by state the lines that say why."""

    kind: str
    name: str
    step: int
    operator: str
    objects: list
    line: str
    why: dict = field(default_factory=dict)

    def bound(self):
        """Gives the objects in parentheses, or nothing where there are none."""
        return f"({', '.join(self.objects)})" if self.objects else ""


def heading_of(line):
    """Gives the heading that a line is, or nothing where it is none."""
    for kind, pattern in HEADINGS:
        found = re.fullmatch(r"(?:.*?:\d+:\d+: )?" + pattern, line)
        if found:
            part = found.groupdict()
            objects = re.findall(r", \S+ = (\S+?)(?=, \S+ = |$)", part.get("bound") or "")
            return Heading(kind, part.get("name") or "", int(part.get("step") or 0), part.get("operator") or "", objects, line)
    return None


def headings_of(lines):
    """Gives the headings of the lines of an account, in order."""
    headings, state = [], 0
    for line in lines:
        shown = re.fullmatch(r"  state (\d+), .*?(, (?:first|second) formula)?:", line)
        literal = re.fullmatch(r"    ((?:true|false): \(.*\))", line)
        if shown and headings:
            state = int(shown[1])
            headings[-1].why.setdefault(state, []).extend([shown[2][2:] + ":"] if shown[2] else [])
        elif literal and headings:
            headings[-1].why.setdefault(state, []).append(literal[1])
        elif not line.startswith(" "):
            headings += filter(None, [heading_of(line)])
    return headings
