"""Reads files of rows, as crates/p3_test_rows/data/README.md says what they are.

A sheet has rows; a row has steps, each the number of its line, a word, and what stands behind that: words
and, where the word takes one, a text. All is read as bytes, one to a letter.
"""

import re
from dataclasses import dataclass, field
from pathlib import Path

PIECES = ("|", '"', "times ", "numbers ", "text ", "replacing ")
TAKES_TEXT = {"hold": 1, "prints": 0, "holds": 1, "counts": 2, "let": 1}
RUNS = {"run", "run-sure", "why"}
WORDS = set(TAKES_TEXT) | RUNS | {"row", "status", "absent", "same", "fail", "fail-put", "cuts", "faults"}


class Unread(Exception):
    """Says why a file of rows is not read, and at which line."""


@dataclass
class Step:
    """A line of a row."""

    line: int
    word: str
    words: list
    text: bytes = b""


@dataclass
class Row:
    """A row, with what is held before each row of its file."""

    line: int
    name: str
    steps: list = field(default_factory=list)


def quoted(text):
    """Gives the bytes of a text in quotes, and what stands behind it."""
    found = re.match(r'"((?:[^"\\]|\\.)*)"\s*', text)
    if not found:
        raise Unread("a text in quotes is wanted")
    escapes = {"n": "\n", "t": "\t", '"': '"', "\\": "\\"}
    made = re.sub(
        r"\\(x[0-9a-fA-F]{2}|.)", lambda one: chr(int(one[1][1:], 16)) if len(one[1]) == 3 else escapes[one[1]], found[1]
    )
    return made.encode("latin-1"), text[found.end() :]


def add_piece(line, text, named, folder):
    """Gives a text with one piece more."""
    if line.startswith("|"):
        return text + line[2:].encode("latin-1") + b"\n"
    if line.startswith('"'):
        return text + quoted(line)[0]
    word, _, rest = line.partition(" ")
    if word == "times":
        count, _, rest = rest.partition(" ")
        return text + quoted(rest)[0] * int(count)
    if word == "numbers":
        first, _, last, rest = rest.split(" ", 3)
        piece = quoted(rest)[0]
        return text + b"".join(piece.replace(b"#", b"%d" % number) for number in range(int(first), int(last) + 1))
    if word == "text":
        name = rest.strip()
        if name in named:
            return text + named[name]
        return text + (folder / name).read_bytes()
    old, rest = quoted(rest)
    new, _ = quoted(rest)
    if text.count(old) != 1:
        raise Unread(f"the old text stands in the text {text.count(old)} times")
    return text.replace(old, new)


def read(path):
    """Gives the rows of a file."""
    named, before, rows, text_of = {}, [], [], None
    number = 0
    try:
        for number, line in enumerate(Path(path).read_text(encoding="latin-1").split("\n"), 1):
            line = line.lstrip(" ")
            if not line.strip() or line.startswith("#"):
                continue
            word = line.split(" ", 1)[0]
            if line.startswith(PIECES):
                if text_of is None:
                    raise Unread("a piece stands where no text is wanted")
                text_of.text = add_piece(line, text_of.text, named, Path(path).parent)
                if text_of.word == "let":
                    named[text_of.words[0]] = text_of.text
                continue
            if word not in WORDS:
                raise Unread(f"no line begins with {word}")
            rest = line[len(word) + 1 :]
            if word == "row":
                rows.append(Row(number, rest, [Step(*vars(step).values()) for step in before]))
                text_of = None
                continue
            words, count = [], TAKES_TEXT.get(word)
            while count != 0 and rest:
                first, _, rest = rest.partition(" ")
                words.append("" if first == '""' else first)
                count = None if count is None else count - 1
            step = Step(number, word, words)
            text_of = step if word in TAKES_TEXT else None
            if rest:
                step.text = add_piece(rest, b"", named, Path(path).parent)
            if word == "let":
                named[words[0]] = step.text
            else:
                (rows[-1].steps if rows else before).append(step)
        for row in rows:
            number = row.line
            check(row)
        if not rows:
            raise Unread("it has no row")
    except (Unread, OSError, ValueError, KeyError, IndexError) as fault:
        raise Unread(f"{Path(path).name}:{number}: {fault}") from fault
    return rows


def check(row):
    """Looks whether each run has its status and what it prints."""
    words = [step.word for step in row.steps]
    if not (RUNS | {"cuts", "faults"}) & set(words):
        raise Unread(f"{row.name}: nothing is run")
    for at, word in enumerate(words):
        if word in RUNS and words[at + 1 : at + 3] != ["status", "prints"]:
            raise Unread(f"{row.name}: behind a run stand its status and what it prints")
