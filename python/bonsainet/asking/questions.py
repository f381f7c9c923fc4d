"""A file of questions as a person wrote it: the words of each line, and the name that the comment above it gives.

Which lines are questions is for the program to say, which refuses the others; this only finds the words again.
"""
from __future__ import annotations

import dataclasses


@dataclasses.dataclass(frozen=True)
class Question:
    """A line of a file of questions: its number from 1, its words, and its name: the comment in the line above it, else
    its words."""

    line: int
    words: tuple[str, ...]
    name: str


def questions_of(text: bytes) -> list[Question]:
    """The questions of a file."""
    found, comment = [], ""
    for number, raw in enumerate(text.split(b"\n"), 1):
        line = raw.decode("ascii", "backslashreplace").strip()
        if raw.startswith(b"!"):
            comment = line[1:].strip()
            continue
        if line:
            words = tuple(line.split())
            found.append(Question(number, words, comment or " ".join(words)))
        comment = ""
    return found
