"""What `bonsai-ask` writes, as plain data.

The forms are those of the page COMMANDS. No two kinds of lines have the same form, whatever routers are called: the word
behind `class`, `solution` and `question` is a number, and no label begins with one.
"""
from __future__ import annotations

import dataclasses
import re
from collections.abc import Iterable

HEADS = {
    "question": re.compile(r"question (\d+)"),
    "count": re.compile(r"class (\d+) solutions (\d+)"),
    "solution": re.compile(r"(?:class (\d+) )?solution (\d+)"),
    "answer": re.compile(r"class (\d+) (yes|no|none)(?: tied (\S+) (communities|path))?"),
    "link": re.compile(r"link (\S+) (\S+) (\d+) (no|none)"),
    "router": re.compile(r"router (\S+) (no|none)"),
    "failing": re.compile(r"class (\d+) failing (\d+) of (\d+)(?: tied (\d+))?"),
}

FIRST_WORDS = ("question", "class", "solution", "link", "router")


@dataclasses.dataclass(frozen=True)
class Tie:
    """A router whose best offers differ only where routers may break a tie in their own way, and in what they differ:
    `communities` or `path`."""

    router: str
    by: str


@dataclasses.dataclass(frozen=True)
class Loss:
    """A link or a router without which the answer is not `yes`: the routers, for a link which of the links between them
    it is, from 1, and the answer without it, `no` or `none`."""

    routers: tuple[str, ...]
    rank: int | None
    verdict: str


@dataclasses.dataclass(frozen=True)
class Failing:
    """The answers without each one link or router more: the losses that change the answer, how many were tried, and how
    many of the answers are tied."""

    losses: tuple[Loss, ...]
    tried: int
    tied: int


@dataclasses.dataclass(frozen=True)
class ClassAnswer:
    """The answer to a question for a class: `yes`, `no` or `none`, the tie if it is tied, the lines of the labels that
    the program shows for `no`, and what was tried with `failing`."""

    number: int
    verdict: str
    tie: Tie | None = None
    labels: tuple[str, ...] = ()
    failing: Failing | None = None

    @property
    def is_yes(self) -> bool:
        """Whether it is `yes`, and with `failing` also without each one link or router more."""
        return self.verdict == "yes" and not (self.failing and self.failing.losses)


@dataclasses.dataclass(frozen=True)
class Count:
    """How many stable solutions a class has."""

    number: int
    solutions: int


@dataclasses.dataclass(frozen=True)
class Solution:
    """A stable solution: the number of the class where the program names it, its place from 1, and a line for each
    router: its label, or the routers to whom it forwards."""

    number: int | None
    place: int
    lines: tuple[str, ...]


Part = ClassAnswer | Count | Solution


@dataclasses.dataclass(frozen=True)
class Report:
    """What the program says to one question or task: the number of the question's line in a file of questions, none where
    there is no such file, and a part for each class or solution."""

    line: int | None
    parts: tuple[Part, ...]


class _Reader:
    """The lines, one after another."""

    def __init__(self, lines: Iterable[str]) -> None:
        self.lines = list(lines)
        self.at = 0

    def take(self, kind: str) -> tuple[str, ...] | None:
        """The words of the next line if it is of this kind, which is then behind."""
        found = HEADS[kind].fullmatch(self.lines[self.at]) if self.at < len(self.lines) else None
        self.at += bool(found)
        return found.groups() if found else None

    def rest(self) -> tuple[str, ...]:
        """The lines up to the next head."""
        begin = self.at
        while self.at < len(self.lines) and not is_head(self.lines[self.at]):
            self.at += 1
        return tuple(self.lines[begin : self.at])


def is_head(line: str) -> bool:
    """Whether a line is of one of the forms."""
    return line.partition(" ")[0] in FIRST_WORDS and any(form.fullmatch(line) for form in HEADS.values())


def reports_of(text: str) -> list[Report]:
    """The reports that the program wrote: one, or one for each line of a file of questions. ValueError where a line has
    no such form."""
    reader = _Reader(text.splitlines())
    question = reader.take("question")
    if not question:
        return [Report(None, _parts(reader))]
    found = []
    while question:
        found.append(Report(int(question[0]), _parts(reader)))
        question = reader.take("question")
    return found


def _parts(reader: _Reader) -> tuple[Part, ...]:
    found = []
    while reader.at < len(reader.lines) and not HEADS["question"].fullmatch(reader.lines[reader.at]):
        found.append(_part(reader))
    return tuple(found)


def _part(reader: _Reader) -> Part:
    if count := reader.take("count"):
        return Count(int(count[0]), int(count[1]))
    if solution := reader.take("solution"):
        return Solution(int(solution[0]) if solution[0] else None, int(solution[1]), reader.rest())
    if answer := reader.take("answer"):
        tie = Tie(answer[2], answer[3]) if answer[2] else None
        return ClassAnswer(int(answer[0]), answer[1], tie, reader.rest(), _failing(reader))
    raise ValueError(f"bonsai-ask wrote a line of no known form: {reader.lines[reader.at]!r}")


def _failing(reader: _Reader) -> Failing | None:
    losses = []
    while True:
        if link := reader.take("link"):
            losses.append(Loss(link[:2], int(link[2]), link[3]))
        elif router := reader.take("router"):
            losses.append(Loss(router[:1], None, router[1]))
        elif last := reader.take("failing"):
            return Failing(tuple(losses), int(last[2]), int(last[3] or 0))
        else:
            return None


def forwards_of(lines: Iterable[str]) -> dict[str, tuple[str, ...] | None]:
    """To whom each router forwards, by the lines of `forwards`: nobody where it holds its own route, and none where it has
    no route. ValueError where a line is of no form."""
    found: dict[str, tuple[str, ...] | None] = {}
    for line in lines:
        name, kind, *nexts = line.split()
        if kind not in ("none", "here", "to") or bool(nexts) != (kind == "to"):
            raise ValueError(f"bonsai-ask wrote a line of no known form: {line!r}")
        found[name] = None if kind == "none" else tuple(nexts)
    return found
