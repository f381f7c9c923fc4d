"""Whether an answer of `bonsai-ask` is one that the pages allow. Where order and choice are free, any is taken."""

from __future__ import annotations

import dataclasses
import functools
import re
from collections import Counter
from typing import Protocol

from hostile.judge import labels, questions, rests
from hostile.judge.network import Refused
from hostile.judge.problem import Network, Problem
from hostile.judge.questions import Question, Verdict
from hostile.judge.rests import Down
from hostile.judge.ties import Word, ties

TIED = r"(?: tied (?P<router>\S+) (?P<by>communities|path))?"


class Differs(Exception):
    """An answer that is not allowed, with what was expected."""


@dataclasses.dataclass(frozen=True)
class Call:
    """What is asked: classes by place, whether the words name one class alone, what is down, the task, and whether labels
    follow a `no`."""

    numbers: tuple[int, ...]
    is_single: bool
    down: Down
    task: str
    question: Question | None = None
    failing: str | None = None
    shows: bool = True


class Reader(Protocol):
    """Who finds all solutions of a class without something: by trying all (`hostile.judge.questions`), or by a solver
    (`hostile.solver.reader`)."""

    def keys(self, net: Network, number: int, down: Down) -> list[str]:
        """The keys of each solution, as text."""

    def forwards(self, net: Network, number: int, down: Down) -> list[str]:
        """The lines of `forwards` for each solution."""

    def verdict(self, net: Network, number: int, question: Question, down: Down) -> Verdict:
        """The answer to a question, and whether ties matter."""


class Lines:
    """The lines of an answer, taken one after another."""

    def __init__(self, text: str) -> None:
        if text and not text.endswith("\n"):
            raise Differs("a last line that ends")
        self.rest = text.split("\n")[:-1]

    def take(self, pattern: str) -> re.Match[str]:
        """The next line, which has this form."""
        line = self.rest.pop(0) if self.rest else "(no more lines)"
        found = re.fullmatch(pattern, line)
        if not found:
            raise Differs(f"a line {pattern!r} where {line!r} stands")
        return found

    def begins(self, start: str) -> bool:
        """Whether the next line begins so."""
        return bool(self.rest) and self.rest[0].startswith(start)

    def many(self, count: int) -> list[str]:
        """The next lines."""
        taken, self.rest = self.rest[:count], self.rest[count:]
        return taken


@dataclasses.dataclass(frozen=True)
class Judge:
    """Judges answers over a network by what a reader finds."""

    net: Network
    reader: Reader

    def judge(self, call: Call, status: int, out: str) -> None:
        """Raises Differs where the output and status are none that are allowed."""
        lines = Lines(out)
        end(lines, status, self.is_good(call, lines))

    def is_good(self, call: Call, lines: Lines) -> bool:
        """Whether each answer is `yes`. Raises Differs where the next lines are none that are allowed."""
        found = [self._class(call, number, lines) for number in call.numbers]
        return all(found)

    def _class(self, call: Call, number: int, lines: Lines) -> bool:
        head = f"class {number + 1} "
        if call.task in ("solutions", "forwards"):
            self._listed(call, number, lines, "" if call.is_single else head)
            return True
        if call.task == "count":
            found = self.reader.keys(self.net, number, call.down)
            lines.take(re.escape(f"{head}solutions {len(found)}"))
            return True
        return self._asked(call, number, lines)

    def _listed(self, call: Call, number: int, lines: Lines, head: str) -> None:
        are_forwards = call.task == "forwards"
        wanted = (self.reader.forwards if are_forwards else self.reader.keys)(self.net, number, call.down)
        left = self._left(number, call.down)
        told = []
        for place in range(1, len(wanted) + 1):
            lines.take(re.escape(f"{head}solution {place}"))
            block = lines.many(len(left.names))
            told.append("\n".join(block) if are_forwards else repr(rests.keys(left, read(left, block))))
        if Counter(wanted) != Counter(told):
            raise Differs(f"{call.task} {sorted(wanted)}")

    def _left(self, number: int, down: Down) -> Problem:
        return questions.left_of(self.net, number, down)

    def _asked(self, call: Call, number: int, lines: Lines) -> bool:
        assert call.question
        whole = self.reader.verdict(self.net, number, call.question, call.down)
        tie = "" if whole.word == "no" else TIED
        found = lines.take(re.escape(f"class {number + 1} {whole.word}") + tie)
        if whole.word != "no":
            self._tied(number, call.down, whole, found)
        is_good = whole.word == "yes"
        if call.failing:
            return self._failing(call, number, lines) and is_good
        if whole.word == "no" and call.is_single and call.shows:
            left = self._left(number, call.down)
            held = read(left, lines.many(len(left.names)))
            if questions.is_true(left, held, call.question, call.down):
                raise Differs("labels that make the question false")
        return is_good

    def _tied(self, number: int, down: Down, whole: Verdict, found: re.Match[str]) -> None:
        if whole.ties_matter and not found["router"]:
            raise Differs("a line with `tied`")
        known = _ties(self.net, number, down)
        if found["router"] and known is not None and Word(found["by"]) not in known.get(found["router"], ()):
            told = ", ".join(f"{name} {word.value}" for name, words in known.items() for word in words)
            raise Differs(f"a tie that can be met: {told or 'none'}")

    def _failing(self, call: Call, number: int, lines: Lines) -> bool:
        assert call.question
        cases = failures(self.net, call)
        bad, least_tied, most_tied = 0, 0, 0
        for head, down in cases:
            one = self.reader.verdict(self.net, number, call.question, down)
            if one.word != "yes":
                lines.take(re.escape(f"{head} {one.word}"))
                bad += 1
            least_tied += one.word != "no" and one.ties_matter
            most_tied += one.word != "no" and _ties(self.net, number, down) != {}
        last = lines.take(
            re.escape(f"class {number + 1} failing {bad} of {len(cases)}") + r"(?: tied (?P<tied>[1-9][0-9]*))?"
        )
        if not least_tied <= int(last["tied"] or 0) <= most_tied:
            raise Differs(f"from {least_tied} to {most_tied} tied problems")
        return bad == 0


def end(lines: Lines, status: int, is_good: bool) -> None:
    """Raises Differs where lines are left, or the status is another."""
    if lines.rest:
        raise Differs(f"no line {lines.rest[0]!r}")
    if status != (0 if is_good else 8):
        raise Differs(f"status {0 if is_good else 8}")


@functools.lru_cache(512)
def _ties(net: Network, number: int, down: Down) -> dict[str, frozenset[Word]] | None:
    return ties(questions.left_of(net, number, down))


def judge(net: Network, call: Call, status: int, out: str, reader: Reader = questions) -> None:
    """Raises Differs where the output and status are none that are allowed by what a reader finds."""
    Judge(net, reader).judge(call, status, out)


def read(left: Problem, block: list[str]) -> list[labels.Label]:
    """The labels that lines have, in the order of the routers. Raises Differs where they are not stable."""
    try:
        held = labels.read("".join(f"{line}\n" for line in block).encode(), left)
    except Refused as refused:
        raise Differs(f"labels that can be read, not {refused}") from refused
    if [line.split(" ")[0] for line in block] != left.names:
        raise Differs("labels in the order of the routers")
    stop = labels.fault(left, held)
    if stop:
        raise Differs(f"stable labels, not {' '.join(stop)}")
    return held


def failures(net: Network, call: Call) -> list[tuple[str, Down]]:
    """What `failing` takes away, one after another: the head of its line, and what is down then."""
    if call.failing == "links":
        lost = questions.links_down(net, call.down)
        names = questions.link_names(net)
        return [
            (f"link {names[link]}", call.down.with_link(link)) for link in range(len(net.links)) if link not in lost
        ]
    return [
        (f"router {router.name}", call.down.with_router(place))
        for place, router in enumerate(net.routers)
        if place not in call.down.routers
    ]
