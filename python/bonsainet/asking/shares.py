"""All classes shared out to processors, by ranges of their numbers. What is written is what one call would write."""
from __future__ import annotations

import dataclasses
import re
import subprocess
import time
from collections.abc import Callable, Iterator, Sequence

from bonsainet.ask.program import ASK, IS_DONE, NOT_ALL, Answer, NotAnswered, Program, Status, named
from bonsainet.ask.shares import processors, ranges, side_by_side
from bonsainet.asking.calls import LIST, QUESTIONS, TEXT, Asked, Call
from bonsainet.asking.reports import Part, Report, reports_of
from bonsainet.cli.progress import progress

# (below so many classes one process is as fast)
FEW_CLASSES = 64
RANGES_EACH = 4
# (classes that are decided fast take less, also on a slow machine)
SOON, SOON_A_BYTE = 5.0, 2e-6
# (true in all labels, so the program says nothing but whether there are some, and whether they are tied)
ALWAYS_TRUE = ("hops", "999999999", "*")
# (with a line for each, the file of questions that counts classes is not too long)
MOST_CLASSES = 1_000_000


def is_shared(call: Call, jobs: int) -> bool:
    """Whether the classes of a call are shared out where there are many."""
    return call.classes == "*" and jobs > 1


def class_count(asked: Asked) -> int | None:
    """How many classes the text has: the program refuses a file of questions at the first one about a class that is not
    there, and answers none of them. None where it says something else."""
    most = min(asked.text.count(b"\n") + 1, MOST_CLASSES)
    probe = "".join(f"{number} count\n" for number in (*range(1, most + 1), 0))
    answer = dataclasses.replace(asked, questions=probe.encode()).ask([TEXT, QUESTIONS, LIST])
    found = re.fullmatch(r"refused: questions line (\d+): NoClass", answer.reason)
    return int(found[1]) - 1 if found and int(found[1]) <= most else None


def shared(asked: Asked, call: Call, jobs: int, write: Callable[[bytes], None]) -> Answer:
    """Asks for all classes by so many processes, and hands their outputs to `write` in order, each as soon as those before
    it are there. The answer has the status and the line on standard error alone. One process answers where there are few
    classes, or a fault."""
    count = class_count(asked)
    if count is None or count <= FEW_CLASSES:
        answer = asked.ask(call.words(call.task))
        write(answer.out)
        return answer
    parts, status = ranges(range(1, count + 1), jobs * RANGES_EACH), int(Status.DONE)
    answers = side_by_side(lambda part: asked.ask(call.words(call.task, _word(part))), parts, jobs)
    with progress("classes", count) as advance:
        for (first, last), answer in zip(parts, answers):
            write(answer.out)
            advance(last - first + 1)
            if answer.status not in IS_DONE:
                return Answer(answer.status, b"", answer.err)
            status = max(status, answer.status)
    return Answer(NOT_ALL if status else Status.DONE, b"", b"")


def parts_of(
    text: str | bytes, task: Sequence[str], numbers: Sequence[int], seconds: float | None = None
) -> Iterator[tuple[tuple[int, int], tuple[Part, ...] | None]]:
    """What the program says to a task of these classes, ascending: for each range of them its parts, or none where it had
    not answered when so many seconds were over. NotAnswered where it ends otherwise than by its work."""

    def words(part: str) -> tuple[list[str], dict[str, str | bytes]]:
        return ["F", part, *task], {"F": text}

    for part, reports in _by_ranges(words, task[0], numbers, seconds):
        yield part, None if reports is None else reports[0].parts


def replies_of(
    text: str | bytes, tasks: Sequence[Sequence[str]], numbers: Sequence[int], seconds: float | None = None
) -> Iterator[tuple[tuple[int, int], list[tuple[Part, ...]] | None]]:
    """The same of several tasks, for which a process reads the text once."""

    def words(part: str) -> tuple[list[str], dict[str, str | bytes]]:
        lines = "".join(f"{part} {' '.join(task)}\n" for task in tasks)
        return ["F", "questions", "S"], {"F": text, "S": lines}

    for part, reports in _by_ranges(words, "questions", numbers, seconds):
        yield part, None if reports is None else [report.parts for report in reports]


Words = Callable[[str], tuple[list[str], dict[str, str | bytes]]]
Range = tuple[int, int]


def _by_ranges(
    words: Words, name: str, numbers: Sequence[int], seconds: float | None
) -> Iterator[tuple[Range, list[Report] | None]]:
    """What the program says to the words of each range of these classes."""
    asking = _Asking(named(ASK), words, name, None if seconds is None else time.monotonic() + seconds)
    few = len(numbers) <= FEW_CLASSES // RANGES_EACH
    asked_of = ranges(numbers, 1 if few else processors())
    # (each range is a reading of the text, so there are few of them as long as none lasts)
    is_divided = len(asked_of) < processors() * RANGES_EACH
    with progress("classes asked", len(numbers)) as advance:
        for found in side_by_side(asking.in_pieces if is_divided else asking.in_one, asked_of):
            for part, reports in found:
                advance(part[1] - part[0] + 1)
                yield part, reports


@dataclasses.dataclass(frozen=True)
class _Asking:
    """Who asks for ranges of classes, until some time by the clock."""

    program: Program
    words: Words
    name: str
    until: float | None

    def in_one(self, part: Range) -> list[tuple[Range, list[Report] | None]]:
        """A range, with what is said of it."""
        return [(part, self._asked(part))]

    def in_pieces(self, part: Range) -> list[tuple[Range, list[Report] | None]]:
        """The same, and where that lasts, pieces of the range side by side: a class that takes long holds few others up."""
        pieces = ranges(range(part[0], part[1] + 1), RANGES_EACH)
        reports = self._asked(part, SOON) if pieces[1:] else None
        return [(part, reports)] if reports is not None else [*zip(pieces, side_by_side(self._asked, pieces))]

    def _asked(self, part: Range, soon: float | None = None) -> list[Report] | None:
        """What is said of a range, none where it is not said in time."""
        given, texts = self.words(_word(part))
        left = None if self.until is None else self.until - time.monotonic()
        if left is not None and left <= 0:
            return None
        if soon is not None:
            soon += SOON_A_BYTE * len(texts["F"])
            left = soon if left is None else min(left / 2, soon)
        try:
            answer = self.program.ask(*given, texts=texts, seconds=left)
        except subprocess.TimeoutExpired:
            return None
        asked_for = f"{self.name} of classes {_word(part)}"
        if answer.status not in IS_DONE:
            raise NotAnswered(answer, asked_for, ASK)
        try:
            if not answer.out.endswith(b"\n"):
                raise ValueError("bonsai-ask ended within a line")
            return reports_of(answer.text)
        except ValueError as fault:
            raise NotAnswered(dataclasses.replace(answer, err=str(fault).encode()), asked_for, ASK) from None


def _word(part: Range) -> str:
    """A range as a word. It is one also where it has one class, so that solutions name theirs."""
    return f"{part[0]}-{part[1]}"
