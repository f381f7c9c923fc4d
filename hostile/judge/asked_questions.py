"""What `bonsai-ask` must answer to a file of questions: each line as its words alone, but no labels behind `no`."""

from __future__ import annotations

import dataclasses

from hostile.judge import questions
from hostile.judge.asked import Call, Judge, Lines, Reader, end
from hostile.judge.asked_words import NoForm, Unanswered, call_of
from hostile.judge.problem import Network
from hostile.judge.reading import lines_of, split


class Faulty(Exception):
    """The first line of a file that is refused: its number from 1, and the kind."""

    def __init__(self, line: int, kind: str) -> None:
        super().__init__(f"questions line {line}: {kind}")


def calls_of(net: Network, text: bytes) -> list[tuple[int, Call]]:
    """What each line asks, with its number. Faulty where one is refused."""
    found = []
    for number, line in enumerate(lines_of(text), 1):
        given = split(line)
        if not given or line.startswith(b"!"):
            continue
        try:
            found.append((number, dataclasses.replace(call_of(net, given), shows=False)))
        except NoForm:
            raise Faulty(number, "BadForm") from None
        except Unanswered as why:
            raise Faulty(number, why.kind) from None
    return found


def judge(net: Network, text: bytes, status: int, out: str, reader: Reader = questions) -> None:
    """Raises Differs where output and status are none that are allowed of a file of questions without a fault."""
    lines, one, found = Lines(out), Judge(net, reader), []
    for number, call in calls_of(net, text):
        lines.take(f"question {number}")
        found.append(one.is_good(call, lines))
    end(lines, status, all(found))
