"""Calls of a program that answers questions whose files cannot be read, or are too long."""

from __future__ import annotations

import dataclasses
import random
from collections.abc import Mapping

from bonsainet.ask.program import Answer
from hostile.asking import Asker
from hostile.judge import answers
from hostile.judge.problem import Network

SOME = 0.03
"""How many of the texts get such a call."""
MOST = 16_777_216
ABSENT = "no-such-file"
REFUSED, READ_FAULT = 1, 3


@dataclasses.dataclass(frozen=True)
class Call:
    """Words with the texts of the files that they name, and what the call must end with."""

    words: tuple[str, ...]
    texts: Mapping[str, bytes]
    status: int
    reason: str

    def is_ended_by(self, answer: Answer) -> bool:
        """Whether the answer is that end."""
        return (answer.status, answer.reason, answer.out) == (self.status, self.reason, b"")


def call_of(chance: random.Random, text: bytes, net: Network | answers.Expected) -> Call:
    """Both files are read one after the other, so of a text that is refused the second one says nothing."""
    absent, long = f"read fault: {ABSENT}", b"!" * (MOST + 1)
    refusal = net.reason if isinstance(net, answers.Expected) else None
    first = [
        Call((ABSENT, "1", "count"), {}, READ_FAULT, absent),
        Call((ABSENT, "questions", "S"), {"S": b"1 count\n"}, READ_FAULT, absent),
        Call(("F", "1", "count"), {"F": long}, REFUSED, "refused: FileTooLong"),
    ]
    second = [
        Call(("F", "questions", ABSENT), {"F": text}, REFUSED if refusal else READ_FAULT, refusal or absent),
        Call(("F", "questions", "S"), {"F": text, "S": long}, REFUSED, refusal or "refused: questions FileTooLong"),
    ]
    return chance.choice([*first, *second])


def fault(program: Asker, call: Call) -> tuple[str, Answer] | None:
    """What the call must end with, and its answer, where these differ."""
    answer = program.ask(*call.words, texts=call.texts)
    return None if call.is_ended_by(answer) else (f"status {call.status}, {call.reason}", answer)
