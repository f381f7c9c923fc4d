"""A loss asked of the program in two ways: by `without A:B`, and of the text in which the links are shut on one side.

Each way is one call with a file of questions, and each of its questions is compared."""

from __future__ import annotations

import dataclasses
import random
import re

from bonsainet.ask.program import Answer
from hostile.asking import Asker
from hostile.judge import asked_words
from hostile.judge.problem import Network
from hostile.makers.asked import Maker
from hostile.makers.shut import pair_to_lose, shut

MOST_QUESTIONS = 4
MOST_OTHERS = 3


@dataclasses.dataclass(frozen=True)
class Loss:
    """A loss of the links between two routers: the questions `without` these links, others about the same text, a file with
    both, one that asks the first of the text in which the links are shut, and that text."""

    questions: list[list[str]]
    others: list[list[str]]
    without: bytes
    after: bytes
    shut: bytes


def loss_of(chance: random.Random, text: bytes, net: Network) -> Loss | None:
    """A loss of two routers of a network, or None where no links of it can be shut by themselves."""
    pair = pair_to_lose(chance, net)
    if pair is None or not net.classes:
        return None
    number = str(chance.randint(1, len(net.classes)))
    lost = ":".join(net.routers[place].name for place in pair)
    asked = [_task(chance, net) for _ in range(chance.randint(1, MOST_QUESTIONS))]
    without = [[number, "without", lost, *task] for task in asked]
    others = [
        words for words in (Maker(chance, net).words(False) for _ in range(MOST_OTHERS)) if _is_answered(net, words)
    ]
    return Loss(
        without,
        others,
        _file([*without, *others]),
        _file([number, *task] for task in asked),
        shut(text, net, pair),
    )


def _is_answered(net: Network, words: list[str]) -> bool:
    """Whether words ask something of a network, so that a file with them is not refused."""
    try:
        asked_words.call_of(net, words)
        return True
    except (asked_words.NoForm, asked_words.Unanswered):
        return False


def _task(chance: random.Random, net: Network) -> list[str]:
    how = chance.random()
    if how < 0.3:
        return [chance.choice(["count", "forwards"])]
    failing = ["failing", chance.choice(["links", "routers"])] if how < 0.45 else []
    return [*failing, *Maker(chance, net).question()]


def _file(calls) -> bytes:
    return "".join(f"{' '.join(words)}\n" for words in calls).encode()


def asked(program: Asker, text: bytes, loss: Loss) -> tuple[Answer, Answer]:
    """What the program answers to a loss in the two ways."""
    without = program.ask("F", "questions", "S", texts={"F": text, "S": loss.without})
    after = program.ask("F", "questions", "S", texts={"F": loss.shut, "S": loss.after})
    return without, after


def blocks(answer: Answer) -> list[str]:
    """What is answered to each question of a file."""
    return re.split(r"^question \d+\n", answer.text, flags=re.M)[1:]


def essence(words: list[str], told: str) -> object:
    """What of an answer is not free: of solutions their members, of a question all but ties."""
    if words[-1] == "forwards":
        return sorted(re.split(r"^(?:class \d+ )?solution \d+\n", told, flags=re.M))
    return [line.partition(" tied ")[0] for line in told.splitlines()]


def fault(loss: Loss, without: Answer, after: Answer) -> tuple[list[str], str] | None:
    """The words of the first question whose two answers differ, with the answer of the text that is shut; or None."""
    one, other = blocks(without)[: len(loss.questions)], blocks(after)
    for at, words in enumerate(loss.questions):
        if len(one) == len(other) == len(loss.questions) and essence(words, one[at]) == essence(words, other[at]):
            continue
        return words, f"as of the text that is shut: status {after.status}\n{after.text}{after.reason}"
    if not loss.others and without.status != after.status:
        return loss.questions[0], f"status {after.status}, as of the text that is shut"
    return None
