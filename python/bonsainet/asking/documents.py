"""What `bonsai-ask` says, as the JSON document that docs/data/bonsai-ask.schema.json describes."""
from __future__ import annotations

from typing import Any

from bonsainet.ask.labels import BgpLabel, Label, OspfLabel, read_solution
from bonsainet.ask.where import Identity
from bonsainet.asking.questions import Question
from bonsainet.asking.reports import ClassAnswer, Count, Failing, Loss, Part, Report, Solution, forwards_of
from bonsainet.configs.profile import community_text

FORM = 1


def document(
    program: Identity, words: list[str], status: int, reports: list[Report], questions: list[Question]
) -> dict[str, Any]:
    """The document: the words behind the file, the status, and for each question what the program says of each class.
    `questions` are those of a file of questions."""
    by_line = {question.line: question for question in questions}
    is_forwarding = words[-1:] == ["forwards"]
    made = []
    for report in reports:
        question = by_line.get(report.line) if report.line is not None else None
        asked = list(question.words) if question else words
        forwards = question.words[-1] == "forwards" if question else is_forwarding
        one: dict[str, Any] = {"words": asked, "classes": [_part(part, forwards) for part in report.parts]}
        if question:
            one |= {"line": question.line, "name": question.name}
        made.append(one)
    return {"form": FORM, "program": program.plain, "status": status, "questions": made}


def _part(part: Part, is_forwarding: bool) -> dict[str, Any]:
    match part:
        case Count(number, solutions):
            return {"class": number, "solutions": solutions}
        case Solution(number, place, lines):
            made: dict[str, Any] = {"class": number, "solution": place}
            if is_forwarding:
                return made | {"forwards": {name: _nexts(nexts) for name, nexts in forwards_of(lines).items()}}
            return made | {"labels": _labels(lines)}
        case ClassAnswer():
            return _answer(part)


def _nexts(nexts: tuple[str, ...] | None) -> list[str] | None:
    return None if nexts is None else list(nexts)


def _answer(answer: ClassAnswer) -> dict[str, Any]:
    tie = {"router": answer.tie.router, "by": answer.tie.by} if answer.tie else None
    made: dict[str, Any] = {"class": answer.number, "answer": answer.verdict, "tied": tie}
    if answer.labels:
        made["labels"] = _labels(answer.labels)
    if answer.failing:
        made["failing"] = _failing(answer.failing)
    return made


def _failing(failing: Failing) -> dict[str, Any]:
    return {"lost": [_loss(loss) for loss in failing.losses], "tried": failing.tried, "tied": failing.tied}


def _loss(loss: Loss) -> dict[str, Any]:
    if loss.rank is None:
        return {"router": loss.routers[0], "answer": loss.verdict}
    return {"link": list(loss.routers), "rank": loss.rank, "answer": loss.verdict}


def _labels(lines: tuple[str, ...]) -> dict[str, Any]:
    return {name: _label(label) for name, label in read_solution("\n".join(lines)).items()}


def _label(label: Label) -> dict[str, Any] | None:
    match label:
        case OspfLabel(cost):
            return {"cost": cost}
        case BgpLabel(preference, path, communities):
            return {
                "preference": preference,
                "path": list(path),
                "communities": [community_text(value) for value in communities],
            }
        case _:
            return None
