"""The answer to a question about every stable solution."""
from __future__ import annotations

import dataclasses
from collections.abc import Iterator, Mapping

from bonsainet.ask.labels import Label, read_solution
from bonsainet.asking.reports import ClassAnswer, Loss, Tie

__all__ = ["Answer", "Labels", "Loss", "Reply", "Tie"]


class Labels(Mapping[str, Label]):
    """For each router its label, a BgpLabel or an OspfLabel, or none. Nobody changes it; `dict(labels)` can be changed."""

    def __init__(self, labels: Mapping[str, Label]) -> None:
        self._labels = dict(labels)

    def __getitem__(self, router: str) -> Label:
        return self._labels[router]

    def __iter__(self) -> Iterator[str]:
        return iter(self._labels)

    def __len__(self) -> int:
        return len(self._labels)

    def __hash__(self) -> int:
        return hash(frozenset(self._labels.items()))

    def __repr__(self) -> str:
        return f"Labels({self._labels})"


@dataclasses.dataclass(frozen=True)
class Answer:
    """The answer to a question for one class, of which `number` is the number.

    `verdict` is `yes` where the question is true in every stable solution, `no` where it is false in one, and `none`
    where there is no stable solution. `tied` names a router whose best offers tie, where the answer may hang on how real
    routers break ties. `counterexample` has the labels of a stable solution in which the question is false, if the verdict
    is `no` and one class was asked. `losses` are the links or routers without which the answer is not `yes`, of `tried`
    that were tried, where the question was asked with something failing; `tied_losses` says how many of these answers are
    tied.
    """

    words: tuple[str, ...]
    verdict: str
    tied: Tie | None = None
    counterexample: Labels | None = None
    losses: tuple[Loss, ...] = ()
    tried: int | None = None
    tied_losses: int = 0
    number: int = 0

    @classmethod
    def of(cls, question: tuple[str, ...], said: ClassAnswer) -> Answer:
        """The answer that the program gives to a question."""
        return cls(
            question,
            said.verdict,
            said.tie,
            Labels(read_solution("\n".join(said.labels))) if said.labels else None,
            said.failing.losses if said.failing else (),
            said.failing.tried if said.failing else None,
            said.failing.tied if said.failing else 0,
            said.number,
        )

    def __bool__(self) -> bool:
        """Whether the answer is `yes`, also without each one link or router that was tried."""
        return self.verdict == "yes" and not self.losses


@dataclasses.dataclass(frozen=True)
class Reply:
    """What is said to a line of a file of questions: the number of the line, its words, and an answer for each class, or
    for `count` the number of stable solutions of each."""

    line: int
    words: tuple[str, ...]
    answers: tuple[Answer, ...] = ()
    counts: tuple[int, ...] = ()

    def __bool__(self) -> bool:
        """Whether each answer is `yes`."""
        return all(self.answers)
