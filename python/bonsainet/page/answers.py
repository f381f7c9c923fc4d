"""What bonsai-ask says of each class: whether every router has a route, how many stable solutions there are, what the
first router of each group holds and to whom it forwards, and which failures cut somebody off."""
from __future__ import annotations

import dataclasses
from collections.abc import Sequence

from bonsainet.asking.reports import ClassAnswer, Count, Failing, Loss, Part, Solution, forwards_of
from bonsainet.asking.shares import replies_of
from bonsainet.asking.ways import carriers_of
from bonsainet.configs.compressed import Asked, Compressed

SECONDS = 120.0
GROUPS_SHOWN, SOLUTIONS_SHOWN, HOPS_SHOWN = 60, 4, 4


@dataclasses.dataclass(frozen=True)
class Held:
    """What a router holds in a stable solution: its label, as the program writes it, and its next hops with the interfaces
    to them, or in words that it has none."""

    label: str
    hops: str


@dataclasses.dataclass(frozen=True)
class Said:
    """What is said of a class: the answer to `route *` and the number of stable solutions, none where the program did not
    answer in its time; what the first router of each group holds in the first solutions, by the group's number; and the
    answers with something failing, where these were asked for."""

    route: str | None
    solutions: int | None
    held: dict[int, list[Held]] = dataclasses.field(default_factory=dict)
    failing: Failing | None = None

    @property
    def losses(self) -> list[tuple[str, str]]:
        """The failures that change the answer, in words, each with the answer without it."""
        return [(_name(loss), loss.verdict) for loss in self.failing.losses] if self.failing else []


class AnswersAsked:
    """Who asks for the answers of a text's classes. Whether routers have routes is asked of all of them at once."""

    def __init__(self, text: Asked, numbers: Sequence[int], failing: str | None = None) -> None:
        self.text, self.failing = text, failing
        self.place = {name: at for at, name in enumerate(text.network.by_name)}
        self.carriers = carriers_of(text.network)
        self.route: dict[int, ClassAnswer] = {}
        self.count: dict[int, int] = {}
        route = ("failing", failing, "route", "*") if failing else ("route", "*")
        for _, replies in replies_of(text.text, (route, ("count",)), numbers, SECONDS):
            for part in (part for parts in replies or () for part in parts):
                if isinstance(part, ClassAnswer):
                    self.route[part.number] = part
                elif isinstance(part, Count):
                    self.count[part.number] = part.solutions

    def by_class(self, classes: Sequence[Compressed]) -> dict[int, Said]:
        """What is said of some classes. What routers hold is asked of those with few groups and few solutions."""
        few = [
            one
            for one in classes
            if len(one.groups) <= GROUPS_SHOWN and 0 < self.count.get(one.number, 0) <= SOLUTIONS_SHOWN
        ]
        held = self._held(few)
        return {one.number: self._said(one.number, held.get(one.number, {})) for one in classes}

    def _said(self, number: int, held: dict[int, list[Held]]) -> Said:
        route = self.route.get(number)
        return Said(route.verdict if route else None, self.count.get(number), held, route.failing if route else None)

    def _held(self, classes: Sequence[Compressed]) -> dict[int, dict[int, list[Held]]]:
        """For each class and group what its first router holds in each solution."""
        found: dict[int, dict[int, list[Held]]] = {one.number: {} for one in classes}
        of = {one.number: one for one in classes}
        for _, replies in replies_of(self.text.text, (("solutions",), ("forwards",)), sorted(of), SECONDS):
            for labels, forwards in zip(*(map(_as_solution, parts) for parts in replies or ((), ()))):
                assert labels.number is not None
                for group in of[labels.number].groups:
                    at = self.place[group.members[0]]
                    held = self._of_router(group.members[0], labels.lines[at], forwards.lines[at])
                    found[labels.number].setdefault(group.number, []).append(held)
        return found

    def _of_router(self, name: str, label: str, forwards: str) -> Held:
        nexts = forwards_of([forwards])[name]
        if not nexts:
            return Held(label.partition(" ")[2], "has no route" if nexts is None else "here")
        shown = [self._hop(name, further) for further in nexts[:HOPS_SHOWN]]
        more = f" and {len(nexts) - HOPS_SHOWN} more" if len(nexts) > HOPS_SHOWN else ""
        return Held(label.partition(" ")[2], ", ".join(shown) + more)

    def _hop(self, router: str, further: str) -> str:
        over = self.carriers.get((router, further))
        return f"{further} ({over})" if over else further


def _as_solution(part: Part) -> Solution:
    assert isinstance(part, Solution)
    return part


def _name(loss: Loss) -> str:
    if loss.rank is None:
        return f"router {loss.routers[0]}"
    return f"link {loss.routers[0]} to {loss.routers[1]}" + (f", number {loss.rank}" if loss.rank > 1 else "")
