"""Questions about one class or all, each asked of every stable solution."""
from __future__ import annotations

import abc
import dataclasses
from collections.abc import Iterable, Sequence
from typing import TYPE_CHECKING, Generic, TypeVar

from bonsainet.ask.labels import Label, read_solution
from bonsainet.ask.program import ASK, IS_DONE, Status
from bonsainet.ask.program import Answer as Said
from bonsainet.asking.reports import ClassAnswer, Count, Part, Solution, forwards_of, reports_of
from bonsainet.asking.shares import parts_of
from bonsainet.asking.ways import Interfaces, interfaces_of, reached
from bonsainet.library.answers import Answer
from bonsainet.library.calls import call, errors_of, must_be_words, reading
from bonsainet.library.errors import ProgramFailed, WordsRefused

if TYPE_CHECKING:
    from bonsainet.library.classes import DestClass
    from bonsainet.library.networks import Network

EVERY = "*"
Routers = str | Iterable[str]
Made = TypeVar("Made", covariant=True)
Of = TypeVar("Of", ClassAnswer, Count)


def names_of(names: Routers) -> tuple[str, ...]:
    """One name or several as several."""
    return (names,) if isinstance(names, str) else tuple(names)


def _names(routers: Routers) -> str:
    """Routers as a word: `*`, one name, or names with commas between them."""
    return ",".join(names_of(routers))


class Asking(abc.ABC, Generic[Made]):
    """The questions. Routers are `*` for all, one name, or several. Traffic follows every router to whom a router forwards,
    and the first and the last router of a way belong to it."""

    def route(self, routers: Routers = EVERY) -> Made:
        """Whether each of the routers has a route."""
        return self._asked("route", _names(routers))

    def isolated(self, routers: Routers = EVERY) -> Made:
        """Whether none of the routers has a route."""
        return self._asked("isolated", _names(routers))

    def hops(self, most: int, routers: Routers = EVERY) -> Made:
        """Whether traffic of the routers passes at most so many links."""
        return self._asked("hops", str(most), _names(routers))

    def through(self, way: Routers, routers: Routers = EVERY) -> Made:
        """Whether traffic of the routers that comes to a router of the prefix has passed one of `way`. It ends at each such
        router, also where that forwards it on."""
        return self._asked("through", _names(way), _names(routers))

    def avoids(self, way: Routers, routers: Routers = EVERY) -> Made:
        """Whether traffic of the routers passes none of `way`."""
        return self._asked("avoids", _names(way), _names(routers))

    def carries(self, community: str, routers: Routers = EVERY) -> Made:
        """Whether each of the routers that has a route holds the community in it."""
        return self._asked("carries", community, _names(routers))

    def lacks(self, community: str, routers: Routers = EVERY) -> Made:
        """Whether none of the routers that has a route holds the community in it."""
        return self._asked("lacks", community, _names(routers))

    @abc.abstractmethod
    def _asked(self, *question: str) -> Made:
        """The answer to a question."""


def words_of(down: Sequence[str], failing: str | None, question: Sequence[str]) -> list[str]:
    """A question as words behind that for the classes."""
    return [*(["without", ",".join(down)] if down else []), *(["failing", failing] if failing else []), *question]


@dataclasses.dataclass(frozen=True)
class Questions(Asking[Answer]):
    """The questions about a class. `down` are the routers `A` and links `A:B` that are down, `failing` is `links`,
    `routers` or nothing: what each answer is tried without, one at a time."""

    of: DestClass
    down: tuple[str, ...] = ()
    failing: str | None = None

    def count(self) -> int:
        """How many stable solutions there are."""
        said, parts = self._said("count")
        with reading(said):
            return _only(Count, parts).solutions

    def solutions(self) -> list[dict[str, Label]]:
        """Each stable solution: for each router its label, a BgpLabel or an OspfLabel, or none."""
        said, parts = self._said("solutions")
        with reading(said):
            return [read_solution("\n".join(lines)) for lines in _solutions(parts)]

    def forwards(self) -> list[dict[str, tuple[str, ...] | None]]:
        """For each stable solution the next hops: to whom each router forwards, nobody where it holds its own route, and
        none where it has no route."""
        said, parts = self._said("forwards")
        with reading(said):
            return [forwards_of(lines) for lines in _solutions(parts)]

    def ways(self, router: str) -> list[dict[str, dict[str, tuple[str, ...]] | None]]:
        """For each stable solution the ways that traffic of a router goes: each router that it may pass, nearest first, with
        its next hops and the interfaces to each, `near > far`; none where the router has no route. In OSPF each of several
        interfaces to one next hop carries traffic; of several BGP sessions one or more do."""
        if router not in self.of.network.routers:
            raise WordsRefused(f"UnknownRouter {router}", "UnknownRouter")
        interfaces = interfaces_of(self.of.network.parsed)
        return [{at: _hops(at, nexts[at], interfaces) for at in reached(nexts, router)} for nexts in self.forwards()]

    def _asked(self, *question: str) -> Answer:
        said, parts = self._said(*question)
        with reading(said):
            return Answer.of(question, _only(ClassAnswer, parts))

    def _said(self, *task: str) -> tuple[Said, tuple[Part, ...]]:
        network = self.of.network
        words = ["F", str(self.of.number), *words_of(self.down, self.failing, task)]
        said = call(ASK, words, network.text, network.name, done=IS_DONE)
        with reading(said):
            (report,) = reports_of(said.text)
            return said, report.parts


def _only(kind: type[Of], parts: tuple[Part, ...]) -> Of:
    """The one part of a reply. ValueError where it has others."""
    (part,) = parts
    if not isinstance(part, kind):
        raise ValueError(f"no {kind.__name__}: {part}")
    return part


def _solutions(parts: tuple[Part, ...]) -> list[tuple[str, ...]]:
    """The lines of each solution. ValueError where not all are of as many lines."""
    found = [part.lines for part in parts if isinstance(part, Solution)]
    if len(found) < len(parts) or len({len(lines) for lines in found}) > 1:
        raise ValueError("solutions of several lengths")
    return found


def _hops(router: str, nexts: tuple[str, ...] | None, interfaces: Interfaces) -> dict[str, tuple[str, ...]] | None:
    return None if nexts is None else {further: tuple(interfaces.get((router, further), ())) for further in nexts}


@dataclasses.dataclass(frozen=True)
class AllQuestions(Asking[tuple[Answer, ...]]):
    """The questions about all classes of a network, each with an answer for each class, in order. `down` and `failing` are
    those of `Questions`. Processes share the classes."""

    of: Network
    down: tuple[str, ...] = ()
    failing: str | None = None

    def count(self) -> tuple[int, ...]:
        """How many stable solutions each class has."""
        return tuple(part.solutions for part in self._each(Count, "count"))

    def _asked(self, *question: str) -> tuple[Answer, ...]:
        return tuple(Answer.of(question, part) for part in self._each(ClassAnswer, *question))

    def _each(self, kind: type[Of], *task: str) -> list[Of]:
        """The part of each class in the reply to a task."""
        network = self.of
        words: list[str] = words_of(self.down, self.failing, task)
        must_be_words(words)
        numbers = [one.number for one in network.classes]
        if not numbers:
            # (names are looked at also where there is no class)
            call(ASK, ["F", EVERY, *words], network.text, network.name, done=IS_DONE)
            return []
        with errors_of(network.name, network.text, words=words):
            parts = [part for _, parts in parts_of(network.text, words, numbers) for part in parts or ()]
        found = [part for part in parts if isinstance(part, kind)]
        if len(found) < len(parts) or [part.number for part in found] != numbers:
            raise ProgramFailed(Status.DONE, f"{ASK} did not answer for each class")
        return found
