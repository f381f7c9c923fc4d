"""All that a network may come to rest in: for each class its stable solutions, router by router."""
from __future__ import annotations

import dataclasses
import functools
import re
from collections.abc import Iterable, Mapping, Sequence

from bonsainet.ask.program import IS_DONE, Status
from bonsainet.ask.shares import processors, side_by_side
from bonsainet.asking.reports import ClassAnswer, Tie, reports_of
from bonsainet.asking.shares import ALWAYS_TRUE
from bonsainet.library.calls import ASK, call, errors_of, program, reading
from bonsainet.library.errors import ProgramFailed
from bonsainet.library.networks import Network
from bonsainet.library.written import MOST_SOLUTIONS, Written, read

__all__ = ["MOST_SOLUTIONS", "Held", "State", "states_of"]

SOLUTIONS, FORWARDS = "solutions", "forwards"
# (a range has at least so many classes, since each process reads the text)
CLASSES_EACH = 256
ROUTE_MAP = b"route-map"
BEHIND_COMMUNITY = re.compile(rb"community([^\n]*)")
FIRST_COMMUNITIES = range(1, 1 << 16)

# What a router holds in a solution, as the program writes it: its label, and to whom it forwards.
Held = tuple[bytes, bytes]


@dataclasses.dataclass(frozen=True)
class State:
    """What a class may come to rest in: what is written of its solutions, and a tie if the solutions are tied. Of more than
    64 solutions the first 64 are read, and no tie is asked for."""

    labels: Written
    forwards: Written
    tie: Tie | None = None

    @property
    def solutions(self) -> int:
        """How many stable solutions were read."""
        return len(self.labels.solutions)

    @property
    def is_whole(self) -> bool:
        """Whether these are all."""
        return self.labels.is_whole

    @property
    def only(self) -> tuple[bytes, bytes] | None:
        """The labels and the next hops of the one solution, as they are written. None where there are several, or none."""
        labels, forwards = self.labels.only, self.forwards.only
        return None if labels is None or forwards is None else (labels, forwards)

    @functools.cached_property
    def held(self) -> Mapping[str, frozenset[Held]]:
        """What each router holds in the solutions."""
        labels, forwards = self.labels.lines(), self.forwards.lines()
        found = {}
        for lines in zip(zip(*labels), zip(*forwards), strict=True):
            name = lines[0][0].partition(b" ")[0].decode("ascii")
            found[name] = frozenset((behind(label), behind(hops)) for label, hops in zip(*lines))
        return found


def behind(line: bytes) -> bytes:
    """A line without its first word, the router's name."""
    return line.partition(b" ")[2]


@dataclasses.dataclass(frozen=True)
class _Share:
    """Classes of a network for which one task is done by one process."""

    network: Network
    first: int
    last: int
    task: str


def states_of(networks: Sequence[Network]) -> list[dict[int, State]]:
    """The states of all classes of each network, by their numbers. Processes share the classes; none is there for one class
    alone, unless the one before it has far more than 64 solutions."""
    # (the program is found once, and not by several threads)
    program(ASK)
    shares = [
        _Share(network, first, last, task)
        for task in (FORWARDS, SOLUTIONS)
        for network in networks
        for first, last in spans(len(network.classes))
    ]
    found: dict[tuple[int, str], dict[int, _Read]] = {
        (id(network), task): {} for network in networks for task in (SOLUTIONS, FORWARDS)
    }
    for share, part in zip(shares, side_by_side(_done, shares)):
        found[id(share.network), share.task] |= part
    return [_states(found[id(network), SOLUTIONS], found[id(network), FORWARDS]) for network in networks]


_Read = tuple[Written, Tie | None]


def _states(labels: Mapping[int, _Read], forwards: Mapping[int, _Read]) -> dict[int, State]:
    """The program lists the solutions of a class in one order for both tasks."""
    found = {number: State(written, forwards[number][0], tie) for number, (written, tie) in labels.items()}
    for state in found.values():
        if (
            len(state.forwards.solutions) != state.solutions
            or len({*state.labels.lengths, *state.forwards.lengths}) > 1
        ):
            raise ProgramFailed(Status.DONE, f"{ASK} did not list the same solutions twice")
    return found


def spans(count: int) -> list[tuple[int, int]]:
    """So many classes as ranges, few of them: both networks of a pair are asked at the same time, and for several tasks."""
    parts = max(1, processors() // 4, count // CLASSES_EACH)
    size = max(1, -(-count // parts))
    return [(first, min(first + size - 1, count)) for first in range(1, count + 1, size)]


def _done(share: _Share) -> dict[int, _Read]:
    """What the program writes of each class, with ties among the solutions."""
    found = dict.fromkeys(range(share.first, share.last + 1), Written()) | _read(share)
    ties: dict[int, Tie | None] = {}
    if share.task == SOLUTIONS:
        ties = _ties(share.network, [number for number, written in found.items() if written.is_whole])
    return {number: (written, ties.get(number)) for number, written in found.items()}


def _read(share: _Share) -> dict[int, Written]:
    """What the program writes of the classes that have solutions. It is asked again behind a class with far too many."""
    every: dict[int, Written] = {}
    first, is_whole = share.first, False
    while not is_whole and first <= share.last:
        found, is_whole = _written(share.network, f"{first}-{share.last}", share.task)
        if found and not first <= min(found) <= max(found) <= share.last:
            raise ProgramFailed(Status.DONE, f"{ASK} wrote of classes for which it was not asked")
        every |= found
        first = max(found, default=first) + 1
    return every


def _written(network: Network, classes: str, task: str) -> tuple[dict[int, Written], bool]:
    """What the program writes, class by class, and whether that is all."""
    wrong = None
    with errors_of(network.name, network.text):
        with program(ASK).output("F", classes, task, texts={"F": network.raw}) as stream:
            try:
                return read(stream)
            except ValueError as fault:
                # (where the program failed, the context says so at its end)
                wrong = fault
    raise ProgramFailed(Status.DONE, f"the program wrote what is of no known form: {wrong}") from wrong


def _ties(network: Network, numbers: list[int]) -> dict[int, Tie | None]:
    """The ties of these classes."""
    if not numbers or not may_tie(network):
        return {}
    question = " ".join(always_true(network))
    asked = "".join(f"{first}-{last} {question}\n" for first, last in runs(numbers))
    said = call(ASK, ["F", "questions", "S"], network.text, network.name, asked, IS_DONE)
    with reading(said):
        parts = [part for report in reports_of(said.text) for part in report.parts]
        ties = {part.number: part.tie for part in parts if isinstance(part, ClassAnswer)}
        return {number: ties[number] for number in numbers}


def may_tie(network: Network) -> bool:
    """Whether two routes may be as good as one another and yet differ. Routes of OSPF with one cost differ in nothing. Routes
    of BGP differ in communities, or in lone routers on their paths, where route maps make it so."""
    return network.is_bgp and ROUTE_MAP in network.raw


def always_true(network: Network) -> tuple[str, ...]:
    """A question that is true in all labels, so that the program says nothing but whether there are some, and whether they
    are tied. Whether a router lacks a community that no line has is decided faster than how long ways are."""
    named = {int(number) for words in BEHIND_COMMUNITY.findall(network.raw) for number in re.findall(rb"\d+", words)}
    free = next((number for number in FIRST_COMMUNITIES if number not in named), None)
    return ALWAYS_TRUE if free is None else ("lacks", f"0:{free}", network.classes[0].origins[0])


def runs(numbers: Iterable[int]) -> list[tuple[int, int]]:
    """Ascending numbers as ranges."""
    found: list[tuple[int, int]] = []
    for number in numbers:
        if found and found[-1][1] == number - 1:
            found[-1] = found[-1][0], number
        else:
            found.append((number, number))
    return found
