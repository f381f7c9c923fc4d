"""Two states of a class beside one another, router by router. What is written alike on both sides is not read."""
from __future__ import annotations

import dataclasses
import functools
from collections.abc import Iterator, Mapping, Sequence, Sized
from typing import TypeVar

from bonsainet.ask.program import ASK, Status
from bonsainet.library.errors import ProgramFailed
from bonsainet.library.pairs import Pair
from bonsainet.library.routers import NearInterfaces, Routers
from bonsainet.library.routes import Near, Route, Routes, key_of, near_interfaces, routes_of
from bonsainet.library.states import Held, State, behind
from bonsainet.library.written import Written

Some = TypeVar("Some", bound=Sized)

NOTHING: Held = (b"none", b"none")
UNKNOWN: frozenset[Held] = frozenset([NOTHING])


class _Side:
    """A network of two: its interfaces, and its place of each router of both."""

    def __init__(self, routers: Routers, every: Sequence[str]) -> None:
        own = list(routers.texts)
        lacking = [name for name in every if name not in routers.texts]
        place = {name: at for at, name in enumerate([*own, *lacking])}
        self.near: Near = NearInterfaces(routers)
        self.names = own
        self.lacking = [f"{name} none".encode("ascii") for name in lacking]
        self.order = None if own == every else [place[name] for name in every]
        self.known: dict[tuple[str, Route | None, bytes], Routes] = {}

    @functools.cached_property
    def without_routes(self) -> State:
        """One solution, in which no router has a route."""
        written = Written(("\n".join(f"{name} none" for name in self.names).encode("ascii"),))
        return State(written, written)

    def held(self, state: State) -> Mapping[str, frozenset[Held]]:
        """What each router of this network holds in the solutions of a state."""
        return self._whole(state.held)

    def _whole(self, found: Some) -> Some:
        """What has something for each router, as it must."""
        self._must_be_whole(len(found))
        return found

    def count(self, written: bytes) -> None:
        """Sees that what is written has a line for each router, where it is not read."""
        self._must_be_whole(written.count(b"\n") + 1 if written else 0)

    def _must_be_whole(self, lines: int) -> None:
        if lines != len(self.names):
            raise ProgramFailed(Status.DONE, f"{ASK} did not write a line for each router")

    def lines(self, written: bytes) -> Sequence[bytes]:
        """A line for each router of both networks, of those that this one lacks too."""
        own = self._whole(written.split(b"\n") if written else [])
        if self.order is None:
            return own
        every = [*own, *self.lacking]
        return [every[at] for at in self.order]

    def route(self, name: str, label: bytes, hops: bytes) -> Routes:
        """What a router holds in the one solution."""
        key = name, key_of(label), hops
        if key not in self.known:
            self.known[key] = routes_of(name, [(label, hops)], self.near)
        return self.known[key]


@dataclasses.dataclass(frozen=True)
class Comparison:
    """What both networks have of each router, and the places of those whose interfaces towards others are not the same."""

    every: tuple[str, ...]
    sides: tuple[_Side, _Side]
    moved: frozenset[int]

    @classmethod
    def of(cls, both: Pair) -> Comparison:
        """The comparison of a pair."""
        every = list(dict.fromkeys(name for routers in both.routers for name in routers.texts))
        old, new = map(near_interfaces, both.around)
        moved = {pair[0] for pair in {**old, **new} if old.get(pair) != new.get(pair)}
        before, after = (_Side(routers, every) for routers in both.routers)
        return cls(tuple(every), (before, after), frozenset(at for at, name in enumerate(every) if name in moved))

    def differing(self, before: State, after: State) -> Iterator[tuple[str, Routes, Routes]]:
        """The routers that may hold other routes, with what they may hold in the solutions of both states."""
        if before.only and after.only:
            yield from self._differing_lines(before.only, after.only)
            return
        held = [side.held(state) for side, state in zip(self.sides, (before, after))]
        for at, name in enumerate(self.every):
            old, new = (routers.get(name, UNKNOWN) for routers in held)
            if old != new or at in self.moved:
                yield name, routes_of(name, old, self.sides[0].near), routes_of(name, new, self.sides[1].near)

    def _differing_lines(
        self, before: tuple[bytes, bytes], after: tuple[bytes, bytes]
    ) -> Iterator[tuple[str, Routes, Routes]]:
        if before == after and not self.moved and self.sides[0].order is self.sides[1].order is None:
            for written in before:
                self.sides[0].count(written)
            return
        labels, hops = ([side.lines(text) for side, text in zip(self.sides, texts)] for texts in zip(before, after))
        differing = {at for lines in (labels, hops) for at, (old, new) in enumerate(zip(*lines)) if old != new}
        for at in sorted(differing | self.moved):
            old, new = ((behind(labels[side][at]), behind(hops[side][at])) for side in (0, 1))
            # (which numbers are on a path is no part of a route)
            if at in self.moved or old[1] != new[1] or key_of(old[0]) != key_of(new[0]):
                name = self.every[at]
                yield name, self.sides[0].route(name, *old), self.sides[1].route(name, *new)
