"""All labels in which a small problem can rest, by trying every set of routes that loop-free paths give."""

from __future__ import annotations

import dataclasses
import functools
from collections.abc import Iterator

from hostile.judge import labels
from hostile.judge.labels import Label, Route
from hostile.judge.problem import Edge, Problem

MOST_ROUTES = 3000
MOST_STEPS = 60000


class TooLarge(Exception):
    """The problem has too many paths, or too many ways to combine them, to try all."""


@dataclasses.dataclass(frozen=True)
class Down:
    """Routers and links that are down, by place and by number."""

    routers: frozenset[int] = frozenset()
    links: frozenset[int] = frozenset()

    def with_link(self, link: int) -> Down:
        """One more link down."""
        return Down(self.routers, self.links | {link})

    def with_router(self, router: int) -> Down:
        """One more router down."""
        return Down(self.routers | {router}, self.links)


def without(whole: Problem, down: Down) -> Problem:
    """The problem that is left: who is lone follows from the edges that are left."""
    edges = [
        edge
        for edge in whole.edges
        if edge.link not in down.links and not {edge.importer, edge.exporter} & down.routers
    ]
    initial = {place: value for place, value in whole.initial.items() if place not in down.routers}
    lone: set[int] = set()
    if whole.protocol == "bgp":
        preferences: dict[int, set[int]] = {}
        for edge in edges:
            assert isinstance(edge.act, tuple)
            preferences.setdefault(edge.importer, set()).update(result[0] for result in edge.act if result is not None)
        lone = {place for place, found in preferences.items() if len(found) > 1 and place not in initial}
    return dataclasses.replace(whole, edges=edges, initial=initial, lone=lone)


@dataclasses.dataclass(frozen=True)
class Held:
    """A route that a router may hold, with what its exporter then holds."""

    router: int
    label: Label
    behind: Held | None

    def chain(self) -> Iterator[Held]:
        """The route, and those behind it up to the originator's."""
        one: Held | None = self
        while one:
            yield one
            one = one.behind


@functools.lru_cache(8)
def routes(whole: Problem) -> dict[int, list[Held]]:
    """For each router the routes that come to it over paths without a loop."""
    into: dict[int, list[Edge]] = {}
    for edge in whole.edges:
        into.setdefault(edge.exporter, []).append(edge)
    found: dict[int, dict[Held, None]] = {place: {} for place in range(len(whole.names))}
    waiting = [Held(place, labels.start(whole, place), None) for place in sorted(whole.initial)]
    total = 0
    while waiting:
        held = waiting.pop()
        if held in found[held.router]:
            continue
        found[held.router][held] = None
        total += 1
        if total > MOST_ROUTES:
            raise TooLarge
        passed = {one.router for one in held.chain()}
        for edge in into.get(held.router, []):
            if edge.importer in passed or (whole.protocol == "bgp" and edge.importer in whole.initial):
                continue
            route = labels.offered(whole, edge, held.label)
            if route is not None:
                waiting.append(Held(edge.importer, route, held))
    return {place: list(routes) for place, routes in found.items()}


def weak_key(problem: Problem, label: Label) -> object:
    """What real routers compare before they break a tie: preference and length; in OSPF the cost."""
    return (-label.preference, len(label.path)) if isinstance(label, Route) else label


class _Search:
    """Assigns routes to routers one after another, and takes back what a neighbour contradicts.

    Labels are numbers here, 0 where there is none, and what an edge makes of one is worked out once."""

    def __init__(self, whole: Problem) -> None:
        self.whole = whole
        self.labels: list[Label] = [None]
        self.numbers: dict[Label, int] = {None: 0}
        self.weak: list[object] = [None]
        self.chains = [self._chains(place, found) for place, found in sorted(routes(whole).items())]
        self.own: list[list[tuple[Edge, dict[int, int]]]] = [[] for _ in whole.names]
        self.importers: list[set[int]] = [set() for _ in whole.names]
        for edge in whole.edges:
            self.own[edge.importer].append((edge, {0: 0}))
            self.importers[edge.exporter].add(edge.importer)
        self.starts = {place: self._number(labels.start(whole, place)) for place in whole.initial}
        self.held: dict[int, int] = {}
        self.found: dict[tuple[int, ...], None] = {}
        self.steps = 0

    def _number(self, label: Label) -> int:
        if label not in self.numbers:
            self.numbers[label] = len(self.labels)
            self.labels.append(label)
            self.weak.append(weak_key(self.whole, label))
        return self.numbers[label]

    def _chains(self, place: int, found: list[Held]) -> list[dict[int, int]]:
        """What a router may hold, with what the routers behind it then hold: each once, and first nothing."""
        seen: dict[tuple[tuple[int, int], ...], None] = {((place, 0),): None}
        for held in found:
            seen[tuple(sorted((one.router, self._number(one.label)) for one in held.chain()))] = None
        return [dict(one) for one in seen]

    def run(self) -> list[list[Label]]:
        """All labels that rest."""
        self._next(0)
        return [[self.labels[number] for number in given] for given in self.found]

    def _next(self, place: int) -> None:
        self.steps += 1
        if self.steps > MOST_STEPS:
            raise TooLarge
        while place in self.held:
            place += 1
        if place == len(self.whole.names):
            if all(self._is_offered(router) for router in range(place)):
                self.found[tuple(self.held[router] for router in range(place))] = None
            return
        for chain in self.chains[place]:
            self._try(place, chain)

    def _try(self, place: int, chain: dict[int, int]) -> None:
        if any(self.held.get(router, label) != label for router, label in chain.items()):
            return
        new = {router: label for router, label in chain.items() if router not in self.held}
        self.held.update(new)
        affected = set(new).union(*(self.importers[router] for router in new)) & self.held.keys()
        if all(self._may_rest(router) for router in affected):
            self._next(place)
        for router in new:
            del self.held[router]

    def _offers(self, router: int) -> Iterator[int]:
        """The routes that a router has from itself and from routers that have their labels."""
        if router in self.starts:
            yield self.starts[router]
        for edge, made in self.own[router]:
            label = self.held.get(edge.exporter, 0)
            if label not in made:
                made[label] = self._number(labels.offered(self.whole, edge, self.labels[label]))
            if made[label]:
                yield made[label]

    def _may_rest(self, router: int) -> bool:
        """Whether no route from a router that has its label is better than the router's own."""
        mine = self.held[router]
        if not mine:
            return not any(self._offers(router))
        return all(self.weak[one] >= self.weak[mine] for one in self._offers(router))  # type: ignore[operator]

    def _is_offered(self, router: int) -> bool:
        """Whether a router's label is among the routes that it has; none is better, as each was tried when it came."""
        return not self.held[router] or self.held[router] in self._offers(router)


def keys(whole: Problem, given: list[Label]) -> tuple[object, ...]:
    """What distinguishes solutions: the keys of the labels."""
    return tuple(repr(labels.key(whole, one)) for one in given)


def solutions(whole: Problem) -> list[list[Label]]:
    """All stable labels, one for each different keys. What is best by its key is best but for ties, so all are among the weak
    rests."""
    found: dict[tuple[object, ...], list[Label]] = {}
    for given in weak_rests(whole):
        if labels.fault(whole, given) is None:
            found.setdefault(keys(whole, given), given)
    return list(found.values())


@functools.lru_cache(8)
def weak_rests(whole: Problem) -> list[list[Label]]:
    """All labels in which routers may rest however they break ties."""
    return _Search(whole).run()


def forwards_weakly(whole: Problem, given: list[Label], place: int) -> set[int]:
    """The routers to which a router may forward: the exporters of all routes as good as its own except for ties."""
    if given[place] is None or whole.protocol == "bgp" and place in whole.initial:
        return set()
    mine = weak_key(whole, given[place])
    routes = [
        (edge, labels.offered(whole, edge, given[edge.exporter])) for edge in whole.edges if edge.importer == place
    ]
    return {edge.exporter for edge, route in routes if route is not None and weak_key(whole, route) == mine}


def ties_matter(whole: Problem, found: list[list[Label]]) -> bool:
    """Whether routers may rest in keys, or forward to routers, of none of the stable labels that were found."""
    stable = {keys(whole, given): given for given in found}
    for given in weak_rests(whole):
        same = stable.get(keys(whole, given))
        if same is None:
            return True
        if any(
            forwards_weakly(whole, given, place) != labels.forwards(whole, same, place)
            for place in range(len(whole.names))
        ):
            return True
    return False
