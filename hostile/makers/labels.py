"""Random labels that come close to what decides: communities that lists name, ties, lone routers on paths, best
candidates and others."""
from __future__ import annotations

import random

from hostile.judge import labels
from hostile.judge.problem import Network, Problem

COSTS = [1, 2, 5, 10, 64, 65535, 4294967295, 4294967294, 4294901760]


def telling_sets(net: Network) -> list[frozenset[int]]:
    """The sets of communities that a list names or a map sets."""
    found = [named for router in net.routers for lines in router.community_lists.values() for _, named, _ in lines]
    found += [
        entry.change[1]
        for router in net.routers
        for entries in router.maps.values()
        for entry in entries.values()
        if entry.change
    ]
    return found or [frozenset()]


class Maker:
    """Labels for a problem."""

    def __init__(self, chance: random.Random, net: Network, problem: Problem) -> None:
        self.chance, self.problem = chance, problem
        self.telling = telling_sets(net)

    def text(self) -> bytes:
        """A solution: random routes, of which the first routers have their best candidate, or one of their
        candidates."""
        whole = self.problem
        tied = self._route() if self.chance.random() < (0.9 if whole.lone else 0.6) else None
        held = [
            labels.start(whole, place) if place in whole.initial else self._like(tied)
            for place in range(len(whole.names))
        ]
        for place in range(self.chance.randint(1, min(3, len(held)))):
            held[place] = self._chosen(labels.candidates(whole, held, place))
        return "".join(f"{name} {labels.text(label)}\n" for name, label in zip(whole.names, held)).encode()

    def _chosen(self, found: list[labels.Label]) -> labels.Label:
        """The best of some candidates, or one that ties with it except for the last key, or any."""
        if not found:
            return None
        best = min(found, key=lambda route: labels.key(self.problem, route))
        how = self.chance.random()
        if how < 0.4 or not isinstance(best, labels.Route):
            return best if how < 0.6 else self.chance.choice(found)
        same: list[labels.Label] = [
            route
            for route in found
            if isinstance(route, labels.Route)
            and (route.preference, len(route.path), route.communities)
            == (best.preference, len(best.path), best.communities)
        ]
        return self.chance.choice(same if how < 0.75 else found)

    def _like(self, tied: labels.Label) -> labels.Label:
        if not isinstance(tied, labels.Route):
            return self._route()
        how = self.chance.random()
        if how < 0.1:
            return None
        communities = tied.communities if how < 0.7 else self._communities()
        return labels.Route(tied.preference, self._path(len(tied.path)), communities)

    def _route(self) -> labels.Label:
        if self.chance.random() < 0.1:
            return None
        if self.problem.protocol != "bgp":
            return self.chance.choice(COSTS)
        return labels.Route(
            self.chance.choice([100, 100, 50, 0, 4294967295]),
            self._path(self.chance.randint(0, 3)),
            self._communities(),
        )

    def _path(self, length: int) -> tuple[int, ...]:
        lone = [self.problem.numbers[place] for place in self.problem.lone]
        numbers = [64999, 64999, 64998, 4294967295, *self.problem.numbers, *lone, *lone, *lone]
        return tuple(self.chance.choice(numbers) or 1 for _ in range(length))

    def _communities(self) -> frozenset[int]:
        if self.chance.random() < 0.3:
            return self.chance.choice(self.problem.sets)
        telling = self.chance.choice(self.telling)
        if self.chance.random() < 0.6 or not telling:
            return telling
        other = self.chance.choice([*self.problem.sets[-1]])
        return telling - {self.chance.choice([*telling])} if self.chance.random() < 0.5 else telling | {other}
