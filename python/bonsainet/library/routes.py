"""A route that a router holds in a stable solution, and in what two of them differ."""
from __future__ import annotations

import dataclasses
import enum
import functools
from collections.abc import Collection, Iterable
from typing import Protocol

from bonsainet.ask.labels import BgpLabel, OspfLabel, read_solution
from bonsainet.asking.reports import forwards_of
from bonsainet.configs.network import Network

NextHop = tuple[str, tuple[str, ...]]
# (routers hold few labels and few sets of next hops)
KEPT = 1 << 16


class Near(Protocol):
    """For a pair of routers the interfaces of the first over which it may forward to the second."""

    def get(self, pair: tuple[str, str], otherwise: tuple[str, ...], /) -> tuple[str, ...]:
        """The interfaces for a pair."""


class Aspect(enum.Enum):
    """In what routes may differ."""

    COST = "cost"
    PREFERENCE = "preference"
    LENGTH = "length"
    COMMUNITIES = "communities"
    NEXT_HOPS = "to"


@dataclasses.dataclass(frozen=True)
class Route:
    """What a router holds in a stable solution: the preference, the length of the path and the communities in BGP, the cost
    in OSPF, and its next hops, each with the interfaces of its links. The numbers on the path are no part of it: of paths
    of equal length any may be held. In a change, what is the same before and after is none."""

    nexts: tuple[NextHop, ...] | None
    preference: int | None = None
    length: int | None = None
    communities: tuple[int, ...] | None = None
    cost: int | None = None

    @property
    def aspects(self) -> dict[Aspect, object]:
        """What it has."""
        found = {
            Aspect.COST: self.cost,
            Aspect.PREFERENCE: self.preference,
            Aspect.LENGTH: self.length,
            Aspect.COMMUNITIES: self.communities,
            Aspect.NEXT_HOPS: self.nexts,
        }
        return {aspect: value for aspect, value in found.items() if value is not None}

    def only(self, aspects: Collection[Aspect]) -> Route:
        """The same with nothing but these aspects."""
        return Route(
            self.nexts if Aspect.NEXT_HOPS in aspects else None,
            self.preference if Aspect.PREFERENCE in aspects else None,
            self.length if Aspect.LENGTH in aspects else None,
            self.communities if Aspect.COMMUNITIES in aspects else None,
            self.cost if Aspect.COST in aspects else None,
        )


Routes = frozenset[Route | None]


def near_interfaces(network: Network) -> dict[tuple[str, str], tuple[str, ...]]:
    """For each pair of routers the interfaces of the first over which it may forward to the second, as `interfaces_of` has
    them."""
    found: dict[tuple[str, str], list[tuple[int, str]]] = {}
    for link in network.links:
        for near, far in ((link.low, link.high), (link.high, link.low)):
            cost = near.cost or 0 if network.protocol == "ospf" else 0
            found.setdefault((near.device.name, far.device.name), []).append((cost, near.interface.name))
    return {pair: tuple(sorted(name for cost, name in ends if cost == min(ends)[0])) for pair, ends in found.items()}


def routes_of(router: str, held: Iterable[tuple[bytes, bytes]], near: Near) -> Routes:
    """The routes of a router, none where it has no route, by what the program writes: labels, and to whom it forwards."""
    return frozenset(_route(router, key_of(label), _nexts(hops), near) for label, hops in held)


@functools.lru_cache(KEPT)
def key_of(label: bytes) -> Route | None:
    """What two labels have in common between which a router may choose freely: a route without its next hops, none for no
    route."""
    match read_solution(f"r {label.decode('ascii')}")["r"]:
        case OspfLabel(cost):
            return Route(None, cost=cost)
        case BgpLabel(preference, path, communities):
            return Route(None, preference, len(path), communities)
        case _:
            return None


@functools.lru_cache(KEPT)
def _nexts(hops: bytes) -> tuple[str, ...]:
    (nexts,) = forwards_of([f"r {hops.decode('ascii')}"]).values()
    return nexts or ()


def _route(router: str, key: Route | None, nexts: Iterable[str], near: Near) -> Route | None:
    if key is None:
        return None
    return dataclasses.replace(
        key, nexts=tuple(sorted((further, near.get((router, further), ())) for further in nexts))
    )
