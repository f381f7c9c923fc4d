"""Links, classes and the routing problem of a class."""
from __future__ import annotations

import dataclasses
import functools
import itertools
from typing import Any

from hostile.judge.network import Interface, Neighbor, Router
from hostile.judge.policies import default_preference, imported, prefix_list_permits
from hostile.judge.words import Prefix

Act = Any
"""What an edge does: in OSPF a cost; in BGP a tuple of what each set of communities becomes."""


@dataclasses.dataclass(frozen=True)
class Edge:
    """One direction of a link."""

    importer: int
    exporter: int
    link: int
    act: Act


@dataclasses.dataclass(eq=False)
class Problem:
    """The routing problem of a class over routers by place. `sets` are the sets of communities that acts list."""

    names: list[str]
    numbers: list[int]
    protocol: str
    initial: dict[int, int]
    edges: list[Edge]
    lone: set[int]
    sets: list[frozenset[int]]
    link_count: int
    unnamed: int

    @functools.cached_property
    def places(self) -> dict[frozenset[int], int]:
        """The place of each set in `sets`."""
        return {held: place for place, held in enumerate(self.sets)}

    @functools.cached_property
    def distinguished(self) -> frozenset[int]:
        """The communities that acts distinguish."""
        return self.sets[-1] - {self.unnamed}

    @functools.cached_property
    def lone_numbers(self) -> frozenset[int]:
        """The AS numbers of lone routers."""
        return frozenset(self.numbers[place] for place in self.lone)


@dataclasses.dataclass(eq=False)
class Class:
    """A class of destinations: its prefixes, and its originators with preference or cost."""

    prefixes: list[Prefix]
    origins: dict[int, int]


@dataclasses.dataclass(eq=False)
class Network:
    """Routers, their links in order, and their classes."""

    routers: list[Router]
    protocol: str
    links: list[tuple[int, int, Any, Any]]
    classes: list[Class]
    unmatched: list[tuple[str, int]]


def network(routers: list[Router]) -> Network:
    """The network of routers that were read."""
    starts = sorted(
        (part.line, name) for router in routers for name, part in (("bgp", router.bgp), ("ospf", router.ospf)) if part
    )
    protocol = starts[0][1] if starts else "none"
    links: list[tuple[int, int, Any, Any]]
    links = list(_sessions(routers)) if protocol == "bgp" else list(_adjacencies(routers))
    used = {
        (place, other.address)
        for link in links
        for place, other in zip(link[:2], link[2:])
        if isinstance(other, Neighbor)
    }
    unmatched = [
        (router.name, other.address)
        for place, router in enumerate(routers)
        if router.bgp
        for other in router.bgp.neighbors.values()
        if (place, other.address) not in used
    ]
    return Network(routers, protocol, links, _classes(routers, protocol), unmatched)


def _sessions(routers: list[Router]) -> list[tuple[int, int, Neighbor, Neighbor]]:
    owner = {port.address: (place, port) for place, router in enumerate(routers) for port in router.ups}
    lines = [
        (place, other) for place, router in enumerate(routers) if router.bgp for other in router.bgp.neighbors.values()
    ]
    of: dict[int, list[Neighbor]] = {}
    for place, other in lines:
        of.setdefault(place, []).append(other)
    found = []
    for u, one in lines:
        far = owner.get(one.address)
        v = far[0] if far else u
        for two in of.get(v, []):
            near = owner.get(two.address)
            if u == v or one.line > two.line or one.shut or two.shut or far is None or near is None or near[0] != u:
                continue
            if (
                far[1].subnet == near[1].subnet
                and one.number == _own_number(routers[v])
                and two.number == _own_number(routers[u])
            ):
                found.append((u, v, one, two))
    return sorted(found, key=lambda link: (link[2].line, link[3].line))


def _own_number(router: Router) -> int | None:
    return router.bgp.number if router.bgp else None


def _adjacencies(routers: list[Router]) -> list[tuple[int, int, Interface, Interface]]:
    ports = sorted(
        ((place, port) for place, router in enumerate(routers) for port in router.ups if router.is_active(port)),
        key=lambda pair: pair[1].line,
    )
    found = [
        (u, v, one, two)
        for (u, one), (v, two) in itertools.combinations(ports, 2)
        if u != v and one.subnet == two.subnet
    ]
    return sorted(found, key=lambda link: (link[2].line, link[3].line))


def _classes(routers: list[Router], protocol: str) -> list[Class]:
    origins: dict[Prefix, dict[int, int]] = {}
    for place, router in enumerate(routers):
        for port in router.ups:
            if protocol == "ospf" and port.ospf_cost is not None and router.in_area(port):
                origins.setdefault(port.subnet, {})[place] = port.ospf_cost
            elif protocol == "bgp" and router.bgp and port.subnet in router.bgp.networks:
                origins.setdefault(port.subnet, {})[place] = default_preference(router)
    alike: dict[object, Class] = {}
    for prefix in sorted(origins):
        answers = tuple(prefix_list_permits(router, name, prefix) for router in routers for name in router.prefix_lists)
        key = (tuple(sorted(origins[prefix].items())), answers)
        alike.setdefault(key, Class([], origins[prefix])).prefixes.append(prefix)
    return list(alike.values())


def named(routers: list[Router]) -> frozenset[int]:
    """The communities that a text names."""
    return frozenset(value for router in routers for value, _ in router.named)


def unnamed(values: frozenset[int]) -> int:
    """A community that is none of these."""
    return next(value for value in itertools.count(1) if value not in values)


@functools.lru_cache(100)
def sets_over(values: frozenset[int]) -> list[frozenset[int]]:
    """All sets of these communities and of one that no line names."""
    universe = [*sorted(values), unnamed(values)]
    return [frozenset(chosen) for size in range(len(universe) + 1) for chosen in itertools.combinations(universe, size)]


@functools.lru_cache(200)
def problem(net: Network, destinations: Class, values: frozenset[int] | None = None) -> Problem:
    """The problem of a class, with acts over the communities `values`, by default those that the text names."""
    values = named(net.routers) if values is None else values
    sets = sets_over(values) if net.protocol == "bgp" else []
    edges: list[Edge] = []
    preferences: dict[int, set[int]] = {}
    for number, (low, high, one, two) in enumerate(net.links):
        for u, v, near, far in ((low, high, one, two), (high, low, two, one)):
            if net.protocol == "ospf":
                edges.append(Edge(u, v, number, near.ospf_cost))
                continue
            if u in destinations.origins:
                continue
            results = [
                imported(net.routers[u], near, net.routers[v], far, destinations.prefixes[0], carried)
                for carried in sets
            ]
            if any(result is not None for result in results):
                edges.append(Edge(u, v, number, tuple(results)))
                preferences.setdefault(u, set()).update(result[0] for result in results if result is not None)
    lone = {u for u, found in preferences.items() if len(found) > 1}
    numbers = [router.bgp.number if router.bgp else 0 for router in net.routers]
    return Problem(
        [router.name for router in net.routers],
        numbers,
        net.protocol,
        dict(destinations.origins),
        edges,
        lone,
        sets,
        len(net.links),
        unnamed(values),
    )
