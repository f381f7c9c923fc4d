"""Texts of networks that grow by one rule, for measurements of time: OSPF and BGP, with few or many classes.

Each link has a subnet of two addresses from 172.16.0.0 on. An OSPF link costs 1, 2 or 3, by its place.
"""
from __future__ import annotations

import dataclasses
import functools
import math
import random
from collections.abc import Callable, Iterator
from ipaddress import IPv4Address

FIRST_LINK = int(IPv4Address("172.16.0.0"))
FIRST_PREFIX = int(IPv4Address("10.0.0.0"))
Graph = tuple[list[str], list[tuple[str, str]]]


def ring(size: int) -> Graph:
    """A ring."""
    names = _names(size)
    return names, [(names[place], names[(place + 1) % size]) for place in range(size)]


def grid(size: int) -> Graph:
    """A square grid of about as many routers."""
    side = max(2, math.isqrt(size))
    names = _names(side * side)
    right = [(names[place], names[place + 1]) for place in range(side * side) if place % side < side - 1]
    return names, right + [(names[place], names[place + side]) for place in range(side * (side - 1))]


def star(size: int) -> Graph:
    """One router in the middle."""
    names = _names(size)
    return names, [(names[0], other) for other in names[1:]]


def shuffled_line(size: int) -> Graph:
    """A line whose routers are in the text in a random order, the same one each time."""
    names = _names(size)
    random.Random(1).shuffle(names)
    along = sorted(names, key=lambda name: int(name[1:]))
    return names, list(zip(along, along[1:], strict=False))


def leaf_spine(size: int) -> Graph:
    """A sixteenth of the routers are spines; each leaf has links to eight of them at most."""
    count = max(2, size // 16)
    spines, leaves = [f"s{place}" for place in range(count)], [f"l{place}" for place in range(size - count)]
    return spines + leaves, [(leaf, spine) for leaf in leaves for spine in spines[:8]]


def _names(size: int) -> list[str]:
    return [f"r{place}" for place in range(size)]


def ospf(graph: Graph, is_loopback_each: bool = False) -> str:
    """The text over OSPF. The first router has a loopback, or each does."""
    names, links = graph
    ends: dict[str, list[tuple[int, int]]] = {name: [] for name in names}
    for place, link in enumerate(links):
        for side, name in enumerate(link):
            ends[name].append((FIRST_LINK + 2 * place + side, 1 + place % 3))

    def lines() -> Iterator[str]:
        for place, name in enumerate(names):
            yield f"hostname {name}"
            if is_loopback_each or place == 0:
                yield from ("interface Loopback0", f" ip address {IPv4Address(FIRST_PREFIX + place)} 255.255.255.255")
            for number, (address, cost) in enumerate(ends[name]):
                yield from (
                    f"interface GigabitEthernet0/{number}",
                    f" ip address {IPv4Address(address)} 255.255.255.254",
                    f" ip ospf cost {cost}",
                )
            yield from ("router ospf 1", " network 0.0.0.0 255.255.255.255 area 0", "end")

    return "".join(f"{line}\n" for line in lines())


def bgp(graph: Graph, origins: int, has_maps: bool) -> str:
    """The text over BGP. So many routers, the last ones, have a prefix each; with maps the neighbours of a router take
    four route maps in turn."""
    names, links = graph
    number = {name: 65001 + place for place, name in enumerate(names)}
    ends: dict[str, list[tuple[int, str]]] = {name: [] for name in names}
    for place, (low, high) in enumerate(links):
        ends[low].append((FIRST_LINK + 2 * place, high))
        ends[high].append((FIRST_LINK + 2 * place + 1, low))

    def lines() -> Iterator[str]:
        for place, name in enumerate(names):
            prefix = IPv4Address(FIRST_PREFIX + 256 * place) if place >= len(names) - origins else None
            yield f"hostname {name}"
            if prefix:
                yield from ("interface Vlan1", f" ip address {prefix + 1} 255.255.255.0")
            for at, (address, _) in enumerate(ends[name]):
                yield from (f"interface GigabitEthernet0/{at}", f" ip address {IPv4Address(address)} 255.255.255.254")
            yield f"router bgp {number[name]}"
            if prefix:
                yield f" network {prefix} mask 255.255.255.0"
            for at, (address, other) in enumerate(ends[name]):
                far = IPv4Address(address ^ 1)
                yield from (f" neighbor {far} remote-as {number[other]}", f" neighbor {far} send-community")
                if has_maps:
                    yield f" neighbor {far} route-map M{at % 4} in"
            if has_maps:
                yield from MAPS
            yield "end"

    return "".join(f"{line}\n" for line in lines())


MAPS = [
    line
    for at in range(4)
    for line in (
        f"ip community-list standard L{at} permit {at + 1}:1",
        f"route-map M{at} deny 10",
        f" match community L{at}",
        f"route-map M{at} permit 20",
        f" set community {at + 5}:1 additive",
    )
]


@dataclasses.dataclass(frozen=True)
class Shape:
    """Networks of one rule: the graph of a size, and the text of a graph."""

    graph: Callable[[int], Graph]
    text_of: Callable[[Graph], str]

    def text(self, size: int) -> str:
        """The text of a size."""
        return self.text_of(self.graph(size))


SHAPES: dict[str, Shape] = {
    "ospf-grid": Shape(grid, ospf),
    "ospf-ring": Shape(ring, ospf),
    "ospf-shuffled-line": Shape(shuffled_line, ospf),
    "ospf-loopbacks": Shape(leaf_spine, functools.partial(ospf, is_loopback_each=True)),
    "bgp-ring": Shape(ring, functools.partial(bgp, origins=1, has_maps=False)),
    "bgp-star": Shape(star, functools.partial(bgp, origins=1, has_maps=True)),
    "bgp-leaf-spine": Shape(leaf_spine, functools.partial(bgp, origins=2, has_maps=True)),
}
