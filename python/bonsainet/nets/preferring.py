"""Texts of networks in BGP whose routers prefer some neighbours to others: an internet of customers, peers and providers,
and pairs of routers that disagree.

Each router has an AS number of its own, each link a subnet of two addresses from 172.16.0.0 on. r0 has 10.0.0.0/24.
"""
from __future__ import annotations

import dataclasses
import random
from collections.abc import Callable, Iterator
from ipaddress import IPv4Address, IPv4Network

FIRST_LINK = IPv4Address("172.16.0.0")
FIRST_PREFIX = IPv4Address("10.0.0.0")
FIRST_AS = 65001
CUSTOMER, PEER, PROVIDER, PREFERRED = 130, 100, 90, 200
OWN, UP = "1:1", "2:2"
Pair = tuple[int, int]


@dataclasses.dataclass
class Session:
    """What a router says of one neighbour: the entries of its maps in and out."""

    into: list[list[str]] = dataclasses.field(default_factory=list)
    out: list[list[str]] = dataclasses.field(default_factory=list)


Of = Callable[[int, int], Session]
"""The session of a router with another one."""


def text_of(pairs: list[Pair], of: Of, lists: list[str], origins: int = 1) -> str:
    """The text of a network: its links, the maps of each session, and the community lists that each router has. The
    first so many routers have a prefix each."""
    ports: dict[int, list[tuple[int, int, IPv4Address, IPv4Address]]] = {
        place: [] for place in range(routers_of(pairs))
    }
    for number, (low, high) in enumerate(pairs):
        even, odd = FIRST_LINK + 2 * number, FIRST_LINK + 2 * number + 1
        ports[low].append((number, high, even, odd))
        ports[high].append((number, low, odd, even))
    return "".join(
        f"{line}\n"
        for place, ends in ports.items()
        for line in _router(place, ends, of, lists, has_prefix=place < origins)
    )


def routers_of(pairs: list[Pair]) -> int:
    """How many routers the links have."""
    return 1 + max(max(pair) for pair in pairs)


def _router(
    place: int,
    ends: list[tuple[int, int, IPv4Address, IPv4Address]],
    of: Of,
    lists: list[str],
    has_prefix: bool,
) -> Iterator[str]:
    prefix = IPv4Network((FIRST_PREFIX + 256 * place, 24))
    yield f"hostname r{place}"
    if has_prefix:
        yield from ("interface Vlan1", f" ip address {prefix[1]} {prefix.netmask}")
    for number, _, own, _ in ends:
        yield from (f"interface Serial0/{number}", f" ip address {own} 255.255.255.254")
    yield f"router bgp {FIRST_AS + place}"
    if has_prefix:
        yield f" network {prefix[0]} mask {prefix.netmask}"
    maps: list[str] = []
    for number, other, _, far in ends:
        yield from (f" neighbor {far} remote-as {FIRST_AS + other}", f" neighbor {far} send-community")
        session = of(place, other)
        for way, entries in (("in", session.into), ("out", session.out)):
            if entries:
                yield f" neighbor {far} route-map {way.upper()}{number} {way}"
                maps += _map(f"{way.upper()}{number}", entries)
    yield from (*lists, *maps, "end")


def _map(name: str, entries: list[list[str]]) -> Iterator[str]:
    for number, (head, *rest) in enumerate(entries, 1):
        yield from (f"route-map {name} {head} {10 * number}", *(f" {line}" for line in rest))


@dataclasses.dataclass(frozen=True)
class Internet:
    """ASes with their links, and the providers of each. A provider has a greater number than its customers."""

    pairs: list[Pair]
    providers: dict[int, set[int]]

    def kind(self, place: int, other: int) -> str:
        """What the other AS is to this one."""
        if other in self.providers[place]:
            return "provider"
        return "customer" if place in self.providers[other] else "peer"

    def session(self, place: int, other: int) -> Session:
        """ASes prefer customers to peers to providers, and export what they have from peers and providers to customers
        alone (Gao and Rexford 2001)."""
        kind = self.kind(place, other)
        preference, community = {"customer": (CUSTOMER, OWN), "peer": (PEER, UP), "provider": (PROVIDER, UP)}[kind]
        taken = ["permit", f"set local-preference {preference}", f"set community {community}"]
        sent = [["permit"]] if kind == "customer" else [["deny", "match community UP"], ["permit"]]
        return Session([taken], sent)


def internet(seed: int, count: int) -> Internet:
    """So many ASes, at least 4: each but the last has one or two random providers, and two pairs are peers."""
    chance = random.Random(seed)
    providers = {
        place: set(chance.sample(range(place + 1, count), min(2, count - place - 1))) for place in range(count)
    }
    pairs = [(place, other) for place, above in providers.items() for other in sorted(above)]
    middle = range(1, count - 1)
    for _ in range(2):
        low, high = sorted(chance.sample(middle, 2))
        if (low, high) not in pairs:
            pairs.append((low, high))
            providers[low] -= {high}
    return Internet(pairs, providers)


def internet_text(seed: int, count: int, origins: int = 1) -> str:
    """The text of an internet of that seed. The first so many ASes, which have the fewest customers, have a prefix
    each."""
    made = internet(seed, count)
    return text_of(made.pairs, made.session, [f"ip community-list standard UP permit {UP}"], origins)


def around(count: int) -> tuple[list[Pair], list[Pair]]:
    """The links of so many pairs around r0, and the pairs: the two of a pair have a link with r0 each."""
    disagreeing = [(2 * number + 1, 2 * number + 2) for number in range(count)]
    return [(0, place) for pair in disagreeing for place in pair] + disagreeing, disagreeing


def in_a_row(count: int) -> tuple[list[Pair], list[Pair]]:
    """The links of so many pairs in a row, and the pairs: the first of a pair has a link with the router from which the
    next pair gets its routes."""
    links: list[Pair] = []
    disagreeing = []
    for top in range(0, 3 * count, 3):
        links += [(top, top + 1), (top, top + 2), (top + 1, top + 2), (top + 1, top + 3)]
        disagreeing.append((top + 1, top + 2))
    return links, disagreeing


def pairs_text(links: list[Pair], disagreeing: list[Pair]) -> str:
    """The text of a network in which the two of each pair prefer one another: each pair has two stable solutions
    (DISAGREE of Griffin, Shepherd and Wilfong 2002)."""
    preferring = {*disagreeing, *((other, place) for place, other in disagreeing)}

    def of(place: int, other: int) -> Session:
        is_preferred = (place, other) in preferring
        return Session([["permit", f"set local-preference {PREFERRED}"]] if is_preferred else [])

    return text_of(links, of, [])
