"""The same network after a loss, written otherwise: a session with `shutdown` on one side, an interface that is passive."""

from __future__ import annotations

import random

from hostile.judge.network import Interface, Neighbor
from hostile.judge.problem import Network
from hostile.judge.words import dotted


def pair_to_lose(chance: random.Random, net: Network) -> tuple[int, int] | None:
    """Two routers whose links can be shut one by one: none of these has an interface with another adjacency. None where
    there are no such routers."""
    pairs = sorted({(link[0], link[1]) for link in net.links})
    good = [pair for pair in pairs if all(_is_alone(net, number) for number in _between(net, pair))]
    return chance.choice(good) if good else None


def shut(text: bytes, net: Network, pair: tuple[int, int]) -> bytes:
    """The text in which the links between two routers are shut on one side, that of their first line."""
    lines = text.decode("latin-1").split("\n")
    more: dict[int, list[str]] = {}
    gone: set[int] = set()
    for number in _between(net, pair):
        near, place = net.links[number][2], net.links[number][0]
        if isinstance(near, Neighbor):
            more.setdefault(near.line, []).append(f" neighbor {dotted(near.address)} shutdown")
            continue
        assert isinstance(near, Interface)
        process = net.routers[place].ospf
        assert process
        if process.default_passive:
            gone |= _lines_of(lines, process.line, f"no passive-interface {near.name}")
        else:
            more.setdefault(process.line, []).append(f" passive-interface {near.name}")
    found = []
    for number, line in enumerate(lines, 1):
        found += [] if number in gone else [line]
        found += more.get(number, [])
    return "\n".join(found).encode("latin-1")


def _between(net: Network, pair: tuple[int, int]) -> list[int]:
    return [number for number, link in enumerate(net.links) if {link[0], link[1]} == set(pair)]


def _is_alone(net: Network, number: int) -> bool:
    """Whether no other link has the end at which this one is shut."""
    end = (net.links[number][0], net.links[number][2])
    ends = [(link[at], link[at + 2]) for link in net.links for at in (0, 1)]
    return sum(place == end[0] and port is end[1] for place, port in ends) == 1


def _lines_of(lines: list[str], start: int, words: str) -> set[int]:
    """The numbers of the lines with these words behind a line, up to the end of its router."""
    found = set()
    for number in range(start, len(lines)):
        told = " ".join(lines[number].split())
        if told == "end":
            break
        if told == words:
            found.add(number + 1)
    return found
