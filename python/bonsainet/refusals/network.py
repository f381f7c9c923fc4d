"""Pairs of routers that can clash: they name one thing twice. Whether they do the program says, of the two alone."""
from __future__ import annotations

from collections.abc import Iterator

from bonsainet.refusals.layout import openers
from bonsainet.refusals.rounds import Rest

Key = tuple[str, str]


def pairs(rests: list[Rest]) -> list[tuple[int, int]]:
    """For each router the earlier ones with which it shares a name, a number or an address, or from whose protocol or
    area it departs."""
    holder: dict[Key, int] = {}
    first: dict[str, tuple[str, int]] = {}
    found: list[tuple[int, int]] = []
    for number, rest in enumerate(rests):
        earlier = set()
        for key in _keys(rest):
            kind, value = key
            if kind in ("protocol", "area"):
                told, at = first.setdefault(kind, (value, number))
                if told != value and at != number:
                    earlier.add(at)
            elif holder.setdefault(key, number) != number:
                earlier.add(holder[key])
        found += [(other, number) for other in sorted(earlier)]
    return found


def _keys(rest: Rest) -> Iterator[Key]:
    above = openers(rest.texts)
    for place, text in enumerate(rest.texts):
        if place in rest.aside:
            continue
        match text.split():
            case ["hostname", name]:
                yield "name", name
            case ["router", "bgp", number] if above[place] == place:
                yield from (("protocol", "bgp"), ("number", number))
            case ["router", "ospf", _] if above[place] == place:
                yield "protocol", "ospf"
            case ["ip", "address", address, _]:
                yield "address", address
            case ["network", _, _, "area", area]:
                yield "area", area
