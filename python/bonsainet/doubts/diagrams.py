"""Doubts about route maps whose diagrams grow with the product of their matched lists, before a program is asked for them.

Where lines permit and deny in turn, a diagram in the order of communities holds for each list how far it is decided. Of
lists with communities of their own, mixed in number, these numbers multiply.
"""
from __future__ import annotations

import dataclasses
import math
from collections import Counter
from collections.abc import Iterator

from bonsainet.configs.network import Network
from bonsainet.configs.profile import CommunityLine, Device
from bonsainet.configs.text import Line
from bonsainet.doubts.finding import Doubt, doubt

SORT = "multiplied"
# (four lists of 32 lines come to 65,536 and take seconds, five come to a million and do not end)
MOST = 1 << 18


@dataclasses.dataclass(frozen=True)
class _Listed:
    """A matched list: its first and its last community that no other list of the map has, and in how many places of its lines
    permits and denies take turns."""

    name: str
    line: Line
    first: int
    last: int
    turns: int


def doubts_of_diagrams(network: Network) -> Iterator[Doubt]:
    """The maps that neighbours name, whose matched lists multiply to more than may end."""
    for device in network.devices:
        neighbors = device.bgp.by_number.values() if device.bgp else ()
        for name in dict.fromkeys(one for each in neighbors for one in (each.map_in, each.map_out) if one):
            if name in device.maps:
                yield from _multiplied(device, name)


def _multiplied(device: Device, name: str) -> Iterator[Doubt]:
    lists = _most_at_once(_listed(device, name))
    count = math.prod(one.turns for one in lists)
    if count > MOST:
        told = ", ".join(f"{one.name} (line {one.line.place.line}, {one.turns})" for one in lists)
        yield doubt(
            SORT,
            device.name,
            device.maps[name][0].line,
            f"route map {name}: its diagram grows with the product of {len(lists)} matched lists, {count:,}, and a command that "
            f"compresses may not end: {told}, each with how often permit and deny take turns among its own communities, which are "
            "mixed in number with those of the others. Split the map, or number communities so that those of one list are together",
        )


def _listed(device: Device, name: str) -> list[_Listed]:
    """The lists that the entries of a map match, those with communities of their own."""
    names = dict.fromkeys(each for entry in device.maps[name] for each in entry.community_list_names)
    lists = {each: device.community_lists[each] for each in names if each in device.community_lists}
    named = Counter(value for lines in lists.values() for value in {one for line in lines for one in line.communities})
    found = []
    for each, lines in lists.items():
        own = [line for line in lines if any(named[value] == 1 for value in line.communities)]
        if own:
            values = [value for line in own for value in line.communities if named[value] == 1]
            found.append(_Listed(each, lines[0].line, min(values), max(values), _turns(own)))
    return found


def _turns(lines: list[CommunityLine]) -> int:
    """How often lines come to another act than the line before, the first one among them."""
    return 1 + sum(one.is_permit != other.is_permit for one, other in zip(lines, lines[1:]))


def _most_at_once(lists: list[_Listed]) -> list[_Listed]:
    """Those of some lists that are decided in part at one place of the order of communities, where their product is greatest."""
    places = [[one for one in lists if one.first <= place.first < one.last] for place in lists]
    return max(places, key=lambda found: math.prod(one.turns for one in found), default=[])
