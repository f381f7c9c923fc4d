"""Lines of policies that differ between two sides: entries of route maps, lists, and what neighbours name of them."""
from __future__ import annotations

import dataclasses
from collections.abc import Collection, Iterable, Iterator, Mapping

from bonsainet.configs.network import Network
from bonsainet.configs.profile import Device, MapEntry, Neighbor
from bonsainet.configs.text import Line
from bonsainet.diffing.sessions import Session, community_lists

Item = tuple[str, ...]
ENTRY, PREFIX_LIST, COMMUNITY_LIST, NEIGHBOR = "route-map", "prefix-list", "community-list", "neighbor"


@dataclasses.dataclass(frozen=True)
class Direction:
    """Routes that a router takes from another over a session: both routers, and the address that the importer names."""

    importer: str
    exporter: str
    address: str


@dataclasses.dataclass(frozen=True)
class Edit:
    """An item of the policies of a router that differs: what it is, its lines on both sides, none where it is not there,
    and the directions of sessions that it is for."""

    router: str
    item: Item
    before: tuple[Line, ...]
    after: tuple[Line, ...]
    directions: tuple[Direction, ...]

    @property
    def title(self) -> str:
        """The item in words."""
        kind, *names = self.item
        if kind == ENTRY:
            return f"route-map {names[0]} entry {names[1]}"
        return f"neighbor {' '.join(names)}" if kind == NEIGHBOR else f"{kind} {names[0]}"


def edits(old: Network, new: Network) -> Iterator[Edit]:
    """The items that differ, router by router."""
    found: dict[str, dict[Item, tuple[tuple[Line, ...], tuple[Line, ...]]]] = {}
    for name in {**old.by_name, **new.by_name}:
        before, after = old.by_name.get(name), new.by_name.get(name)
        if before and after and before is not after:
            found[name] = _differing(_items(before), _items(after))
    edited = {name for name, items in found.items() if items}
    uses = [_Uses(network, edited) for network in (old, new)]
    for name in found:
        used = [side.of(network.by_name[name]) for side, network in zip(uses, (old, new))]
        for item, lines in found[name].items():
            directions = dict.fromkeys(one for side in used for one in side.get(item, ()))
            yield Edit(name, item, *lines, tuple(directions))


def _differing(
    before: Mapping[Item, tuple[Line, ...]], after: Mapping[Item, tuple[Line, ...]]
) -> dict[Item, tuple[tuple[Line, ...], tuple[Line, ...]]]:
    """The items that differ in their words, with their lines on both sides."""
    return {
        item: (before.get(item, ()), after.get(item, ()))
        for item in {**before, **after}
        if _words(before, item) != _words(after, item)
    }


def sessions_of(network: Network, routers: Collection[str]) -> dict[Direction, Session]:
    """The directions of the sessions of some routers."""
    found = {}
    for link in network.links if network.protocol == "bgp" and routers else ():
        if link.low.device.name in routers or link.high.device.name in routers:
            for near, far in ((link.low, link.high), (link.high, link.low)):
                assert near.neighbor and far.neighbor
                direction = Direction(near.device.name, far.device.name, str(near.neighbor.address))
                found[direction] = Session(near.device, far.device, near.neighbor, far.neighbor)
    return found


def _words(items: Mapping[Item, tuple[Line, ...]], item: Item) -> list[list[str]]:
    return [line.words for line in items.get(item, ())]


def _items(device: Device) -> dict[Item, tuple[Line, ...]]:
    """The items of a router, each with its lines."""
    found: dict[Item, tuple[Line, ...]] = {}
    for name, entries in device.maps.items():
        for entry in entries:
            found[ENTRY, name, str(entry.sequence)] = (entry.line, *_in_order(entry.lines.values()))
    for name, listed in device.prefix_lists.items():
        found[PREFIX_LIST, name] = tuple(one.line for one in listed)
    for name, lines in device.community_lists.items():
        found[COMMUNITY_LIST, name] = tuple(one.line for one in lines)
    for address, neighbor in device.bgp.neighbors.items() if device.bgp else ():
        for word in ("sends", "list in", "list out", "map in", "map out"):
            if word in neighbor.lines:
                found[NEIGHBOR, str(address), TITLES[word]] = (neighbor.lines[word],)
    return found


TITLES = {
    "sends": "send-community",
    "list in": "prefix-list in",
    "list out": "prefix-list out",
    "map in": "route-map in",
    "map out": "route-map out",
}


def _in_order(lines: Iterable[Line]) -> list[Line]:
    return sorted(lines, key=lambda line: line.place.line)


class _Uses:
    """For what the policies of some routers of a network are used."""

    def __init__(self, network: Network, routers: Collection[str]) -> None:
        self.sessions = sessions_of(network, routers)
        self.by_router: dict[str, list[Direction]] = {}
        for direction in self.sessions:
            for name in (direction.importer, direction.exporter):
                self.by_router.setdefault(name, []).append(direction)

    def of(self, device: Device) -> dict[Item, list[Direction]]:
        """For each item of a router the directions that it has a bearing on."""
        found: dict[Item, list[Direction]] = {}
        for direction in self.by_router.get(device.name, ()):
            for item in _used(device, direction, self.sessions[direction]):
                found.setdefault(item, []).append(direction)
        return found


def _used(device: Device, direction: Direction, session: Session) -> Iterator[Item]:
    if direction.importer == device.name:
        near = session.near
        yield from _named(device, near, ("list in", "map in"), near.list_in, near.map_in)
    else:
        far = session.far
        yield from _named(device, far, ("list out", "map out", "sends"), far.list_out, far.map_out)


def _named(
    device: Device, neighbor: Neighbor, words: Iterable[str], listed: str | None, mapped: str | None
) -> Iterator[Item]:
    """The lines of a neighbour, and what they name."""
    yield from ((NEIGHBOR, str(neighbor.address), TITLES[word]) for word in words if word in neighbor.lines)
    if listed is not None:
        yield PREFIX_LIST, listed
    if mapped is not None:
        for entry in device.maps.get(mapped, []):
            yield ENTRY, mapped, str(entry.sequence)
            yield from _lists(entry)


def _lists(entry: MapEntry) -> Iterator[Item]:
    yield from ((PREFIX_LIST, name) for name in entry.prefix_list_names)
    yield from ((COMMUNITY_LIST, name) for name in community_lists(entry))
