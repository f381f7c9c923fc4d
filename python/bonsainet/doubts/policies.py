"""Doubts about lists and maps: those that nothing uses, and entries behind one that takes everything they could take.

What is reported holds for every route; an entry that is not reported may still be reached by none.
"""
from __future__ import annotations

from collections.abc import Callable, Iterator, Sequence
from ipaddress import IPv4Network
from typing import TypeVar

from bonsainet.doubts.finding import Doubt, doubt
from bonsainet.configs.network import Network
from bonsainet.configs.profile import CommunityLine, Device, MapEntry, Neighbor, PrefixEntry
from bonsainet.configs.text import Line

Entry = TypeVar("Entry", MapEntry, PrefixEntry, CommunityLine)


def doubts_of_policies(network: Network) -> Iterator[Doubt]:
    """Unused lists and maps, and entries that nothing reaches, router by router."""
    for device in network.devices:
        yield from _unused(device)
        yield from _not_reached(device)


def _unused(device: Device) -> Iterator[Doubt]:
    neighbors: list[Neighbor] = list(device.bgp.by_number.values()) if device.bgp else []
    maps = {name for neighbor in neighbors for name in (neighbor.map_in, neighbor.map_out) if name}
    filters = {name for neighbor in neighbors for name in (neighbor.list_in, neighbor.list_out) if name}
    used, named = _names(device, maps), _names(device, set(device.maps))
    for name, entries in device.maps.items():
        if name not in maps:
            yield doubt("unused", device.name, entries[0].line, f"no neighbour names the route map {name}")
    heads: dict[str, dict[str, Line]] = {
        "prefix": {name: lines[0].line for name, lines in device.prefix_lists.items() if name not in filters},
        "community": {name: lines[0].line for name, lines in device.community_lists.items()},
    }
    for kind, lists in heads.items():
        for name, line in lists.items():
            if name not in used[kind]:
                who = "only maps that no neighbour names name" if name in named[kind] else "nothing names"
                yield doubt("unused", device.name, line, f"{who} the {kind} list {name}")


def _names(device: Device, maps: set[str]) -> dict[str, set[str]]:
    """The lists that some maps name, by kind."""
    entries = [entry for name in maps for entry in device.maps.get(name, [])]
    communities = {
        name
        for entry in entries
        for name in [*entry.community_list_names, *([entry.delete_list] if entry.delete_list else [])]
    }
    return {"prefix": {name for entry in entries for name in entry.prefix_list_names}, "community": communities}


def _not_reached(device: Device) -> Iterator[Doubt]:
    for name, entries in device.maps.items():
        yield from _behind_each(device, f"route map {name}", entries, _takes_all_of)
    for name, rungs in device.prefix_lists.items():
        yield from _behind_each(device, f"prefix list {name}", rungs, _holds_where)
    for name, lines in device.community_lists.items():
        is_exact = any(
            entry.is_exact and name in entry.community_list_names
            for entries in device.maps.values()
            for entry in entries
        )
        if not is_exact:
            yield from _behind_each(device, f"community list {name}", lines, _carries_less)


def _behind_each(
    device: Device, told: str, entries: Sequence[Entry], takes: Callable[[Entry, Entry], bool]
) -> Iterator[Doubt]:
    """A doubt for each entry that an earlier one leaves nothing."""
    for place, entry in enumerate(entries):
        earlier = next((other for other in entries[:place] if takes(other, entry)), None)
        if earlier:
            yield doubt(
                "not-reached",
                device.name,
                entry.line,
                f"{told}: the entry of line {earlier.line.place.line} takes all that this one could",
            )


def _takes_all_of(earlier: MapEntry, later: MapEntry) -> bool:
    """Whether an entry of a map has no match line, or the same lists as the later one in each match line that it
    has."""

    def same(names: list[str], others: list[str]) -> bool:
        return not names or set(others) <= set(names) and bool(others)

    communities = same(earlier.community_list_names, later.community_list_names) and (
        not earlier.community_list_names or earlier.is_exact == later.is_exact
    )
    return same(earlier.prefix_list_names, later.prefix_list_names) and communities


def _holds_where(earlier: PrefixEntry, later: PrefixEntry) -> bool:
    """Whether an entry of a prefix list holds for all prefixes for which the later one holds."""
    low, high = _lengths(earlier)
    least, most = _lengths(later)
    return _covers(earlier.prefix, later.prefix) and low <= least and most <= high


def _lengths(entry: PrefixEntry) -> tuple[int, int]:
    """The least and the greatest length for which an entry holds."""
    length = entry.prefix.prefixlen
    if entry.least is None and entry.most is None:
        return length, length
    return entry.least if entry.least is not None else length, entry.most if entry.most is not None else 32


def _covers(prefix: IPv4Network, other: IPv4Network) -> bool:
    return other.subnet_of(prefix)


def _carries_less(earlier: CommunityLine, later: CommunityLine) -> bool:
    """Whether every route that carries all communities of the later line carries those of the earlier one."""
    return set(earlier.communities) <= set(later.communities)
