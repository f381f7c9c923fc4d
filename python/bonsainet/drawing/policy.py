"""What the policies of one direction of a BGP session say, in a few words. Nothing is decided here: lines are read
out."""
from __future__ import annotations

import dataclasses

from bonsainet.configs.network import End
from bonsainet.configs.profile import MapEntry, community_text


@dataclasses.dataclass(frozen=True)
class Direction:
    """Routes that an importer takes from an exporter: what is done to them in a few words, and whether a map lets any
    pass."""

    words: tuple[str, ...]
    passes: bool


def direction(importer: End, exporter: End) -> Direction:
    """What is done to routes from the exporter to the importer."""
    near, far = importer.own_neighbor, exporter.own_neighbor
    told, passes = [], True
    for end, name in ((exporter, far.map_out), (importer, near.map_in)):
        if name is not None:
            entries = end.device.maps.get(name, [])
            told.append(_map_in_words(name, entries))
            passes = passes and any(entry.is_permit for entry in entries)
    told += [f"list {name}" for name in (far.list_out, near.list_in) if name is not None]
    return Direction(tuple(told) if passes else (), passes)


def _map_in_words(name: str, entries: list[MapEntry]) -> str:
    """A map of one entry that holds for all is named by what it does, any other by its name."""
    if len(entries) != 1 or entries[0].prefix_list_names or entries[0].community_list_names:
        return name
    return _acts_in_words(entries[0]) or name


def _acts_in_words(entry: MapEntry) -> str:
    told = []
    if entry.preference is not None:
        told.append(f"preference {entry.preference}")
    if entry.delete_list is not None:
        told.append("deletes communities")
    if entry.communities is not None:
        names = " ".join(map(community_text, entry.communities)) or "no communities"
        told.append(f"{'adds ' if entry.is_additive else ''}{names}")
    if entry.prepended:
        told.append(f"{len(entry.prepended)} times more on the path")
    return ", ".join(told)
