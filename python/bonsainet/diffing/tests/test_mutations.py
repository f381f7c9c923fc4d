"""Edits of folders, each with its known answer: those of OSPF are compared with shortest paths too."""
from __future__ import annotations

import functools
import tempfile
from collections.abc import Iterator
from pathlib import Path

import jsonschema
import pytest

import bonsainet
from bonsainet.diffing.documents import document
from bonsainet.diffing.reason_words import effect
from bonsainet.diffing.reasons import reasons_of
from bonsainet.diffing.tests.mutations import CAMPUS, Folder, Mutation, base_folder
from bonsainet.diffing.tests.mutations_bgp import MUTATIONS as BGP
from bonsainet.diffing.tests.mutations_links import MUTATIONS as LINKS
from bonsainet.diffing.tests.mutations_prefixes import MUTATIONS as PREFIXES
from bonsainet.diffing.tests.test_diff import SCHEMA
from bonsainet.diffing.words import lines
from bonsainet.library.calls import ASK, program
from bonsainet.library.pairs import Pair

MUTATIONS = [*LINKS, *PREFIXES, *BGP]

# For each router the cost of its route and its next hops with their interfaces, none where it has no route.
Reached = dict[str, tuple[int, frozenset[tuple[str, str]]] | None]


def imported(folder: Folder) -> bonsainet.Network:
    """The network of a folder that is written for it."""
    with tempfile.TemporaryDirectory() as made:
        for name, text in folder.items():
            Path(made, f"{name}.cfg").write_text(text)
        return bonsainet.Network.from_folder(made)


@functools.cache
def before(base: str) -> bonsainet.Network:
    """The network before the edits of a base."""
    return imported(base_folder(base))


@pytest.mark.parametrize("mutation", MUTATIONS, ids=lambda one: one.name)
def test_a_mutation(mutation: Mutation) -> None:
    old, new = before(mutation.base), imported(mutation.made())
    found, reasons = bonsainet.diff(old, new), reasons_of(Pair(old, new))
    assert tuple(lines(found)) == mutation.answer
    assert tuple(f"{one.edit.router}: {one.edit.title}: {effect(one)}" for one in reasons.policies) == mutation.policies
    jsonschema.validate(document(found, reasons, program(ASK).identity), SCHEMA)
    if mutation.base == CAMPUS:
        assert {
            (prefix, name)
            for one in found.changed
            for prefix in one.prefixes
            for each in one.changes
            for name in each.routers
        } == set(_differing(old, new))


def test_there_are_enough() -> None:
    assert len(MUTATIONS) >= 40 and len({one.name for one in MUTATIONS}) == len(MUTATIONS)
    assert sum(one.answer[-1].startswith("0 prefixes change") for one in MUTATIONS) >= 10


def _differing(old: bonsainet.Network, new: bonsainet.Network) -> Iterator[tuple[str, str]]:
    """The prefixes and routers whose shortest paths differ."""
    sides = [
        {str(one.prefix): _shortest(network, str(one.prefix)) for one in network.parsed.origins}
        for network in (old, new)
    ]
    for prefix in {**sides[0], **sides[1]}:
        for name in {*old.routers, *new.routers}:
            first, second = (side.get(prefix, {}).get(name) for side in sides)
            if first != second:
                yield prefix, name


def _shortest(network: bonsainet.Network, prefix: str) -> Reached:
    """Shortest paths to the originators of a prefix (Bellman and Ford)."""
    own = {one.device: one.cost for one in network.parsed.origins if str(one.prefix) == prefix}
    edges = [pair for link in network.parsed.links for pair in ((link.low, link.high), (link.high, link.low))]
    cost = {name: value for name, value in own.items() if value is not None}
    for _ in network.routers:
        for near, far in edges:
            if far.device.name in cost and near.cost is not None:
                least = near.cost + cost[far.device.name]
                cost[near.device.name] = min(least, cost.get(near.device.name, least))
    found: Reached = dict.fromkeys(network.routers)
    for name, value in cost.items():
        nexts = {
            (far.device.name, near.interface.name)
            for near, far in edges
            if near.device.name == name and far.device.name in cost and near.cost is not None
            if near.cost + cost[far.device.name] == value
        }
        found[name] = value, frozenset(nexts)
    return found
