"""The routers of two networks, read one by one, mean what the whole networks mean."""
from __future__ import annotations

import re

import pytest

from bonsainet.ask.program import TOP
from bonsainet.configs.network import Link, Network as Parsed
from bonsainet.library import Network
from bonsainet.library.pairs import Pair
from bonsainet.library.routers import NearInterfaces, Routers
from bonsainet.library.routes import near_interfaces

INPUTS = TOP / "examples" / "inputs"
NETWORKS = ("campus", "fabric", "fat-tree-4", "asking/disagree", "asking/tags-tied")
# (a line inside an interface or a neighbour, and what stands in its place)
EDITS = (
    (r" ip address .*", " shutdown"),
    (r" ip address \S+ \S+", " ip address 192.0.2.1 255.255.255.255"),
    (r" neighbor \S+ remote-as \d+", " ! none"),
    (r"hostname (\S+)", r"hostname \1x"),
)


def links(network: Parsed, shared: frozenset[str]) -> list[tuple[str, ...]]:
    """The links in order, except those between two routers that are the same."""
    return [_shape(link) for link in network.links if not {link.low.device.name, link.high.device.name} <= shared]


def _shape(link: Link) -> tuple[str, ...]:
    return tuple(f"{end.device.name} {end.interface.name} {end.cost}" for end in (link.low, link.high))


@pytest.mark.parametrize("name", NETWORKS)
@pytest.mark.parametrize("edit", EDITS)
def test_the_links_of_what_is_not_the_same(name: str, edit: tuple[str, str]) -> None:
    text = (INPUTS / f"{name}.cfg").read_text()
    places = [found.start() for found in re.finditer(f"^{edit[0]}$", text, re.M)]
    for at in places[:: max(1, len(places) // 5)]:
        changed = text[:at] + re.sub(f"^{edit[0]}$", edit[1], text[at:], count=1, flags=re.M)
        for pair in (Pair(Network(text), Network(changed)), Pair(Network(changed), Network(text))):
            assert pair.old.text == pair.new.text or len(pair.shared) < len(pair.routers[0].texts)
            for around, whole, routers in zip(pair.around, (pair.old.parsed, pair.new.parsed), pair.routers):
                assert links(around, pair.shared) == links(whole, pair.shared)
                assert around.protocol == whole.protocol
                assert [*routers.texts] == [device.name for device in whole.devices]


@pytest.mark.parametrize("name", NETWORKS)
def test_interfaces_towards_a_router(name: str) -> None:
    network = Network((INPUTS / f"{name}.cfg").read_text())
    wanted = near_interfaces(network.parsed)
    routers = Routers(network)
    found = NearInterfaces(routers)
    pairs = [(one, other) for one in routers.texts for other in routers.texts if one != other]
    assert {pair: found.get(pair, ()) for pair in pairs} == {pair: wanted.get(pair, ()) for pair in pairs}


def test_a_router_is_read_where_it_is_asked_for() -> None:
    text = (INPUTS / "campus.cfg").read_text()
    pair = Pair(Network(text), Network(text.replace(" ip ospf cost 5\n", " ip ospf cost 7\n", 1)))
    names = {device.name for device in pair.around[0].devices}
    assert 0 < len(names) < len(pair.routers[0].texts) == len(pair.shared) + 1
    assert all(pair.routers[1].device(name) is pair.routers[0].device(name) for name in names & pair.shared)
