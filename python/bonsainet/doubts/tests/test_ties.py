"""Ties at rest are found, with what decided; equal keys and shorter paths are none."""
from __future__ import annotations

import dataclasses

import pytest

from bonsainet.configs.compressed import asked
from bonsainet.doubts.ties import doubts_of_ties, ties_of
from bonsainet.ask.program import Group, Program
from bonsainet.nets.random_networks import random_text

LINKS = (("o", "m1"), ("o", "m2"), ("m1", "u"), ("m2", "u"))
SETS = "route-map OUT permit 10\n set community 1:1\n"
LONE = "ip community-list standard ANY permit 9:9\nroute-map IN permit 10\n match community ANY\n set local-preference 100\nroute-map IN permit 20\n set local-preference 200\n"


def text_of(lines: dict[str, str], policies: dict[str, str], links=LINKS) -> str:
    """A network of sessions: `lines` has more lines for a neighbour, by `ROUTER NEIGHBOUR`, and `policies` what a
    router defines."""
    names = list(dict.fromkeys(name for link in links for name in link))
    number = {name: 65001 + place for place, name in enumerate(names)}
    out = []
    for name in names:
        ends = [
            (place, near == name, far if near == name else near)
            for place, (near, far) in enumerate(links)
            if name in (near, far)
        ]
        out.append(f"hostname {name}")
        if name == "o":
            out += ["interface Vlan1", " ip address 192.0.2.1 255.255.255.0"]
        out += [
            line
            for place, is_low, _ in ends
            for line in (f"interface Serial0/{place}", f" ip address 10.0.{place}.{1 if is_low else 2} 255.255.255.252")
        ]
        out.append(f"router bgp {number[name]}")
        out += [" network 192.0.2.0 mask 255.255.255.0"] if name == "o" else []
        for place, is_low, other in ends:
            address = f"10.0.{place}.{2 if is_low else 1}"
            out += [f" neighbor {address} remote-as {number[other]}", f" neighbor {address} send-community"]
            out += [f" neighbor {address} {more}" for more in lines.get(f"{name} {other}", "").split(",") if more]
        out += policies.get(name, "").splitlines()
        out.append("end")
    return "".join(f"{line}\n" for line in out)


def ties(text: str) -> list[tuple[str, str]]:
    """The routers of each tie and what is told of it."""
    network = asked(Program(), text.encode(), "F")
    return [
        (found.router, found.told)
        for found in doubts_of_ties(Program(), network, [one.number for one in network.classes])
    ]


def test_communities_decide() -> None:
    text = text_of({"m1 u": "route-map OUT out"}, {"m1": SETS})
    assert ties(text) == [
        (
            "u",
            "class 1: communities decided for the route over (m1 m2) o, and real routers may hold the one over (m1 m2) o "
            "with 1:1",
        )
    ]


def test_the_tie_is_at_the_line_of_the_process() -> None:
    text = text_of({"m1 u": "route-map OUT out"}, {"m1": SETS})
    network = asked(Program(), text.encode(), "F")
    found = next(iter(doubts_of_ties(Program(), network, [1])))
    assert found.place and text.split("\n")[found.place.line - 1] == "router bgp 65004" == found.text


def test_lone_numbers_decide() -> None:
    text = text_of(
        {"m1 o": "route-map IN in", "m1 u": "route-map OUT out"},
        {"m1": f"{LONE}route-map OUT permit 10\n set community none\n"},
    )
    found = ties(text)
    assert [router for router, _ in found] == ["u"]
    assert found[0][1].endswith(
        "lone numbers decided for the route over m2 o, and real routers may hold the one over m1 o"
    )


def test_routes_against_which_one_was_decided_are_told_together() -> None:
    """A router with three neighbours, of which each tags with a community of its own, holds one route of three."""
    links = (("o", "m1"), ("o", "m2"), ("o", "m3"), ("m1", "u"), ("m2", "u"), ("m3", "u"))
    sets = {f"m{one}": f"route-map OUT permit 10\n set community 1:{one}\n" for one in (1, 2, 3)}
    assert ties(text_of({f"{name} u": "route-map OUT out" for name in sets}, sets, links)) == [
        (
            "u",
            "class 1: communities decided for the route over (m1 m2 m3) o with 1:1, and real routers may hold the one "
            "over (m1 m2 m3) o with 1:2; over (m1 m2 m3) o with 1:3",
        )
    ]


@pytest.mark.parametrize(
    "lines, policies",
    [
        ({}, {}),
        ({"m1 u": "route-map OUT out", "m2 u": "route-map OUT out"}, {"m1": SETS, "m2": SETS}),
        (
            {"m1 u": "route-map LONGER out"},
            {"m1": "route-map LONGER permit 10\n set community 1:1\n set as-path prepend 65002\n"},
        ),
        (
            {"m1 u": "route-map OUT out", "u m1": "route-map BETTER in"},
            {"m1": SETS, "u": "route-map BETTER permit 10\n set local-preference 200\n"},
        ),
        ({"m1 u": "route-map OUT out", "u m1": "route-map NONE in"}, {"m1": SETS, "u": "route-map NONE deny 10\n"}),
    ],
    ids=["equal keys", "equal communities", "a longer path", "another preference", "no route"],
)
def test_no_tie(lines: dict[str, str], policies: dict[str, str]) -> None:
    assert ties(text_of(lines, policies)) == []


def test_members_of_a_group_are_named() -> None:
    links = (*LINKS, ("m1", "v"), ("m2", "v"))
    text = text_of({"m1 u": "route-map OUT out", "m1 v": "route-map OUT out"}, {"m1": SETS}, links)
    assert [router for router, _ in ties(text)] == ["u v"]


def test_classes_that_are_alike_are_asked_once() -> None:
    text = text_of({"m1 u": "route-map OUT out"}, {"m1": SETS + "ip prefix-list P seq 5 permit 192.0.2.0/24\n"})
    text = text.replace(
        "interface Vlan1\n", "interface Vlan2\n ip address 198.51.100.1 255.255.255.0\ninterface Vlan1\n", 1
    )
    text = text.replace(" network 192", " network 198.51.100.0 mask 255.255.255.0\n network 192", 1)
    assert [told.partition(":")[0] for _, told in ties(text)] == ["classes 1 2"]


def test_a_class_that_does_not_rest() -> None:
    """Each of three routers prefers the path through the next one (Griffin, Shepherd and Wilfong's BAD GADGET)."""
    ring = (("o", "a"), ("o", "b"), ("o", "c"), ("a", "b"), ("b", "c"), ("c", "a"))
    maps = (
        "ip community-list standard DIRECT permit 5:5\nroute-map FIRST permit 10\n set community 5:5\nroute-map NONE deny 10\n"
        "route-map NEXT permit 10\n match community DIRECT\n set local-preference 200\n set community none\n"
    )
    lines = {f"{name} o": "route-map FIRST in" for name in "abc"}
    lines |= {pair: "route-map NEXT in" for pair in ("a b", "b c", "c a")} | {
        pair: "route-map NONE in" for pair in ("b a", "c b", "a c")
    }
    text = text_of(lines, {name: maps for name in "abc"}, ring)
    network = asked(Program(), text.encode(), "F")
    found = list(doubts_of_ties(Program(), network, [1]))
    assert [(one.sort, one.told) for one in found] == [
        ("tie-not-asked", "class 1: it does not rest after 10 rounds of all groups")
    ]


@pytest.mark.parametrize("seed", [seed for seed in range(60) if seed % 3][:24])
def test_the_compressed_network_has_the_ties_of_the_whole(seed: int) -> None:
    whole = asked(Program(), random_text(seed).encode(), "F")
    if len(whole.classes) != 1:
        return
    small = whole.compress(Program(), 1)
    alone = [Group(place, False, False, (device.name,)) for place, device in enumerate(whole.network.devices, 1)]
    large = dataclasses.replace(small, groups=alone, text=whole.text, network=whole.network)
    members = {group.members[0]: group.members for group in small.groups}
    of_small, of_large = ties_of(Program(), small), ties_of(Program(), large)
    assert isinstance(of_small, list) and isinstance(of_large, list)
    of_members = {(member, tie.decided) for tie in of_small for member in members[tie.router]}
    assert of_members == {(tie.router, tie.decided) for tie in of_large}
