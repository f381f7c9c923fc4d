"""Faults of the whole network: which lines have them, and which of several decides, as docs/use/LINES.md has it."""
from __future__ import annotations

import pytest

from hostile.judge import reading
from hostile.tests.texts import refusal, router, speaker, text

AREA = ["router ospf 1", " network 0.0.0.0 255.255.255.255 area 0"]
PEER = [" neighbor 10.0.0.2 remote-as 2"]


def test_the_least_line_decides() -> None:
    """A fault of a later kind at an earlier line comes first."""
    lines = router(
        "a", "router bgp 1", *PEER, " neighbor 10.0.0.2 prefix-list NONE in", " neighbor 10.0.0.2 route-map NONE in"
    )
    assert refusal(text(*lines)) == (4, "UndefinedList")
    assert refusal(text(*lines[:3], lines[4], lines[3], lines[5])) == (4, "UndefinedMap")


@pytest.mark.parametrize(
    ("lines", "told"),
    [
        ((*speaker("a", 1), *router("a", "router ospf 1"), *speaker("b", 1)), (4, "SharedName")),
        ((*router("a", "router ospf 1"), *speaker("b", 7), *speaker("c", 7)), (5, "MixedProtocols")),
        ((*speaker("a", 7), *router("b", "router ospf 1", "router bgp 7")), (5, "MixedProtocols")),
        ((*router("a", "router ospf 1"), *router("b", "router bgp 7", "router ospf 1")), (5, "MixedProtocols")),
        ((*speaker("a", 7), *router("b", "router ospf 2"), *speaker("c", 7)), (5, "MixedProtocols")),
        (
            router(
                "a",
                "interface Loopback0",
                " ip address 10.0.0.1 255.255.255.0",
                "interface Loopback1",
                " ip address 10.0.0.1 255.255.255.0",
                *AREA,
            ),
            (3, "LoopbackMask"),
        ),
        (
            router(
                "a",
                "interface Vlan1",
                " ip address 10.0.0.1 255.255.255.0",
                "interface Loopback1",
                " ip address 10.0.0.1 255.255.255.0",
                *AREA,
            ),
            (5, "SharedAddress"),
        ),
        (
            router(
                "a",
                "interface Vlan1",
                " ip address 10.0.0.1 255.255.255.0",
                "interface Loopback1",
                " ip address 10.0.0.2 255.255.255.0",
                *AREA,
            ),
            (5, "OverlappingInterfaces"),
        ),
        (
            router(
                "a",
                "router bgp 1",
                *PEER,
                " neighbor 10.0.0.2 route-map M in",
                "route-map M permit 10",
                " set as-path prepend 2",
            ),
            (4, "PrependIn"),
        ),
        (
            router(
                "a",
                "router bgp 1",
                "route-map M permit 10",
                " set as-path prepend 2",
                " match community NONE",
                " set comm-list NONE2 delete",
            ),
            (4, "PrependForm"),
        ),
    ],
)
def test_the_order_of_kinds(lines: list[str], told: tuple[int, str]) -> None:
    """On one line the order of the table; else the least line."""
    assert refusal(text(*lines)) == told


def test_two_kinds_on_one_line() -> None:
    """The one that stands first in the table."""
    port = ["interface Loopback0", " ip address 10.0.0.1 255.255.255.0"]
    other = [["interface Tunnel0", port[1]], port, ["interface Tunnel0", " ip address 10.0.0.2 255.255.255.0"]]
    assert refusal(text(*router("a", *port), *router("b", *other[0], *AREA))) == (7, "SharedAddress")
    assert refusal(text(*router("a", "interface Vlan1", " ip address 10.0.0.3 255.255.255.0", *other[1], *AREA))) == (
        5,
        "OverlappingInterfaces",
    )
    assert refusal(text(*router("a", "interface Vlan1", " ip address 10.0.0.3 255.255.255.0", *other[2], *AREA))) == (
        5,
        "OverlappingInterfaces",
    )


def test_protocols() -> None:
    """The first `router` line says which; each line of the other is at fault, the least decides."""
    assert refusal(text(*router("a", "router ospf 1"), *speaker("b", 7))) == (5, "MixedProtocols")
    assert refusal(text(*speaker("b", 7), *router("a", "router ospf 1"))) == (5, "MixedProtocols")
    assert len(reading.read(text(*speaker("b", 7), *speaker("a", 8), *router("c")))) == 3


def test_areas() -> None:
    """Compared by value, over all routers."""
    a = router("a", "router ospf 1", " network 10.0.0.0 0.0.0.255 area 0.0.1.0")
    assert len(reading.read(text(*a, *router("b", "router ospf 2", " network 10.0.0.0 0.0.0.255 area 256")))) == 2
    assert refusal(text(*a, *router("b", "router ospf 2", " network 10.0.0.0 0.0.0.255 area 255"))) == (7, "OtherArea")


@pytest.mark.parametrize(
    ("use", "definition", "kind"),
    [
        (" neighbor 10.0.0.2 route-map M in", "route-map M deny 10", "UndefinedMap"),
        (" neighbor 10.0.0.2 route-map M out", "route-map M deny 10", "UndefinedMap"),
        (" neighbor 10.0.0.2 prefix-list M out", "ip prefix-list M seq 5 permit 0.0.0.0/0", "UndefinedList"),
        (" neighbor 10.0.0.2 prefix-list M in", "ip prefix-list M seq 5 permit 0.0.0.0/0", "UndefinedList"),
    ],
)
def test_names_of_neighbours(use: str, definition: str, kind: str) -> None:
    """A name is defined by the router itself, anywhere in its text, and by the right kind of line."""
    lines = ["router bgp 1", *PEER, use]
    assert reading.read(text(*router("a", *lines, definition)))
    assert reading.read(text(*router("a", definition, *lines)))
    assert refusal(text(*router("a", *lines), *router("b", definition))) == (4, kind)
    others = {
        "UndefinedMap": "ip prefix-list M seq 5 permit 0.0.0.0/0",
        "UndefinedList": "ip community-list standard M permit 1:1",
    }
    assert refusal(text(*router("a", *lines, others[kind]))) == (4, kind)


def test_names_of_entries() -> None:
    """Also in maps that nobody uses; a list of a number and one of the same digits are one."""
    community, prefix = "ip community-list standard 7 permit 1:1", "ip prefix-list 7 seq 5 permit 0.0.0.0/0"
    for line, right, wrong in (
        (" match community 7", community, prefix),
        (" match ip address prefix-list 7", prefix, community),
        (" set comm-list 7 delete", community, prefix),
    ):
        assert reading.read(text(*router("a", "route-map M permit 10", line, right)))
        assert refusal(text(*router("a", "route-map M permit 10", line, wrong))) == (3, "UndefinedList")
    assert reading.read(
        text(*router("a", "route-map M permit 10", " match community 7", "ip community-list 7 permit 1:1"))
    )


def test_deletion_lists() -> None:
    """Each line with several communities, at its own place, whether it permits or denies; of this router alone."""
    lists = ["ip community-list standard D permit 1:1", "ip community-list standard D deny 1:1 1:2"]
    uses = ["route-map M permit 10", " set comm-list D delete"]
    assert refusal(text(*router("a", *lists, *uses))) == (3, "DeleteListForm")
    assert reading.read(text(*router("a", *lists), *router("b", lists[0], *uses)))


def test_addresses() -> None:
    """Of up interfaces alone: shared in the whole network, overlapping in one router."""

    def port(name: str, value: str, *more: str) -> list[str]:
        return [f"interface {name}", f" ip address {value}", *more]

    wide, narrow = port("Vlan1", "10.0.0.1 255.0.0.0"), port("Vlan2", "10.9.0.1 255.255.0.0")
    assert refusal(text(*router("a", *wide, *narrow))) == (5, "OverlappingInterfaces") and refusal(
        text(*router("a", *narrow, *wide))
    ) == (5, "OverlappingInterfaces")
    assert reading.read(text(*router("a", *wide, *narrow, " shutdown"))) and reading.read(
        text(*router("a", *wide), *router("b", *narrow))
    )
    assert reading.read(
        text(*router("a", *port("Vlan1", "10.0.0.1 255.255.255.128"), *port("Vlan2", "10.0.0.129 255.255.255.128")))
    )
    assert refusal(text(*router("a", *wide), *router("b", *port("Vlan1", "10.0.0.1 255.255.255.0")))) == (
        7,
        "SharedAddress",
    )


def test_interfaces_of_the_area() -> None:
    """Loopbacks and costs are asked only of up interfaces in the area; a type is exactly the name up to its first
    digit."""
    for name, value, kind in (
        ("Loopback0", "255.255.255.0", "LoopbackMask"),
        ("Tunnel0", "255.255.255.0", "NoCost"),
        ("Port-channel1", "255.255.255.0", "NoCost"),
        ("loopback0", "255.255.255.255", "NoCost"),
        ("Loopbacks0", "255.255.255.0", "NoCost"),
    ):
        lines = [f"interface {name}", f" ip address 10.0.0.1 {value}"]
        assert refusal(text(*router("a", *lines, *AREA))) == (3, kind)
        assert (
            reading.read(text(*router("a", *lines, " shutdown", *AREA)))
            and reading.read(text(*router("a", *lines)))
            and reading.read(text(*router("a", *lines, "router ospf 1", " network 11.0.0.0 0.0.0.0 area 0")))
        )
    assert refusal(
        text(*router("a", "interface Loopback0", " ip address 10.0.0.1 255.255.255.0", " ip ospf cost 3", *AREA))
    ) == (3, "LoopbackMask")


def test_prepended_numbers() -> None:
    """All are the router's own, which needs a process; a map in may not prepend in any of its entries."""
    entry = ["route-map M permit 10", " set as-path prepend 1 1"]
    assert reading.read(text(*speaker("a", 1, lists=tuple(entry)))) and refusal(text(*router("a", *entry))) == (
        3,
        "PrependForm",
    )
    assert refusal(text(*speaker("a", 1, lists=(entry[0], " set as-path prepend 1 2")))) == (4, "PrependForm")
    use = ["router bgp 1", *PEER, " neighbor 10.0.0.2 route-map M in"]
    assert refusal(text(*router("a", *use, "route-map M permit 5", *entry))) == (4, "PrependIn")
    assert reading.read(text(*router("a", *use[:2], " neighbor 10.0.0.2 route-map M out", *entry)))
    assert reading.read(
        text(*router("a", *use, "route-map M permit 5", "route-map N permit 10", " set as-path prepend 1"))
    )
