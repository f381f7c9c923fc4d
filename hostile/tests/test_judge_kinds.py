"""Each of the 29 kinds of refusals of docs/use/LINES.md on a text of its own: the second reader and the program meet it at
the same line."""
from __future__ import annotations

import re

import pytest

from hostile.judge import answers, heads, meaning
from hostile.limits import texts as limits
from hostile.tests.texts import program, refusal, router, speaker, text

PORT = {"Vlan1": "10.0.0.1 255.255.255.0"}
AREA = ["router ospf 1", " network 0.0.0.0 255.255.255.255 area 0"]
MAP = ("route-map IN permit 10", " match community NONE")

KINDS: dict[str, tuple[bytes, int]] = {
    "NotAscii": (b"hostname a\n! caf\xe9\nend\n", 2),
    "LineTooLong": (b"hostname a\n!" + b"x" * 1024 + b"\nend\n", 2),
    "TooManyLines": (b"!\n" * 1_000_001, 1_000_001),
    "UnknownLine": (text(*router("a", "bfd interval 300 min_rx 300 multiplier 3")), 2),
    "Unsupported": (text(*router("a", "ip route 0.0.0.0 0.0.0.0 10.0.0.2")), 2),
    "BadForm": (text(*router("a", "interface Vlan1", " ip address dhcp")), 3),
    "WellKnown": (text(*router("a", "route-map M permit 10", " set community no-export")), 3),
    "Misplaced": (text(*speaker("a", 65001, " neighbor 10.0.0.2 send-community")), 3),
    "Repeated": (
        text(
            *router("a", "interface Vlan1", " ip address 10.0.0.1 255.255.255.0", " ip address 10.0.1.1 255.255.255.0")
        ),
        4,
    ),
    "NoHostname": (text("interface Vlan1", "end"), 2),
    "NoEnd": (text("hostname a", "interface Serial0/0"), 2),
    "SharedName": (text(*router("a"), *router("a")), 3),
    "SharedAs": (text(*speaker("a", 65001), *speaker("b", 65001)), 5),
    "InternalPeer": (text(*speaker("a", 65001, " neighbor 10.0.0.2 remote-as 65001")), 3),
    "MixedProtocols": (text(*router("a", "router bgp 65001", "router ospf 1")), 3),
    "OtherArea": (text(*router("a", *AREA, " network 10.0.0.0 0.0.0.3 area 1")), 4),
    "UndefinedMap": (
        text(*speaker("a", 65001, " neighbor 10.0.0.2 remote-as 2", " neighbor 10.0.0.2 route-map IN in")),
        4,
    ),
    "UndefinedList": (
        text(*speaker("a", 65001, " neighbor 10.0.0.2 remote-as 2", " neighbor 10.0.0.2 prefix-list NETS in")),
        4,
    ),
    "DeleteListForm": (
        text(
            *router(
                "a",
                "ip community-list standard OLD permit 1:1 1:2",
                "route-map M permit 10",
                " set comm-list OLD delete",
            )
        ),
        2,
    ),
    "SharedAddress": (
        text(
            *router("a", "interface Vlan1", " ip address 10.0.0.1 255.255.255.0"),
            *router("b", "interface Vlan1", " ip address 10.0.0.1 255.255.0.0"),
        ),
        7,
    ),
    "OverlappingInterfaces": (
        text(
            *router(
                "a",
                "interface Vlan1",
                " ip address 10.0.0.1 255.255.255.0",
                "interface Vlan2",
                " ip address 10.0.0.5 255.255.255.252",
            )
        ),
        5,
    ),
    "LoopbackMask": (text(*router("a", "interface Loopback0", " ip address 10.1.0.1 255.255.255.0", *AREA)), 3),
    "NoCost": (text(*router("a", "interface Tunnel0", " ip address 10.0.0.1 255.255.255.252", *AREA)), 3),
    "TooManyRouters": (limits.routers(4097), 8193),
    "TooManyCommunities": (limits.communities(1025), 1026),
    "TooManyNeighbors": (limits.neighbors(131_073), 131_075),
    "TooManyLinks": (limits.exact_pairs(1), 8779),
    "PrependForm": (text(*speaker("a", 65001, lists=("route-map M permit 10", " set as-path prepend 65009"))), 4),
    "PrependIn": (
        text(
            *speaker(
                "a",
                65001,
                " neighbor 10.0.0.2 remote-as 2",
                " neighbor 10.0.0.2 route-map LONGER in",
                lists=("route-map LONGER permit 10", " set as-path prepend 65001"),
            )
        ),
        4,
    ),
}


def listed() -> list[str]:
    """The kinds of the page."""
    part = heads.PAGE.read_text().split("<!-- kinds: begin -->")[1].split("<!-- kinds: end -->")[0]
    return re.findall(r"^\| ([A-Z]\w+) \|", part, re.M)


def test_all_kinds_are_here() -> None:
    """29, in the order of the page; those of the whole network in the order that decides."""
    assert list(KINDS) == listed() and len(KINDS) == 29
    assert meaning.ORDER == listed()[listed().index("SharedName") :]


@pytest.mark.parametrize("kind", KINDS)
def test_a_kind(kind: str) -> None:
    """The second reader and the program refuse the text with this kind, at this line."""
    data, line = KINDS[kind]
    assert refusal(data) == (line, kind)


@pytest.mark.parametrize(
    "data",
    [
        b"hostname a\n!\t~ \nend\n",
        b"hostname a\n!" + b"x" * 1023 + b"\r\nend\n",
        text(*speaker("a", 65001, " neighbor 10.0.0.2 remote-as 65002", " neighbor 10.0.0.2 send-community")),
        text(*speaker("a", 65001), *speaker("b", 65002)),
        text(*router("a", *AREA, " network 10.0.0.0 0.0.0.3 area 0.0.0.0")),
        text(
            *router("a", "interface Vlan1", " ip address 10.0.0.1 255.255.255.0", " shutdown"),
            *router("b", "interface Vlan1", " ip address 10.0.0.1 255.255.0.0"),
        ),
        text(*router("a", "interface Loopback0", " ip address 10.1.0.1 255.255.255.0")),
        text(*router("a", "interface Tunnel0", " ip address 10.0.0.1 255.255.255.252", " ip ospf cost 5", *AREA)),
        text(
            *router(
                "a",
                "ip community-list standard OLD permit 1:1 1:2",
                "ip community-list standard NEW permit 1:1",
                "route-map M permit 10",
                " set comm-list NEW delete",
            )
        ),
        text(*speaker("a", 65001, lists=("route-map M permit 10", " set as-path prepend 65001 65001"))),
    ],
)
def test_what_is_nearly_refused_is_read(data: bytes) -> None:
    """Each text is one step from a refusal, and neither refuses it."""
    assert program().ask("classes", "F", texts={"F": data}).status == 0
    assert not isinstance(answers.read(data), answers.Expected)
