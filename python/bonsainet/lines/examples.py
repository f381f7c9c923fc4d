"""A text for each kind of refusal, which the program refuses with this kind at the line that docs/use/LINES.md shows."""
from __future__ import annotations

from collections.abc import Iterator

SERIAL = "hostname a\ninterface Serial0/0\n ip address 10.0.0.1 255.255.255.252\n"
BGP = f"{SERIAL}router bgp 65001\n neighbor 10.0.0.2 remote-as 65002\n"
OSPF = "router ospf 1\n network 10.0.0.0 0.255.255.255 area 0\nend\n"

TEXTS = {
    "NotAscii": "hostname a\ninterface Serial0/0\n description café\nend\n",
    "LineTooLong": f"hostname a\ninterface Serial0/0\n description {'x' * 1024}\nend\n",
    "UnknownLine": f"{SERIAL} bfd interval 300 min_rx 300 multiplier 3\nend\n",
    "Unsupported": f"{SERIAL}ip route 0.0.0.0 0.0.0.0 10.0.0.2\nend\n",
    "BadForm": "hostname a\ninterface Serial0/0\n ip address dhcp\nend\n",
    "WellKnown": "hostname a\nroute-map OUT permit 10\n set community no-export\nend\n",
    "Misplaced": "hostname a\nrouter bgp 65001\n neighbor 10.0.0.2 send-community\nend\n",
    "Repeated": f"{SERIAL} ip address 10.0.1.1 255.255.255.0\nend\n",
    "NoHostname": "interface Serial0/0\nend\n",
    "NoEnd": "hostname a\ninterface Serial0/0\n",
    "SharedName": "hostname a\nend\nhostname a\nend\n",
    "SharedAs": "hostname a\nrouter bgp 65001\nend\nhostname b\nrouter bgp 65001\nend\n",
    "InternalPeer": "hostname a\nrouter bgp 65001\n neighbor 10.0.0.2 remote-as 65001\nend\n",
    "MixedProtocols": f"{BGP}end\nhostname b\nrouter ospf 1\nend\n",
    "OtherArea": "hostname a\nrouter ospf 1\n network 10.1.0.0 0.0.0.255 area 0\n network 10.0.0.0 0.0.0.3 area 1\nend\n",
    "UndefinedMap": f"{BGP} neighbor 10.0.0.2 route-map IN in\nend\n",
    "UndefinedList": f"{BGP} neighbor 10.0.0.2 prefix-list NETS in\nend\n",
    "DeleteListForm": "hostname a\nip community-list standard OLD permit 65001:1 65001:2\nroute-map IN permit 10\n set comm-list OLD delete\nend\n",
    "SharedAddress": f"{SERIAL}end\nhostname b\ninterface Serial0/0\n ip address 10.0.0.1 255.255.255.0\nend\n",
    "OverlappingInterfaces": "hostname a\ninterface Vlan1\n ip address 10.0.0.1 255.255.255.0\ninterface Serial0/0\n ip address 10.0.0.5 255.255.255.252\nend\n",
    "LoopbackMask": f"hostname a\ninterface Loopback0\n ip address 10.1.0.1 255.255.255.0\n{OSPF}",
    "NoCost": f"hostname a\ninterface Port-channel1\n ip address 10.0.0.1 255.255.255.252\n{OSPF}",
    "PrependForm": f"{BGP} neighbor 10.0.0.2 route-map LONGER out\nroute-map LONGER permit 10\n set as-path prepend 65009\nend\n",
    "PrependIn": f"{BGP} neighbor 10.0.0.2 route-map LONGER in\nroute-map LONGER permit 10\n set as-path prepend 65001\nend\n",
}
LARGE = ("TooManyLines", "TooManyRouters", "TooManyCommunities", "TooManyNeighbors", "TooManyLinks")


def text_for(kind: str) -> str:
    """The text for a kind. Those of the limits are long, and are made when they are asked for."""
    if kind in TEXTS:
        return TEXTS[kind]
    return "".join(f"{line}\n" for line in _LINES[kind]())


def _too_many_lines() -> Iterator[str]:
    yield from ("hostname a", "end")
    yield from ("!" for _ in range(999_999))


def _too_many_routers() -> Iterator[str]:
    for number in range(4097):
        yield from (f"hostname r{number}", "end")


def _too_many_communities() -> Iterator[str]:
    yield "hostname a"
    yield from (f"ip community-list standard MANY permit 1:{number}" for number in range(1, 1026))
    yield "end"


def _too_many_neighbors() -> Iterator[str]:
    yield from ("hostname a", "router bgp 1")
    yield from (
        f" neighbor 10.{number >> 16}.{number >> 8 & 255}.{number & 255} remote-as 2" for number in range(1, 131_074)
    )
    yield "end"


def _too_many_links() -> Iterator[str]:
    for number in range(1, 1450):
        yield from (
            f"hostname r{number}",
            "interface Vlan1",
            f" ip address 10.0.{number >> 8}.{number & 255} 255.255.0.0",
            *OSPF.splitlines(),
        )


_LINES = dict(
    zip(LARGE, (_too_many_lines, _too_many_routers, _too_many_communities, _too_many_neighbors, _too_many_links))
)
