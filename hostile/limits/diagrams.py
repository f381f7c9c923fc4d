"""Texts made against the diagrams of policies."""
from __future__ import annotations


def exploding(pairs: int) -> bytes:
    """A map that matches a list with this many lines of two communities each, the first of each far from the second:
    its diagram has 2 to the power of that many nodes."""
    lists = [f"ip community-list standard BIG permit {number} {number + pairs}" for number in range(1, pairs + 1)]
    a = [
        "hostname a",
        "interface Serial0",
        " ip address 172.16.0.0 255.255.255.254",
        "router bgp 65001",
        " neighbor 172.16.0.1 remote-as 65002",
        " neighbor 172.16.0.1 route-map IN in",
    ]
    b = [
        "hostname b",
        "interface Serial0",
        " ip address 172.16.0.1 255.255.255.254",
        "interface Vlan1",
        " ip address 10.0.0.1 255.255.255.0",
        "router bgp 65002",
        " network 10.0.0.0 mask 255.255.255.0",
        " neighbor 172.16.0.0 remote-as 65001",
        " neighbor 172.16.0.0 send-community",
    ]
    return "".join(
        f"{line}\n" for line in [*a, *lists, "route-map IN permit 10", " match community BIG", "end", *b, "end"]
    ).encode()
