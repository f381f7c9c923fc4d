"""The text of a campus in OSPF: two cores, and blocks of two distribution routers with access routers below, as many as
asked."""
from __future__ import annotations

from ipaddress import IPv4Address

FIRST_LINK = IPv4Address("172.16.0.0")


def campus_text(blocks: int, access: int) -> str:
    """The text. Each access router `accessB-A` announces 10.B.A.0/24; the second distribution router of a block is
    reached at a higher cost."""
    links = [("core1", "core2", 1)]
    for block in range(blocks):
        for side, cost in (("a", 1), ("b", 5)):
            links += [(core, f"dist{block}{side}", 1) for core in ("core1", "core2")]
            links += [(f"dist{block}{side}", f"access{block}-{place}", cost) for place in range(access)]
    ports: dict[str, list[tuple[IPv4Address, int]]] = {}
    for number, (low, high, cost) in enumerate(links):
        ports.setdefault(low, []).append((FIRST_LINK + 2 * number, cost))
        ports.setdefault(high, []).append((FIRST_LINK + 2 * number + 1, cost))
    return "".join(f"{line}\n" for name, own in ports.items() for line in _router(name, own))


def _router(name: str, ports: list[tuple[IPv4Address, int]]) -> list[str]:
    lines = [f"hostname {name}"]
    is_access = name.startswith("access")
    if is_access:
        block, _, place = name.removeprefix("access").partition("-")
        lines += ["interface Vlan1", f" ip address 10.{block}.{place}.1 255.255.255.0"]
    for number, (address, cost) in enumerate(ports):
        lines += [
            f"interface GigabitEthernet0/{number}",
            f" ip address {address} 255.255.255.254",
            f" ip ospf cost {cost}",
        ]
    lines.append("router ospf 1")
    if is_access:
        lines.append(" passive-interface Vlan1")
    return [*lines, " network 0.0.0.0 255.255.255.255 area 0", "end"]
