"""The text of a fat tree of size K, an even number: the network of which `trial K` writes the summary
(`crates/fat_gen/specs/`)."""
from __future__ import annotations

from ipaddress import IPv4Address

FIRST_NUMBER = 4200000000
FIRST_ADDRESS = IPv4Address("172.16.0.0")


def names_of(size: int) -> list[str]:
    """The routers in order: the cores, and then of each pod the aggregation and the edge switches."""
    half = size // 2
    names = [f"core{number}" for number in range(half * half)]
    for pod in range(size):
        names += [f"agg{pod}-{place}" for place in range(half)] + [f"edge{pod}-{place}" for place in range(half)]
    return names


def links_of(size: int) -> list[tuple[str, str]]:
    """The links in order: of each aggregation switch those to its cores, and then those to the edge of its pod."""
    half = size // 2
    return [
        (f"agg{pod}-{place}", far)
        for pod in range(size)
        for place in range(half)
        for far in [*(f"core{place * half + c}" for c in range(half)), *(f"edge{pod}-{edge}" for edge in range(half))]
    ]


def fat_tree_text(size: int) -> str:
    """The text. Each edge switch `edgeP-J` originates 10.P.J.0/24."""
    names = names_of(size)
    numbers = {name: FIRST_NUMBER + place for place, name in enumerate(names)}
    ports: dict[str, list[tuple[IPv4Address, IPv4Address, str]]] = {name: [] for name in names}
    for place, (low, high) in enumerate(links_of(size)):
        even = FIRST_ADDRESS + 2 * place
        ports[low].append((even, even + 1, high))
        ports[high].append((even + 1, even, low))
    lines: list[str] = []
    for name in names:
        pod, _, position = name.removeprefix("edge").partition("-")
        origin = f"10.{pod}.{position}" if name.startswith("edge") else None
        lines.append(f"hostname {name}")
        if origin:
            lines += ["interface Vlan1", f" ip address {origin}.1 255.255.255.0"]
        for number, (own, _, _) in enumerate(ports[name]):
            lines += [f"interface GigabitEthernet0/{number}", f" ip address {own} 255.255.255.254"]
        lines.append(f"router bgp {numbers[name]}")
        if origin:
            lines.append(f" network {origin}.0 mask 255.255.255.0")
        for _, far, peer in ports[name]:
            lines += [f" neighbor {far} remote-as {numbers[peer]}", f" neighbor {far} send-community"]
        lines.append("end")
    return "".join(f"{line}\n" for line in lines)
