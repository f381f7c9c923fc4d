"""Texts of networks that follow a rule: rings and full meshes, in external BGP without policies;
python/bonsainet/nets/fat_tree.py has fat trees.

Each router has an AS number of its own, each link a subnet of two addresses from 172.16.0.0 on.
"""
from __future__ import annotations

from collections.abc import Iterable, Iterator
from ipaddress import IPv4Address, IPv4Network

FIRST_LINK = int(IPv4Address("172.16.0.0"))
FIRST_AS = 4200000000


def text_of(
    names: list[str], links: Iterable[tuple[str, str]], origins: dict[str, IPv4Network], is_short: bool = False
) -> str:
    """The text of a network: its routers in order, its links, and the prefix that each originator has.

    A short text has short names of interfaces and sends no communities, which no router sets: so more links fit into
    one text.
    """
    number = {name: FIRST_AS + place for place, name in enumerate(names)}
    ends: dict[str, list[tuple[int, str]]] = {name: [] for name in names}
    for place, (low, high) in enumerate(links):
        ends[low].append((FIRST_LINK + 2 * place, high))
        ends[high].append((FIRST_LINK + 2 * place + 1, low))
    return "".join(
        f"{line}\n" for name in names for line in _router(name, ends[name], number, origins.get(name), is_short)
    )


def _router(
    name: str, ends: list[tuple[int, str]], number: dict[str, int], origin: IPv4Network | None, is_short: bool
) -> Iterator[str]:
    yield f"hostname {name}"
    if origin:
        yield from ("interface Vlan1", f" ip address {origin[1]} {origin.netmask}")
    for place, (address, _) in enumerate(ends):
        yield from (
            f"interface {'e' if is_short else 'GigabitEthernet0/'}{place}",
            f" ip address {IPv4Address(address)} 255.255.255.254",
        )
    yield f"router bgp {number[name]}"
    if origin:
        yield f" network {origin[0]} mask {origin.netmask}"
    for address, other in ends:
        far = IPv4Address(address ^ 1)
        yield f" neighbor {far} remote-as {number[other]}"
        if not is_short:
            yield f" neighbor {far} send-community"
    yield "end"


def ring(size: int) -> str:
    """A ring of routers, each with a prefix."""
    names = [f"r{place}" for place in range(size)]
    return text_of(names, [(names[place], names[(place + 1) % size]) for place in range(size)], _each(names))


def mesh(size: int) -> str:
    """Routers of which each two have a link, each with a prefix. Beyond 300 routers the text is a short one."""
    names = [f"r{place}" for place in range(size)]
    links = [(low, high) for place, low in enumerate(names) for high in names[place + 1 :]]
    return text_of(names, links, _each(names), is_short=size > 300)


def _each(names: list[str]) -> dict[str, IPv4Network]:
    return {name: IPv4Network(f"10.{place >> 8}.{place & 255}.0/24") for place, name in enumerate(names)}
