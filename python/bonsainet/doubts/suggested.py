"""Links that a raw folder suggests: two routers with interfaces in one subnet, between which the text has no link."""
from __future__ import annotations

from collections import defaultdict
from collections.abc import Iterator
from ipaddress import IPv4Network
from itertools import combinations

from bonsainet.doubts.finding import Doubt, doubt
from bonsainet.importing.folder import Folder, address_given, first, has, name_of
from bonsainet.configs.network import Network
from bonsainet.configs.text import Line, Stanza

Wired = tuple[str, Stanza]


def doubts_of_folder(network: Network, folder: Folder) -> Iterator[Doubt]:
    """A doubt for each subnet of the folder in which two routers have no link in the text."""
    linked = {(frozenset((link.low.device.name, link.high.device.name)), link.subnet) for link in network.links}
    for subnet, ends in _wires(folder).items():
        apart = [
            pair
            for pair in combinations(ends, 2)
            if pair[0][0] != pair[1][0] and (frozenset((pair[0][0], pair[1][0])), subnet) not in linked
        ]
        if apart:
            yield doubt("suggested-link", apart[0][0][0], _line(apart[0][0][1]), _told(network, subnet, apart))


def _wires(folder: Folder) -> dict[IPv4Network, list[Wired]]:
    """The interfaces of the folder by their subnets, shut ones too."""
    found: dict[IPv4Network, list[Wired]] = defaultdict(list)
    for router in folder.routers:
        for stanza in router.interfaces:
            address = address_given(stanza)
            if address and address.network.prefixlen < 32:
                found[address.network].append((router.name, stanza))
    return found


def _told(network: Network, subnet: IPv4Network, apart: list[tuple[Wired, Wired]]) -> str:
    """The interfaces that are no part of the wire in the text, each with why, and the pairs that are and have no
    link."""
    ends = {id(end[1]): end for pair in apart for end in pair}
    why = {key: _obstacle(network, subnet, *end) for key, end in ends.items()}
    told = [f"{name_of(stanza)} of {name} {why[key]}" for key, (name, stanza) in ends.items() if why[key]]
    lacking = "session" if network.protocol == "bgp" else "adjacency"
    told += [
        f"the text has no {lacking} between {low} and {high}"
        for (low, one), (high, other) in apart
        if not why[id(one)] and not why[id(other)]
    ]
    names = " and ".join(f"{name_of(stanza)} of {name}" for name, stanza in apart[0])
    more = f" and {len(ends) - 2} more" if len(ends) > 2 else ""
    return f"{names}{more} are in {subnet}: {'; '.join(told)}"


def _obstacle(network: Network, subnet: IPv4Network, name: str, stanza: Stanza) -> str | None:
    """Why an interface of the folder is no part of its wire in the text, or none."""
    if has(stanza, "shutdown"):
        return "is shut down"
    vrf = first(stanza, "vrf", "forwarding") or first(stanza, "ip", "vrf", "forwarding")
    if vrf:
        return f"is in the VRF {vrf.words[-1]}"
    device = network.by_name.get(name)
    if device is None:
        return "belongs to a router that the text has not"
    is_up = any(interface.own_address.network == subnet for interface in device.up_interfaces)
    return None if is_up else "is not up in the text"


def _line(stanza: Stanza) -> Line:
    return first(stanza, "ip", "address") or stanza.head
