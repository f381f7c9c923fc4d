"""What is taken down in a lab, by the words of `bonsai-ask`: routers `A` and pairs `A:B`, with commas between them."""
from __future__ import annotations

import dataclasses

from bonsainet.cli.command_line import Refused
from bonsainet.configs.network import End, Link, Network


@dataclasses.dataclass(frozen=True)
class Down:
    """Routers, and pairs of routers between whom all links are down. `word` is what names them."""

    word: str
    routers: frozenset[str]
    pairs: frozenset[frozenset[str]]

    @classmethod
    def of(cls, word: str) -> Down:
        """What a word names that `bonsai-ask` takes."""
        items = word.split(",")
        pairs = frozenset(frozenset(item.split(":")) for item in items if ":" in item)
        return cls(word, frozenset(item for item in items if ":" not in item), pairs)

    def loses(self, link: Link) -> bool:
        """Whether a link is down, by itself or with one of its routers."""
        ends = frozenset((link.low.device.name, link.high.device.name))
        return bool(ends & self.routers) or ends in self.pairs


def ends_down(network: Network, down: Down) -> list[End]:
    """The interfaces that are taken down: all of a router, and both ends of a link. Refused where more than two interfaces
    are in the subnet of a link: one that goes down loses all of them."""
    found = {
        (device.name, interface.name): End(device, interface)
        for device in network.devices
        if device.name in down.routers
        for interface in device.up_interfaces
    }
    for link in network.links:
        names = frozenset((link.low.device.name, link.high.device.name))
        if names not in down.pairs or names & down.routers:
            continue
        count = len(network.cables[link.subnet])
        if count > 2:
            raise Refused(
                f"{link.low.device.name}:{link.high.device.name}: {count} interfaces are in {link.subnet}, "
                "and one that goes down loses all of them; a lab takes down links between two interfaces"
            )
        found |= {(end.device.name, end.interface.name): end for end in (link.low, link.high)}
    return list(found.values())


def is_pair(ends: list[End]) -> bool:
    """Whether a cable is a pair of ports, of which one goes down with the other; else it is a bridge."""
    return len(ends) == 2 and not any(end.interface.is_shut for end in ends)


def withdrawn(network: Network, down: Down) -> set[str]:
    """The subnets that routers withdraw which are not down themselves: those of wires that lose an end."""
    lost = {(end.device.name, end.interface.name) for end in ends_down(network, down)}
    found = set()
    for subnet, ends in network.cables.items():
        are_lost = any((end.device.name, end.interface.name) in lost for end in ends)
        if are_lost and is_pair(ends) and not all(end.device.name in down.routers for end in ends):
            found.add(str(subnet))
    return found
