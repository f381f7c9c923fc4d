"""What an accepted text means to a tool: interfaces on subnets, sessions, adjacencies, costs and origins.

The rules are those of the proved program (docs/use/LINES.md and `crates/cfg_ast/specs/meaning/`): a link is a BGP session
or a pair of adjacent OSPF interfaces. Tests compare the counts with the program's. Groups, classes and routes are the
program's to say.
"""
from __future__ import annotations

import dataclasses
import functools
from collections import defaultdict
from collections.abc import Iterator
from ipaddress import IPv4Address, IPv4Network
from itertools import permutations

from bonsainet.configs.profile import Device, Interface, Neighbor
from bonsainet.configs.reading import devices_of
from bonsainet.configs.text import Line


@dataclasses.dataclass
class End:
    """One end of a link or of a wire: a device, its interface, and in BGP the neighbour that its lines name."""

    device: Device
    interface: Interface
    neighbor: Neighbor | None = None

    @property
    def address(self) -> IPv4Address:
        """The address of the interface."""
        return self.interface.own_address.ip

    @property
    def own_neighbor(self) -> Neighbor:
        """The neighbour of an end of a session."""
        assert self.neighbor
        return self.neighbor

    @property
    def cost(self) -> int | None:
        """The OSPF cost of the interface: what the device adds to routes that it takes over this link."""
        return self.interface.cost_in_area


@dataclasses.dataclass
class Link:
    """A BGP session or a pair of adjacent OSPF interfaces. `low` is the end whose line comes first."""

    low: End
    high: End

    @property
    def subnet(self) -> IPv4Network:
        """The subnet in which both ends are."""
        return self.low.interface.own_address.network


@dataclasses.dataclass(frozen=True)
class Origin:
    """A prefix that a device originates, with the interface that is in it. `cost` is given in OSPF alone."""

    device: str
    prefix: IPv4Network
    interface: str
    cost: int | None


class Network:
    """The network of an accepted text, or some of its devices, with the protocol of the whole if that is known."""

    def __init__(self, devices: list[Device], protocol: str | None = None) -> None:
        self.devices = devices
        self._protocol = protocol

    @functools.cached_property
    def by_name(self) -> dict[str, Device]:
        """The devices by their names."""
        return {device.name: device for device in self.devices}

    @functools.cached_property
    def protocol(self) -> str | None:
        """`bgp`, `ospf`, or none where no device has a process."""
        if self._protocol:
            return self._protocol
        if any(device.bgp for device in self.devices):
            return "bgp"
        return "ospf" if any(device.ospf for device in self.devices) else None

    @functools.cached_property
    def area(self) -> int | None:
        """The one OSPF area, where a line gives it."""
        return next((line.area for device in self.devices if device.ospf for line in device.ospf.areas), None)

    @functools.cached_property
    def wires(self) -> dict[IPv4Network, list[End]]:
        """The up interfaces of each subnet, in order."""
        found: dict[IPv4Network, list[End]] = defaultdict(list)
        for device in self.devices:
            for interface in device.up_interfaces:
                found[interface.own_address.network].append(End(device, interface))
        return dict(found)

    def end_at(self, address: IPv4Address) -> End | None:
        """The up interface that has an address."""
        found = self._at.get(int(address))
        return End(*found) if found else None

    @functools.cached_property
    def _at(self) -> dict[int, tuple[Device, Interface]]:
        return {
            number: (device, interface) for device in self.devices for number, interface in device.by_address.items()
        }

    @functools.cached_property
    def cables(self) -> dict[IPv4Network, list[End]]:
        """The interfaces of each subnet in order, those that are shut among them, where there are several."""
        found: dict[IPv4Network, list[End]] = defaultdict(list)
        for device in self.devices:
            for interface in device.interfaces:
                if interface.address is not None:
                    found[interface.address.network].append(End(device, interface))
        return {subnet: ends for subnet, ends in found.items() if len(ends) > 1}

    @functools.cached_property
    def links(self) -> list[Link]:
        """The sessions or adjacencies, by the order of their lines: lower end first, then higher."""
        return self._sessions() if self.protocol == "bgp" else self._adjacencies()

    @functools.cached_property
    def places_of_links(self) -> tuple[list[int], list[int]]:
        """The places of the devices at the lower ends of the links, and at the higher ends."""
        place = {id(device): at for at, device in enumerate(self.devices)}
        lows = [place[id(link.low.device)] for link in self.links]
        return lows, [place[id(link.high.device)] for link in self.links]

    @property
    def unmatched(self) -> list[tuple[Device, Neighbor]]:
        """The neighbours that are part of no session, in order."""
        matched = {id(end.neighbor) for link in self.links for end in (link.low, link.high)}
        return [
            (device, neighbor)
            for device in self.devices
            if device.bgp
            for neighbor in device.bgp.by_number.values()
            if id(neighbor) not in matched
        ]

    @functools.cached_property
    def origins(self) -> list[Origin]:
        """The prefixes that each device originates, in order of devices and interfaces."""
        return [origin for device in self.devices for origin in origins_of(device)]

    def _sessions(self) -> list[Link]:
        at = self._at
        found, met = [], set()
        # (a session is met at the end whose line comes first, so that all stand in order)
        for device in self.devices:
            met.add(id(device))
            for number, neighbor in device.bgp.by_number.items() if device.bgp else ():
                far, there = at.get(number, (None, None))
                if far and there and far.bgp and id(far) not in met:
                    near = device.by_subnet.get(there.subnet)
                    back = far.bgp.by_number.get(near.own_numbers[0]) if near else None
                    if near and back and _agree(device, neighbor, far, back):
                        found.append(Link(End(device, near, neighbor), End(far, there, back)))
        return found

    def _adjacencies(self) -> list[Link]:
        found = []
        for ends in self.wires.values():
            active = [end for end in ends if is_active(end.device, end.interface)]
            found += [Link(*pair) for pair in permutations(active, 2) if pair[0].device is not pair[1].device]
        return self._in_order(found)

    def _in_order(self, links: list[Link]) -> list[Link]:
        """Of links that stand both ways, those with the lower end first, by the places of their ends."""
        place: dict[int, tuple[int, int]] = {}
        for number, device in enumerate(self.devices):
            items = device.bgp.by_number.values() if device.bgp else device.interfaces
            place.update((id(item), (number, within)) for within, item in enumerate(items))

        def of(end: End) -> tuple[int, int]:
            return place[id(end.neighbor or end.interface)]

        return sorted(
            (link for link in links if of(link.low) < of(link.high)), key=lambda link: (of(link.low), of(link.high))
        )


def origins_of(device: Device) -> Iterator[Origin]:
    """The prefixes that a device originates, in order of interfaces."""
    for interface in device.up_interfaces:
        prefix = interface.own_address.network
        if device.bgp and device.bgp.networks and prefix in device.bgp.networks:
            yield Origin(device.name, prefix, interface.name, None)
        elif is_in_area(device, interface):
            yield Origin(device.name, prefix, interface.name, interface.cost_in_area)


def _agree(device: Device, neighbor: Neighbor, far: Device, back: Neighbor) -> bool:
    """Whether two neighbour lines name each other's numbers, and neither is shut."""
    return (
        neighbor.remote == far.own_bgp.number
        and back.remote == device.own_bgp.number
        and not neighbor.is_shut
        and not back.is_shut
    )


def is_in_area(device: Device, interface: Interface) -> bool:
    """Whether an up interface is in the OSPF area of its device."""
    return (
        bool(device.ospf)
        and interface.is_up
        and any(line.covers(interface.own_address.ip) for line in device.own_ospf.areas)
    )


def is_active(device: Device, interface: Interface) -> bool:
    """Whether an interface is in the area and not passive, so that it can have adjacencies."""
    return is_in_area(device, interface) and not device.own_ospf.is_passive(interface.name)


def read_network(text: str, file: str = "F") -> Network:
    """The network of an accepted text. `file` is the name that places of lines carry."""
    return Network(devices_of(text, file))


def ignored_lines(network: Network) -> Iterator[tuple[Device, Line]]:
    """The lines that have no bearing, each with its device."""
    return ((device, line) for device in network.devices for line in device.ignored)
