"""Doubts about prefixes, sessions, adjacencies and routers, by the meaning of lines that
python/bonsainet/configs/network.py has."""
from __future__ import annotations

from collections.abc import Iterator
from ipaddress import IPv4Network

from bonsainet.doubts.finding import Doubt, doubt
from bonsainet.configs.network import End, Network, is_active, is_in_area
from bonsainet.configs.profile import AreaLine, Device, Interface
from bonsainet.configs.unmatched import reason


def doubts_of_links(network: Network) -> Iterator[Doubt]:
    """All of them, sort by sort."""
    yield from _networks_of_bgp(network)
    yield from _networks_of_ospf(network)
    yield from (
        doubt("no-session", device.name, neighbor.line, reason(network, device, neighbor))
        for device, neighbor in network.unmatched
    )
    yield from _without_neighbour(network)
    yield from _without_links(network)


def _networks_of_bgp(network: Network) -> Iterator[Doubt]:
    for device in network.devices:
        up = {interface.own_address.network for interface in device.up_interfaces}
        for prefix, line in device.bgp.networks.items() if device.bgp else ():
            if prefix not in up:
                yield doubt("originates-nothing", device.name, line, _why_not_originated(device, prefix))


def _why_not_originated(device: Device, prefix: IPv4Network) -> str:
    """Why no up interface has exactly the prefix."""
    given = [(interface, interface.address.network) for interface in device.interfaces if interface.address]
    shut = next((interface for interface, subnet in given if subnet == prefix), None)
    if shut:
        return f"{shut.name} has the subnet {prefix} and is shut down"
    near = next(((interface, subnet) for interface, subnet in given if subnet.overlaps(prefix)), None)
    if near:
        return f"no interface has exactly the subnet {prefix}: that of {near[0].name} is {near[1]}"
    return f"no interface has the subnet {prefix}; a static route to Null0 originates nothing here"


def _networks_of_ospf(network: Network) -> Iterator[Doubt]:
    for device in network.devices:
        for line in device.ospf.areas if device.ospf else ():
            if not any(line.covers(interface.own_address.ip) for interface in device.up_interfaces):
                yield doubt("originates-nothing", device.name, line.line, _why_nothing_covered(device, line))


def _why_nothing_covered(device: Device, line: AreaLine) -> str:
    shut = next(
        (interface for interface in device.interfaces if interface.address and line.covers(interface.address.ip)), None
    )
    return (
        f"of the interfaces that it covers none is up: {shut.name} is shut down"
        if shut
        else "no interface has an address that it covers"
    )


def _without_neighbour(network: Network) -> Iterator[Doubt]:
    """Active interfaces that are adjacent to none. Loopbacks and `Vlan`s without a second router are meant so."""
    if network.protocol != "ospf":
        return
    adjacent = {id(end.interface) for link in network.links for end in (link.low, link.high)}
    for device in network.devices:
        for interface in device.up_interfaces:
            is_wire = interface.kind != "Loopback" and interface.own_address.network.prefixlen < 32
            if is_wire and is_active(device, interface) and id(interface) not in adjacent:
                yield doubt(
                    "no-neighbour", device.name, interface.lines["address"], _why_alone(network, device, interface)
                )


def _why_alone(network: Network, device: Device, interface: Interface) -> str:
    name, subnet = interface.name, interface.own_address.network
    others = [end for end in network.wires[subnet] if end.device is not device]
    if others:
        return f"{name}: {_why_not_adjacent(others[0])}"
    for other in network.devices:
        for far in other.interfaces if other is not device else ():
            if far.address and far.address.network == subnet:
                return f"{name}: {far.name} of {other.name} is in {subnet} and shut down"
            if far.address and far.address.network.overlaps(subnet):
                return f"{name}: {far.name} of {other.name} has {far.address.network}, another mask than {subnet}"
    return f"{name}: no other router is in {subnet}; where hosts alone are there, make it passive"


def _why_not_adjacent(end: End) -> str:
    told = f"{end.interface.name} of {end.device.name}"
    if end.device.ospf is None:
        return f"{end.device.name} has no OSPF process"
    return f"{told} is passive" if is_in_area(end.device, end.interface) else f"{told} is not in the area"


def _without_links(network: Network) -> Iterator[Doubt]:
    linked = {end.device.name for link in network.links for end in (link.low, link.high)}
    for device in network.devices:
        if device.name not in linked and len(network.devices) > 1:
            yield doubt("no-link", device.name, device.line, _why_without_links(network, device))


def _why_without_links(network: Network, device: Device) -> str:
    if network.protocol == "bgp":
        if device.bgp is None:
            return "it has no BGP process"
        return (
            "none of its neighbours is part of a session" if device.bgp.neighbors else "its process has no neighbours"
        )
    if network.protocol == "ospf":
        return "none of its interfaces is adjacent to another" if device.ospf else "it has no OSPF process"
    return "no router has a process"
