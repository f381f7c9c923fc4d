"""Why a BGP neighbour is part of no session: the rules of a session in order, and the first that does not hold."""
from __future__ import annotations

from ipaddress import IPv4Address

from bonsainet.configs.network import End, Network
from bonsainet.configs.profile import Device, Neighbor


def reason(network: Network, device: Device, neighbor: Neighbor) -> str:
    """One sentence that says what a session with this neighbour lacks."""
    if neighbor.is_shut:
        return "the neighbour is shut down here"
    far = network.end_at(neighbor.address)
    if far is None:
        return _without_end(network, neighbor.address)
    if far.device is device:
        return "the address is one of this router"
    near = next(
        (
            interface
            for interface in device.up_interfaces
            if interface.own_address.network == far.interface.own_address.network
        ),
        None,
    )
    if near is None:
        return (
            f"this router has no up interface in {far.interface.own_address.network}, the subnet of {far.device.name}"
        )
    return _without_agreement(device, neighbor, far, near.own_address.ip)


def _without_end(network: Network, address: IPv4Address) -> str:
    for device in network.devices:
        for interface in device.interfaces:
            if interface.address and interface.address.ip == address:
                return f"{interface.name} of {device.name} has the address and is shut down"
    return "no router of the input has this address"


def _without_agreement(device: Device, neighbor: Neighbor, far: End, near: IPv4Address) -> str:
    other = far.device
    if other.bgp is None:
        return f"{other.name} has no BGP process"
    if neighbor.remote != other.bgp.number:
        return f"the line says AS {neighbor.remote}, and {other.name} has AS {other.bgp.number}"
    back = other.bgp.neighbors.get(near)
    if back is None:
        return f"{other.name} has no neighbour {near}"
    if back.is_shut:
        return f"the neighbour {near} is shut down at {other.name}"
    return f"{other.name} says AS {back.remote} of {near}, and {device.name} has AS {device.own_bgp.number}"
