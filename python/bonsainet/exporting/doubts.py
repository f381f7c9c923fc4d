"""Lines that a target takes and may mean otherwise than the model does, as it was measured with FRR."""
from __future__ import annotations

from ipaddress import IPv4Network

from bonsainet.exporting.writer import Writer
from bonsainet.configs.network import Network

RESERVED = [IPv4Network(prefix) for prefix in ("0.0.0.0/8", "127.0.0.0/8", "224.0.0.0/4", "240.0.0.0/4")]
FOR_OLD_SPEAKERS = 23456


def doubts_of(network: Network, writer: Writer) -> None:
    """Notes each doubtful line of a network."""
    wires = {link.subnet for link in network.links}
    for device in network.devices:
        if device.bgp and device.bgp.number == FOR_OLD_SPEAKERS:
            writer.doubt(device.bgp.line, "as-23456")
        for interface in device.up_interfaces:
            address, subnet = interface.own_address.ip, interface.own_address.network
            if any(subnet.overlaps(reserved) for reserved in RESERVED):
                writer.doubt(interface.lines["address"], "reserved-prefix")
            if (
                subnet in wires
                and subnet.prefixlen < 31
                and address in (subnet.network_address, subnet.broadcast_address)
            ):
                writer.doubt(interface.lines["address"], "edge-of-subnet")
    for origin in network.origins:
        if network.protocol == "bgp" and origin.prefix in wires:
            writer.doubt(network.by_name[origin.device].own_bgp.networks[origin.prefix], "own-wire")
