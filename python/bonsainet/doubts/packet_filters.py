"""Packet filters on a link that keep the two ends from talking: an access list that drops BGP or OSPF as it comes in.

An access list with an entry that is not understood is not judged. A device does not filter its own packets on their way
out, so lists of that direction are not looked at (Cisco IOS Security, `ip access-group`).
"""
from __future__ import annotations

import dataclasses
from ipaddress import AddressValueError, IPv4Address

from bonsainet.configs.network import End
from bonsainet.configs.profile import Device
from bonsainet.configs.text import Line

BGP_PORT = 179
ANY_PORT = 40_000
TO_ALL_OSPF_ROUTERS = IPv4Address("224.0.0.5")
ALL = 0xFFFFFFFF
PORTS = {"bgp": BGP_PORT, "telnet": 23, "www": 80, "domain": 53, "smtp": 25, "ftp": 21, "cmd": 514, "tacacs": 49}
PROTOCOLS = {"tcp": "tcp", "6": "tcp", "ospf": "ospf", "89": "ospf", "ip": "ip", "udp": "other", "icmp": "other"}
PROTOCOLS |= dict.fromkeys(("gre", "esp", "ahp", "eigrp", "igmp", "pim", "1", "17", "47", "50", "51"), "other")
ENDINGS = {"log", "log-input", "established"}


@dataclasses.dataclass(frozen=True)
class Packet:
    """A packet of BGP or OSPF. Ports are those of TCP."""

    protocol: str
    source: IPv4Address
    target: IPv4Address
    source_port: int = 0
    target_port: int = 0


class NotUnderstood(Exception):
    """An entry of a form that is not judged."""


def blocked_by(end: End, far: End, protocol: str | None) -> Line | None:
    """The line that puts an access list on the interface of an end which drops what the far end sends, or none."""
    line = next(
        (
            found
            for found in end.interface.ignored
            if found.words[:2] == ["ip", "access-group"] and found.words[3:] == ["in"]
        ),
        None,
    )
    entries = _entries(end.device, line.words[2]) if line else []
    if not line or not entries:
        return None
    if protocol == "ospf":
        packets = [Packet("ospf", far.address, TO_ALL_OSPF_ROUTERS)]
    else:
        packets = [
            Packet("tcp", far.address, end.address, ANY_PORT, BGP_PORT),
            Packet("tcp", far.address, end.address, BGP_PORT, ANY_PORT),
        ]
    try:
        return line if not any(_passes(entries, packet) for packet in packets) else None
    except NotUnderstood:
        return None


def _entries(device: Device, name: str) -> list[list[str]]:
    """The words of the entries of an access list, in order, without their numbers."""
    found: list[tuple[int, list[str]]] = []
    is_inside = False
    for line in device.ignored:
        words = line.words
        if not line.is_indented:
            is_inside = words[:2] == ["ip", "access-list"] and words[-1] == name
            if words[:2] != ["access-list", name]:
                continue
            words = words[2:]
        elif not is_inside:
            continue
        number = max((at for at, _ in found), default=0) + 10
        if words[:1] and words[0].isdigit():
            number, words = int(words[0]), words[1:]
        if words[:1] in (["permit"], ["deny"]):
            found.append((number, words))
        elif words[:1] != ["remark"]:
            found.append((number, ["other"]))
    return [words for _, words in sorted(found, key=lambda entry: entry[0])]


def _passes(entries: list[list[str]], packet: Packet) -> bool:
    """What an access list says of a packet: its first entry that holds, and the end denies."""
    for words in entries:
        if _holds(words[1:], packet):
            return words[0] == "permit"
    return False


def _holds(words: list[str], packet: Packet) -> bool:
    rest = list(words)
    if not rest:
        raise NotUnderstood
    if rest[0] not in PROTOCOLS:
        holds = _address(rest, packet.source)
        _no_more(rest)
        return holds
    protocol = PROTOCOLS[rest.pop(0)]
    holds = _address(rest, packet.source)
    holds &= _port(rest, packet.source_port)
    holds &= _address(rest, packet.target)
    holds &= _port(rest, packet.target_port)
    if rest[:1] == ["established"] and packet.target_port == BGP_PORT:
        holds = False
    _no_more(rest)
    return holds and protocol in ("ip", packet.protocol)


def _no_more(rest: list[str]) -> None:
    if any(word not in ENDINGS for word in rest):
        raise NotUnderstood


def _address(rest: list[str], address: IPv4Address) -> bool:
    """Takes the words of an address from the front, and says whether they hold for it."""
    try:
        if rest[:1] == ["any"]:
            rest.pop(0)
            return True
        if rest[:1] == ["host"]:
            found = IPv4Address(rest[1])
            del rest[:2]
            return found == address
        found = IPv4Address(rest.pop(0))
        wildcard = 0
        if rest and rest[0].count(".") == 3:
            wildcard = int(IPv4Address(rest.pop(0)))
        return not (int(found) ^ int(address)) & ~wildcard & ALL
    except (IndexError, AddressValueError):
        raise NotUnderstood from None


def _port(rest: list[str], port: int) -> bool:
    """Takes the words of a port from the front, and says whether they hold for it."""
    if rest[:1] not in (["eq"], ["neq"], ["gt"], ["lt"], ["range"]):
        return True
    sign = rest.pop(0)
    values = []
    while rest and (rest[0] in PORTS or rest[0].isdigit()):
        values.append(PORTS[rest[0]] if rest[0] in PORTS else int(rest[0]))
        rest.pop(0)
    if not values:
        raise NotUnderstood
    if sign == "range":
        return len(values) == 2 and values[0] <= port <= values[1]
    told = {"eq": port in values, "neq": port not in values, "gt": port > values[0], "lt": port < values[0]}
    return told[sign]
