"""Interfaces: secondary addresses, and further words behind a name."""
from __future__ import annotations

from collections import defaultdict
from ipaddress import IPv4Interface

from bonsainet.importing.folder import (
    Dialect,
    Folder,
    Source,
    address_of,
    an_address,
    first,
    has,
    indented,
    interface_address,
    kind_of,
    name_of,
)
from bonsainet.importing.rule import rule
from bonsainet.importing.rules.frr import free_name
from bonsainet.importing.rules.options import Options
from bonsainet.importing.rules.ospf import AREA, in_area, is_passive
from bonsainet.configs.text import Line, Stanza

SECONDARY = rule(
    "secondary",
    "a secondary address makes a subnet of its own, as an interface of its own does; OSPF announces it and has no neighbours there",
    "Cisco IOS IP Addressing, `ip address secondary`; RFC 2328 section 12.4.1",
)
SAME_SUBNET = rule(
    "secondary-same-subnet",
    "the address is in the subnet of the interface, and no neighbour line names it",
    "Cisco IOS IP Addressing, `ip address secondary`",
)
SHUT = rule("secondary-shut", "an interface that is shut, or has no address, has no subnets", "Cisco IOS IP Addressing")
WORDS = rule(
    "interface-words", "the last word says only how many ends the link has", "Cisco IOS Interface, `interface serial`"
)
BELOW_SHUT = rule(
    "below-shut",
    "an interface is down where the one that carries it is shut: a subinterface, or a bundle of which all members are",
    "Cisco IOS Interface, `shutdown`, `channel-group`",
)
NO_ADDRESS = rule(
    "no-address",
    "an interface that is shut or has no IPv4 address has no subnet, no session and no adjacency",
    "Cisco IOS IP Addressing; FRR user guide, zebra",
)
SYSTEM_MTU = rule(
    "system-mtu",
    "the MTU of the system is that of each interface without its own; both ends of a link are taken to agree on it",
    "Cisco IOS Interface, `system mtu`",
)
DEFAULT_MTU = "1500"
OWN_MTU = ("Loopback", "Serial", "Tunnel")
REFUSED = "secondary"


def system_mtu(folder: Folder, _options: Options) -> None:
    """Writes the MTU of the system, where it is not the default, as one of each interface of an OSPF router:
    bonsai-doubts compares it. That of routed packets comes before the other one."""
    for router in folder.routers:
        given = (
            [stanza for stanza in router.with_head("system", "mtu") if _mtu_of(stanza)]
            if router.process("ospf")
            else []
        )
        given.sort(key=lambda stanza: "routing" not in stanza.head.words)
        for stanza in given:
            folder.log.cut(stanza.lines, SYSTEM_MTU)
            router.stanzas = [found for found in router.stanzas if found is not stanza]
        if given and _mtu_of(given[0]) != DEFAULT_MTU:
            for other in router.interfaces:
                is_own = has(other, "ip", "mtu") or has(other, "mtu") or kind_of(name_of(other)) in OWN_MTU
                if address_of(other) and not is_own:
                    other.body.append(indented(given[0].head, f"ip mtu {_mtu_of(given[0])}"))


def _mtu_of(stanza: Stanza) -> str | None:
    """The number of a line `system mtu [routing] N`, or none."""
    words = [word for word in stanza.head.words[2:] if word != "routing"]
    return words[0] if len(words) == 1 and words[0].isdigit() else None


def heads(folder: Folder, _options: Options) -> None:
    """Cuts the word `point-to-point` behind the name of an interface."""
    for router in folder.routers:
        for stanza in router.interfaces:
            words = stanza.head.words
            if words[2:] == ["point-to-point"]:
                folder.log.by(stanza.head, WORDS)
                stanza.head = stanza.head.with_text(" ".join(words[:2]))


def below_shut(folder: Folder, _options: Options) -> None:
    """Shuts subinterfaces of shut interfaces, and bundles whose members are all shut."""
    for router in folder.routers:
        shut = {name_of(stanza): has(stanza, "shutdown") for stanza in router.interfaces}
        members: dict[str, list[str]] = defaultdict(list)
        for stanza in router.interfaces:
            if found := first(stanza, "channel-group"):
                members[f"Port-channel{found.words[1]}"].append(name_of(stanza))
        for stanza in router.interfaces:
            name = name_of(stanza)
            carriers = members.get(name) or [name.partition(".")[0]]
            if not shut[name] and all(shut.get(carrier, False) for carrier in carriers):
                folder.log.by(stanza.head, BELOW_SHUT)
                stanza.body.append(indented(stanza.head, "shutdown"))


def leave_out_idle(folder: Folder, _router: Source, stanza: Stanza, line: Line) -> bool:
    """Leaves out a refused line inside an interface that is shut or has no address, and says whether it did."""
    if not stanza.starts("interface") or line is stanza.head:
        return False
    is_shut = any(found.words == ["shutdown"] for found in stanza.body)
    if not is_shut and any(found.words[:1] in (["ip"], ["vrf"]) for found in stanza.body):
        return False
    folder.log.cut([line], NO_ADDRESS)
    stanza.body = [found for found in stanza.body if found is not line]
    return True


def secondaries(folder: Folder, _options: Options) -> None:
    """Gives each secondary address an interface of its own, where that says the same."""
    for router in folder.routers:
        for stanza in list(router.interfaces):
            for line in [
                line for line in stanza.body if line.words[:2] == ["ip", "address"] and line.words[-1:] == ["secondary"]
            ]:
                _secondary(folder, router, stanza, line)


def _secondary(folder: Folder, router: Source, stanza: Stanza, line: Line) -> None:
    words = line.words
    address = interface_address(words[2], words[3]) if len(words) == 5 else None
    primary = address_of(stanza)
    if address is None:
        return
    own = [
        found for other in router.interfaces if (found := address_of(other)) and found.network.overlaps(address.network)
    ]
    if primary is None:
        folder.log.cut([line], SHUT)
    elif primary.network == address.network and not _is_named(folder, address):
        folder.log.cut([line], SAME_SUBNET)
    elif own:
        folder.log.refuse(
            line,
            REFUSED,
            f"its subnet overlaps {own[0].network}, and the profile has one address in a subnet of a router",
        )
        return
    else:
        _own_interface(folder, router, stanza, line, address)
    stanza.body.remove(line)


def _is_named(folder: Folder, address: IPv4Interface) -> bool:
    lines = (
        line for router in folder.routers for process in router.with_head("router", "bgp") for line in process.body
    )
    return any(line.words[:1] == ["neighbor"] and an_address(line.words[1]) == address.ip for line in lines)


def _with_interface(
    folder: Folder, router: Source, stanza: Stanza, line: Line, address: IPv4Interface
) -> Stanza | None:
    """The OSPF process. An area on the interface takes in its secondary addresses too, unless it says
    `secondaries none`."""
    process, own = router.process("ospf"), address_of(stanza)
    if not process or not own:
        return process
    for found in list(process.body):
        is_of_interface = AREA in folder.log.touched.get(found.place, []) and found.words[1:2] == [str(own.ip)]
        if is_of_interface and folder.raw.get(found.place, "").split()[-2:] != ["secondaries", "none"]:
            process.body.append(indented(line, f"network {address.ip} 0.0.0.0 area {found.words[4]}"))
            break
    return process


def _own_interface(folder: Folder, router: Source, stanza: Stanza, line: Line, address: IPv4Interface) -> None:
    folder.log.by(line, SECONDARY)
    name = free_name(f"{name_of(stanza)}:", {name_of(other) for other in router.interfaces})
    made = Stanza(line.with_text(f"interface {name}"), [indented(line, f"ip address {address.ip} {address.netmask}")])
    made.body += [line.with_text(found.text) for found in stanza.body if found.words[:3] == ["ip", "ospf", "network"]]
    given = first(stanza, "ip", "ospf", "cost")
    router.stanzas.insert(router.stanzas.index(stanza) + 1, made)
    process = _with_interface(folder, router, stanza, line, address)
    if not process or not in_area(router, made):
        return
    if router.dialect is Dialect.IOS and not in_area(router, stanza):
        folder.log.refuse(
            line,
            REFUSED,
            "a `network` line takes in this address and not the primary one, and then OSPF does not run on the interface",
        )
        return
    if given:
        made.body.append(line.with_text(given.text))
    else:
        made.body += [
            line.with_text(found.text) for found in stanza.body if found.words[:1] in (["bandwidth"], ["speed"])
        ]
    if router.dialect is Dialect.IOS and not is_passive(router, name):
        process.body.append(indented(line, f"passive-interface {name}"))
