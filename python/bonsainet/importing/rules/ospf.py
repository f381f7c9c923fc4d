"""OSPF on interfaces: areas, network types and loopbacks, written as the profile has them."""
from __future__ import annotations

import dataclasses
import functools
import re
from collections import defaultdict
from ipaddress import IPv4Interface, IPv4Network

from bonsainet.importing.folder import (
    Dialect,
    Folder,
    Source,
    address_given,
    address_of,
    an_address,
    first,
    has,
    indented,
    kind_of,
    name_of,
)
from bonsainet.importing.rewriting import cut_lines, rewrite
from bonsainet.importing.rule import Rule, rule
from bonsainet.importing.rules.frr import free_name
from bonsainet.importing.rules.options import Options
from bonsainet.configs.text import Line, Stanza

AREA = rule(
    "ospf-interface-area",
    "an area given on an interface takes in this address, as a `network` line with wildcard 0.0.0.0 does",
    "Cisco IOS OSPF, `ip ospf area`; FRR user guide, OSPF",
)
PASSIVE = rule(
    "ospf-interface-passive",
    "an interface that is passive by its own line is passive in its process",
    "FRR user guide, OSPF, `ip ospf passive`",
)
TYPE = rule(
    "ospf-network-type",
    "both ends have one type, so they are adjacent, and the type changes no prefix",
    "RFC 2328 sections 9.5 and 12.4.1; Cisco IOS OSPF, `ip ospf network`",
)
LOOPBACK_HOST = rule(
    "ospf-loopback-host",
    "OSPF announces a loopback as a host route, whatever its mask",
    "RFC 2328 section 12.4.1; Cisco IOS OSPF",
)
LOOPBACK_NET = rule(
    "ospf-loopback-subnet",
    "a loopback of type point-to-point, and on FRR each interface but `lo`, is announced with its mask, as a `Vlan` is in the profile",
    "Cisco IOS OSPF, `ip ospf network point-to-point`; RFC 2328 section 12.4.1",
)
ONE_AREA = rule(
    "ospf-one-area", "the line speaks of borders between areas, and the network has one area", "RFC 2328 section 12.4.3"
)
NO_EXTERNAL = rule(
    "ospf-no-external", "the line speaks of external routes, and this router brings in none", "RFC 2328 section 12.4.4"
)
REFUSED_TYPE = "ospf-network-type"
STUB = "ospf-stub"
MULTIPOINT = (
    "type {}: point-to-multipoint announces host routes and not the subnet, non-broadcast needs its neighbours named"
)
POINT_TO_POINT = ("Serial", "Tunnel", "POS", "Multilink")


def areas(folder: Folder, _options: Options) -> None:
    """Writes areas and passivity given on interfaces as lines of the process."""
    for router in folder.routers:
        for stanza in list(router.interfaces):
            for line in [line for line in stanza.body if line.words[:2] == ["ip", "ospf"]]:
                _area_of(folder, router, stanza, line)


def _area_of(folder: Folder, router: Source, stanza: Stanza, line: Line) -> None:
    words = [word for word in line.words if word not in ("secondaries", "none")]
    if words[2:] == ["passive"]:
        number, area, rule_used = None, None, PASSIVE
    elif len(words) == 5 and words[3] == "area" and words[2].isdigit():
        number, area, rule_used = words[2], words[4], AREA
    elif len(words) == 4 and words[2] == "area":
        number, area, rule_used = None, words[3], AREA
    else:
        return
    stanza.body.remove(line)
    folder.log.by(line, rule_used)
    process = _process(router, number, line)
    address = address_given(stanza)
    if rule_used is PASSIVE:
        process.body.append(indented(line, f"passive-interface {name_of(stanza)}"))
    elif address:
        process.body.append(indented(line, f"network {address.ip} 0.0.0.0 area {area}"))


def _process(router: Source, number: str | None, line: Line) -> Stanza:
    """The OSPF process of a number, made where it is missing, as devices do."""
    for process in router.with_head("router", "ospf"):
        if number is None or process.head.words[2:3] == [number]:
            return process
    made = Stanza(line.with_text(f"router ospf {number or 1}"))
    router.stanzas.append(made)
    return made


@dataclasses.dataclass
class Active:
    """An interface that can have adjacencies: its router, stanza and address."""

    router: Source
    stanza: Stanza
    address: IPv4Interface


def in_area(router: Source, stanza: Stanza) -> bool:
    """Whether an up interface is in the area of an OSPF process of its router."""
    address = address_of(stanza)
    return address is not None and any(
        covers(line, address)
        for process in router.with_head("router", "ospf")
        for line in process.body
        if line.words[:1] == ["network"]
    )


def covers(line: Line, address: IPv4Interface) -> bool:
    """Whether a `network` line puts an address in an area."""
    words = line.words
    if words[:1] != ["network"] or len(words) < 5 or words[3] != "area":
        return False
    found = _range(words[1], words[2])
    return found is not None and not (found[0] ^ int(address)) & found[1]


@functools.lru_cache(maxsize=65536)
def _range(base: str, wildcard: str) -> tuple[int, int] | None:
    """An address and the bits that count, as numbers, or none where the words are none."""
    first_one, open_bits = an_address(base), an_address(wildcard)
    return None if first_one is None or open_bits is None else (int(first_one), ~int(open_bits) & 0xFFFFFFFF)


def is_passive(router: Source, name: str) -> bool:
    """Whether an interface is passive."""
    lines = [line.words for process in router.with_head("router", "ospf") for line in process.body]
    if ["passive-interface", "default"] in lines:
        return ["no", "passive-interface", name] not in lines
    return ["passive-interface", name] in lines


def passive_order(folder: Folder, _options: Options) -> None:
    """Refuses lines about passive interfaces of which a later one takes back an earlier one: the profile does not look
    at their order."""
    for router in folder.routers:
        for process in router.with_head("router", "ospf"):
            for name, line in _passive_named(process).items():
                if _passive_in_order(process, name) != is_passive(router, name):
                    folder.log.refuse(
                        line,
                        "passive-order",
                        "a later line about passive interfaces takes an earlier one back: write the lines that count alone",
                    )


def _passive_named(process: Stanza) -> dict[str, Line]:
    """The interfaces that lines about passive interfaces name, each with the last line about it."""
    return {
        line.words[-1]: line
        for line in process.body
        if "passive-interface" in line.words[:2] and line.words[-1] != "default"
    }


def _passive_in_order(process: Stanza, name: str) -> bool:
    """Whether an interface is passive where each line counts from its place on, as devices read them."""
    found = False
    for line in process.body:
        words = line.words
        if "passive-interface" in words[:2] and words[-1] in ("default", name):
            found = words[0] != "no"
    return found


def active_wires(folder: Folder) -> dict[IPv4Network, list[Active]]:
    """The interfaces that can have adjacencies, by their subnets."""
    wires: dict[IPv4Network, list[Active]] = defaultdict(list)
    for router in folder.routers:
        for stanza in list(router.interfaces):
            address = address_of(stanza)
            if address and in_area(router, stanza) and not is_passive(router, name_of(stanza)):
                wires[address.network].append(Active(router, stanza, address))
    return wires


def network_types(folder: Folder, _options: Options) -> None:
    """Cuts network types that change no route, and refuses the others."""
    wires = active_wires(folder)
    alone = [end for wire in wires.values() if len(wire) == 1 for end in wire]
    _judge_masks(folder, alone)
    _judge_unnumbered(folder, alone)
    for wire in wires.values():
        _judge_wire(folder, [end for end in wire if not end.router.is_loopback(end.stanza)])
    for router in folder.routers:
        for stanza in list(router.interfaces):
            if kind_of(name_of(stanza)) == "Loopback":
                _loopback(folder, router, stanza)
            _judge_multipoint(folder, router, stanza)
            cut_lines(stanza, folder.log, TYPE, lambda line: line.words[:3] == ["ip", "ospf", "network"], ("ip",))


def type_of(stanza: Stanza) -> str:
    """The network type of an interface: the one that is given, else that of its type."""
    given = first(stanza, "ip", "ospf", "network")
    if given and len(given.words) > 3:
        return " ".join(given.words[3:])
    if has(stanza, "encapsulation", "frame-relay"):
        return "non-broadcast"
    return (
        "point-to-point"
        if kind_of(name_of(stanza)) in POINT_TO_POINT or stanza.head.words[2:] == ["point-to-point"]
        else "broadcast"
    )


def _judge_masks(folder: Folder, alone: list[Active]) -> None:
    """Refuses two point-to-point ends whose masks differ: devices do not compare masks there, and the profile does."""
    ends = {
        end.address.ip: end
        for end in alone
        if type_of(end.stanza) == "point-to-point" and not end.router.is_loopback(end.stanza)
    }
    for end in ends.values():
        if end.address.network.prefixlen < 24:
            continue
        other = next((ends[ip] for ip in end.address.network if ip in ends and ends[ip].router is not end.router), None)
        if other:
            line = first(end.stanza, "ip", "address") or end.stanza.head
            folder.log.refuse(
                line,
                "mask-mismatch",
                f"{other.router.name} has another mask for this link, which point-to-point ends do not compare and the profile does",
            )


def _judge_unnumbered(folder: Folder, alone: list[Active]) -> None:
    """Refuses point-to-point ends with a host address: devices find their neighbour on the wire, and the profile by the
    subnet."""
    for end in alone:
        if (
            end.address.network.prefixlen == 32
            and type_of(end.stanza) == "point-to-point"
            and not end.router.is_loopback(end.stanza)
        ):
            line = first(end.stanza, "ip", "address") or end.stanza.head
            folder.log.refuse(
                line,
                "mask-mismatch",
                "a point-to-point link without a subnet: devices are adjacent over it, and the profile has links by subnets",
            )


def _judge_multipoint(folder: Folder, router: Source, stanza: Stanza) -> None:
    """Refuses point-to-multipoint everywhere: also without neighbours it announces the address and not the
    subnet."""
    line = first(stanza, "ip", "ospf", "network")
    if (
        line
        and in_area(router, stanza)
        and not router.is_loopback(stanza)
        and type_of(stanza).startswith("point-to-multipoint")
    ):
        folder.log.refuse(line, REFUSED_TYPE, MULTIPOINT.format(type_of(stanza)))


def _judge_wire(folder: Folder, wire: list[Active]) -> None:
    routers = {id(end.router) for end in wire}
    if len(routers) < 2:
        return
    types = {type_of(end.stanza) for end in wire}
    for end in wire:
        line = first(end.stanza, "ip", "ospf", "network") or first(end.stanza, "ip", "address") or end.stanza.head
        kind = type_of(end.stanza)
        if kind.startswith(("point-to-multipoint", "non-broadcast")):
            folder.log.refuse(
                line,
                REFUSED_TYPE,
                MULTIPOINT.format(kind),
            )
        elif len(types) > 1:
            folder.log.refuse(
                line,
                REFUSED_TYPE,
                f"the ends of {end.address.network} have different types, {' and '.join(sorted(types))}, and then routes are not taken over this link",
            )
        elif kind == "point-to-point" and len(wire) > 2:
            folder.log.refuse(
                line,
                REFUSED_TYPE,
                f"{len(wire)} routers in {end.address.network} have the type point-to-point, which has two ends",
            )
    priorities = [found for end in wire if (found := first(end.stanza, "ip", "ospf", "priority"))]
    if types == {"broadcast"} and len(priorities) == len(wire) and all(line.words[3:] == ["0"] for line in priorities):
        folder.log.refuse(
            priorities[0],
            "ospf-priority",
            f"all routers in {wire[0].address.network} have priority 0, so there is no designated router and no route over it",
        )


def _loopback(folder: Folder, router: Source, stanza: Stanza) -> None:
    address = address_of(stanza)
    if not address or not in_area(router, stanza) or address.network.prefixlen == 32:
        return
    given = first(stanza, "ip", "ospf", "network")
    is_wire = given is not None and given.words[3:] == ["point-to-point"] and router.dialect is Dialect.IOS
    if is_wire or not router.is_loopback(stanza):
        _as_vlan(folder, router, stanza, given)
        return
    host = f"ip address {address.ip} 255.255.255.255"
    rewrite(stanza, folder.log, lambda line: (LOOPBACK_HOST, [host]) if line.words[:2] == ["ip", "address"] else None)


def _as_vlan(folder: Folder, router: Source, stanza: Stanza, given: Line | None) -> None:
    """Writes a loopback as a `Vlan`. A true loopback has no neighbours, so its `Vlan` is passive."""
    old = name_of(stanza)
    is_alone = router.is_loopback(stanza)
    taken = {name_of(other) for other in router.interfaces}
    number = re.search(r"\d+$", old)
    name = f"Vlan{number[0]}" if number and f"Vlan{number[0]}" not in taken else free_name("Vlan", taken)
    folder.log.by(stanza.head, LOOPBACK_NET)
    stanza.head = stanza.head.with_text(f"interface {name}")
    if given:
        folder.log.by(given, LOOPBACK_NET)
        stanza.body.remove(given)

    def renamed(line: Line) -> tuple[Rule, list[str]] | None:
        if line.words[-1:] == [old] and "passive-interface" in line.words[:2]:
            is_left_out = is_alone and line.words[0] == "no"
            return LOOPBACK_NET, [] if is_left_out else [" ".join([*line.words[:-1], name])]
        return None

    for process in router.with_head("router", "ospf"):
        rewrite(process, folder.log, renamed)
        if is_alone and not is_passive(router, name):
            process.body.append(indented(given or stanza.head, f"passive-interface {name}"))


def one_area(folder: Folder, _options: Options) -> None:
    """Cuts lines about borders and external routes, where there are none."""
    processes = [process for router in folder.routers for process in router.with_head("router", "ospf")]
    named = {
        area_value(line.words[4])
        for process in processes
        for line in process.body
        if line.words[:1] == ["network"] and len(line.words) > 4
    }
    if len(named) > 1:
        return
    stubs = [{_stub_kind(line) for line in process.body if _stub_kind(line)} for process in processes]
    agree = all(found == stubs[0] for found in stubs)
    if not agree:
        _refuse_stubs(folder, processes)
    for process in processes:
        brings = any(line.words[:1] in (["redistribute"], ["default-information"]) for line in process.body)
        cut_lines(
            process,
            folder.log,
            ONE_AREA,
            lambda line: line.words[:1] == ["area"]
            and (
                line.words[2:3] in (["range"], ["filter-list"], ["default-cost"]) or (agree and bool(_stub_kind(line)))
            ),
        )
        if not brings:
            cut_lines(
                process,
                folder.log,
                NO_EXTERNAL,
                lambda line: line.words[:1] in (["summary-address"], ["default-metric"]),
            )


def _refuse_stubs(folder: Folder, processes: list[Stanza]) -> None:
    """Refuses the lines that make the area a stub where some routers have none: these are adjacent to none of the
    others."""
    without = [process.head.place.file for process in processes if not any(map(_stub_kind, process.body))]
    kinds = sorted({kind for process in processes for line in process.body if (kind := _stub_kind(line))})
    told = f"{', '.join(without)} has no such line" if without else f"the routers say {' and '.join(kinds)}"
    for process in processes:
        for line in process.body:
            if _stub_kind(line):
                folder.log.refuse(
                    line, STUB, f"{told}: the routers of an area must agree on this, else they are not adjacent"
                )


def _stub_kind(line: Line) -> str | None:
    words = line.words
    return (
        words[2]
        if words[:1] == ["area"] and words[2:3] in (["stub"], ["nssa"]) and "default-information-originate" not in words
        else None
    )


def area_value(word: str) -> int | str:
    """The number of an area, which can be written as an address."""
    address = an_address(word)
    return int(word) if word.isdigit() else int(address) if address else word
