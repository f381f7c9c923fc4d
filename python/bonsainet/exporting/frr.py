"""Configurations for FRRouting: one file `NAME.conf` for each router, for zebra, bgpd
and ospfd.

`RULES` is the table of rewritings. Each line that is not the text's own names the rule that wrote it.
"""
from __future__ import annotations

import re
from collections.abc import Iterable
from ipaddress import IPv4Network
from itertools import product

from bonsainet.exporting.doubts import doubts_of
from bonsainet.exporting.writer import (
    Exported,
    NotExported,
    Writer,
    active_ends,
    is_default,
    linked_interfaces,
    members_note,
    named,
    prefix_range,
)
from bonsainet.configs.network import Network, is_in_area
from bonsainet.configs.profile import (
    AreaLine,
    CommunityLine,
    Device,
    Interface,
    MapEntry,
    Neighbor,
    PrefixEntry,
    community_text,
)
from bonsainet.configs.text import Line

# The version of FRR that the exports are written for and were tried with.
FRR = "8.4.4"

RULES = {
    "frr-header": "A file for all daemons of one router starts with the version and the defaults that it is written for.",
    "no-bearing": "The line has no bearing on routes, and FRR has no such line, or another one.",
    "members": "A comment is lost when a configuration is loaded, so the members of a group are in a description too.",
    "interface-name": "Linux takes names of at most 15 characters, without `/` and `:`.",
    "vlan-without-port": "A VLAN interface over which no link runs has no port here that could bring it up; a loopback is up by itself.",
    "address-length": "FRR takes `ip address A/LENGTH`.",
    "cost": "FRR takes its default cost from the bandwidth of the interface, so each interface in the area gets its cost by a line.",
    "point-to-point": "Two ends of a wire need no designated router, and a loopback of a shorter mask than /32 is announced with its length.",
    "process-number": "FRR numbers a process of OSPF only where a router runs several.",
    "router-id": "FRR picks its identifier from the interfaces that it has at the time; the highest address that is up is written, so that it is the same each time.",
    "requires-policy": "FRR takes no route from an external neighbour without a policy, and IOS takes all.",
    "import-check": "A network is originated only where the router has it as a connected subnet.",
    "one-path": "IOS installs one path of several that tie, FRR up to 256.",
    "address-family": "FRR keeps what a neighbour sends and takes under the family of addresses.",
    "network-length": "FRR prints a BGP network with its length.",
    "sends-by-default": "FRR sends communities to each neighbour, and IOS only where `send-community` is set.",
    "next-hop-self": "On a wire that several routers share, FRR passes on the next hop of a third router.",
    "area-prefix": "FRR takes prefixes in OSPF `network` lines, and no wildcards; of a wildcard with holes the addresses are named that it covers.",
    "repeated": "FRR takes such a line once.",
    "passive-nowhere": "FRR names interfaces that it has, and this router has none of this name.",
    "passive-order": "The line has no effect here, and a device would take the last one of its interface.",
    "range": "A range has one form: no `ge` that is the length of the prefix, and no `le` that says nothing new.",
    "community-list": "FRR takes `bgp community-list`.",
    "list-name": "FRR shows a list whose name is a number as a numbered list, and does not take every number back; names that are numbers, keywords or signs are written otherwise.",
    "community-form": "A community is written A:B.",
    "one-list-a-match": "FRR takes one list in a `match` line, so an entry becomes one for each choice of lists, with one action.",
    "entry-number": "FRR numbers entries from 1, and an entry that became several needs numbers of its own.",
    "deletions-first": "FRR runs the sets of an entry in the order of their lines; the deletions come first here, and additions after them.",
    "lab-timers": "Timers that bring a lab to rest within seconds. They change no route that the routers rest in.",
    "as-23456": "RFC 6793 keeps AS 23456 for old speakers, and FRR has no session with it.",
    "reserved-prefix": "zebra refuses an address in 0/8, 127/8, 224/4 or 240/4, so the prefix is not originated.",
    "edge-of-subnet": "An address that is the first or last of its subnet is the subnet itself or its broadcast, with which a system may make no session.",
    "own-wire": "A prefix of this class is a wire that a session runs over, so a route for it can take the session down.",
}
SHORT_KINDS = {
    "GigabitEthernet": "Gi",
    "TenGigabitEthernet": "Te",
    "FastEthernet": "Fa",
    "Ethernet": "Et",
    "Serial": "Se",
    "Loopback": "Lo",
    "Vlan": "Vl",
    "TwentyFiveGigE": "Twe",
    "FortyGigabitEthernet": "Fo",
    "HundredGigE": "Hu",
    "Port-channel": "Po",
    "Tunnel": "Tu",
}
LONGEST_NAME = 15
HIGHEST_ENTRY = 65535
LIST_NAME = re.compile(r"[A-Za-z_][A-Za-z0-9_.:/-]*")
KEYWORDS = {"permit", "deny", "standard", "expanded", "exact-match", "seq", "any", "in", "out"}


def export(network: Network, with_lab_timers: bool = False) -> Exported:
    """The configurations of all routers of a network. NotExported where a map needs more entries than FRR has
    numbers."""
    exported = Exported()
    linked = linked_interfaces(network)
    ends = active_ends(network)
    for device in network.devices:
        router = _Router(device, exported, linked, ends, set(network.cables) if with_lab_timers else None)
        exported.files[f"{device.name}.conf"] = router.text()
    doubts_of(network, Writer(RULES, exported))
    return exported


def _action(line: PrefixEntry | CommunityLine) -> str:
    return "permit" if line.is_permit else "deny"


def interface_names(device: Device, linked: set[tuple[str, str]]) -> dict[str, str]:
    """The names of a device's interfaces in Linux."""

    def name_of(interface: Interface, taken: set[str]) -> str:
        return interface.name if _is_linux_name(interface.name) else _short_name(interface, taken)

    return named(device, linked, name_of)


def _is_linux_name(name: str) -> bool:
    return len(name) <= LONGEST_NAME and not set("/:") & set(name)


def _short_name(interface: Interface, taken: set[str]) -> str:
    kind = interface.kind
    short = SHORT_KINDS.get(kind, kind) + re.sub("[/:]", "-", interface.name.removeprefix(kind))
    number = 0
    while short in taken or not _is_linux_name(short):
        short = f"port{number}"
        number += 1
    return short


def router_id(device: Device) -> str:
    """The highest address of a device that is up, or the address 0.0.0.1."""
    return str(max((interface.own_address.ip for interface in device.up_interfaces), default="0.0.0.1"))


class _Router:
    """Writes one router."""

    def __init__(
        self,
        device: Device,
        exported: Exported,
        linked: set[tuple[str, str]],
        ends: dict[tuple[str, str], int],
        cables: set[IPv4Network] | None,
    ) -> None:
        """`cables` are the subnets that a lab wires, or none outside of a lab."""
        self.device = device
        self.writer = Writer(RULES, exported)
        self.linked = linked
        self.ends = ends
        self.cables = cables
        self.names = interface_names(device, linked)
        self.lists = _list_names(device)

    def text(self) -> str:
        """The configuration."""
        writer, device = self.writer, self.device
        writer.add(f"frr version {FRR}", device.line, "frr-header")
        writer.add("frr defaults traditional", device.line, "frr-header")
        writer.put(f"hostname {device.name}", device.line, "frr-header")
        for member in device.members:
            writer.bare(f"! member {member}")
        writer.bare("!")
        for interface in device.interfaces:
            self._interface(interface)
        self._lists()
        self._maps()
        if device.bgp:
            self._bgp()
        if device.ospf:
            self._ospf()
        for line in device.ignored:
            writer.leave_out(line, "no-bearing")
        writer.bare("end")
        return writer.text

    def _interface(self, interface: Interface) -> None:
        writer, device = self.writer, self.device
        name = self.names[interface.name]
        is_stub = (device.name, interface.name) not in self.linked
        writer.put(
            f"interface {name}",
            interface.line,
            "vlan-without-port" if name.startswith("Loopback") else "interface-name",
        )
        note = members_note(device) if interface is device.interfaces[0] else None
        if interface.descriptions:
            writer.put(f" description {interface.descriptions[-1]}", interface.lines["description"], "no-bearing")
        elif note:
            writer.add(f" description {note}", interface.line, "members")
        if interface.address:
            writer.put(f" ip address {interface.address}", interface.lines["address"], "address-length")
        if is_in_area(device, interface):
            if "cost" in interface.lines:
                writer.put(f" ip ospf cost {interface.cost}", interface.lines["cost"], "cost")
            else:
                writer.add(f" ip ospf cost {interface.cost_in_area}", interface.line, "cost")
            is_pair = self.ends.get((device.name, interface.name)) == 2
            is_short = interface.own_address.network.prefixlen < 32
            if is_pair or is_stub and is_short and name.startswith("Loopback"):
                writer.add(" ip ospf network point-to-point", interface.line, "point-to-point")
            if self.cables and interface.own_address.network in self.cables:
                writer.add(" ip ospf hello-interval 1", interface.line, "lab-timers")
                writer.add(f" ip ospf dead-interval {40 if is_pair else 8}", interface.line, "lab-timers")
        elif "cost" in interface.lines:
            writer.leave_out(interface.lines["cost"], "no-bearing")
        if interface.is_shut:
            writer.put(" shutdown", interface.lines["shut"], "no-bearing")
        writer.bare("!")

    def _lists(self) -> None:
        for name, entries in self.device.prefix_lists.items():
            head, rule = f"ip prefix-list {self.lists[name]} seq", "list-name" if self.lists[name] != name else "range"
            self._put_once(
                (f"{head} {it.sequence}", f"{_action(it)} {it.prefix}{prefix_range(it)}", it.line, rule)
                for it in entries
            )
        for name, lines in self.device.community_lists.items():
            head = f"bgp community-list standard {self.lists[name]}"
            self._put_once(
                (
                    head,
                    f"{_action(it)} {' '.join(map(community_text, sorted(it.communities)))}",
                    it.line,
                    "community-list",
                )
                for it in lines
            )

    def _put_once(self, lines: Iterable[tuple[str, str, Line, str]]) -> None:
        """Writes the lines of a list: the head and what it says of each, its source and the rule. What was said is left out."""
        seen = set()
        for head, said, line, rule in lines:
            if said in seen:
                self.writer.leave_out(line, "repeated")
                continue
            seen.add(said)
            self.writer.put(f"{head} {said}", line, rule)
        self.writer.bare("!")

    def _maps(self) -> None:
        for name, entries in self.device.maps.items():
            choices = [_choices(entry) for entry in entries]
            count = sum(map(len, choices))
            keeps_numbers = count == len(entries) and all(entry.sequence for entry in entries)
            if count > HIGHEST_ENTRY:
                raise NotExported(
                    f"{entries[0].line.place}: route map {name} needs {count} entries in FRR, which has {HIGHEST_ENTRY} numbers"
                )
            step = 10 if 10 * count <= HIGHEST_ENTRY else 1
            number = 0
            for entry, chosen in zip(entries, choices):
                for prefix_list, community_list in chosen:
                    number += step
                    self._entry(name, entry, entry.sequence if keeps_numbers else number, prefix_list, community_list)
            self.writer.bare("!")

    def _entry(
        self, name: str, entry: MapEntry, number: int, prefix_list: str | None, community_list: str | None
    ) -> None:
        writer, lines = self.writer, entry.lines
        writer.put(
            f"route-map {self.lists[name]} {'permit' if entry.is_permit else 'deny'} {number}",
            entry.line,
            "entry-number",
        )
        if prefix_list:
            writer.put(
                f" match ip address prefix-list {self.lists[prefix_list]}", lines["prefix lists"], "one-list-a-match"
            )
        if community_list:
            exact = " exact-match" if entry.is_exact else ""
            writer.put(
                f" match community {self.lists[community_list]}{exact}", lines["community lists"], "one-list-a-match"
            )
        if entry.preference is not None:
            writer.put(f" set local-preference {entry.preference}", lines["preference"], "community-form")
        if entry.delete_list is not None:
            rule = "deletions-first" if entry.communities is not None else "list-name"
            writer.put(f" set comm-list {self.lists[entry.delete_list]} delete", lines["deletions"], rule)
        if entry.communities is not None:
            said = " ".join(map(community_text, entry.communities)) or "none"
            writer.put(
                f" set community {said}{' additive' if entry.is_additive else ''}",
                lines["communities"],
                "community-form",
            )
        if entry.prepended:
            writer.put(
                f" set as-path prepend {' '.join(map(str, entry.prepended))}", lines["prepended"], "community-form"
            )

    def _bgp(self) -> None:
        writer, process = self.writer, self.device.own_bgp
        writer.put(f"router bgp {process.number}", process.line, "no-bearing")
        writer.add(f" bgp router-id {router_id(self.device)}", process.line, "router-id")
        writer.add(" no bgp ebgp-requires-policy", process.line, "requires-policy")
        writer.add(" bgp network import-check", process.line, "import-check")
        if self.cables is not None:
            for timer in ("timers bgp 30 90", "bgp graceful-restart-disable"):
                writer.add(f" {timer}", process.line, "lab-timers")
        if process.preference_line:
            writer.put(f" bgp default local-preference {process.preference}", process.preference_line, "no-bearing")
        for neighbor in process.by_number.values():
            self._session(neighbor)
        writer.add(" address-family ipv4 unicast", process.line, "address-family")
        writer.add("  maximum-paths 1", process.line, "one-path")
        for prefix, line in process.networks.items():
            writer.put(f"  network {prefix}", line, "network-length")
        for neighbor in process.by_number.values():
            self._family(neighbor)
        writer.add(" exit-address-family", process.line, "address-family")
        writer.bare("!")

    def _session(self, neighbor: Neighbor) -> None:
        writer, address = self.writer, neighbor.address
        writer.put(f" neighbor {address} remote-as {neighbor.remote}", neighbor.line, "address-family")
        if neighbor.descriptions:
            writer.put(
                f" neighbor {address} description {neighbor.descriptions[-1]}",
                neighbor.lines["description"],
                "no-bearing",
            )
        if neighbor.is_shut:
            writer.put(f" neighbor {address} shutdown", neighbor.lines["shut"], "no-bearing")
        if self.cables is not None:
            writer.add(f" neighbor {address} timers connect 1", neighbor.line, "lab-timers")
            writer.add(f" neighbor {address} advertisement-interval 0", neighbor.line, "lab-timers")

    def _family(self, neighbor: Neighbor) -> None:
        writer, address, lines = self.writer, neighbor.address, neighbor.lines
        writer.add(f"  neighbor {address} next-hop-self", neighbor.line, "next-hop-self")
        if neighbor.sends_communities:
            writer.put(f"  neighbor {address} send-community", lines["sends"], "sends-by-default")
        else:
            writer.add(f"  no neighbor {address} send-community all", neighbor.line, "sends-by-default")
        for value, key, words in (
            (neighbor.list_in, "list in", "prefix-list {} in"),
            (neighbor.list_out, "list out", "prefix-list {} out"),
            (neighbor.map_in, "map in", "route-map {} in"),
            (neighbor.map_out, "map out", "route-map {} out"),
        ):
            if value is not None:
                writer.put(f"  neighbor {address} {words.format(self.lists[value])}", lines[key], "list-name")

    def _ospf(self) -> None:
        writer, process = self.writer, self.device.own_ospf
        writer.put("router ospf", process.line, "process-number")
        writer.add(f" ospf router-id {router_id(self.device)}", process.line, "router-id")
        if self.cables is not None:
            for timer in ("timers throttle spf 50 100 500", "timers throttle lsa all 0", "timers lsa min-arrival 0"):
                writer.add(f" {timer}", process.line, "lab-timers")
        for line in sorted(process.passive_lines, key=is_default, reverse=True):
            self._passive(line, process.is_passive_by_default)
        seen: set[str] = set()
        for area_line in process.areas:
            said = [text for text in self._area_lines(area_line) if text not in seen]
            seen.update(said)
            writer.put(said, area_line.line, "area-prefix" if said else "repeated")
        writer.bare("!")

    def _passive(self, line: Line, by_default: bool) -> None:
        *words, name = line.words
        if not is_default(line) and (words[0] == "no") != by_default:
            self.writer.leave_out(line, "passive-order")
        elif is_default(line):
            self.writer.put(" passive-interface default", line, "passive-nowhere")
        elif name in self.names:
            self.writer.put(f" {' '.join(words)} {self.names[name]}", line, "interface-name")
        else:
            self.writer.leave_out(line, "passive-nowhere")

    def _area_lines(self, line: AreaLine) -> list[str]:
        holes = line.wildcard & (line.wildcard + 1)
        if not holes:
            length = 32 - line.wildcard.bit_length()
            return [f" network {_dotted(line.address & ~line.wildcard)}/{length} area {line.area}"]
        addresses = [
            interface.own_address.ip for interface in self.device.up_interfaces if line.covers(interface.own_address.ip)
        ]
        return [f" network {address}/32 area {line.area}" for address in addresses]


def _dotted(value: int) -> str:
    return ".".join(str(value >> shift & 255) for shift in (24, 16, 8, 0))


def _choices(entry: MapEntry) -> list[tuple[str | None, str | None]]:
    """Each choice of a prefix list and a community list that lets the entry hold."""
    nothing: list[str | None] = [None]
    prefixes: list[str | None] = [*entry.prefix_list_names] or nothing
    return list(product(prefixes, [*entry.community_list_names] or nothing))


def _list_names(device: Device) -> dict[str, str]:
    """The names of lists and maps in FRR, each its own where FRR takes it."""
    names = list(dict.fromkeys((*device.prefix_lists, *device.community_lists, *device.maps)))
    named = {name: name for name in names if (LIST_NAME.fullmatch(name) and name not in KEYWORDS)}
    number = 0
    for name in names:
        if name not in named:
            wanted = f"L-{name}" if LIST_NAME.fullmatch(f"L-{name}") else None
            while wanted is None or wanted in named.values():
                number += 1
                wanted = f"L-{number}"
            named[name] = wanted
    return named
