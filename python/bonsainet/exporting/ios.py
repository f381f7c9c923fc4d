"""Configurations for devices with Cisco IOS: one file `NAME.cfg` for each router.

The text that Bonsai reads is in the style of IOS, so most lines stand as they are. What IOS does with the others is
known from its documents, and was not tried on a device.
"""
from __future__ import annotations

from bonsainet.exporting.doubts import doubts_of
from bonsainet.exporting.writer import (
    Exported,
    Writer,
    active_ends,
    is_default,
    linked_interfaces,
    members_note,
    named,
    prefix_range,
)
from bonsainet.configs.network import Network, is_in_area
from bonsainet.configs.profile import Device, Interface, MapEntry, Neighbor
from bonsainet.configs.text import Line

RULES = {
    "no-bearing": "The line has no bearing on routes, and may name what this device does not have.",
    "members": "IOS drops comments when it loads a file, so the members of a group are in a description too.",
    "vlan-without-port": "IOS keeps a VLAN interface down that has no switch port in its VLAN, and refuses a mask of /32 on it; a loopback is up by itself.",
    "port-name": "A link needs a port, and the interface that it runs over is a VLAN interface or a loopback.",
    "no-shutdown": "The ports of an IOS router start shut.",
    "no-switchport": "A port of a switch takes an address only after `no switchport`.",
    "ip-routing": "A switch routes only after `ip routing`.",
    "cost": "IOS takes its default cost from the bandwidth of the interface, so each interface in the area gets its cost by a line.",
    "point-to-point": "Two ends of a wire need no designated router, for which IOS waits 40 seconds; a loopback of a shorter mask than /32 is announced as /32 without this line.",
    "new-format": "Communities are shown as A:B only after `ip bgp-community new-format`.",
    "range": "IOS refuses a range whose `ge` is the length of the prefix.",
    "entry-number": "IOS numbers the entries of a prefix list up to 4294967294.",
    "deletions-first": "The deletions of an entry come before its additions, which is the order in which they run.",
    "passive-nowhere": "The router has no interface of this name.",
    "passive-order": "The line has no effect here, and a device would take the last one of its interface.",
    "repeated": "The line says again what an earlier one says.",
    "as-23456": "RFC 6793 keeps AS 23456 for old speakers.",
    "reserved-prefix": "Prefixes in 0/8, 127/8, 224/4 and 240/4 are no subnets of an interface.",
    "edge-of-subnet": "An address that is the first or last of its subnet is the subnet itself or its broadcast, and IOS refuses it.",
    "own-wire": "A prefix of this class is a wire that a session runs over, so a route for it can take the session down.",
    "subinterface": "A subinterface of a LAN port takes no address without its `encapsulation` line, which is left out here, and needs its port up.",
}
HIGHEST_ENTRY = 4294967294
WITHOUT_PORT = ("Vlan", "Loopback", "Tunnel", "BVI", "Null")


def export(network: Network, on_switches: bool = False) -> Exported:
    """The configurations of all routers of a network. `on_switches` writes what ports of switches need."""
    exported = Exported()
    linked, ends = linked_interfaces(network), active_ends(network)
    for device in network.devices:
        exported.files[f"{device.name}.cfg"] = _Router(device, exported, linked, ends, on_switches).text()
    doubts_of(network, Writer(RULES, exported))
    return exported


def interface_names(device: Device, linked: set[tuple[str, str]]) -> dict[str, str]:
    """The names of a device's interfaces: of a VLAN without a port a loopback's, of what links run over a port's."""

    def name_of(interface: Interface, taken: set[str]) -> str:
        if interface.kind not in WITHOUT_PORT or (device.name, interface.name) not in linked:
            return interface.name
        number = 0
        while f"GigabitEthernet0/{number}" in taken:
            number += 1
        return f"GigabitEthernet0/{number}"

    return named(device, linked, name_of)


def entry_numbers(sequences: list[int]) -> list[int]:
    """The numbers of the entries of a prefix list, which ascend: the last ones lowered as far as IOS takes them."""
    found, next_one = [], HIGHEST_ENTRY + 1
    for sequence in reversed(sequences):
        next_one = min(sequence, next_one - 1)
        found.append(next_one)
    return found[::-1]


class _Router:
    """Writes one router."""

    def __init__(
        self,
        device: Device,
        exported: Exported,
        linked: set[tuple[str, str]],
        ends: dict[tuple[str, str], int],
        on_switches: bool,
    ) -> None:
        self.device = device
        self.writer = Writer(RULES, exported)
        self.ends = ends
        self.on_switches = on_switches
        self.names = interface_names(device, linked)

    def text(self) -> str:
        """The configuration."""
        writer, device = self.writer, self.device
        writer.put(f"hostname {device.name}", device.line, "no-bearing")
        for member in device.members:
            writer.bare(f"! member {member}")
        writer.bare("!")
        if self.on_switches:
            writer.add("ip routing", device.line, "ip-routing")
        if device.bgp:
            writer.add("ip bgp-community new-format", device.line, "new-format")
        for interface in device.interfaces:
            self._interface(interface)
        if device.bgp:
            self._bgp()
        if device.ospf:
            self._ospf()
        self._lists()
        for entries in device.maps.values():
            for entry in entries:
                self._entry(entry)
            writer.bare("!")
        for line in device.ignored:
            if line.words not in (["no", "shutdown"], ["no", "switchport"], ["ip", "bgp-community", "new-format"]):
                writer.leave_out(line, "no-bearing")
        writer.bare("end")
        return writer.text

    def _interface(self, interface: Interface) -> None:
        writer, device = self.writer, self.device
        name = self.names[interface.name]
        is_loopback = name.startswith("Loopback")
        writer.put(f"interface {name}", interface.line, "vlan-without-port" if is_loopback else "port-name")
        note = members_note(device) if interface is device.interfaces[0] else None
        if interface.descriptions:
            writer.put(f" description {interface.descriptions[-1]}", interface.lines["description"], "no-bearing")
        elif note:
            writer.add(f" description {note}", interface.line, "members")
        self._port(interface, is_loopback)
        if interface.address:
            address = interface.address
            writer.put(f" ip address {address.ip} {address.netmask}", interface.lines["address"], "no-bearing")
            if "." in name:
                writer.doubt(interface.lines["address"], "subinterface")
        if is_in_area(device, interface):
            if "cost" in interface.lines:
                writer.put(f" ip ospf cost {interface.cost}", interface.lines["cost"], "cost")
            else:
                writer.add(f" ip ospf cost {interface.cost_in_area}", interface.line, "cost")
            is_wide = is_loopback and interface.own_address.network.prefixlen < 32
            if is_wide or self.ends.get((device.name, interface.name)) == 2:
                writer.add(" ip ospf network point-to-point", interface.line, "point-to-point")
        elif "cost" in interface.lines:
            writer.leave_out(interface.lines["cost"], "no-bearing")
        if interface.is_shut:
            writer.put(" shutdown", interface.lines["shut"], "no-bearing")
        elif interface.address and not is_loopback:
            writer.add(" no shutdown", interface.line, "no-shutdown")
        writer.bare("!")

    def _port(self, interface: Interface, is_loopback: bool) -> None:
        is_told = any(line.words == ["no", "switchport"] for line in interface.ignored)
        if interface.address and not is_loopback and (is_told or self.on_switches):
            self.writer.add(" no switchport", interface.line, "no-switchport")

    def _bgp(self) -> None:
        writer, process = self.writer, self.device.own_bgp
        writer.put(f"router bgp {process.number}", process.line, "no-bearing")
        if process.preference_line:
            writer.put(f" bgp default local-preference {process.preference}", process.preference_line, "no-bearing")
        for line in process.networks.values():
            writer.put(f" {' '.join(line.words)}", line, "no-bearing")
        for neighbor in process.by_number.values():
            self._neighbor(neighbor)
        writer.bare("!")

    def _neighbor(self, neighbor: Neighbor) -> None:
        head, lines = f" neighbor {neighbor.address}", neighbor.lines
        self.writer.put(f"{head} remote-as {neighbor.remote}", neighbor.line, "no-bearing")
        for key in ("description", "shut", "sends", "list in", "list out", "map in", "map out"):
            if key in lines:
                self.writer.put(f" {' '.join(lines[key].words)}", lines[key], "no-bearing")

    def _ospf(self) -> None:
        writer, process = self.writer, self.device.own_ospf
        writer.put(f"router ospf {process.number}", process.line, "no-bearing")
        for line in sorted(process.passive_lines, key=is_default, reverse=True):
            *words, name = line.words
            if not is_default(line) and (words[0] == "no") != process.is_passive_by_default:
                writer.leave_out(line, "passive-order")
            elif is_default(line):
                writer.put(" passive-interface default", line, "passive-nowhere")
            elif name in self.names:
                writer.put(
                    f" {' '.join(words)} {self.names[name]}",
                    line,
                    "vlan-without-port" if self.names[name].startswith("Loopback") else "port-name",
                )
            else:
                writer.leave_out(line, "passive-nowhere")
        for area_line in process.areas:
            writer.put(f" {' '.join(area_line.line.words)}", area_line.line, "repeated")
        writer.bare("!")

    def _lists(self) -> None:
        writer = self.writer
        for name, entries in self.device.prefix_lists.items():
            for entry, number in zip(entries, entry_numbers([entry.sequence for entry in entries])):
                act = "permit" if entry.is_permit else "deny"
                rule = "range" if number == entry.sequence else "entry-number"
                writer.put(
                    f"ip prefix-list {name} seq {number} {act} {entry.prefix}{prefix_range(entry)}", entry.line, rule
                )
            writer.bare("!")
        for lines in self.device.community_lists.values():
            for line in lines:
                writer.put(" ".join(line.line.words), line.line, "repeated")
            writer.bare("!")

    def _entry(self, entry: MapEntry) -> None:
        self.writer.put(" ".join(entry.line.words), entry.line, "repeated")
        for key in ("prefix lists", "community lists", "preference", "deletions", "communities", "prepended"):
            line: Line | None = entry.lines.get(key)
            if line:
                self.writer.put(f" {' '.join(line.words)}", line, "deletions-first")
