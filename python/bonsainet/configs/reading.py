"""The records of an accepted text, read line by line.

It reads texts that the program accepts, and judges nothing: a line that it does not know has no bearing. The forms are
those of docs/use/LINES.md.
"""
from __future__ import annotations

from collections.abc import Callable
from ipaddress import IPv4Address, IPv4Network

from bonsainet.configs.addresses import classful_length, length_of, network_of, number_of
from bonsainet.configs.profile import (
    AreaLine,
    Bgp,
    CommunityLine,
    Device,
    Interface,
    MapEntry,
    Neighbor,
    Ospf,
    PrefixEntry,
    community,
)
from bonsainet.configs.text import INDENTS, Line, Router, Stanza, is_blank, unread_lines_of

END = ["end"]


def device_of(router: Router) -> Device:
    """What the lines of an accepted router give."""
    reader = _Reader(next(iter(router.lines)))
    for stanza in router.stanzas:
        reader.take(stanza)
    reader.device.name = router.name
    return reader.done()


def devices_of(text: str, file: str) -> list[Device]:
    """What the lines of an accepted text give, router by router, in one go: as `device_of` gives it of each router."""
    found: list[Device] = []
    reader: _Reader | None = None
    has_words = False
    for line in unread_lines_of(text, file):
        words, is_top = line.text.split(), line.text[:1] not in INDENTS
        if reader is None:
            # (an indented line is in the stanza above it, which may be a comment; the first line is in none)
            reader, has_words = _Reader(line), not is_top and not is_blank(words)
        if is_top and words == END:
            found.append(reader.done())
            reader = None
        elif is_blank(words):
            reader.take_comment(words)
        elif is_top:
            has_words = True
            reader.take_top(line, words)
        else:
            reader.take_indented(line, words)
    return found + ([reader.done()] if reader and has_words else [])


class _Reader:
    """Takes the lines of a router in order, and keeps which stanza is open."""

    def __init__(self, first: Line) -> None:
        self.device = Device("", first)
        self.take_indented: Callable[[Line, list[str]], None] = self._ignore
        self.neighbors: dict[str, Neighbor] = {}

    def take(self, stanza: Stanza) -> None:
        head, lines = stanza.head, stanza.body
        if head.is_blank or head.is_indented:
            lines = stanza.lines
        else:
            self.take_top(head, head.words)
        for line in lines:
            if line.is_blank:
                self.take_comment(line.words)
            else:
                self.take_indented(line, line.words)

    def done(self) -> Device:
        for listed in self.device.prefix_lists.values():
            listed.sort(key=lambda entry: entry.sequence)
        for entries in self.device.maps.values():
            entries.sort(key=lambda entry: entry.sequence)
        return self.device

    def take_comment(self, words: list[str]) -> None:
        if words[:2] == ["!", "member"] and len(words) == 3:
            self.device.members.append(words[2])
        self.device.is_stub |= words[:3] == ["!", "assumed:", "a"] and words[-1] == "(--stub)"

    def _ignore(self, line: Line, words: list[str]) -> None:
        self.device.ignored.append(line)

    def take_top(self, line: Line, words: list[str]) -> None:
        device, self.take_indented = self.device, self._ignore
        match words:
            case ["hostname", name]:
                device.name, device.line = device.name or name, line
            case ["interface", name]:
                device.interfaces.append(Interface(name, line))
                self.take_indented = self._interface
            case ["router", "bgp", number]:
                device.bgp = Bgp(int(number), line)
                self.neighbors = {}
                self.take_indented = self._bgp
            case ["router", "ospf", number]:
                device.ospf = Ospf(int(number), line)
                self.take_indented = self._ospf
            case ["ip", "prefix-list", name, "seq", number, act, prefix, *more]:
                bounds = dict(zip(more[::2], map(int, more[1::2])))
                entry = PrefixEntry(
                    int(number),
                    act == "permit",
                    IPv4Network(prefix, strict=False),
                    bounds.get("ge"),
                    bounds.get("le"),
                    line,
                )
                device.prefix_lists.setdefault(name, []).append(entry)
            case ["ip", "community-list", "standard", name, act, *communities] | [
                "ip",
                "community-list",
                name,
                act,
                *communities,
            ]:
                found = CommunityLine(act == "permit", tuple(map(community, communities)), line)
                device.community_lists.setdefault(name, []).append(found)
            case ["route-map", name, act, number]:
                device.maps.setdefault(name, []).append(MapEntry(int(number), act == "permit", line))
                self.map_entry = device.maps[name][-1]
                self.take_indented = self._entry
            case _:
                self._ignore(line, words)

    def _interface(self, line: Line, words: list[str]) -> None:
        interface = self.device.interfaces[-1]
        match words:
            case ["ip", "address", address, mask]:
                interface.given = number_of(address), length_of(mask)
                interface.lines["address"] = line
            case ["ip", "ospf", "cost", cost]:
                interface.cost = int(cost)
                interface.lines["cost"] = line
            case ["shutdown"]:
                interface.is_shut = True
                interface.lines.setdefault("shut", line)
            case ["description", *words_told]:
                interface.descriptions.append(" ".join(words_told))
                interface.lines.setdefault("description", line)
            case _:
                interface.ignored.append(line)
                self._ignore(line, words)

    def _bgp(self, line: Line, words: list[str]) -> None:
        process = self.device.own_bgp
        match words:
            # (most lines are of neighbours)
            case ["neighbor", address, "remote-as", number]:
                neighbor = Neighbor(number_of(address), int(number), line)
                process.by_number[neighbor.number] = self.neighbors[address] = neighbor
            case ["neighbor", address, *rest]:
                self._neighbor(line, address, rest)
            case ["bgp", "default", "local-preference", value]:
                process.preference = int(value)
                process.preference_line = line
            case ["network", address]:
                process.networks[IPv4Network(f"{address}/{classful_length(address)}")] = line
            case ["network", address, "mask", mask]:
                process.networks[network_of(address, mask)] = line
            case _:
                self._ignore(line, words)

    def _neighbor(self, line: Line, address: str, words: list[str]) -> None:
        neighbor = self.neighbors.get(address)
        if not neighbor:
            self._ignore(line, words)
            return
        match words:
            case ["shutdown"]:
                neighbor.is_shut = True
                neighbor.lines.setdefault("shut", line)
            case ["send-community"] | ["send-community", "standard" | "both"]:
                neighbor.sends_communities = True
                neighbor.lines.setdefault("sends", line)
            case ["prefix-list", name, "in"]:
                neighbor.list_in = name
                neighbor.lines.setdefault("list in", line)
            case ["prefix-list", name, "out"]:
                neighbor.list_out = name
                neighbor.lines.setdefault("list out", line)
            case ["route-map", name, "in"]:
                neighbor.map_in = name
                neighbor.lines.setdefault("map in", line)
            case ["route-map", name, "out"]:
                neighbor.map_out = name
                neighbor.lines.setdefault("map out", line)
            case ["description", *told]:
                neighbor.descriptions.append(" ".join(told))
                neighbor.lines.setdefault("description", line)
            case _:
                neighbor.ignored.append(line)
                self._ignore(line, words)

    def _ospf(self, line: Line, words: list[str]) -> None:
        process = self.device.own_ospf
        match words:
            case ["passive-interface", "default"]:
                process.is_passive_by_default = True
                process.passive_lines.append(line)
            case ["passive-interface", name]:
                process.passive.append(name)
                process.passive_lines.append(line)
            case ["no", "passive-interface", name]:
                process.not_passive.append(name)
                process.passive_lines.append(line)
            case ["network", address, wildcard, "area", area]:
                number = int(area) if area.isdigit() else int(IPv4Address(area))
                process.areas.append(AreaLine(int(IPv4Address(address)), int(IPv4Address(wildcard)), number, line))
            case _:
                self._ignore(line, words)

    def _entry(self, line: Line, words: list[str]) -> None:
        entry = self.map_entry
        match words:
            case ["match", "ip", "address", "prefix-list", *_]:
                entry.lines["prefix lists"] = line
            case ["match", "community", *_]:
                entry.lines["community lists"] = line
            case ["set", "local-preference", value]:
                entry.preference = int(value)
                entry.lines["preference"] = line
            case ["set", "community", "none"]:
                entry.communities = ()
                entry.lines["communities"] = line
            case ["set", "community", *communities]:
                entry.is_additive = communities[-1] == "additive"
                entry.communities = tuple(map(community, communities[: -1 if entry.is_additive else None]))
                entry.lines["communities"] = line
            case ["set", "comm-list", name, "delete"]:
                entry.delete_list = name
                entry.lines["deletions"] = line
            case ["set", "as-path", "prepend", *numbers]:
                entry.prepended = tuple(map(int, numbers))
                entry.lines["prepended"] = line
            case _:
                self._ignore(line, words)
