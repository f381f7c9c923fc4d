"""How a router takes routes over a session, as the program makes it canonical: asked with the two routers alone.

The act of a session hangs on the lines of its two routers and on the prefix, and on nothing else. So it is asked of a small
network: the importer, the exporter, and routers beyond the exporter that originate the prefixes. Canonical entries are the
same where all imports are, so that they say whether an edit changes any.
"""
from __future__ import annotations

import dataclasses
from collections.abc import Iterable, Iterator, Sequence
from ipaddress import IPv4Network

from bonsainet.asking.calls import IS_DONE
from bonsainet.configs.profile import Device, MapEntry, Neighbor
from bonsainet.ask.program import ALL
from bonsainet.diffing.forms import Act, read_forms
from bonsainet.library.calls import program

IMPORTER, EXPORTER = "importer", "exporter"
NUMBERS = {IMPORTER: 64496, EXPORTER: 64497}
# (each link takes two addresses; a prefix that meets the range is refused, and said not to be known)
LINKS = int(IPv4Network("100.64.0.0/10").network_address)
ORIGINS_FROM = 64512
NO_ROUTE: Act = ("lets nothing pass",)


@dataclasses.dataclass(frozen=True)
class Session:
    """A direction of a session: the lines of the importer and of the exporter on which it hangs."""

    importer: Device
    exporter: Device
    near: Neighbor
    far: Neighbor


class Acts:
    """The acts of sessions for some prefixes. Sessions of the same lines are asked once."""

    def __init__(self, prefixes: Sequence[str]) -> None:
        self.prefixes = list(prefixes)
        self.layers = _layers(map(IPv4Network, prefixes))
        self.known: dict[str, dict[str, Act]] = {}

    def of(self, session: Session) -> dict[str, Act]:
        """The act for each prefix, where the program has one: none for a prefix for which it refuses the network."""
        text = self._text(session)
        if text not in self.known:
            self.known[text] = self._asked(text)
        return self.known[text]

    def _asked(self, text: str) -> dict[str, Act]:
        answer = program(ALL).ask("F", "canon", texts={"F": text})
        if answer.status not in IS_DONE:
            return {}
        found = {}
        listed = program("bonsai").classes(text)
        forms = dict(read_forms(answer.out))
        for one in listed:
            form = forms[one.number]
            if not form.refusal:
                acts = form.acts(IMPORTER, EXPORTER)
                found.update(dict.fromkeys(one.prefixes, min(acts) if acts else NO_ROUTE))
        return found

    def _text(self, session: Session) -> str:
        near, far = (_Side(IMPORTER, session.importer, session.near), _Side(EXPORTER, session.exporter, session.far))
        origins = range(1, len(self.layers) + 1)
        lines = ["hostname importer", *_interface(0, 0), f"router bgp {NUMBERS[IMPORTER]}", *near.preference]
        lines += [*_peer(0, 1, NUMBERS[EXPORTER]), *near.lines(_address(0, 1), "in"), *near.policies("in"), "end"]
        lines += [
            "hostname exporter",
            *(line for at in range(len(self.layers) + 1) for line in _interface(at, 0 if at else 1)),
        ]
        lines += [f"router bgp {NUMBERS[EXPORTER]}", *_peer(0, 0, NUMBERS[IMPORTER]), *far.lines(_address(0, 0), "out")]
        lines += [line for at in origins for line in _peer(at, 1, ORIGINS_FROM + at)]
        lines += [*far.policies("out"), "end"]
        for at, prefixes in zip(origins, self.layers):
            lines += [f"hostname origin{at}", *_interface(at, 1)]
            for number, prefix in enumerate(prefixes, 1):
                lines += [f"interface Vlan{number}", f" ip address {_host(prefix)} {prefix.netmask}"]
            lines += [f"router bgp {ORIGINS_FROM + at}"]
            lines += [f" network {prefix.network_address} mask {prefix.netmask}" for prefix in prefixes]
            lines += [*_peer(at, 0, NUMBERS[EXPORTER]), f" neighbor {_address(at, 0)} send-community", "end"]
        return "".join(f"{line}\n" for line in lines)


@dataclasses.dataclass(frozen=True)
class _Side:
    """A router of a session and its neighbour line."""

    name: str
    device: Device
    neighbor: Neighbor

    @property
    def preference(self) -> list[str]:
        """The line of the default preference."""
        given = self.device.own_bgp.preference
        return [] if given is None else [f" bgp default local-preference {given}"]

    def lines(self, address: str, way: str) -> Iterator[str]:
        """What the neighbour line names, for routes of one way."""
        listed, mapped = self._named(way)
        if way == "out" and self.neighbor.sends_communities:
            yield f" neighbor {address} send-community"
        if listed is not None:
            yield f" neighbor {address} prefix-list {listed} {way}"
        if mapped is not None:
            yield f" neighbor {address} route-map {mapped} {way}"

    def _named(self, way: str) -> tuple[str | None, str | None]:
        if way == "in":
            return self.neighbor.list_in, self.neighbor.map_in
        return self.neighbor.list_out, self.neighbor.map_out

    def policies(self, way: str) -> list[str]:
        """The lists and the route map that are named so, and the lists that the map names."""
        listed, mapped = self._named(way)
        entries = self.device.maps.get(mapped, []) if mapped is not None else []
        prefix_lists = dict.fromkeys([*([listed] if listed is not None else []), *_each_prefix_list(entries)])
        lists = dict.fromkeys(name for entry in entries for name in community_lists(entry))
        lines = [entry.line.text for name in prefix_lists for entry in self.device.prefix_lists.get(name, [])]
        lines += [line.line.text for name in lists for line in self.device.community_lists.get(name, [])]
        for entry in entries:
            lines += [entry.line.text, *(self._own(entry, word) for word in entry.lines)]
        return lines

    def _own(self, entry: MapEntry, word: str) -> str:
        """A line of an entry. What is put before a path is the router's own number, which is another one here."""
        if word != "prepended":
            return entry.lines[word].text
        return f" set as-path prepend {' '.join([str(NUMBERS[self.name])] * len(entry.prepended))}"


def _each_prefix_list(entries: Iterable[MapEntry]) -> Iterator[str]:
    return (name for entry in entries for name in entry.prefix_list_names)


def community_lists(entry: MapEntry) -> list[str]:
    """The community lists that an entry names."""
    return [*entry.community_list_names, *([entry.delete_list] if entry.delete_list else [])]


def _layers(prefixes: Iterable[IPv4Network]) -> list[list[IPv4Network]]:
    """Prefixes as lists in which none overlap, since the interfaces of a router may not."""
    layers: list[list[IPv4Network]] = []
    for prefix in sorted(prefixes):
        # (in ascending order only the last of a layer can overlap the next)
        layer = next((one for one in layers if not one[-1].overlaps(prefix)), None)
        if layer is None:
            layers.append([prefix])
        else:
            layer.append(prefix)
    return layers


def _host(prefix: IPv4Network) -> str:
    """An address in a prefix that an interface may have."""
    return str(prefix.network_address + (0 if prefix.prefixlen >= 31 else 1))


def _address(link: int, end: int) -> str:
    return str(IPv4Network((LINKS + 2 * link, 31))[end])


def _interface(link: int, end: int) -> list[str]:
    return [f"interface GigabitEthernet0/{link}", f" ip address {_address(link, end)} 255.255.255.254"]


def _peer(link: int, end: int, number: int) -> list[str]:
    return [f" neighbor {_address(link, end)} remote-as {number}"]
