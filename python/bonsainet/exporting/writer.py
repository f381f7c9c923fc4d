"""How an exporter writes: each line with the line that caused it, so that what changed is reported by place, rule and
reason."""
from __future__ import annotations

import dataclasses
from collections.abc import Callable, Iterable, Mapping

from bonsainet.configs.change import Change
from bonsainet.configs.network import Network
from bonsainet.configs.profile import Device, Interface, PrefixEntry
from bonsainet.configs.text import Line

MOST_OF_A_DESCRIPTION = 200
SECRETS = {
    "password",
    "secret",
    "key",
    "authentication-key",
    "message-digest-key",
    "key-string",
    "community",
    "pre-shared-key",
    "server-key",
    "wpa-psk",
    "passphrase",
}


class NotExported(Exception):
    """A text that the target has no form for, with the line that says which."""


@dataclasses.dataclass
class Exported:
    """What an export made: the files by their paths, what changed, and which lines the target may take otherwise."""

    files: dict[str, str] = dataclasses.field(default_factory=dict)
    changes: list[Change] = dataclasses.field(default_factory=list)
    doubts: list[Change] = dataclasses.field(default_factory=list)


class Writer:
    """Writes the configuration of one router by the rules of a target, a table of names and reasons."""

    def __init__(self, rules: Mapping[str, str], exported: Exported) -> None:
        self.rules = rules
        self.exported = exported
        self.lines: list[str] = []

    def put(self, text: str | Iterable[str], cause: Line, rule: str) -> None:
        """Writes what the line `cause` says. Where that is not its own text, the rule says why."""
        texts = [text] if isinstance(text, str) else list(text)
        self.lines += texts
        if [line.split() for line in texts] != [cause.words]:
            self._note(cause, " ".join(cause.words), texts, rule)

    def add(self, text: str, beside: Line, rule: str) -> None:
        """Writes a line that the text does not have, beside a line of it."""
        self.lines.append(text)
        self._note(beside, "", [text], rule)

    def leave_out(self, cause: Line, rule: str) -> None:
        """Notes that a line is not written."""
        self._note(cause, without_secret(cause.words), [], rule)

    def doubt(self, cause: Line, rule: str) -> None:
        """Notes that the target may take a line otherwise."""
        words = " ".join(cause.words)
        self.exported.doubts.append(Change(cause.place, words, (words,), rule, self.rules[rule]))

    def bare(self, text: str) -> None:
        """Writes a line that says nothing of the network."""
        self.lines.append(text)

    @property
    def text(self) -> str:
        """The configuration so far."""
        return "".join(f"{line}\n" for line in self.lines)

    def _note(self, cause: Line, before: str, after: list[str], rule: str) -> None:
        self.exported.changes.append(
            Change(cause.place, before, tuple(line.strip() for line in after), rule, self.rules[rule])
        )


def without_secret(words: list[str]) -> str:
    """The words of a line, cut behind a word that announces a secret."""
    at = next((place for place, word in enumerate(words) if word in SECRETS), len(words))
    return " ".join(words[: at + 1] + ["..."] * (at + 1 < len(words)))


def members_note(device: Device) -> str | None:
    """The members of a group as the words of a description, or none where there are none."""
    if not device.members:
        return None
    told: list[str] = []
    length = 0
    for member in device.members:
        length += len(member) + 1
        if length > MOST_OF_A_DESCRIPTION:
            return f"stands for {' '.join(told)} and {len(device.members) - len(told)} more"
        told.append(member)
    return f"stands for {' '.join(told)}"


def linked_interfaces(network: Network) -> set[tuple[str, str]]:
    """The interfaces, by device and name, that need a port: a link runs over them, or a neighbour line names an address
    behind them."""
    found = {(end.device.name, end.interface.name) for link in network.links for end in (link.low, link.high)}
    for device, neighbor in network.unmatched:
        found |= {
            (device.name, interface.name)
            for interface in device.up_interfaces
            if neighbor.address in interface.own_address.network
        }
    return found


def loopback_names(device: Device, linked: set[tuple[str, str]]) -> dict[str, str]:
    """Names `Loopback` for the VLAN interfaces without a port: with the number of the VLAN, or the next free one."""
    taken = {interface.name for interface in device.interfaces}
    named = {}
    for interface in device.interfaces:
        if interface.kind == "Vlan" and (device.name, interface.name) not in linked:
            number = interface.name.removeprefix("Vlan")
            wanted = int(number) if number.isdigit() and len(number) < 9 else 1
            while f"Loopback{wanted}" in taken:
                wanted += 1
            named[interface.name] = f"Loopback{wanted}"
            taken.add(named[interface.name])
    return named


def named(
    device: Device, linked: set[tuple[str, str]], name_of: Callable[[Interface, set[str]], str]
) -> dict[str, str]:
    """The names of a device's interfaces: of a VLAN without a port a loopback's, of others what `name_of` makes of the
    interface and the names that are taken."""
    names = loopback_names(device, linked)
    taken = {interface.name for interface in device.interfaces} | set(names.values())
    for interface in device.interfaces:
        if interface.name not in names:
            names[interface.name] = name_of(interface, taken)
            taken.add(names[interface.name])
    return names


def active_ends(network: Network) -> dict[tuple[str, str], int]:
    """For each interface of an OSPF adjacency, how many active ends its wire has."""
    found: dict[tuple[str, str], set[tuple[str, str]]] = {}
    for link in network.links if network.protocol == "ospf" else ():
        ends = {(link.low.device.name, link.low.interface.name), (link.high.device.name, link.high.interface.name)}
        for end in ends:
            found.setdefault(end, set()).update(ends)
    return {end: len(ends) for end, ends in found.items()}


def is_default(line: Line) -> bool:
    """Whether a line makes the interfaces passive that no other line names."""
    return line.words[0] != "no" and line.words[-1] == "default"


def prefix_range(entry: PrefixEntry) -> str:
    """The words `ge` and `le` of an entry, without those that a device refuses: a `ge` of the prefix's own length, and
    what says nothing new."""
    length = entry.prefix.prefixlen
    least = entry.least if entry.least is not None else length
    most = entry.most if entry.most is not None else 32 if entry.least is not None else length
    at_least = f" ge {least}" if least > length else ""
    at_most = f" le {most}" if most > length and (most < 32 or not at_least) else ""
    return at_least + at_most
