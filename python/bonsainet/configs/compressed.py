"""A class as a tool shows it: what the program says of its groups, and the network that `compress` writes."""
from __future__ import annotations

import dataclasses
import functools
import hashlib
import re
from collections.abc import Callable, Hashable, Iterator, Sequence
from itertools import islice
from typing import Any

from bonsainet.ask.accepted import Wanted, accepted_classes, class_of
from bonsainet.ask.frames import frames_of
from bonsainet.cli.command_line import Refused
from bonsainet.configs.network import End, Network, read_network
from bonsainet.configs.profile import Device
from bonsainet.ask.program import Answer, Class, Group, NotAnswered, Program, Size, Status, report_of
from bonsainet.ask.shares import side_by_side
from bonsainet.cli.progress import counted_off
from bonsainet.cli.words import counted

AT_A_TIME = 64
NOTHING = read_network("", "")
MEMBERS = re.compile(r"^! member \S+\n", re.M)


@dataclasses.dataclass(frozen=True)
class Compressed:
    """A class, its sizes and groups, and its compressed network: the text with what it means, or why `compress`
    refused."""

    found: Class
    size: Size
    groups: list[Group]
    text: str
    network: Network
    refusal: str | None = None

    @property
    def number(self) -> int:
        """The number of the class."""
        return self.found.number

    @property
    def shape(self) -> Hashable:
        """All of the compressed network except the prefixes of the class: classes of one shape differ in nothing
        else."""
        if self.refusal:
            return self.number
        costs = tuple(cost for _, cost in self.found.origins)
        devices = tuple(
            (device.name, device.bgp and (device.bgp.number, device.bgp.preference)) for device in self.network.devices
        )
        return (
            tuple(self.groups),
            costs,
            devices,
            tuple((_end_shape(link.low), _end_shape(link.high)) for link in self.network.links),
        )

    @functools.cached_property
    def shape_sum(self) -> bytes:
        """A checksum of the shape."""
        return hashlib.sha256(repr(self.shape).encode()).digest()

    def without_network(self) -> Compressed:
        """The same without the compressed network, which takes most of its memory. Its shape is another one."""
        return dataclasses.replace(self, network=NOTHING)

    def group_of(self) -> dict[str, Group]:
        """The group of each router."""
        return {member: group for group in self.groups for member in group.members}


@dataclasses.dataclass(frozen=True)
class Asked:
    """An accepted text, what it means, and its classes."""

    name: str
    text: str
    network: Network
    classes: list[Class]

    def compress(self, program: Program, wanted: Wanted, said: ClassSaid | None = None) -> Compressed:
        """The class of a number, a prefix or an address, which is asked alone, unless what the program says of it is given.
        Refused where there is none, or where what was read differs from what the program counts."""
        number = class_of(self.classes, wanted, self.name).number
        report, answer = said or class_said(program, self.text, number)
        if report.status != Status.DONE:
            raise NotAnswered(report, "report")
        if answer.status not in (Status.DONE, Status.REFUSED):
            raise NotAnswered(answer, "compress")
        refusal = None if answer.status == Status.DONE else answer.reason.removeprefix("refused: ")
        return self._compressed(number, report.text, answer.text, refusal)

    def compress_each(self, numbers: Sequence[int]) -> Iterator[Compressed]:
        """Several classes, ascending, asked at once."""
        for report, small in frames_of(self.text, ("report", "compress"), numbers):
            text = small.text if small.refusal is None else ""
            yield self._compressed(report.number, report.text, text, small.refusal)

    def compress_some(self, numbers: Sequence[int]) -> Iterator[list[Compressed]]:
        """The same, as many at a time as are kept in memory, with progress on a terminal."""
        each = counted_off("classes", len(numbers), self.compress_each(numbers))
        while some := list(islice(each, AT_A_TIME)):
            yield some

    def _compressed(self, number: int, report: str, text: str, refusal: str | None) -> Compressed:
        size, groups = report_of(report)
        _must_agree(self.name, self.network, size.routers, size.links)
        # (its notes of members say what the groups say, and are most of its lines)
        small = read_network(MEMBERS.sub("", text), f"class-{number}.cfg")
        if refusal is None:
            _must_agree(f"compress of class {number}", small, size.groups, size.links_after)
        return Compressed(self.classes[number - 1], size, groups, text, small, refusal)


ClassSaid = tuple[Answer, Answer]
"""What the program says to `report` and `compress` of a class."""


def class_said(program: Program, text: str | bytes, number: int) -> ClassSaid:
    """What the program says of a class alone."""
    report, small = side_by_side(
        lambda command: program.ask(command, "F", str(number), texts={"F": text}), ("report", "compress"), 2
    )
    return report, small


def asked(program: Program, raw: bytes, name: str) -> Asked:
    """What the program says of a text. Refused where it does not accept it."""
    # (the text is read here while the program reads it; a text that is refused is refused first)
    works: tuple[Callable[[], Any], ...] = (
        lambda: accepted_classes(program, raw, name),
        lambda: read_network(raw.decode("ascii"), name),
    )
    classes, network = side_by_side(lambda work: work(), works, 2)
    return Asked(name, raw.decode("ascii"), network, classes)


def policy_lines(device: Device, name: str) -> list[str]:
    """The lines of a route map, each entry after the community lists that it names."""
    lines = []
    for entry in device.maps[name]:
        lists = [*entry.community_list_names, *([entry.delete_list] if entry.delete_list else [])]
        lines += [line.line.text for listed in lists for line in device.community_lists.get(listed, [])]
        lines += [entry.line.text, *(line.text for line in entry.lines.values())]
    return lines


def _end_shape(end: End) -> Hashable:
    """What one end of a link of a compressed network says of routes: the cost, or the policies line by line."""
    if end.neighbor is None:
        return end.device.name, end.cost
    maps = (end.neighbor.map_in, end.neighbor.map_out)
    policies = tuple(tuple(policy_lines(end.device, name)) if name else None for name in maps)
    return end.device.name, end.neighbor.sends_communities, policies


def _must_agree(name: str, network: Network, routers: int, links: int) -> None:
    """A fault of ours is reported and never drawn."""
    if (len(network.devices), len(network.links)) != (routers, links):
        found = f"{counted(len(network.devices), 'router')} and {counted(len(network.links), 'link')}"
        raise Refused(f"{name}: read here with {found}, where the program counts {routers} and {links}")
