"""An accepted text as records: what each known line gives, with the line that gave it. `reading.py` makes them."""
from __future__ import annotations

import dataclasses
import functools
import re
from collections.abc import Iterator
from ipaddress import IPv4Address, IPv4Interface, IPv4Network

from bonsainet.configs.addresses import address_at, interface_at
from bonsainet.configs.text import Line

ALL_BITS = 0xFFFFFFFF
DEFAULT_COSTS = {
    "Loopback": 1,
    "FastEthernet": 1,
    "GigabitEthernet": 1,
    "TenGigabitEthernet": 1,
    "Vlan": 1,
    "Ethernet": 10,
    "Serial": 64,
}


@dataclasses.dataclass
class Interface:
    """An interface. `given` is its address as a number, and the length of its mask. `cost` is the one that a line gives.
    `lines` has the line of each value by the value's name."""

    name: str
    line: Line
    given: tuple[int, int] | None = None
    cost: int | None = None
    is_shut: bool = False
    descriptions: list[str] = dataclasses.field(default_factory=list)
    lines: dict[str, Line] = dataclasses.field(default_factory=dict)
    ignored: list[Line] = dataclasses.field(default_factory=list)

    @property
    def address(self) -> IPv4Interface | None:
        """Its address with its subnet. It is made where somebody asks, which takes longer than to read the line."""
        return None if self.given is None else interface_at(*self.given)

    @property
    def own_address(self) -> IPv4Interface:
        """The address of an interface that has one, as each has that is up."""
        return interface_at(*self.own_numbers)

    @property
    def own_numbers(self) -> tuple[int, int]:
        """The same as numbers: the address, and the length of the mask."""
        assert self.given
        return self.given

    @property
    def subnet(self) -> tuple[int, int]:
        """The subnet of an interface that has an address, by its address and its mask as numbers."""
        return subnet_of(*self.own_numbers)

    @property
    def is_up(self) -> bool:
        """Whether it has an address and is not shut."""
        return self.given is not None and not self.is_shut

    @property
    def kind(self) -> str:
        """The name up to its first digit."""
        return re.split(r"\d", self.name, maxsplit=1)[0]

    @property
    def cost_in_area(self) -> int | None:
        """The cost in OSPF: that of its line, else that of its kind."""
        return self.cost if self.cost is not None else DEFAULT_COSTS.get(self.kind)


@dataclasses.dataclass
class Neighbor:
    """A neighbour of a BGP process. `number` is its address as a number."""

    number: int
    remote: int
    line: Line
    is_shut: bool = False
    sends_communities: bool = False
    list_in: str | None = None
    list_out: str | None = None
    map_in: str | None = None
    map_out: str | None = None
    descriptions: list[str] = dataclasses.field(default_factory=list)
    lines: dict[str, Line] = dataclasses.field(default_factory=dict)
    ignored: list[Line] = dataclasses.field(default_factory=list)

    @property
    def address(self) -> IPv4Address:
        """Its address."""
        return address_at(self.number)


@dataclasses.dataclass
class Bgp:
    """A BGP process. `by_number` has its neighbours by their addresses as numbers, which are found much faster than
    addresses."""

    number: int
    line: Line
    preference: int | None = None
    preference_line: Line | None = None
    networks: dict[IPv4Network, Line] = dataclasses.field(default_factory=dict)
    by_number: dict[int, Neighbor] = dataclasses.field(default_factory=dict)

    @functools.cached_property
    def neighbors(self) -> dict[IPv4Address, Neighbor]:
        """The neighbours by their addresses. Nothing changes a process that is read."""
        return {neighbor.address: neighbor for neighbor in self.by_number.values()}


@dataclasses.dataclass(frozen=True)
class AreaLine:
    """A `network` line of OSPF: an address, the bits that may differ, and the area."""

    address: int
    wildcard: int
    area: int
    line: Line

    def covers(self, address: IPv4Address) -> bool:
        """Whether the address agrees in all bits where the wildcard has 0."""
        return not (int(address) ^ self.address) & ~self.wildcard & ALL_BITS


@dataclasses.dataclass
class Ospf:
    """An OSPF process."""

    number: int
    line: Line
    is_passive_by_default: bool = False
    passive: list[str] = dataclasses.field(default_factory=list)
    not_passive: list[str] = dataclasses.field(default_factory=list)
    areas: list[AreaLine] = dataclasses.field(default_factory=list)
    passive_lines: list[Line] = dataclasses.field(default_factory=list)

    def is_passive(self, interface: str) -> bool:
        """Whether an interface of this name is passive."""
        return interface not in self.not_passive if self.is_passive_by_default else interface in self.passive


@dataclasses.dataclass(frozen=True)
class PrefixEntry:
    """An entry of a prefix list."""

    sequence: int
    is_permit: bool
    prefix: IPv4Network
    least: int | None
    most: int | None
    line: Line


@dataclasses.dataclass(frozen=True)
class CommunityLine:
    """A line of a community list: it holds for routes that carry all its communities."""

    is_permit: bool
    communities: tuple[int, ...]
    line: Line


@dataclasses.dataclass
class MapEntry:
    """An entry of a route map. `communities` is empty for `none`, and absent where no line sets any."""

    sequence: int
    is_permit: bool
    line: Line
    preference: int | None = None
    communities: tuple[int, ...] | None = None
    is_additive: bool = False
    delete_list: str | None = None
    prepended: tuple[int, ...] = ()
    lines: dict[str, Line] = dataclasses.field(default_factory=dict)

    @property
    def prefix_list_names(self) -> list[str]:
        """The prefix lists that the entry matches."""
        return self.lines["prefix lists"].words[4:] if "prefix lists" in self.lines else []

    @property
    def is_exact(self) -> bool:
        """Whether the match on communities is exact."""
        return self._community_words[-1:] == ["exact-match"]

    @property
    def _community_words(self) -> list[str]:
        return self.lines["community lists"].words[2:] if "community lists" in self.lines else []

    @property
    def community_list_names(self) -> list[str]:
        """The community lists that the entry matches."""
        return self._community_words[:-1] if self.is_exact else self._community_words


@dataclasses.dataclass
class Device:
    """A router of the network. A stub is one that `bonsai-import --stub` added."""

    name: str
    line: Line
    members: list[str] = dataclasses.field(default_factory=list)
    interfaces: list[Interface] = dataclasses.field(default_factory=list)
    bgp: Bgp | None = None
    ospf: Ospf | None = None
    prefix_lists: dict[str, list[PrefixEntry]] = dataclasses.field(default_factory=dict)
    community_lists: dict[str, list[CommunityLine]] = dataclasses.field(default_factory=dict)
    maps: dict[str, list[MapEntry]] = dataclasses.field(default_factory=dict)
    ignored: list[Line] = dataclasses.field(default_factory=list)
    is_stub: bool = False

    @property
    def own_bgp(self) -> Bgp:
        """The BGP process of a router that has one."""
        assert self.bgp
        return self.bgp

    @property
    def own_ospf(self) -> Ospf:
        """The OSPF process of a router that has one."""
        assert self.ospf
        return self.ospf

    @property
    def up_interfaces(self) -> Iterator[Interface]:
        """The interfaces that are up."""
        return (interface for interface in self.interfaces if interface.is_up)

    @functools.cached_property
    def by_address(self) -> dict[int, Interface]:
        """The interfaces that are up by their addresses as numbers. Nothing changes a device that is read."""
        return {
            interface.given[0]: interface for interface in self.interfaces if interface.given and not interface.is_shut
        }

    @functools.cached_property
    def by_subnet(self) -> dict[tuple[int, int], Interface]:
        """The interfaces that are up by their subnets."""
        return {
            subnet_of(*interface.given): interface
            for interface in self.interfaces
            if interface.given and not interface.is_shut
        }


def subnet_of(number: int, length: int) -> tuple[int, int]:
    """The subnet of an address and the length of its mask: its address and its mask, as numbers."""
    mask = ALL_BITS >> length ^ ALL_BITS
    return number & mask, mask


def community(word: str) -> int:
    """The value of a community `A:B` or of a number."""
    high, _, low = word.rpartition(":")
    return (int(high) << 16 | int(low)) if high else int(low)


def community_text(value: int) -> str:
    """A community as `A:B`."""
    return f"{value >> 16}:{value & 0xFFFF}"
