"""A network as its text gives it, each value with the line that gives it."""
from __future__ import annotations

import dataclasses

from hostile.judge.words import Prefix, cut

COSTS = {
    "Loopback": 1,
    "FastEthernet": 1,
    "GigabitEthernet": 1,
    "TenGigabitEthernet": 1,
    "Vlan": 1,
    "Ethernet": 10,
    "Serial": 64,
}


class Refused(Exception):
    """A refusal at a line, from 1, with its kind."""

    def __init__(self, line: int, kind: str) -> None:
        super().__init__(f"line {line}: {kind}")
        self.line, self.kind = line, kind


@dataclasses.dataclass
class Interface:
    """An interface: its address with the length of its mask, its cost where a line gives it."""

    name: str
    address: int | None = None
    length: int = 0
    line: int = 0
    cost: int | None = None
    shut: bool = False

    @property
    def up(self) -> bool:
        """Whether it has an address and no `shutdown`."""
        return self.address is not None and not self.shut

    @property
    def subnet(self) -> Prefix:
        """Its address cut to its mask."""
        return cut(self.address or 0, self.length)

    @property
    def type(self) -> str:
        """The name up to its first digit."""
        return self.name[: next(place for place, sign in enumerate(self.name) if sign.isdigit())]

    @property
    def ospf_cost(self) -> int | None:
        """Its own cost, else that of its type."""
        return self.cost if self.cost is not None else COSTS.get(self.type)


@dataclasses.dataclass
class Neighbor:
    """A neighbour: its address, number and the line of `remote-as`; names of lists and maps by `in` and `out`."""

    address: int
    number: int
    line: int
    shut: bool = False
    sends: bool = False
    lists: dict[str, str] = dataclasses.field(default_factory=dict)
    maps: dict[str, str] = dataclasses.field(default_factory=dict)


@dataclasses.dataclass
class Bgp:
    """A BGP process."""

    number: int
    line: int
    preference: int | None = None
    networks: list[Prefix] = dataclasses.field(default_factory=list)
    neighbors: dict[int, Neighbor] = dataclasses.field(default_factory=dict)


@dataclasses.dataclass
class Ospf:
    """An OSPF process: networks are address, wildcard, area and line."""

    line: int
    networks: list[tuple[int, int, int, int]] = dataclasses.field(default_factory=list)
    passive: set[str] = dataclasses.field(default_factory=set)
    active: set[str] = dataclasses.field(default_factory=set)
    default_passive: bool = False


@dataclasses.dataclass
class Entry:
    """An entry of a route map."""

    permits: bool
    prefix_lists: list[str] | None = None
    community_lists: list[str] | None = None
    exact: bool = False
    preference: int | None = None
    change: tuple[str, frozenset[int]] | None = None
    deletes: str | None = None
    prepends: list[int] = dataclasses.field(default_factory=list)


@dataclasses.dataclass(eq=False)
class Router:
    """One router, from the line behind the last `end` to its own."""

    name: str = ""
    line: int = 0
    interfaces: dict[str, Interface] = dataclasses.field(default_factory=dict)
    bgp: Bgp | None = None
    ospf: Ospf | None = None
    prefix_lists: dict[str, dict[int, tuple[bool, Prefix, int, int]]] = dataclasses.field(default_factory=dict)
    community_lists: dict[str, list[tuple[bool, frozenset[int], int]]] = dataclasses.field(default_factory=dict)
    maps: dict[str, dict[int, Entry]] = dataclasses.field(default_factory=dict)
    uses: list[tuple[str, str, int]] = dataclasses.field(default_factory=list)
    prepends: list[tuple[list[int], int]] = dataclasses.field(default_factory=list)
    named: list[tuple[int, int]] = dataclasses.field(default_factory=list)
    notes: list[str] = dataclasses.field(default_factory=list)

    @property
    def ups(self) -> list[Interface]:
        """Its up interfaces in order."""
        return [port for port in self.interfaces.values() if port.up]

    def in_area(self, port: Interface) -> bool:
        """Whether an up interface is in the OSPF area."""
        if not self.ospf or not port.up:
            return False
        own = port.address or 0
        return any((own ^ base) & ~wild & 0xFFFFFFFF == 0 for base, wild, _, _ in self.ospf.networks)

    def is_active(self, port: Interface) -> bool:
        """Whether it is in the area and not passive."""
        if self.ospf is None or not self.in_area(port):
            return False
        return port.name in self.ospf.active if self.ospf.default_passive else port.name not in self.ospf.passive
