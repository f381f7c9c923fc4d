"""Texts that have many of two things, where a command may take each of one with each of the other, each beside a text of the
same size where it need not."""
from __future__ import annotations

import dataclasses
import functools
from collections.abc import Callable, Iterator

from hostile.limits.numbers import address, joined

IN_AREA = ("router ospf 1", " network 0.0.0.0 255.255.255.255 area 0")
SHARED_BY = 1400
MOST_ENTRIES = 65_535
AT_ONCE = 64
"""The program asks so many lists at once."""


@dataclasses.dataclass(frozen=True)
class Product:
    """What a text has two of, so many of each, and the command that meets them. A text has at most `bound` of one."""

    name: str
    words: tuple[str, ...]
    lines: Callable[[int, bool], Iterator[str]]
    bound: int

    def text(self, count: int, meet: bool) -> bytes:
        """A text with so many of each, that all meet or do not."""
        return joined(self.lines(count, meet))


def lists_over_prefixes(count: int, meet: bool) -> Iterator[str]:
    """A router with prefixes, under lists that all say something different or all the same."""
    yield "hostname r"
    for place in range(count):
        yield from (f"interface Vlan{place}", f" ip address {address((10 << 24) + place)} 255.255.255.255")
    for place in range(count):
        block = address((11 << 24) + (place << 8) * meet)
        yield f"ip prefix-list l{place} seq 5 permit {block}/24"
    yield from (*IN_AREA, "end")


def lists_over_nested_prefixes(count: int, meet: bool, entries: int, kinds: int) -> Iterator[str]:
    """Routers with a prefix of each length at each of many addresses below 127.0.0.0, under different lists of so many entries
    whose blocks stand between these addresses, or 128.0.0.0 higher. The entries of one block are of so many kinds."""
    blocks = AT_ONCE * entries
    bits = 32 - (2 * blocks).bit_length()
    starts = [start << bits for start in range(1, 2 * blocks) if start << bits >> 24 != 127]
    for length in range(32 - bits, 33):
        held = [start for start in starts if start % (1 << (32 - length)) == 0]
        yield f"hostname r{length}"
        for place, start in enumerate(held):
            host = start + 32 - length + (length < 30)
            yield from (f"interface Vlan{place}", f" ip address {address(host)} {address(2**32 - 2 ** (32 - length))}")
        if length == 32:
            for place in range(count):
                for entry in range(entries):
                    start = ((2 * ((entries * place + entry) % blocks) + 1) << bits) + (0 if meet else 128 << 24)
                    kind = place // kinds**entry % kinds
                    block = f"{address(start)}/{32 - bits + kind % 5}" + (f" le {22 + kind // 5}" if kind >= 5 else "")
                    yield f"ip prefix-list l{place} seq {entry + 1} deny {block}"
        yield from (*IN_AREA, "end")


def lists_that_first_deny_all(count: int, meet: bool) -> Iterator[str]:
    """A router with prefixes, under lists of 2 entries. The first entry has all prefixes, and the second one of a list is its own,
    or that of all."""
    yield "hostname r"
    for place in range(count):
        yield from (f"interface Vlan{place}", f" ip address {address((10 << 24) + place)} 255.255.255.255")
    for place in range(count):
        yield f"ip prefix-list l{place} seq 1 deny 0.0.0.0/0 le 32"
        yield f"ip prefix-list l{place} seq 2 deny {address((11 << 24) + (place << 8) * meet)}/24"
    yield from (*IN_AREA, "end")


def rules_over_prefixes(count: int, meet: bool) -> Iterator[str]:
    """A router with prefixes under one list of many rules, of which none has a prefix, or the first one all."""
    yield "hostname r"
    for place in range(count):
        yield from (f"interface Vlan{place}", f" ip address {address((10 << 24) + place)} 255.255.255.255")
    if not meet:
        yield "ip prefix-list p seq 1 deny 10.0.0.0/8 le 32"
    for place in range(count):
        yield f"ip prefix-list p seq {place + 2} deny {('0.0.0.0/1', '1.0.0.0/8')[place % 7 % 2]}"
    yield from (*IN_AREA, "end")


def lines_over_interfaces(count: int, meet: bool) -> Iterator[str]:
    """A router with interfaces and lines of its OSPF area, of which the last one or the first one has them all."""
    yield "hostname r"
    for place in range(count):
        yield from (f"interface Vlan{place}", f" ip address {address((10 << 24) + place)} 255.255.255.255")
    all_of_them = [" network 10.0.0.0 0.255.255.255 area 0"]
    yield "router ospf 1"
    yield from all_of_them * (not meet)
    for place in range(count):
        yield f" network {address((64 << 24) + (place << 8))} 0.0.0.{place % 255} area 0"
    yield from (*all_of_them * meet, "end")


def entries_over_rules(count: int, meet: bool) -> Iterator[str]:
    """A session whose map has entries that all match one list of many rules: no rule has the prefix, or the first one."""
    yield from ("hostname a", "interface a0", " ip address 10.0.0.1 255.255.255.0")
    yield from ("interface a1", " ip address 11.0.0.0 255.255.255.254")
    yield from ("router bgp 65001", " network 10.0.0.0 mask 255.255.255.0", " neighbor 11.0.0.1 remote-as 65002", "end")
    yield from ("hostname b", "interface a1", " ip address 11.0.0.1 255.255.255.254")
    yield from ("router bgp 65002", " neighbor 11.0.0.0 remote-as 65001", " neighbor 11.0.0.0 route-map m in")
    first = "10.0.0.0/8 le 32" if not meet else "19.0.0.0/8 le 32"
    yield f"ip prefix-list p seq 1 deny {first}"
    for place in range(1, count):
        yield f"ip prefix-list p seq {place + 1} permit {address((20 << 24) + (place << 8))}/24"
    for place in range(min(count, MOST_ENTRIES)):
        yield from (f"route-map m permit {place + 1}", " match ip address prefix-list p")
    yield "end"


def stubs_behind_one_subnet(count: int, meet: bool) -> Iterator[str]:
    """Routers that share one subnet, with stub routers behind them that have a cost each, or all the same."""
    for router in range(SHARED_BY):
        yield from (
            f"hostname c{router}",
            "interface Vlan0",
            f" ip address {address((10 << 24) + router + 1)} 255.255.0.0",
        )
        for stub in range(router, count, SHARED_BY):
            yield from (f"interface Vlan{stub + 1}", f" ip address {address((11 << 24) + 2 * stub)} 255.255.255.254")
        yield from (*IN_AREA, "end")
    for stub in range(count):
        yield from (
            f"hostname s{stub}",
            "interface Vlan0",
            f" ip address {address((11 << 24) + 2 * stub + 1)} 255.255.255.254",
        )
        yield f" ip ospf cost {2 + stub * meet}"
        if stub == 0:
            yield from ("interface Loopback0", " ip address 172.16.0.1 255.255.255.255")
        yield from (*IN_AREA, "end")


def maps_of_sessions(count: int, meet: bool) -> Iterator[str]:
    """Two routers with many sessions, whose maps set another preference each, and the same or another least one."""
    yield from ("hostname a", "interface a0", " ip address 10.0.0.1 255.255.255.0")
    for place in range(count):
        yield from (f"interface b{place}", f" ip address {address((11 << 24) + 2 * place)} 255.255.255.254")
    yield from ("router bgp 65001", " network 10.0.0.0 mask 255.255.255.0")
    yield from (f" neighbor {address((11 << 24) + 2 * place + 1)} remote-as 65002" for place in range(count))
    yield from ("end", "hostname b")
    for place in range(count):
        yield from (f"interface b{place}", f" ip address {address((11 << 24) + 2 * place + 1)} 255.255.255.254")
    yield from ("ip community-list standard l permit 100", "router bgp 65002")
    for place in range(count):
        neighbor = address((11 << 24) + 2 * place)
        yield from (f" neighbor {neighbor} remote-as 65001", f" neighbor {neighbor} route-map m{place} in")
    for place in range(count):
        first, other = (1, 1000 + place) if meet else (1000 + place, 900_000)
        yield from (f"route-map m{place} permit 1", " match community l", f" set local-preference {first}")
        yield from (f"route-map m{place} permit 2", f" set local-preference {other}")
    yield "end"


def lists_of_neighbors(count: int, meet: bool) -> Iterator[str]:
    """Two routers with many sessions, where one of them has one map of as many entries for all neighbours, and a prefix list for
    each or one for all."""
    yield from ("hostname a", "interface a0", " ip address 10.0.0.1 255.255.255.0")
    for place in range(count):
        yield from (f"interface b{place}", f" ip address {address((11 << 24) + 2 * place)} 255.255.255.254")
    yield from ("router bgp 65001", " network 10.0.0.0 mask 255.255.255.0")
    yield from (f" neighbor {address((11 << 24) + 2 * place + 1)} remote-as 65002" for place in range(count))
    yield from ("end", "hostname b")
    for place in range(count):
        yield from (f"interface b{place}", f" ip address {address((11 << 24) + 2 * place + 1)} 255.255.255.254")
    yield "router bgp 65002"
    for place in range(count):
        neighbor = f" neighbor {address((11 << 24) + 2 * place)}"
        yield from (f"{neighbor} remote-as 65001", f"{neighbor} route-map m in")
        yield f"{neighbor} prefix-list l{place * meet} in"
    yield from (f"ip prefix-list l{place} seq 1 permit 10.0.0.0/8 le 32" for place in range(count))
    yield from (f"route-map m permit {place + 1}" for place in range(min(count, MOST_ENTRIES)))
    yield "end"


def preferences_of_a_map(count: int, meet: bool) -> Iterator[str]:
    """A session whose map has entries that match a community and set a preference each, or all the same."""
    yield from ("hostname a", "interface a0", " ip address 10.0.0.1 255.255.255.0")
    yield from ("interface a1", " ip address 11.0.0.0 255.255.255.254")
    yield from ("router bgp 65001", " network 10.0.0.0 mask 255.255.255.0", " neighbor 11.0.0.1 remote-as 65002")
    yield from (" neighbor 11.0.0.1 send-community", "end")
    yield from ("hostname b", "interface a1", " ip address 11.0.0.1 255.255.255.254")
    yield from ("router bgp 65002", " neighbor 11.0.0.0 remote-as 65001", " neighbor 11.0.0.0 route-map m in")
    yield from (f"ip community-list standard l{place} permit {place + 100}" for place in range(count))
    for place in range(count):
        yield from (f"route-map m permit {place + 1}", f" match community l{place}")
        yield f" set local-preference {1000 + place * meet}"
    yield "end"


CLASSES, GROUPS, CERTIFY = ("classes", "F"), ("groups", "F", "1"), ("certify", "F", "1")
PRODUCTS = (
    Product("prefixes and prefix lists", CLASSES, lists_over_prefixes, 140_000),
    Product(
        "prefix lists of 8 entries over nested prefixes",
        CLASSES,
        functools.partial(lists_over_nested_prefixes, entries=8, kinds=5),
        36_000,
    ),
    Product(
        "prefix lists of 2 entries over nested prefixes",
        CLASSES,
        functools.partial(lists_over_nested_prefixes, entries=2, kinds=51),
        140_000,
    ),
    Product("prefixes and prefix lists that first deny all", CLASSES, lists_that_first_deny_all, 98_000),
    Product("prefixes and rules of one list", CLASSES, rules_over_prefixes, 135_000),
    Product("interfaces and lines of an area", CLASSES, lines_over_interfaces, 155_000),
    Product("entries of a map and rules of a list", GROUPS, entries_over_rules, 135_000),
    Product("stub routers behind a subnet of 1,400", CERTIFY, stubs_behind_one_subnet, 2_600),
    Product("maps of sessions of two routers", GROUPS, maps_of_sessions, 32_000),
    Product("neighbours with a prefix list each and entries of their map", GROUPS, lists_of_neighbors, 44_000),
    Product("preferences of a map", GROUPS, preferences_of_a_map, 1_024),
)
"""What a text can have many of."""
