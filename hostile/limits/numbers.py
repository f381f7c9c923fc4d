"""Texts whose numbers meet in the hash tables of the program, as addresses, AS numbers and preferences, each beside a plain
one of the same size."""
from __future__ import annotations

import dataclasses
import random
from collections.abc import Callable, Iterable, Iterator

from hostile.limits.collisions import keys

ROUTERS = 4096
Key = tuple[int, ...]
Lines = Callable[[list[Key]], Iterator[str]]


def address(number: int) -> str:
    """A number as an address."""
    return ".".join(str(number >> shift & 255) for shift in (24, 16, 8, 0))


@dataclasses.dataclass(frozen=True)
class Numbered:
    """What a text has many of, and the command in which they meet. A key is one number or several: `kind` names those that
    meet, `plain` makes others. A text has at most `bound` of them, of which `most` differ."""

    name: str
    kind: str
    lines: Lines
    plain: Callable[[int], list[Key]]
    words: tuple[str, ...] = ("classes", "F")
    output: int | None = 0
    bound: int = 1_000_000
    most: int = 1_000_000
    labels: Lines | None = None

    def keys(self, count: int, meet: bool) -> list[Key]:
        """So many keys, that meet or do not."""
        most = min(count, self.most)
        found = (
            [tuple(int(word) for word in key.split(".")) for key in keys(self.kind, most)] if meet else self.plain(most)
        )
        return found * (count // most)

    def text(self, count: int, meet: bool) -> bytes:
        """A text with so many keys."""
        return joined(self.lines(self.keys(count, meet)))

    def second(self, count: int, meet: bool) -> bytes:
        """The labels for that text, if the command reads some."""
        return joined(self.labels(self.keys(count, meet))) if self.labels else b""


def joined(lines: Iterable[str]) -> bytes:
    """Lines as a text."""
    return "".join(f"{line}\n" for line in lines).encode()


def counted(count: int) -> list[Key]:
    """Numbers in a row, of as many digits as those that meet have."""
    return [((10 << 24) + number,) for number in range(count)]


def shuffled(count: int) -> list[Key]:
    """Three preferences each."""
    source = random.Random(count)
    return [(source.randrange(1 << 22), source.randrange(1 << 32), source.randrange(1 << 26)) for _ in range(count)]


def triples(count: int) -> list[Key]:
    """Three of the first routers each, of which there are as many as for keys that meet."""
    source = random.Random(count)
    found: dict[tuple[int, ...], None] = {}
    while len(found) < count:
        found[tuple(sorted(source.sample(range(min(ROUTERS, 40 * round(count ** (1 / 3)))), 3)))] = None
    return list(found)


def _interfaces(found: list[Key], tail: list[str]) -> Iterator[str]:
    for first in range(0, len(found), 100):
        yield f"hostname r{first // 100}"
        for place, (number,) in enumerate(found[first : first + 100]):
            yield f"interface Vlan{place}"
            yield f" ip address {address(number)} 255.255.255.255"
        yield from tail
        yield "end"


def interfaces(found: list[Key]) -> Iterator[str]:
    """Routers of 100 interfaces with these addresses."""
    return _interfaces(found, [])


def subnets(found: list[Key]) -> Iterator[str]:
    """The same in OSPF."""
    return _interfaces(found, ["router ospf 1", " network 0.0.0.0 255.255.255.255 area 0"])


def processes(found: list[Key]) -> Iterator[str]:
    """Routers with these AS numbers."""
    for place, (number,) in enumerate(found):
        yield from (f"hostname r{place}", f"router bgp {number}", "end")


def origin(number: int) -> Iterator[str]:
    """What makes a router with this AS number originate a prefix."""
    yield from ("interface a0", " ip address 10.0.0.1 255.255.255.0")
    yield from (f"router bgp {number}", " network 10.0.0.0 mask 255.255.255.0")


def neighbors(found: list[Key]) -> Iterator[str]:
    """A router with neighbours of these addresses."""
    yield from ("hostname r", *origin(65001))
    yield from (f" neighbor {address(number)} remote-as 65002" for number, in found)
    yield "end"


def rules(found: list[Key]) -> Iterator[str]:
    """A router with lists, each of which permits one of these addresses."""
    yield "hostname r"
    yield from (f"ip prefix-list a{place} seq 5 permit {address(number)}/32" for place, (number,) in enumerate(found))
    yield "end"


def originated(found: list[Key]) -> Iterator[str]:
    """Prefixes, each originated by three routers."""
    of_router: dict[int, list[tuple[int, int]]] = {}
    for place, routers in enumerate(found):
        for host, router in enumerate(routers):
            of_router.setdefault(router, []).append(((10 << 24) + 8 * place, host + 1))
    for router in range(max(of_router) + 1):
        own = of_router.get(router, [])
        yield f"hostname r{router}"
        for place, (prefix, host) in enumerate(own):
            yield from (f"interface a{place}", f" ip address {address(prefix + host)} 255.255.255.248")
        yield f"router bgp {router + 1}"
        yield from (f" network {address(prefix)} mask 255.255.255.248" for prefix, _ in own)
        yield "end"


def communities(found: list[Key]) -> Iterator[str]:
    """As many lines of a list, of 32 communities each. Once all are named, the last ones are named again and again."""
    yield "hostname r"
    for place in range(len(found)):
        some = [str(number) for number, in found[32 * min(place, 31) :][:32]]
        yield f"ip community-list standard a permit {' '.join(some)}"
    yield "end"


def line_of_routers(found: list[Key]) -> Iterator[str]:
    """Routers in a line with these AS numbers, each of which prefers what comes from the one before it."""
    for place, (number,) in enumerate(found):
        yield f"hostname r{place}"
        if place > 0:
            yield from _link(2 * place - 2, 1)
        if place < len(found) - 1:
            yield from _link(2 * place, 0)
        yield from origin(number) if place == 0 else [f"router bgp {number}"]
        if place > 0:
            yield f" neighbor {address((11 << 24) + 2 * place - 2)} remote-as {found[place - 1][0]}"
            yield f" neighbor {address((11 << 24) + 2 * place - 2)} route-map a in"
        if place < len(found) - 1:
            yield f" neighbor {address((11 << 24) + 2 * place + 1)} remote-as {found[place + 1][0]}"
        yield from ("route-map a permit 10", " set local-preference 200", "end")


def labels_of_line(found: list[Key]) -> Iterator[str]:
    """The labels in which such a line rests."""
    yield "r0 bgp 100 path comms"
    path = ""
    for place in range(1, len(found)):
        path = f" {found[place - 1][0]}{path}"
        yield f"r{place} bgp 200 path{path} comms"


def maps(found: list[Key]) -> Iterator[str]:
    """Neighbours with a map each, whose entries set these preferences."""
    yield from ("hostname r", *origin(65001))
    for place in range(len(found)):
        yield f" neighbor {address((11 << 24) + place)} remote-as 65002"
        yield f" neighbor {address((11 << 24) + place)} route-map a{place} in"
    yield from _entries(found)
    yield "end"


def sessions(found: list[Key]) -> Iterator[str]:
    """Two routers with many sessions, in each of which one sets another preference."""
    count = len(found)
    yield "hostname a"
    for place in range(count):
        yield from _link(2 * place, 0)
    yield from origin(65001)
    yield from (f" neighbor {address((11 << 24) + 2 * place + 1)} remote-as 65002" for place in range(count))
    yield from ("end", "hostname b")
    for place in range(count):
        yield from _link(2 * place, 1)
    yield "router bgp 65002"
    for place in range(count):
        yield f" neighbor {address((11 << 24) + 2 * place)} remote-as 65001"
        yield f" neighbor {address((11 << 24) + 2 * place)} route-map a{place} in"
    yield from _entries(found)
    yield "end"


def _link(first: int, side: int) -> Iterator[str]:
    yield f"interface b{first}"
    yield f" ip address {address((11 << 24) + first + side)} 255.255.255.254"


def _entries(found: list[Key]) -> Iterator[str]:
    for place, preferences in enumerate(found):
        for number, preference in enumerate(preferences):
            yield f"route-map a{place} permit {10 * number + 10}"
            yield f" set local-preference {preference}"


GROUPS, COMPRESS, CHECK = ("groups", "F", "1"), ("compress", "F", "1"), ("check", "F", "1", "S")
NUMBERED = (
    Numbered("addresses", "numbers", interfaces, counted),
    Numbered("subnets in OSPF", "subnets", subnets, counted, output=None),
    Numbered("AS numbers", "numbers", processes, counted, bound=ROUTERS),
    Numbered("neighbours", "neighbors", neighbors, counted, GROUPS, 1),
    Numbered("rules of prefix lists", "rules", rules, counted),
    Numbered("prefixes of three routers", "origins", originated, triples, output=None, bound=40_000),
    Numbered("maps", "sums", maps, shuffled, GROUPS, 1, 20_000),
    Numbered("lines of 32 communities", "numbers", communities, counted, bound=40_000, most=1024),
    Numbered("lone routers", "numbers", line_of_routers, counted, CHECK, 1, 1000, labels=labels_of_line),
    Numbered("preferences of sessions", "entries", sessions, counted, COMPRESS, None, 20_000),
)
"""What a text can have many of."""
