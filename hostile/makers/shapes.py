"""Who is linked with whom, and who originates what."""
from __future__ import annotations

import dataclasses
import itertools
import random
from ipaddress import IPv4Address

LINKS = IPv4Address("172.16.0.0")
PREFIXES = ["10.0.0.0", "10.0.1.0", "10.9.0.0", "192.168.3.0"]
LENGTHS = [24, 24, 24, 25, 30, 32]


@dataclasses.dataclass
class Shape:
    """Who is linked with whom, possibly several times, and who originates which prefixes. Routers are numbers."""

    count: int
    pairs: list[tuple[int, int]]
    origins: dict[int, list[tuple[str, int]]]


MOST = 7


def shape(chance: random.Random, most: int = MOST) -> Shape:
    """Two or more routers: a tree with more links, a star, a ring, a mesh or two layers; with parallel links."""
    count = chance.randint(2, most)
    how = chance.random()
    if how < 0.4:
        pairs = [(chance.randrange(place), place) for place in range(1, count) if chance.random() < 0.95]
        for _ in range(chance.randint(0, count)):
            one, other = sorted(chance.sample(range(count), 2))
            pairs.append((one, other))
    elif how < 0.55:
        pairs = [(0, place) for place in range(1, count)]
    elif how < 0.7:
        pairs = [(place, place + 1) for place in range(count - 1)] + ([(0, count - 1)] if count > 2 else [])
    elif how < 0.85:
        high = range(min(2, count - 1))
        pairs = [(top, place) for top in high for place in range(len(high), count)]
    else:
        count = min(count, 4)
        pairs = list(itertools.combinations(range(count), 2))
    pairs += [chance.choice(pairs) for _ in range(chance.choice([0, 0, 1, 2, 3])) if pairs]
    lengths = {prefix: chance.choice(LENGTHS) for prefix in PREFIXES}
    origins = {
        place: [(prefix, lengths[prefix]) for prefix in chance.sample(PREFIXES, chance.randint(1, 2))]
        for place in chance.sample(range(count), chance.choice([1, 1, 2]))
    }
    return Shape(count, pairs, origins)


def ports(one: Shape, place: int) -> list[tuple[int, int, IPv4Address, IPv4Address]]:
    """The link ends of a router: the link's number, the other router, the own address and the far one."""
    found = []
    for number, pair in enumerate(one.pairs):
        low, high = LINKS + 2 * number, LINKS + 2 * number + 1
        if place == pair[0]:
            found.append((number, pair[1], low, high))
        elif place == pair[1]:
            found.append((number, pair[0], high, low))
    return found


def own_address(prefix: str, length: int, place: int) -> IPv4Address:
    """The address of a router in a prefix that it originates. In a prefix of one address that is the prefix itself."""
    return IPv4Address(prefix) + (0 if length == 32 else place % (1 << (32 - length)))


def mask(length: int) -> IPv4Address:
    """The mask of a length."""
    return IPv4Address((0xFFFFFFFF << (32 - length)) & 0xFFFFFFFF)
