"""Internets of customers, peers and providers (Gao and Rexford 2001), in some of which a session leaks; and networks whose routers
all have equal preferences, so that communities break ties."""

from __future__ import annotations

import random

from hostile.makers.disputes import start
from hostile.makers.shapes import MOST, Shape, ports

CUSTOMER, PEER, PROVIDER = 130, 100, 90
LEAKS = 0.1


def text(chance: random.Random, most: int = MOST) -> str:
    """An internet: each AS but the first has one or two providers among those before it; some are peers."""
    count = chance.randint(3, max(3, most))
    above = {(place, top) for place in range(1, count) for top in _some(chance, place)}
    beside = {
        (low, high)
        for low, high in (sorted(chance.sample(range(count), 2)) for _ in range(chance.randint(0, count // 2)))
    }
    beside = {pair for pair in beside if pair not in above and pair[::-1] not in above}
    pairs = sorted((min(pair), max(pair)) for pair in above | beside)
    one = Shape(count, pairs, {chance.randrange(count): [("10.0.0.0", 24)]})
    lines: list[str] = []
    for place in range(count):
        lines += _autonomous_system(chance, one, place, above)
    return "".join(f"{line}\n" for line in lines)


def _some(chance: random.Random, place: int) -> list[int]:
    return chance.sample(range(place), min(place, chance.choice([1, 1, 2])))


def _autonomous_system(chance: random.Random, one: Shape, place: int, above: set) -> list[str]:
    """Routes of peers and providers have 2:2, and go to customers alone."""
    lines, maps = start(one, place), []
    for number, other, _, far in ports(one, place):
        is_customer = (other, place) in above
        preference = CUSTOMER if is_customer else PROVIDER if (place, other) in above else PEER
        lines += [f" neighbor {far} remote-as {65001 + other}", f" neighbor {far} send-community"]
        lines += [f" neighbor {far} route-map IN{number} in"]
        maps += [f"route-map IN{number} permit 10", f" set local-preference {preference}"]
        maps += [" set community none"] if is_customer else [" set community 2:2 additive"]
        if not is_customer and chance.random() >= LEAKS:
            lines += [f" neighbor {far} route-map UP out"]
    maps += ["ip community-list standard NOT-OWN permit 2:2"]
    maps += ["route-map UP deny 10", " match community NOT-OWN", "route-map UP permit 20"]
    return [*lines, *maps, "end"]


def tied(chance: random.Random) -> str:
    """Some ways of equal length from r0 to the last router, each with communities of its own, and links across."""
    width, depth = chance.randint(2, 3), chance.randint(1, 2)
    rows = [[0]] + [[1 + row * width + at for at in range(width)] for row in range(depth)]
    pairs = [(0, place) for place in rows[1]]
    pairs += [(low, high) for row, below in zip(rows[1:], rows[2:]) for low, high in zip(row, below)]
    pairs += [
        (low, high) for row, below in zip(rows[1:], rows[2:]) for low in row for high in below if chance.random() < 0.2
    ]
    last = 1 + depth * width
    pairs += [(place, last) for place in rows[-1]]
    pairs += [(last, last + 1)] if chance.random() < 0.7 else []
    count = 1 + max(high for _, high in pairs)
    one = Shape(count, sorted(set(pairs)), {0: [("10.0.0.0", 24)]})
    tags = chance.random() < 0.8
    lines: list[str] = []
    for place in range(count):
        lines += _tagging(chance, one, place, tags)
    return "".join(f"{line}\n" for line in lines)


def _tagging(chance: random.Random, one: Shape, place: int, tags: bool) -> list[str]:
    lines, maps = start(one, place), []
    for number, other, _, far in ports(one, place):
        lines += [f" neighbor {far} remote-as {65001 + other}", f" neighbor {far} send-community"]
        if tags and chance.random() < 0.5:
            lines.append(f" neighbor {far} route-map OUT{number} out")
            maps += [f"route-map OUT{number} permit 10", f" set community {chance.choice(['1:1', '2:2'])} additive"]
        if chance.random() < 0.25:
            lines.append(f" neighbor {far} route-map IN{number} in")
            maps += [f"route-map IN{number} deny 10", " match community ONE"] if chance.random() < 0.4 else []
            maps += [f"route-map IN{number} permit 20"]
            maps += [f" set local-preference {chance.choice([100, 100, 130])}"]
    return [*lines, *maps, "ip community-list standard ONE permit 1:1", "end"]
