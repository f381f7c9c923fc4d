"""BGP networks whose routers prefer some neighbours: several stable solutions, none, and ties (Griffin, Shepherd, Wilfong 2002)."""

from __future__ import annotations

import random

from hostile.makers.shapes import MOST, Shape, mask, own_address, ports, shape

PREFERENCES = [90, 100, 100, 130, 200]
COMMUNITIES = ["1:1", "2:2"]
GADGETS = {
    "disagree": [(0, 1), (0, 2), (1, 2)],
    "bad gadget": [(0, 1), (0, 2), (0, 3), (1, 2), (2, 3), (3, 1)],
    "two pairs": [(0, 1), (0, 2), (1, 2), (0, 3), (0, 4), (3, 4)],
}


def text(chance: random.Random, most: int = MOST) -> str:
    """A network in which preferences dispute: a known gadget, or a random shape."""
    if chance.random() < 0.3:
        return gadget(chance, *chance.choice(sorted(GADGETS.items())))
    one = shape(chance, most)
    tagged = chance.random() < 0.6
    wild = chance.choice([0.1, 0.3, 0.6, 0.9])
    lines: list[str] = []
    for place in range(one.count):
        lines += _router(chance, one, place, wild, tagged)
    return "".join(f"{line}\n" for line in lines)


def even(chance: random.Random, most: int = MOST) -> str:
    """A random shape in which nobody prefers anything, so that ways of the same length are equally good."""
    one = shape(chance, most)
    return "".join(f"{line}\n" for place in range(one.count) for line in _plain(one, place, [], False))


def gadget(chance: random.Random, name: str, pairs: list[tuple[int, int]]) -> str:
    """A gadget around the origin r0: each other router prefers its next neighbour to the origin.

    In the bad gadget a router prefers a route that its next neighbour has from the origin itself, and no longer one."""
    count = 1 + max(max(pair) for pair in pairs)
    given = list(pairs) + ([chance.choice(pairs)] if chance.random() < 0.3 else [])
    one = Shape(count, given, {0: [("10.0.0.0", 24)]})
    is_bad = name == "bad gadget"
    both = not is_bad and chance.random() < 0.7
    lines: list[str] = []
    for place in range(count):
        around = [other for _, other, _, _ in ports(one, place) if other != 0 and place != 0]
        lines += _plain(one, place, around if both else [other for other in around if (place, other) in pairs], is_bad)
    return "".join(f"{line}\n" for line in lines)


def start(one: Shape, place: int) -> list[str]:
    """The lines of a router up to its networks."""
    lines = [f"hostname r{place}"]
    for number, (prefix, length) in enumerate(one.origins.get(place, []), 1):
        lines += [f"interface Vlan{number}", f" ip address {own_address(prefix, length, place)} {mask(length)}"]
    for number, _, own, _ in ports(one, place):
        lines += [f"interface Serial0/{number}", f" ip address {own} 255.255.255.254"]
    lines += [f"router bgp {65001 + place}"]
    return lines + [f" network {prefix} mask {mask(length)}" for prefix, length in one.origins.get(place, [])]


def _plain(one: Shape, place: int, prefer: list[int], is_bad: bool) -> list[str]:
    lines = start(one, place)
    for _, other, _, far in ports(one, place):
        lines += [f" neighbor {far} remote-as {65001 + other}", f" neighbor {far} send-community"]
        lines += [f" neighbor {far} route-map LIKE in"] if other in prefer else []
    if prefer and is_bad:
        lines += ["ip community-list standard FAR permit 9:9", "route-map LIKE permit 5", " match community FAR"]
    if prefer:
        lines += ["route-map LIKE permit 10", " set local-preference 200", " set community 9:9 additive"]
    return lines + ["end"]


def _router(chance: random.Random, one: Shape, place: int, wild: float, tagged: bool) -> list[str]:
    lines, maps = start(one, place), []
    for number, other, _, far in ports(one, place):
        lines.append(f" neighbor {far} remote-as {65001 + other}")
        lines += [f" neighbor {far} send-community"] if tagged else []
        if chance.random() < wild:
            lines.append(f" neighbor {far} route-map IN{number} in")
            maps += _into(chance, number, tagged)
        if chance.random() < wild / 2:
            lines.append(f" neighbor {far} route-map OUT{number} out")
            maps += _out(chance, number, tagged, 65001 + place)
    if tagged:
        maps += [f"ip community-list standard C{one} permit {one}:{one}" for one in (1, 2)]
    return [*lines, *maps, "end"]


def _into(chance: random.Random, number: int, tagged: bool) -> list[str]:
    """A map that prefers by neighbour, or by community."""
    lines = []
    if tagged and chance.random() < 0.6:
        lines += [f"route-map IN{number} {chance.choice(['permit', 'permit', 'deny'])} 10"]
        lines += [f" match community C{chance.choice([1, 2])}"]
        lines += [f" set local-preference {chance.choice(PREFERENCES)}"] if "permit" in lines[0] else []
    lines += [f"route-map IN{number} permit 20"]
    return lines + ([f" set local-preference {chance.choice(PREFERENCES)}"] if chance.random() < 0.7 else [])


def _out(chance: random.Random, number: int, tagged: bool, own: int) -> list[str]:
    """A map that tags, prepends, or lets only some routes out."""
    lines = []
    if tagged and chance.random() < 0.3:
        lines += [f"route-map OUT{number} deny 5", f" match community C{chance.choice([1, 2])}"]
    lines += [f"route-map OUT{number} permit 20"]
    if tagged and chance.random() < 0.7:
        lines.append(f" set community {chance.choice(COMMUNITIES)} additive")
    if chance.random() < 0.4:
        lines.append(f" set as-path prepend {' '.join([str(own)] * chance.randint(1, 2))}")
    return lines
