"""Random networks in BGP or OSPF for rounds on real routers, each a function of its seed."""
from __future__ import annotations

import random
from ipaddress import IPv4Address

COMMUNITIES = ["65000:1", "65000:2", "65000:3", "7:7"]
PREFIX = "10.0.0.0/24"
FIRST_LINK = IPv4Address("172.16.0.0")


def random_text(seed: int) -> str:
    """A network of four to eight routers: a tree with more links, one or two originators, and maps or costs.

    Ports of the links beyond the tree may be shut, and in OSPF passive, by lines in any order.
    """
    chance = random.Random(seed)
    spare = random.Random(f"spare {seed}")
    count = chance.randint(4, 8)
    pairs = [(chance.randrange(place), place) for place in range(1, count)]
    for _ in range(chance.randint(1, count)):
        low, high = sorted(chance.sample(range(count), 2))
        pairs.append((low, high))
    origins = chance.sample(range(count), chance.randint(1, 2))
    write = _bgp if seed % 3 else _ospf
    return "".join(f"{line}\n" for place in range(count) for line in write(chance, spare, place, pairs, origins))


def _ports(place: int, pairs: list[tuple[int, int]]) -> list[tuple[int, int, IPv4Address, IPv4Address]]:
    """The links of a router: the number of each, its other end, and the addresses of both sides."""
    found = []
    for number, pair in enumerate(pairs):
        if place in pair:
            low, high = FIRST_LINK + 2 * number, FIRST_LINK + 2 * number + 1
            own, far = (low, high) if place == pair[0] else (high, low)
            found.append((number, pair[1] if place == pair[0] else pair[0], own, far))
    return found


def _is_beyond_the_tree(number: int, pairs: list[tuple[int, int]]) -> bool:
    return number >= max(high for _, high in pairs)


def _ospf(
    chance: random.Random, spare: random.Random, place: int, pairs: list[tuple[int, int]], origins: list[int]
) -> list[str]:
    lines = [f"hostname r{place}"]
    passive: list[str] = []
    active: list[str] = []
    if place in origins:
        lines += [
            "interface Vlan1",
            f" ip address 10.0.0.{place + 1} 255.255.255.0",
            f" ip ospf cost {chance.choice([1, 10])}",
        ]
        passive.append("Vlan1")
    for number, _, own, _ in _ports(place, pairs):
        name = f"GigabitEthernet0/{number}"
        lines += [
            f"interface {name}",
            f" ip address {own} 255.255.255.254",
            f" ip ospf cost {chance.choice([1, 1, 5, 65535])}",
        ]
        is_spare = _is_beyond_the_tree(number, pairs)
        lines += [" shutdown"] if is_spare and spare.random() < 0.1 else []
        (passive if is_spare and spare.random() < 0.2 else active).append(name)
    return [
        *lines,
        "router ospf 1",
        *_passive_lines(spare, passive, active),
        " network 0.0.0.0 255.255.255.255 area 0",
        "end",
    ]


def _passive_lines(spare: random.Random, passive: list[str], active: list[str]) -> list[str]:
    """Lines that make some interfaces passive and others not, in either form, in any order, and among them some without
    effect."""
    idle = spare.sample([*passive, *active], spare.randint(0, 1))
    if spare.random() < 0.5:
        lines = [
            *(f" passive-interface {name}" for name in passive),
            *(f" no passive-interface {name}" for name in idle),
        ]
    else:
        lines = [
            " passive-interface default",
            *(f" no passive-interface {name}" for name in active),
            *(f" passive-interface {name}" for name in idle),
        ]
    return spare.sample(lines, len(lines))


def _bgp(
    chance: random.Random, spare: random.Random, place: int, pairs: list[tuple[int, int]], origins: list[int]
) -> list[str]:
    lines = [f"hostname r{place}"]
    if place in origins:
        lines += ["interface Vlan1", f" ip address 10.0.0.{place + 1} 255.255.255.0"]
    ports = _ports(place, pairs)
    for number, _, own, _ in ports:
        lines += [f"interface GigabitEthernet0/{number}", f" ip address {own} 255.255.255.254"]
        lines += [" shutdown"] if _is_beyond_the_tree(number, pairs) and spare.random() < 0.1 else []
    lines.append(f"router bgp {65001 + place}")
    if chance.random() < 0.2:
        lines.append(f" bgp default local-preference {chance.choice([50, 150])}")
    if place in origins:
        lines.append(" network 10.0.0.0 mask 255.255.255.0")
    for _, other, _, far in ports:
        lines.append(f" neighbor {far} remote-as {65001 + other}")
        if chance.random() < 0.7:
            lines.append(f" neighbor {far} send-community")
        if chance.random() < 0.2:
            lines.append(f" neighbor {far} prefix-list P {chance.choice(['in', 'out'])}")
        for direction, likely in (("in", 0.4), ("out", 0.4)):
            if chance.random() < likely:
                lines.append(f" neighbor {far} route-map {direction.upper()} {direction}")
    lines += [f"ip prefix-list P seq 5 permit 10.0.0.0/{chance.choice([8, 24])} le {chance.choice([24, 32])}"]
    for name in ("A", "B"):
        for _ in range(chance.randint(1, 2)):
            communities = " ".join(chance.sample(COMMUNITIES, chance.randint(1, 2)))
            lines.append(
                f"ip community-list standard {name} {chance.choice(['permit', 'permit', 'deny'])} {communities}"
            )
    lines.append(f"ip community-list standard D permit {chance.choice(COMMUNITIES)}")
    return [*lines, *_map(chance, "IN", None), *_map(chance, "OUT", 65001 + place), "end"]


def _map(chance: random.Random, name: str, number: int | None) -> list[str]:
    """A map whose last entry permits. `number` is what it may put before paths."""
    lines = []
    for sequence in range(10, 10 * chance.randint(2, 4), 10):
        lines.append(f"route-map {name} {chance.choice(['permit', 'permit', 'permit', 'deny'])} {sequence}")
        if chance.random() < 0.3:
            lines.append(" match ip address prefix-list P")
        lines.append(f" match community {chance.choice(['A', 'B', 'A B'])}{chance.choice(['', '', ' exact-match'])}")
        lines += _sets(chance, number)
    return [*lines, f"route-map {name} permit 90", *_sets(chance, number)]


def _sets(chance: random.Random, number: int | None) -> list[str]:
    lines = []
    if chance.random() < 0.5:
        lines.append(
            f" set community {' '.join(chance.sample(COMMUNITIES, chance.randint(1, 2)))}{chance.choice(['', ' additive'])}"
        )
    elif chance.random() < 0.1:
        lines.append(" set community none")
    if chance.random() < 0.4:
        lines.append(" set comm-list D delete")
    if number and chance.random() < 0.3:
        lines.append(f" set as-path prepend{f' {number}' * chance.randint(1, 3)}")
    if not number and chance.random() < 0.2:
        lines.append(f" set local-preference {chance.choice([100, 200])}")
    return lines
