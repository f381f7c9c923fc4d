"""What devices do with BGP routes, by the words of their configurations: a second reading, which shares nothing with the
rules, so that imports can be judged by it."""
from __future__ import annotations

import dataclasses
import re
from collections import defaultdict
from ipaddress import IPv4Interface, IPv4Network

KEPT = {"no-export", "no-advertise", "local-AS"}


@dataclasses.dataclass(frozen=True)
class Route:
    """A route on a device: its path and communities, and what the device itself prefers it by."""

    path: tuple[str, ...] = ()
    communities: frozenset[str] = frozenset()
    weight: int = 0
    preference: int = 100

    @property
    def key(self) -> tuple[int, int, int]:
        """What devices compare before age and identifiers."""
        return self.weight, self.preference, -len(self.path)


Labels = dict[str, Route | None]


class Device:
    """A router, read from its text."""

    def __init__(self, text: str) -> None:
        self.tops: list[list[str]] = []
        self.maps: dict[str, dict[int, tuple[str, list[list[str]]]]] = defaultdict(dict)
        self.process: list[list[str]] = []
        self.subnets: dict[IPv4Interface, str] = {}
        inside: list[list[str]] = []
        interface = ""
        for line in text.splitlines():
            words = line.split()
            if line.startswith(" "):
                inside.append(words)
                if words[:2] == ["ip", "address"]:
                    self.subnets[IPv4Interface(f"{words[2]}/{words[3]}")] = interface
                continue
            inside = []
            self.tops.append(words)
            if words[:1] == ["interface"]:
                interface = words[1]
            if words[:2] == ["router", "bgp"]:
                self.process = inside
            if words[:1] == ["route-map"]:
                self.maps[words[1]][int(words[3])] = (words[2], inside)
        self.name = next(words[1] for words in self.tops if words[:1] == ["hostname"])
        self.number = next(words[2] for words in self.tops if words[:2] == ["router", "bgp"])

    def of(self, peer: str, *words: str) -> list[str] | None:
        """The words behind the first line of a neighbour with some words."""
        head = ["neighbor", peer, *words]
        return next((line[len(head) :] for line in self.process if line[: len(head)] == head), None)

    def named(self, peer: str, kind: str, way: str) -> str | None:
        """The list or map of a neighbour in a direction."""
        return next(
            (line[3] for line in self.process if line[:3] == ["neighbor", peer, kind] and line[4:] == [way]), None
        )

    def origins(self) -> dict[IPv4Network, frozenset[str]]:
        """The prefixes that it originates, each with its communities."""
        found: dict[IPv4Network, frozenset[str]] = {}
        given = []
        for subnet, interface in self.subnets.items():
            for line in self.process:
                if line[:1] == ["network"] and str(subnet.network.network_address) == line[1]:
                    given.append((subnet.network, "", line[5] if len(line) > 4 else None))
                if line[:2] == ["redistribute", "connected"]:
                    given.append((subnet.network, interface, line[3] if len(line) > 2 else None))
        for prefix, interface, name in given:
            passed = self.mapped(name, prefix, Route(), interface) if name else Route()
            if passed and prefix not in found:
                found[prefix] = passed[0].communities if isinstance(passed, tuple) else passed.communities
        return found

    def mapped(self, name: str, prefix: IPv4Network, route: Route, interface: str = "") -> tuple[Route, int] | None:
        """What a map makes of a route, and how many numbers it prepends."""
        for _, (act, lines) in sorted(self.maps[name].items()):
            if all(self._holds(line, prefix, route, interface) for line in lines if line[0] == "match"):
                return self._set(lines, route) if act == "permit" else None
        return None

    def _set(self, lines: list[list[str]], route: Route) -> tuple[Route, int]:
        held, weight, preference, count = route.communities, route.weight, route.preference, 0
        for line in [*lines, *lines]:
            if line[:2] == ["set", "comm-list"]:
                held = frozenset(one for one in held if not self.permits(line[2], frozenset([one])))
        for line in lines:
            if line[:2] == ["set", "community"]:
                given = frozenset(line[2:]) - {"additive", "none"}
                held = held | given if line[-1] == "additive" else given
            weight = int(line[2]) if line[:2] == ["set", "weight"] else weight
            preference = int(line[2]) if line[:2] == ["set", "local-preference"] else preference
            count = len(line) - 3 if line[:3] == ["set", "as-path", "prepend"] else count
        return Route(route.path, held, weight, preference), count

    def _holds(self, line: list[str], prefix: IPv4Network, route: Route, interface: str) -> bool:
        if line[1] == "interface":
            return interface in line[2:]
        if line[1] == "community":
            return any(self.permits(name, route.communities) for name in line[2:])
        if line[1] == "as-path":
            return any(self.path_permits(name, route.path) for name in line[2:])
        return any(self.prefix_permits(name, prefix) for name in line[4:])

    def permits(self, name: str, held: frozenset[str]) -> bool:
        """The answer of a community list."""
        for words in self.tops:
            if words[:2] == ["ip", "community-list"] and name in words[2:4]:
                act, rest = words[words.index(name) + 1], words[words.index(name) + 2 :]
                told = " ".join(sorted(held, key=_order))
                is_expanded = words[2] == "expanded" or name.isdigit() and int(name) > 99
                if _found(" ".join(rest), told) if is_expanded else held >= set(rest):
                    return act == "permit"
        return False

    def path_permits(self, name: str, path: tuple[str, ...]) -> bool:
        """The answer of an AS path list."""
        for words in self.tops:
            if words[:4] == ["ip", "as-path", "access-list", name] and _found(" ".join(words[5:]), " ".join(path)):
                return words[4] == "permit"
        return False

    def prefix_permits(self, name: str, prefix: IPv4Network) -> bool:
        """The answer of a prefix list."""
        lines = [words for words in self.tops if words[:3] == ["ip", "prefix-list", name]]
        for words in sorted(lines, key=lambda words: int(words[4])):
            base = IPv4Network(words[6])
            most = int(words[8]) if words[7:8] == ["le"] else base.prefixlen
            if prefix.subnet_of(base) and base.prefixlen <= prefix.prefixlen <= most:
                return words[5] == "permit"
        return False


def _order(word: str) -> tuple[int, int]:
    high, _, low = word.partition(":")
    return (int(high), int(low)) if low else (65536, 0)


def _found(expression: str, text: str) -> bool:
    return re.search(expression.replace("_", "(?:^|[ ,{}()]|$)"), text) is not None


def candidates(devices: list[Device], device: Device, prefix: IPv4Network, labels: Labels) -> list[Route]:
    """The routes that a device accepts from its neighbours, where these hold some labels."""
    found = []
    default = next((int(line[3]) for line in device.process if line[:3] == ["bgp", "default", "local-preference"]), 100)
    for peer in dict.fromkeys(line[1] for line in device.process if line[0] == "neighbor"):
        far = next((one for one in devices if any(str(own.ip) == peer for own in one.subnets)), None)
        near = next((own for own in device.subnets if IPv4Interface(f"{peer}/30").network == own.network), None)
        if far is None or near is None or device.of(peer, "remote-as") != [far.number]:
            continue
        back = str(near.ip)
        is_down = device.of(peer, "shutdown") is not None or far.of(back, "shutdown") is not None
        if far.of(back, "remote-as") != [device.number] or is_down:
            continue
        sent = _sent(far, back, prefix, labels[far.name])
        if sent is None or device.number in sent.path:
            continue
        weight = device.of(peer, "weight")
        came = Route(sent.path, sent.communities, int(weight[0]) if weight else 0, default)
        if passed := _filtered(device, peer, "in", prefix, came):
            found.append(passed[0])
    return found


def _sent(device: Device, peer: str, prefix: IPv4Network, label: Route | None) -> Route | None:
    if label is None or label.communities & KEPT:
        return None
    passed = _filtered(device, peer, "out", prefix, label)
    if passed is None:
        return None
    route, count = passed
    told = device.of(peer, "send-community")
    held = route.communities if told is not None and told != ["extended"] else frozenset()
    return Route((device.number,) * (1 + count) + route.path, held)


def _filtered(device: Device, peer: str, way: str, prefix: IPv4Network, route: Route) -> tuple[Route, int] | None:
    of_prefixes = device.named(peer, "prefix-list", way)
    of_paths = device.named(peer, "filter-list", way)
    if of_prefixes and not device.prefix_permits(of_prefixes, prefix):
        return None
    if of_paths and not device.path_permits(of_paths, route.path):
        return None
    name = device.named(peer, "route-map", way)
    return device.mapped(name, prefix, route) if name else (route, 0)
