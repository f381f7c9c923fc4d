"""The tables of routes that FRR's tests expect, compared with the labels of the imported network at rest.

Two sorts of files are read: what `show ip route` writes, as text or JSON (OSPF: next hops), and BGP paths by prefix as
JSON.
"""
from __future__ import annotations

import dataclasses
import json
import re
from ipaddress import IPv4Address, IPv4Interface
from pathlib import Path

from bonsainet.importing.folder import Source, address_of, first, kind_of, name_of
from bonsainet.importing.rules.ospf import in_area, is_passive
from bonsainet.ask.program import Class, Program
from bonsainet.configs.profile import DEFAULT_COSTS
from bonsainet.configs.text import text_of

ROUTE_FILES = ("show_ip_route.ref", "show_ipv4_route.ref")
PATH_FILES = ("bgp_prefixes.json",)
TEXT_ROUTE = re.compile(r"^O>\*\s+(\S+/\d+) \[\d+/\d+\] via (\S+),")
TEXT_MORE = re.compile(r"^\s+\*\s+via (\S+),")
ROUNDS = "*\n" * 20


@dataclasses.dataclass
class Compared:
    """How many routes were compared, and those that differ."""

    routes: int = 0
    differing: list[str] = dataclasses.field(default_factory=list)


@dataclasses.dataclass
class End:
    """An active OSPF interface: its router's name, its address, and its cost."""

    router: str
    address: IPv4Interface
    cost: int


def compare(folder: Path, routers: list[Source], program: Program) -> Compared | None:
    """Compares the expected tables of a network's folder with its labels at rest; none where no table is kept."""
    expected = {router.name: _expected(folder / router.file) for router in routers}
    if not any(expected.values()):
        return None
    text = text_of(routers)
    found = Compared()
    ends = _ends(routers)
    for one in program.classes(text):
        labels = _labels(program, text, one)
        for router in routers:
            for prefix in one.prefixes:
                if prefix in expected[router.name]:
                    found.routes += 1
                    told = _found(router.name, labels, ends)
                    if not _agrees(told, expected[router.name][prefix], router.file, folder):
                        found.differing.append(
                            f"{router.name} {prefix}: expected {' '.join(sorted(expected[router.name][prefix]))}, found {' '.join(sorted(told))}"
                        )
    return found


def _agrees(told: set[str], expected: set[str], file: str, folder: Path) -> bool:
    """Whether two sets of next hops agree. The tables of one test keep the first next hop of each prefix alone, since
    it drops the lines after it."""
    keeps_first = (folder / file / "show_ipv4_route.ref").is_file()
    return expected <= told if keeps_first else told == expected


def _expected(folder: Path) -> dict[str, set[str]]:
    """For each prefix the next hops of OSPF, or the one path of BGP as `path NUMBERS`."""
    for name in ROUTE_FILES:
        if (folder / name).is_file():
            text = (folder / name).read_text()
            return _routes_of_json(json.loads(text)) if text.lstrip().startswith("{") else _routes_of_text(text)
    for name in PATH_FILES:
        if (folder / name).is_file():
            told = json.loads((folder / name).read_text()).get("routes", {})
            return {
                prefix: {f"path {paths[0]['path']}"}
                for prefix, paths in told.items()
                if len(paths) == 1 and paths[0].get("path")
            }
    return {}


def _routes_of_json(told: dict[str, list[dict]]) -> dict[str, set[str]]:
    found = {}
    for prefix, routes in told.items():
        for route in routes:
            hops = {hop["ip"] for hop in route.get("nexthops", []) if "ip" in hop}
            if route.get("protocol") == "ospf" and hops:
                found[prefix] = hops
    return found


def _routes_of_text(text: str) -> dict[str, set[str]]:
    found: dict[str, set[str]] = {}
    last = None
    for line in text.splitlines():
        if head := TEXT_ROUTE.match(line):
            last = head[1]
            found[last] = {head[2]}
        elif (more := TEXT_MORE.match(line)) and last:
            found[last].add(more[1])
        else:
            last = None
    return found


def _labels(program: Program, text: str, one: Class) -> dict[str, list[str]]:
    """The words of each router's label at rest."""
    lines = program.done("run", "F", str(one.number), "S", texts={"F": text, "S": ROUNDS}).splitlines()
    return {line.split()[0]: line.split()[1:] for line in lines[1:]}


def _found(router: str, labels: dict[str, list[str]], ends: list[End]) -> set[str]:
    """The next hops of a router by the costs of its neighbours, or its path."""
    label = labels[router]
    if label[:1] == ["bgp"]:
        return {f"path {' '.join(label[label.index('path') + 1 : label.index('comms')])}"}
    hops: set[IPv4Address] = set()
    for near in ends:
        for far in ends:
            if (
                near.router == router != far.router
                and near.address.network == far.address.network
                and labels[far.router][0] == label[0] == "cost"
            ):
                if int(label[1]) == near.cost + int(labels[far.router][1]):
                    hops.add(far.address.ip)
    return {str(hop) for hop in hops}


def _ends(routers: list[Source]) -> list[End]:
    found = []
    for router in routers:
        for stanza in router.interfaces:
            address = address_of(stanza)
            if address and in_area(router, stanza) and not is_passive(router, name_of(stanza)):
                line = first(stanza, "ip", "ospf", "cost")
                found.append(
                    End(router.name, address, int(line.words[3]) if line else DEFAULT_COSTS[kind_of(name_of(stanza))])
                )
    return found
