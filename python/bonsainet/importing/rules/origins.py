"""What a BGP process originates: connected subnets and null routes, written as `network` lines over interfaces."""
from __future__ import annotations

import dataclasses
import functools
from collections import defaultdict
from collections.abc import Iterator
from ipaddress import IPv4Address, IPv4Network

from bonsainet.importing.folder import (
    Dialect,
    Folder,
    Source,
    address_of,
    an_address,
    first,
    has,
    indented,
    name_of,
    network_of,
)
from bonsainet.importing.rewriting import cut_lines, rewrite
from bonsainet.importing.rule import Rule, rule
from bonsainet.importing.rules import filters
from bonsainet.importing.rules.carried import CARRIED
from bonsainet.importing.rules.frr import by_default_since_7_4, free_name
from bonsainet.importing.rules.options import Options
from bonsainet.importing.rules.outcomes import Outcome, Route, outcome_of
from bonsainet.importing.rules.redistribution import static_prefix
from bonsainet.configs.text import Line, Stanza

CONNECTED = rule(
    "redistribute-connected",
    "each connected subnet of an up interface is originated, and no other router originates it with another origin",
    "RFC 4271 section 5.1.1; Cisco IOS BGP, `redistribute connected`",
)
NULL = rule(
    "network-null",
    "a static route to Null0 makes the `network` line originate, as an interface with this subnet does in the profile",
    "Cisco IOS BGP, `network`; Cisco IOS IP Routing, `ip route`",
)
UNCHECKED = rule(
    "network-unchecked",
    "FRR originates the prefix of a `network` line unasked here, as an interface with this subnet does in the profile",
    "FRR user guide, BGP, `bgp network import-check`",
)
CHECKED = rule(
    "import-check",
    "the line says whether a `network` line needs a route, and this is written out",
    "FRR user guide, BGP, `bgp network import-check`",
)
MAPPED = rule(
    "network-map",
    "the route map lets the prefix through, or denies it",
    "Cisco IOS BGP, `network route-map`; FRR user guide, BGP",
)
REDISTRIBUTED = "redistribute"
NETWORK = "network"
MAP = "network-map"
NOWHERE = ("Null0", "null0", "blackhole", "reject")


def connected(folder: Folder, _options: Options) -> None:
    """Writes `redistribute connected` of BGP as `network` lines."""
    found = [redistributed for router in folder.routers if (redistributed := _redistributed(folder, router))]
    igp = _named(folder)
    incomplete: dict[IPv4Network, list[Source]] = defaultdict(list)
    for one in found:
        for prefix, outcome in one.outcomes.items():
            (igp if outcome.origin == "igp" else incomplete)[prefix].append(one.router)
    for one in found:
        others = {True: incomplete, False: igp}
        clash = next(
            (
                (prefix, other)
                for prefix, outcome in one.outcomes.items()
                for other in others[outcome.origin == "igp"].get(prefix, [])
                if other is not one.router
            ),
            None,
        )
        if clash:
            folder.log.refuse(
                one.line,
                REDISTRIBUTED,
                f"{clash[0]} is originated here and by {clash[1].name}, by one with origin IGP, which wins, and by the other with origin incomplete; the profile has no origins",
            )
        else:
            _write_connected(folder, one)


@dataclasses.dataclass
class Redistributed:
    """A line `redistribute connected`: the prefixes that it alone originates, each with what its map makes of it."""

    router: Source
    process: Stanza
    line: Line
    name: str | None
    outcomes: dict[IPv4Network, Outcome]


def _named(folder: Folder) -> dict[IPv4Network, list[Source]]:
    """The routers with a `network` line of their own for each prefix."""
    found: dict[IPv4Network, list[Source]] = defaultdict(list)
    for router in folder.routers:
        for process in router.with_head("router", "bgp"):
            for line in process.by_word.get("network", ()):
                if prefix := network_of(line):
                    found[prefix].append(router)
    return found


def _redistributed(folder: Folder, router: Source) -> Redistributed | None:
    """What `redistribute connected` of a router brings in; none without such a line, or where it is refused."""
    process = router.process("bgp")
    line = first(process, "redistribute", "connected") if process else None
    if process is None or line is None:
        return None
    words = line.words[2:]
    name = words[1] if words[:1] == ["route-map"] and len(words) == 2 else None
    if words and name is None:
        folder.log.refuse(line, REDISTRIBUTED, "a metric of redistributed routes has no place in the profile")
        return None
    own = {network_of(found) for found in process.body if found.words[:1] == ["network"]}
    found = Redistributed(router, process, line, name, {})
    for stanza, prefix in _subnets(router):
        outcome = outcome_of(router, name, Route(prefix, interface=name_of(stanza))) if name else Outcome(True)
        if outcome is None or outcome.prepended or (outcome.origin == "igp" and prefix in own):
            folder.log.refuse(
                line,
                REDISTRIBUTED,
                f"the route map {name} sets or matches what has no place in the profile, for {prefix}",
            )
            return None
        if outcome.passes and prefix not in own:
            found.outcomes[prefix] = outcome
    return found


def _write_connected(folder: Folder, one: Redistributed) -> None:
    texts = [f"network {prefix.network_address} mask {prefix.netmask}" for prefix in one.outcomes]
    carried = {prefix: (it.communities, one.line) for prefix, it in one.outcomes.items() if it.communities}
    one.router.carried.update(carried)
    if carried:
        folder.log.by(one.line, CARRIED)
    rewrite(one.process, folder.log, lambda found: (CONNECTED, texts) if found is one.line else None)
    if one.name:
        filters.leave_out_spent(folder, one.router, one.name)
    one.process.body = [found for found in one.process.body if found.words[:1] != ["neighbor"]] + [
        found for found in one.process.body if found.words[:1] == ["neighbor"]
    ]


def _subnets(router: Source) -> Iterator[tuple[Stanza, IPv4Network]]:
    seen = set()
    for stanza in router.interfaces:
        address = address_of(stanza)
        if address and address.network not in seen and not address.network.is_loopback:
            seen.add(address.network)
            yield stanza, address.network


def mapped(folder: Folder, _options: Options) -> None:
    """Writes `network` lines with a route map as plain ones, with the communities that it sets, and cuts those that it
    denies."""
    for router in folder.routers:
        for process in list(router.with_head("router", "bgp")):
            names = dict.fromkeys(
                line.words[-1] for line in process.by_word.get("network", ()) if line.words[-2:-1] == ["route-map"]
            )
            rewrite(process, folder.log, functools.partial(_mapped, folder, router), ("network",))
            for name in names:
                filters.leave_out_spent(folder, router, name)


def _mapped(folder: Folder, router: Source, line: Line) -> tuple[Rule, list[str]] | None:
    words = line.words
    if words[0] != "network" or words[-2:-1] != ["route-map"]:
        return None
    prefix = network_of(line.with_text(" ".join(words[:-2])))
    outcome = outcome_of(router, words[-1], Route(prefix)) if prefix else None
    if prefix is None or outcome is None or outcome.prepended or outcome.origin == "incomplete":
        folder.log.refuse(
            line, MAP, f"the route map {words[-1]} is not defined, or sets or matches what has no place in the profile"
        )
        return None
    if outcome.communities:
        router.carried[prefix] = (outcome.communities, line)
        folder.log.by(line, CARRIED)
    return MAPPED, [" ".join(words[:-2])] if outcome.passes else []


def null_routes(folder: Folder, _options: Options) -> None:
    """Gives `network` lines over null routes, or unasked ones of FRR, an interface that originates them."""
    taken = _taken(folder)
    for router in folder.routers:
        for process in router.with_head("router", "bgp"):
            subnets = {prefix for _, prefix in _subnets(router)}
            for line in list(process.by_word.get("network", ())):
                prefix = network_of(line)
                if prefix and prefix not in subnets:
                    _originate(folder, router, process, line, prefix, taken)
            cut_lines(
                process,
                folder.log,
                CHECKED,
                lambda line: line.words[:3] in (["bgp", "network", "import-check"],)
                or line.words[:4] == ["no", "bgp", "network", "import-check"],
                ("bgp", "no"),
            )


def is_unchecked(router: Source, process: Stanza) -> bool:
    """Whether FRR originates `network` lines without a route: by a line, or by default before version 7.4."""
    if router.dialect is not Dialect.FRR:
        return False
    if has(process, "no", "bgp", "network", "import-check"):
        return True
    is_datacenter = any(stanza.head.words[:3] == ["frr", "defaults", "datacenter"] for stanza in router.stanzas)
    return not is_datacenter and not by_default_since_7_4(router) and not has(process, "bgp", "network", "import-check")


def _originate(
    folder: Folder, router: Source, process: Stanza, line: Line, prefix: IPv4Network, taken: set[int]
) -> None:
    static = next((stanza for stanza in router.with_head("ip", "route") if static_prefix(stanza.head) == prefix), None)
    unchecked = is_unchecked(router, process)
    if not static and not unchecked:
        return
    if static and not unchecked and _next_hop(static.head) not in NOWHERE:
        folder.log.refuse(
            line,
            NETWORK,
            f"it originates by the static route at {static.head.place}, whose next hop can fail; a route to Null0 cannot",
        )
        return
    overlap = next(
        (stanza for stanza in router.interfaces if (own := address_of(stanza)) and own.network.overlaps(prefix)),
        None,
    )
    address = _free_address(prefix, taken)
    if prefix.prefixlen == 0 or overlap:
        folder.log.refuse(
            line,
            NETWORK,
            f"to originate {prefix} takes an interface with this subnet, which would overlap {name_of(overlap) if overlap else 'each other one'}",
        )
    elif address is None:
        folder.log.refuse(
            line,
            NETWORK,
            f"to originate {prefix} takes an address in it that no other router has and no neighbour line names",
        )
    else:
        used = UNCHECKED if unchecked else NULL
        name = free_name("Vlan", {name_of(stanza) for stanza in router.interfaces})
        folder.log.by(line, used)
        made = Stanza(line.with_text(f"interface {name}"), [indented(line, f"ip address {address} {prefix.netmask}")])
        router.stanzas.insert(router.stanzas.index(process), made)
        if static:
            folder.log.cut(static.lines, NULL)
            router.stanzas.remove(static)


def _next_hop(line: Line) -> str:
    """The word behind the prefix of a static route."""
    return next(iter(line.words[3 if "/" in line.words[2] else 4 :]), "")


def _taken(folder: Folder) -> set[int]:
    """The addresses that an up interface has or a neighbour line names, as numbers."""
    taken = set(folder.up)
    for router in folder.routers:
        for process in router.with_head("router", "bgp"):
            named = {line.words[1] for line in process.by_word.get("neighbor", ())}
            taken |= {int(address) for name in named if (address := an_address(name))}
    return taken


def _free_address(prefix: IPv4Network, taken: set[int]) -> IPv4Address | None:
    """The first address of a prefix that is not taken; it is taken from now on."""
    first_host = int(prefix.network_address) + (1 if prefix.prefixlen < 31 else 0)
    behind = min(int(prefix.broadcast_address) + 1, first_host + len(taken) + 2)
    found = next((value for value in range(first_host, behind) if value not in taken), None)
    if found is None:
        return None
    taken.add(found)
    return IPv4Address(found)
