"""Redistribution that brings in nothing: it is cut. What brings in routes is a person's to decide."""
from __future__ import annotations

import functools
from ipaddress import IPv4Network

from bonsainet.importing.folder import Folder, Source, a_prefix, address_of, interface_address, network_of
from bonsainet.importing.rewriting import begins, cut_lines
from bonsainet.importing.rule import rule
from bonsainet.importing.rules.neighbors import all_prefixes
from bonsainet.importing.rules.options import Options
from bonsainet.importing.rules.ospf import in_area
from bonsainet.configs.text import Line, Stanza

NOTHING = rule(
    "redistribute-nothing",
    "this router has no route of that kind to bring in",
    "Cisco IOS IP Routing, `redistribute`; FRR user guide, `redistribute`",
)
BEHIND = rule(
    "static-behind-connected",
    "a connected subnet comes before a static route to the same prefix",
    "Cisco IOS IP Routing, administrative distance; FRR user guide, zebra",
)
NO_CLASS = rule(
    "static-no-class",
    "no `network` line and no redistribution takes up this static route, and its prefix is none that a router announces: it gives no router a route of BGP or OSPF",
    "Cisco IOS IP Routing, `ip route`; FRR user guide, static routes",
)
DEFAULT_LINES = ("default-information originate", "neighbor * default-originate", "ip default-network")
TAKES_UP = ("redistribute", "!", "assumed:")
DEFAULT_WORDS = {"ip", "network", "neighbor", "default-information", "!", "assumed:"}
MOST_NAMED = 5
PROTOCOLS = ("ospf", "ospf6", "rip", "ripng", "eigrp", "isis", "bgp", "babel", "openfabric", "odr", "mobile", "lisp")


def nothing(folder: Folder, _options: Options) -> None:
    """Cuts `redistribute` lines that bring in no route."""
    for router in folder.routers:
        for process in router.with_head("router"):
            if process.starts("router", "bgp") or process.starts("router", "ospf"):
                cut_lines(process, folder.log, NOTHING, functools.partial(_is_nothing, router, process))


def behind_connected(folder: Folder, _options: Options) -> None:
    """Cuts static routes to a subnet that an up interface of the router has."""
    for router in folder.routers:
        subnets = {address.network for stanza in router.interfaces if (address := address_of(stanza))}
        behind = [stanza for stanza in router.with_head("ip", "route") if static_prefix(stanza.head) in subnets]
        for stanza in behind:
            folder.log.cut(stanza.lines, BEHIND)
        if behind:
            router.stanzas = [stanza for stanza in router.stanzas if all(stanza is not found for found in behind)]


def static_routes(folder: Folder, _options: Options) -> None:
    """Cuts static routes that touch no route of BGP or OSPF, and reports what they mean for packets."""
    announced = _announced(folder)
    inside: list[str] = []
    for router in folder.routers:
        processes = list(router.with_head("router"))
        if any(_takes_up(line) for one in processes for word in TAKES_UP for line in one.by_word.get(word, ())):
            continue
        if not any(router.with_head("ip", "route")):
            continue
        kept = []
        for stanza in router.stanzas:
            prefix = static_prefix(stanza.head) if stanza.starts("ip", "route") else None
            if prefix is None or prefix in announced or stanza.starts("ip", "route", "vrf"):
                kept.append(stanza)
                continue
            folder.log.cut(stanza.lines, NO_CLASS)
            if prefix.prefixlen and any(prefix.subnet_of(one) for one in announced):
                inside.append(f"{stanza.head.place}")
        router.stanzas = kept
    if inside:
        folder.log.remarks.append(
            f"static routes inside of announced prefixes send packets of a part elsewhere, and routes of the whole say nothing of that part: {_first(inside)}"
        )


def _announced(folder: Folder) -> set[IPv4Network]:
    """The prefixes that routes of BGP or OSPF have: those of `network` lines, and subnets in an area. Where a
    redistribution is left, all that occur."""
    processes = [process for router in folder.routers for process in router.with_head("router")]
    if any("redistribute" in process.by_word for process in processes):
        return all_prefixes(folder)
    found = {
        prefix
        for process in processes
        for line in process.by_word.get("network", ())
        if "area" not in line.words and (prefix := network_of(line))
    }
    return found | {
        address.network
        for router in folder.routers
        for stanza in router.interfaces
        if (address := address_of(stanza)) and in_area(router, stanza)
    }


def default_routes(folder: Folder, _options: Options) -> None:
    """Tells of a default route: the profile has none."""
    found = [
        str(line.place) for router in folder.routers for stanza in router.stanzas for line in _default_lines(stanza)
    ]
    if found:
        folder.log.remarks.append(
            f"the folder has a default route, and Bonsai has none ({_first(found)}): each prefix of the text can be asked about as before; where a router has no route to it, devices may follow the default route; what the default route alone reaches cannot be asked about"
        )


def _default_lines(stanza: Stanza) -> list[Line]:
    """The lines of a stanza that make a default route."""
    by_word = stanza.by_word
    near = [word for word in DEFAULT_WORDS if word in by_word]
    found = [line for word in near for line in by_word[word] if _is_default(stanza, line)] if near else []
    inside = [line for line in stanza.body if any(line is it for it in found)] if found else []
    return [stanza.head, *inside] if _is_default(stanza, stanza.head) else inside


def _is_default(stanza: Stanza, line: Line) -> bool:
    words = line.words
    if len(words) < 2 or words[0] not in DEFAULT_WORDS:
        return False
    if words[0] == "ip" and words[1] not in ("route", "default-network"):
        return False
    if words[0] == "neighbor" and "default-originate" not in words:
        return False
    if words[0] == "network" and words[1] != "0.0.0.0":
        return False
    words = [word for word in line.words if word not in ("!", "assumed:")]
    given = line.with_text(" ".join(words))
    if words[:2] == ["ip", "route"] and words[2:3] != ["vrf"] and (prefix := static_prefix(given)):
        return prefix.prefixlen == 0
    is_network = stanza.starts("router", "bgp") and words[:2] == ["network", "0.0.0.0"]
    return begins(given, DEFAULT_LINES) or is_network


def _first(places: list[str]) -> str:
    more = f" and {len(places) - MOST_NAMED} more" if len(places) > MOST_NAMED else ""
    return ", ".join(places[:MOST_NAMED]) + more


def _takes_up(line: Line) -> bool:
    """Whether a line of a process takes up static routes, or could: a decision that dropped one counts too."""
    if "redistribute" not in line.text:
        return False
    words = [word for word in line.words if word not in ("!", "assumed:")]
    return words[:2] == ["redistribute", "static"] or (
        words[:2] == ["redistribute", "connected"] and line.words[0] != "!"
    )


def static_prefix(line: Line) -> IPv4Network | None:
    """The prefix of a static route."""
    words = line.words
    if len(words) > 3 and "/" in words[2]:
        return a_prefix(words[2])
    found = interface_address(words[2], words[3]) if len(words) > 4 else None
    return found.network if found else None


def is_set_aside(router: Source, protocol: str) -> bool:
    """Whether the router has routes of a protocol that the text does not show: a decision dropped them, or their file
    was not read."""
    dropped = ["ip", "route"] if protocol == "static" else ["router", protocol]
    return protocol in router.unread or any(
        stanza.head.words[:2] == ["!", "assumed:"] and stanza.head.words[2:4] == dropped for stanza in router.stanzas
    )


def _is_nothing(router: Source, process: Stanza, line: Line) -> bool:
    words = line.words
    if words[0] != "redistribute" or len(words) < 2 or is_set_aside(router, words[1]):
        return False
    if words[1] == "static":
        return not any(router.with_head("ip", "route"))
    if words[1] in PROTOCOLS:
        return not any(router.with_head("router", words[1]))
    if words[1] == "connected" and process.starts("router", "ospf"):
        return all(in_area(router, stanza) for stanza in router.interfaces if address_of(stanza))
    return False
