"""One area of several, where `--area` asks for it: routes inside an area are preferred over all others, so they hang on
this area alone."""
from __future__ import annotations

from collections import defaultdict
from ipaddress import IPv4Network

from bonsainet.cli.command_line import Refused
from bonsainet.importing.folder import Folder, Source, address_of, name_of
from bonsainet.importing.rewriting import cut_lines
from bonsainet.importing.rule import rule
from bonsainet.importing.rules.options import Options
from bonsainet.importing.rules.ospf import area_value, covers, is_passive
from bonsainet.configs.text import Line, Stanza

ONE = rule(
    "area",
    "a route inside an area is preferred over routes between areas and from outside, so those of this area's prefixes hang on its routers and links alone",
    "RFC 2328 sections 11 and 16.1",
)
REFUSED = "area"
OUTSIDE = ("redistribute", "default-information", "summary-address", "default-metric")
MOST_NAMED = 8


def keep_one(folder: Folder, options: Options) -> None:
    """Keeps the routers, interfaces and lines of one area, and warns of what is lost."""
    if options.area is None:
        return
    prefixes = _prefixes(folder)
    if options.area not in prefixes:
        raise Refused(f"--area {options.area}: no interface of the folder is in this area")
    _refuse_overlaps(folder)
    _refuse_shared(folder, prefixes, options.area)
    lost: list[str] = []
    kept = []
    for router in folder.routers:
        processes = list(router.with_head("router", "ospf"))
        if not any(_areas_of(router, stanza) == {options.area} for stanza in router.interfaces):
            folder.log.cut(list(router.lines), ONE)
            lost.append(router.name)
            continue
        kept.append(router)
        for process in processes:
            _refuse_virtual(folder, process, options.area)
            lost += [str(line.place) for line in process.body if line.words[:1] and line.words[0] in OUTSIDE]
            cut_lines(process, folder.log, ONE, lambda line: _is_elsewhere(line, options.area))
    folder.routers = kept
    _refuse_parts(folder)
    others = sorted(area for area in prefixes if area != options.area)
    told = ", ".join(lost[:MOST_NAMED]) + (f" and {len(lost) - MOST_NAMED} more" if len(lost) > MOST_NAMED else "")
    folder.log.warnings.append(
        f"--area {options.area}: routes of the areas {', '.join(map(str, others)) or 'outside'} and from outside of OSPF are not in the text, and it says nothing of them{f'; left out: {told}' if lost else ''}"
    )


def _areas_of(router: Source, stanza: Stanza) -> set[int | str]:
    """The areas in which the lines of a router put an up interface."""
    address = address_of(stanza)
    if address is None:
        return set()
    lines = [line for process in router.with_head("router", "ospf") for line in process.body]
    return {area_value(line.words[4]) for line in lines if covers(line, address)}


def _prefixes(folder: Folder) -> dict[int | str, set[IPv4Network]]:
    """The subnets of each area."""
    found: dict[int | str, set[IPv4Network]] = defaultdict(set)
    for router in folder.routers:
        for stanza in router.interfaces:
            address = address_of(stanza)
            if address:
                for area in _areas_of(router, stanza):
                    found[area].add(address.network)
    return dict(found)


def _refuse_overlaps(folder: Folder) -> None:
    for router in folder.routers:
        for stanza in router.interfaces:
            if len(_areas_of(router, stanza)) > 1:
                folder.log.refuse(
                    stanza.head,
                    REFUSED,
                    "lines of several areas cover its address, and the folder does not say which one counts",
                )


def _refuse_shared(folder: Folder, prefixes: dict[int | str, set[IPv4Network]], area: int | str) -> None:
    """Refuses a prefix that two areas have: a router of both takes the cheaper of two routes."""
    others = {prefix for other, found in prefixes.items() if other != area for prefix in found}
    for router in folder.routers:
        for stanza in router.interfaces:
            address = address_of(stanza)
            if address and _areas_of(router, stanza) == {area} and address.network in others:
                folder.log.refuse(
                    stanza.head,
                    REFUSED,
                    f"{address.network} is in another area too, and a router of both takes the cheaper route",
                )


def _refuse_virtual(folder: Folder, process: Stanza, area: int | str) -> None:
    for line in process.body:
        if line.words[:1] == ["area"] and line.words[2:3] in (["virtual-link"], ["sham-link"]) and area == 0:
            folder.log.refuse(line, REFUSED, "a virtual link is a link of the backbone, and the profile has none")


def _is_elsewhere(line: Line, area: int | str | None) -> bool:
    words = line.words
    if words[0] == "network" and len(words) > 4 and words[3] == "area":
        return area_value(words[4]) != area
    if words[0] == "area" and len(words) > 1:
        return area_value(words[1]) != area or words[2:3] in (
            ["range"],
            ["filter-list"],
            ["default-cost"],
            ["virtual-link"],
        )
    return words[0] in OUTSIDE


def _refuse_parts(folder: Folder) -> None:
    """Refuses an area in several parts: devices join them by routes between areas."""
    wires: dict[IPv4Network, list[Source]] = defaultdict(list)
    for router in folder.routers:
        for stanza in router.interfaces:
            address = address_of(stanza)
            if address and _areas_of(router, stanza) and not is_passive(router, name_of(stanza)):
                wires[address.network].append(router)
    joined: dict[int, Source] = {}
    waiting = folder.routers[:1]
    while waiting:
        router = waiting.pop()
        if id(router) not in joined:
            joined[id(router)] = router
            waiting += [other for wire in wires.values() if any(one is router for one in wire) for other in wire]
    for router in folder.routers:
        if id(router) not in joined:
            process = next(router.with_head("router", "ospf"))
            folder.log.refuse(
                process.head,
                REFUSED,
                f"no link of the area joins it to {folder.routers[0].name}: devices join parts of an area by routes between areas",
            )
