"""Faults of the network as a whole: the least pair of line and kind decides."""
from __future__ import annotations

from collections.abc import Iterator

from hostile.judge.network import Interface, Refused, Router

ORDER = [
    "SharedName",
    "SharedAs",
    "InternalPeer",
    "MixedProtocols",
    "OtherArea",
    "UndefinedMap",
    "UndefinedList",
    "DeleteListForm",
    "SharedAddress",
    "OverlappingInterfaces",
    "LoopbackMask",
    "NoCost",
    "TooManyRouters",
    "TooManyCommunities",
    "TooManyNeighbors",
    "TooManyLinks",
    "PrependForm",
    "PrependIn",
]
ROUTERS, COMMUNITIES, NEIGHBORS, LINKS = 4096, 1024, 131_072, 1_048_576


def judge(routers: list[Router]) -> None:
    """Refuses a network with a fault."""
    found = [*_whole(routers), *_protocols(routers), *_interfaces(routers)]
    for router in routers:
        found += _policies(router)
    if found:
        line, kind = min(found, key=lambda pair: (pair[0], ORDER.index(pair[1])))
        raise Refused(line, kind)


def _whole(routers: list[Router]) -> Iterator[tuple[int, str]]:
    names: set[str] = set()
    for router in routers:
        if router.name in names:
            yield router.line, "SharedName"
        names.add(router.name)
    if len(routers) > ROUTERS:
        yield routers[ROUTERS].line, "TooManyRouters"
    lines = [neighbor.line for router in routers if router.bgp for neighbor in router.bgp.neighbors.values()]
    if len(lines) > NEIGHBORS:
        yield lines[NEIGHBORS], "TooManyNeighbors"
    seen: set[int] = set()
    for value, line in sorted((named for router in routers for named in router.named), key=lambda pair: pair[1]):
        seen.add(value)
        if len(seen) > COMMUNITIES:
            yield line, "TooManyCommunities"
            return


def _protocols(routers: list[Router]) -> Iterator[tuple[int, str]]:
    starts = sorted((part.line, part is router.bgp) for router in routers for part in (router.bgp, router.ospf) if part)
    yield from ((line, "MixedProtocols") for line, is_bgp in starts if is_bgp != starts[0][1])
    numbers: set[int] = set()
    areas: list[int] = []
    for router in routers:
        if router.bgp:
            if router.bgp.number in numbers:
                yield router.bgp.line, "SharedAs"
            numbers.add(router.bgp.number)
            yield from (
                (other.line, "InternalPeer")
                for other in router.bgp.neighbors.values()
                if other.number == router.bgp.number
            )
        for _, _, area, line in router.ospf.networks if router.ospf else ():
            areas.append(area)
            if area != areas[0]:
                yield line, "OtherArea"


def _interfaces(routers: list[Router]) -> Iterator[tuple[int, str]]:
    addresses: set[int | None] = set()
    nets: dict[tuple[int, int], list[int]] = {}
    pairs = 0
    for place, router in enumerate(routers):
        earlier: list[Interface] = []
        for port in sorted(router.ups, key=lambda port: port.line):
            if port.address in addresses:
                yield port.line, "SharedAddress"
            if any(_meet(port.subnet, other.subnet) for other in earlier):
                yield port.line, "OverlappingInterfaces"
            addresses.add(port.address)
            earlier.append(port)
            if router.in_area(port):
                if port.type == "Loopback" and port.length != 32:
                    yield port.line, "LoopbackMask"
                if port.ospf_cost is None:
                    yield port.line, "NoCost"
            if router.is_active(port):
                net = nets.setdefault(port.subnet, [])
                pairs += sum(other != place for other in net)
                net.append(place)
                if pairs > LINKS:
                    yield port.line, "TooManyLinks"


def _meet(one: tuple[int, int], other: tuple[int, int]) -> bool:
    length = min(one[1], other[1])
    return one[0] >> (32 - length) == other[0] >> (32 - length)


def _policies(router: Router) -> Iterator[tuple[int, str]]:
    for kind, name, line in router.uses:
        if kind.startswith("route-map"):
            if name not in router.maps:
                yield line, "UndefinedMap"
            elif kind == "route-map in" and any(entry.prepends for entry in router.maps[name].values()):
                yield line, "PrependIn"
        elif kind == "prefix-list" and name not in router.prefix_lists:
            yield line, "UndefinedList"
        elif kind != "prefix-list" and name not in router.community_lists:
            yield line, "UndefinedList"
        elif kind == "delete":
            yield from ((place, "DeleteListForm") for _, named, place in router.community_lists[name] if len(named) > 1)
    for numbers, line in router.prepends:
        if not router.bgp or any(number != router.bgp.number for number in numbers):
            yield line, "PrependForm"
