"""The document: plain data with the fields that docs/data/bonsai.schema.json gives."""
from __future__ import annotations

from collections.abc import Mapping, Sequence
from typing import Any

from bonsainet.ask.program import BONSAI, Group
from bonsainet.ask.where import Identity
from bonsainet.configs.compressed import Asked, Compressed, policy_lines
from bonsainet.configs.network import End, Link, Network
from bonsainet.configs.profile import Device
from bonsainet.configs.unmatched import reason
from bonsainet.doubts.ties import Route, Tied, Unasked

FORM = 2


def document(
    text: Asked,
    found: Sequence[Compressed],
    programs: Mapping[str, Identity],
    ties: dict[int, list[Tied] | Unasked] | None = None,
) -> dict[str, Any]:
    """All that Bonsai says of a network, for the classes given, with their ties where these were asked, and which
    programs said it. Each name stands there once: a router has the number of its place among `routers`, from 1."""
    place = {device.name: number for number, device in enumerate(text.network.devices, 1)}
    return {
        "form": FORM,
        "program": programs[BONSAI].plain,
        "programs": {name: program.plain for name, program in programs.items()},
        "protocol": text.network.protocol,
        "area": text.network.area,
        "routers": [_router(device) for device in text.network.devices],
        "links": len(text.network.links),
        "unmatched": [{**each, "router": place[str(each["router"])]} for each in unmatched(text.network)],
        "classes": [_class(text.network, place, each, (ties or {}).get(each.number)) for each in found],
    }


def unmatched(network: Network) -> list[dict[str, object]]:
    """The neighbours without a session, each with the reason."""
    if network.protocol != "bgp":
        return []
    return [
        {
            "router": device.name,
            "address": str(neighbor.address),
            "line": neighbor.line.place.line,
            "reason": reason(network, device, neighbor),
        }
        for device, neighbor in network.unmatched
    ]


def _router(device: Device) -> dict[str, object]:
    return {"name": device.name, "as": device.bgp.number if device.bgp else None}


def _ties(found: list[Tied] | Unasked | None, group_of: dict[str, Group]) -> dict[str, object]:
    """The field of the ties of a class, none where they were not asked for."""
    if isinstance(found, Unasked):
        return {"ties_not_asked": found.told}
    if found is None:
        return {}
    return {
        "ties": [
            {
                "group": group_of[tied.members[0]].number,
                "decided": list(tied.decided),
                "held": _route(tied.held, group_of),
                "others": [_route(route, group_of) for route in tied.others],
            }
            for tied in found
        ]
    }


def _route(route: Route, group_of: dict[str, Group]) -> dict[str, object]:
    over = [group_of[members[0]].number for members in route.over]
    return {"over": over, "communities": list(route.communities)}


def _class(
    network: Network, place: dict[str, int], found: Compressed, ties: list[Tied] | Unasked | None
) -> dict[str, object]:
    size, group_of = found.size, found.group_of()
    numbers = {device.name: device.bgp.number if device.bgp else None for device in network.devices}
    made: dict[str, object] = {
        "class": found.number,
        "prefixes": list(found.found.prefixes),
        "origins": [{"router": place[router], "cost": cost} for router, cost in found.found.origins],
        "routers": {"before": size.routers, "after": size.groups},
        "links": {"before": size.links, "after": size.links_after},
        "ratio": {"routers": _ratio(size.routers, size.groups), "links": _ratio(size.links, size.links_after)},
        **_ties(ties, group_of),
        "groups": [
            {
                "group": group.number,
                "as": next((numbers[name] for name in group.members if numbers[name]), None),
                "origin": group.is_origin,
                "lone": group.is_lone,
                "members": [place[name] for name in group.members],
            }
            for group in found.groups
        ],
    }
    if found.refusal:
        return made | {"refused": found.refusal}
    return made | {
        "edges": [_edge(found.network, group_of, link) for link in found.network.links],
        "policies": _policies(found.network, group_of),
    }


def _ratio(before: int, after: int) -> float | None:
    return round(before / after, 2) if after else None


def _edge(network: Network, group_of: dict[str, Group], link: Link) -> dict[str, object]:
    return {
        "subnet": str(link.subnet),
        "low": _end(network, group_of, link.low),
        "high": _end(network, group_of, link.high),
    }


def _end(network: Network, group_of: dict[str, Group], end: End) -> dict[str, object]:
    group = group_of[end.device.name].number
    made: dict[str, object] = {"group": group, "interface": end.interface.name, "address": str(end.address)}
    if network.protocol == "ospf":
        return made | {"cost": end.cost}
    neighbor = end.own_neighbor
    return made | {"in": neighbor.map_in, "out": neighbor.map_out, "sends_communities": neighbor.sends_communities}


def _policies(network: Network, group_of: dict[str, Group]) -> dict[str, dict[str, list[str]]]:
    """For each group with policies: the lines of each, those of the lists it names first."""
    found = {
        str(group_of[device.name].number): {name: policy_lines(device, name) for name in device.maps}
        for device in network.devices
    }
    return {group: policies for group, policies in found.items() if policies}
