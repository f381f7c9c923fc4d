"""What routers hold, from FRR's own words to labels."""
from __future__ import annotations

from collections.abc import Mapping
from typing import Any

from bonsainet.ask.labels import BgpLabel, Label, OspfLabel
from bonsainet.configs.network import Network
from bonsainet.configs.profile import Device, community

DEFAULT_PREFERENCE = 100


def route_of(device: Device, told: Mapping) -> BgpLabel:
    """A route as FRR tells it. One without a preference has the router's default."""
    default = device.own_bgp.preference if device.own_bgp.preference is not None else DEFAULT_PREFERENCE
    path = tuple(number for segment in told["aspath"].get("segments", []) for number in segment["list"])
    communities = tuple(sorted(map(community, told.get("community", {}).get("list", []))))
    return BgpLabel(told.get("locPrf", default), path, communities)


def accepted(device: Device, told: list[Mapping]) -> list[BgpLabel]:
    """All routes that a BGP router accepted for a prefix."""
    return [route_of(device, route) for route in told if route.get("valid")]


def label_of(network: Network, device: Device, told: Any) -> Label:
    """The label of a router from what it holds for a prefix: the best route, or the cost."""
    if network.protocol == "ospf":
        return OspfLabel(told) if told is not None else None
    best = [route for route in told or [] if route.get("bestpath", {}).get("overall")]
    return route_of(device, best[0]) if best else None


def labels_of(network: Network, held: Mapping[str, Mapping[str, Any]], prefix: str) -> dict[str, Label]:
    """The labels of all routers for a prefix."""
    return {device.name: label_of(network, device, held.get(device.name, {}).get(prefix)) for device in network.devices}
