"""What a picture shows, before it is laid out: nodes, links between them, and how far each node is from the
originators."""
from __future__ import annotations

import dataclasses
from collections import Counter, deque

from bonsainet.configs.compressed import Compressed
from bonsainet.drawing.policy import direction
from bonsainet.configs.network import Link, Network
from bonsainet.ask.program import Group
from bonsainet.cli.words import counted


@dataclasses.dataclass(frozen=True)
class Node:
    """A router, or a group of routers that is drawn as one node. `members` are the routers of the group."""

    name: str
    group: Group
    members: tuple[str, ...]


@dataclasses.dataclass(frozen=True)
class Edge:
    """Links between two nodes that look alike, and their count.

    `at_low` and `at_high` are the OSPF costs of the two ends: what a router adds to routes that it takes over the link.
    `policies` say in BGP what is done to routes, each after the name of the router that takes them. `to_low` and
    `to_high` say whether the node at that end takes any.
    """

    low: str
    high: str
    at_low: int | None = None
    at_high: int | None = None
    policies: tuple[str, ...] = ()
    to_low: bool = True
    to_high: bool = True
    count: int = 1


@dataclasses.dataclass
class Graph:
    """One side of a picture, `before` or `after`. `notes` say in words what holds of all its links, or what it leaves
    out."""

    side: str
    title: str
    nodes: list[Node]
    edges: list[Edge]
    notes: list[str] = dataclasses.field(default_factory=list)

    def layers(self) -> dict[str, int]:
        """How many links each node is from the nearest originator; nodes that none reaches are in layer 0."""
        beside: dict[str, list[str]] = {node.name: [] for node in self.nodes}
        for edge in self.edges:
            beside[edge.low].append(edge.high)
            beside[edge.high].append(edge.low)
        layer = {node.name: 0 for node in self.nodes if node.group.is_origin}
        waiting = deque(layer)
        while waiting:
            name = waiting.popleft()
            for other in beside[name]:
                if other not in layer:
                    layer[other] = layer[name] + 1
                    waiting.append(other)
        return {node.name: layer.get(node.name, 0) for node in self.nodes}


def large(network: Network, compressed: Compressed) -> Graph:
    """The network before compression, router by router."""
    group_of = compressed.group_of()
    nodes = [Node(device.name, group_of[device.name], (device.name,)) for device in network.devices]
    title = f"before: {counted(compressed.size.routers, 'router')}, {counted(compressed.size.links, 'link')}"
    return Graph("before", title, nodes, _alike(network))


def large_by_groups(network: Network, compressed: Compressed) -> Graph:
    """The network before compression with a node for each group, and the links between groups counted, those inside a
    group too."""
    group_of = compressed.group_of()
    nodes = [Node(group.members[0], group, group.members) for group in compressed.groups]
    number = [group_of[device.name].number for device in network.devices]
    ends = (map(number.__getitem__, places) for places in network.places_of_links)
    counts: Counter[tuple[int, int]] = Counter()
    for (low, high), count in Counter(zip(*ends)).items():
        counts[min(low, high), max(low, high)] += count
    first = {group.number: group.members[0] for group in compressed.groups}
    edges = [Edge(first[low], first[high], count=count) for (low, high), count in counts.items()]
    title = f"before: {counted(compressed.size.routers, 'router')}, {counted(compressed.size.links, 'link')}, drawn by groups and counts"
    return Graph("before", title, nodes, edges)


def small(compressed: Compressed) -> Graph:
    """The network that `compress` writes, with a node for each group."""
    nodes = [Node(group.members[0], group, group.members) for group in compressed.groups]
    title = f"after: {counted(compressed.size.groups, 'router')}, {counted(compressed.size.links_after, 'link')}"
    return Graph("after", title, nodes, _alike(compressed.network))


def _alike(network: Network) -> list[Edge]:
    """The links of a network, those that look alike as one."""
    counts = Counter(_edge(network, link) for link in network.links)
    return [dataclasses.replace(edge, count=count) for edge, count in counts.items()]


def _edge(network: Network, link: Link) -> Edge:
    low, high = link.low.device.name, link.high.device.name
    if network.protocol == "ospf":
        return Edge(low, high, link.low.cost, link.high.cost)
    to_low, to_high = direction(link.low, link.high), direction(link.high, link.low)
    policies = [f"{name}: {told}" for name, found in ((low, to_low), (high, to_high)) for told in found.words]
    return Edge(low, high, policies=tuple(policies), to_low=to_low.passes, to_high=to_high.passes)
