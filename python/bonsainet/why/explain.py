"""Why two routers are not in one group, followed back to lines of the configurations."""
from __future__ import annotations

import dataclasses
import enum
from collections.abc import Iterable, Iterator

from bonsainet.configs.network import End, Link
from bonsainet.configs.profile import Device
from bonsainet.configs.text import Line
from bonsainet.diffing.forms import Act, act_words
from bonsainet.why.certificate import Reading, Step


class Cause(enum.Enum):
    """What separates two routers."""

    ORIGIN = "origin"
    LONE = "lone"
    EDGE = "edge"


@dataclasses.dataclass(frozen=True)
class Edge:
    """A link over which a router takes routes from another: its interface, how it takes them, and the lines that say so."""

    router: str
    interface: str
    exporter: str
    acts: tuple[Act, ...]
    lines: tuple[Line, ...]


@dataclasses.dataclass(frozen=True)
class Part:
    """What one of the two routers has: in words, and the lines that say so."""

    router: str
    words: str
    lines: tuple[Line, ...] = ()


@dataclasses.dataclass(frozen=True)
class Why:
    """Why two routers are in two groups. For `edge`: the split of the certificate that separates them, `first` being the one
    that has such edges, the edges of both into that block, and, where the second takes routes in the same way from a router
    that is not in the block, why that router is not in it."""

    cause: Cause
    first: str
    second: str
    parts: tuple[Part, ...] = ()
    step: Step | None = None
    edges: tuple[Edge, ...] = ()
    others: tuple[Edge, ...] = ()
    elsewhere: tuple[Edge, ...] = ()
    because: Why | None = None


def why(reading: Reading, one: str, other: str) -> Why | None:
    """Why two routers are in two groups. None where they are in one."""
    if reading.group_of(one) == reading.group_of(other):
        return None
    found = _first(reading, one, other)
    return found or _by_edge(reading, one, other, list(reading.steps()))


def _first(reading: Reading, one: str, other: str) -> Why | None:
    """What separates the routers before the first split."""
    for lone, beside in ((one, other), (other, one)):
        if reading.group_of(lone).is_lone:
            return Why(Cause.LONE, lone, beside, tuple(_preferences(reading, lone)))
    if reading.initial(one) != reading.initial(other):
        return Why(Cause.ORIGIN, one, other, tuple(_origin(reading, name) for name in (one, other)))
    return None


def _origin(reading: Reading, router: str) -> Part:
    """What a router has of the prefix."""
    device, prefixes = reading.parsed.by_name[router], reading.of.prefixes
    found = reading.initial(router)
    if found is None:
        return Part(router, f"does not originate {' '.join(prefixes)}")
    assert isinstance(found, tuple)
    lines: list[Line] = []
    for origin in reading.parsed.origins:
        if origin.device == router and str(origin.prefix) in prefixes:
            interface = next(each for each in device.up_interfaces if each.name == origin.interface)
            lines += [interface.lines[word] for word in ("address", "cost") if word in interface.lines]
            lines += [device.bgp.networks[origin.prefix]] if device.bgp else []
    if device.bgp and device.bgp.preference_line:
        lines.append(device.bgp.preference_line)
    return Part(router, f"originates {' '.join(prefixes)} with {found[0]} {found[1]}", tuple(lines))


def _preferences(reading: Reading, router: str) -> Iterator[Part]:
    """The sessions of a lone router, with the preferences that they can give."""
    for near, far in _ends(reading, router):
        acts = reading.act_of(near, far)
        if acts and near.neighbor:
            lines = _bgp_lines(near, far)
            yield Part(router, f"from {far.device.name} over {near.interface.name}: {acts_words(acts)}", lines)


def _by_edge(reading: Reading, one: str, other: str, steps: list[Step]) -> Why:
    """The first split that separates two routers, and the edges of both."""
    step = next(
        step
        for step in steps
        if (one in step.taken) != (other in step.taken) and {one, other} <= step.taken | step.left
    )
    first, second = (one, other) if one in step.taken else (other, one)
    edges = [edge for edge in _edges(reading, first) if edge.exporter in step.into and step.act in edge.acts]
    others = [edge for edge in _edges(reading, second) if edge.exporter in step.into]
    elsewhere = [edge for edge in _edges(reading, second) if edge.exporter not in step.into and step.act in edge.acts]
    because = None
    if elsewhere and edges and not others:
        because = _first(reading, edges[0].exporter, elsewhere[0].exporter)
        if because is None:
            before = steps[: step.split.number - 1]
            because = _by_edge(reading, edges[0].exporter, elsewhere[0].exporter, before)
    return Why(Cause.EDGE, first, second, (), step, tuple(edges), tuple(others), tuple(elsewhere), because)


def _edges(reading: Reading, router: str) -> Iterator[Edge]:
    """The edges over which a router takes routes."""
    for near, far in _ends(reading, router):
        acts = reading.act_of(near, far)
        if acts:
            lines = _bgp_lines(near, far) if near.neighbor else _cost_lines(near)
            yield Edge(router, near.interface.name, far.device.name, tuple(sorted(acts)), lines)


def _ends(reading: Reading, router: str) -> Iterator[tuple[End, End]]:
    """The links of a router, its own end first."""
    for link in reading.parsed.links:
        yield from (pair for pair in _both(link) if pair[0].device.name == router)


def _both(link: Link) -> tuple[tuple[End, End], tuple[End, End]]:
    return (link.low, link.high), (link.high, link.low)


def _cost_lines(near: End) -> tuple[Line, ...]:
    lines = near.interface.lines
    return (near.interface.line, *([lines["cost"]] if "cost" in lines else []))


def _bgp_lines(near: End, far: End) -> tuple[Line, ...]:
    """The lines of a session on which it hangs how its near end takes routes."""
    assert near.neighbor and far.neighbor
    preference = near.device.own_bgp.preference_line
    lines = [*([preference] if preference else []), near.neighbor.line]
    for end, words in ((far, ("list out", "map out", "sends")), (near, ("list in", "map in"))):
        assert end.neighbor
        named = end.neighbor
        lines += [named.lines[word] for word in words if word in named.lines]
        is_near = end is near
        lines += _policy_lines(
            end.device, named.list_in if is_near else named.list_out, named.map_in if is_near else named.map_out
        )
    return tuple(lines)


def _policy_lines(device: Device, listed: str | None, mapped: str | None) -> Iterator[Line]:
    """The lines of a prefix list and of a route map, each entry behind the lists that it names."""
    yield from (entry.line for entry in device.prefix_lists.get(listed or "", []))
    for entry in device.maps.get(mapped or "", []):
        for name in entry.prefix_list_names:
            yield from (one.line for one in device.prefix_lists.get(name, []))
        for name in [*entry.community_list_names, *([entry.delete_list] if entry.delete_list else [])]:
            yield from (one.line for one in device.community_lists.get(name, []))
        yield entry.line
        yield from entry.lines.values()


def acts_words(acts: Iterable[Act]) -> str:
    """Acts in words."""
    return " | ".join(act_words(act) for act in sorted(acts))
