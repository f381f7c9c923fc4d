"""Why routing may change: links, costs, origins and numbers that differ, and edits of policies by the acts that they change.

That one of them is the cause of a change of routes is not said: each is a difference of the networks.
"""
from __future__ import annotations

import dataclasses
from collections.abc import Collection, Iterator, Mapping

from bonsainet.cli.command_line import printable
from bonsainet.configs.network import End, Link, Network as Parsed, Origin, is_active, is_in_area, origins_of
from bonsainet.configs.profile import Device, Interface
from bonsainet.configs.text import Line
from bonsainet.configs.unmatched import reason as unmatched_reason
from bonsainet.diffing.edits import Edit, edits, sessions_of
from bonsainet.diffing.forms import Act, Form, forms_of
from bonsainet.diffing.sessions import Acts
from bonsainet.library import Network
from bonsainet.library.pairs import Pair


@dataclasses.dataclass(frozen=True)
class Reason:
    """A difference of the networks in words, with the lines that give it on both sides."""

    kind: str
    words: str
    before: tuple[Line, ...] = ()
    after: tuple[Line, ...] = ()


@dataclasses.dataclass(frozen=True)
class ActChange:
    """How a router takes routes from another, where that differs for some prefixes."""

    importer: str
    exporter: str
    prefixes: tuple[str, ...]
    before: Act
    after: Act


@dataclasses.dataclass(frozen=True)
class PolicyEdit:
    """An edit of a policy, and how it changes what the sessions that are on both sides do to routes. `sessions` is how many
    these are, and `not_known` are prefixes for which the program has no canonical act."""

    edit: Edit
    sessions: int
    changes: tuple[ActChange, ...]
    not_known: tuple[str, ...]


@dataclasses.dataclass(frozen=True)
class FormChange:
    """Prefixes whose compressed network changed in form: how many groups and links it has on both sides, none where a side
    has no such network, and the groups that are only on one side."""

    prefixes: tuple[str, ...]
    groups: tuple[int | None, int | None]
    links: tuple[int | None, int | None]
    gone: tuple[tuple[str, ...], ...]
    new: tuple[tuple[str, ...], ...]


@dataclasses.dataclass(frozen=True)
class Reasons:
    """Why routing may change."""

    reasons: tuple[Reason, ...]
    policies: tuple[PolicyEdit, ...]
    forms: tuple[FormChange, ...]


def reasons_of(both: Pair) -> Reasons:
    """The differences of both networks. The programs are asked for all classes at once."""
    if both.old.text == both.new.text:
        return Reasons((), (), ())
    pairs = _pairs(both.old, both.new)
    plain, policies = tuple(_plain(*both.around, both.shared)), tuple(_policies(both, pairs))
    forms = forms_of(both)
    differing = {pair: names for pair, names in pairs.items() if forms[0][pair[0]] != forms[1][pair[1]]}
    return Reasons(plain, policies, tuple(_forms(forms, differing)))


def _pairs(old: Network, new: Network) -> dict[tuple[int, int], tuple[str, ...]]:
    """The classes of both sides that have prefixes in common, with these prefixes."""
    sides = [{prefix: one.number for one in network.classes for prefix in one.prefixes} for network in (old, new)]
    found: dict[tuple[int, int], list[str]] = {}
    for prefix, number in sides[0].items():
        if prefix in sides[1]:
            found.setdefault((number, sides[1][prefix]), []).append(prefix)
    return {pair: tuple(prefixes) for pair, prefixes in found.items()}


def _plain(old: Parsed, new: Parsed, shared: Collection[str]) -> Iterator[Reason]:
    """Links, origins and numbers that differ. Routers whose lines are the same on both sides have none but links."""
    yield from _links(old, new, shared)
    yield from _origins(old, new, shared)
    for name in [name for name in old.by_name if name in new.by_name and name not in shared]:
        before, after = (network.by_name[name].bgp for network in (old, new))
        if not before or not after:
            continue
        if before.number != after.number:
            words = f"{name}: AS number {before.number} -> {after.number}"
            yield Reason("number", words, (before.line,), (after.line,))
        if before.preference != after.preference:
            shown = ["100 by default" if one.preference is None else str(one.preference) for one in (before, after)]
            lines = [(one.preference_line,) if one.preference_line else () for one in (before, after)]
            yield Reason("preference", f"{name}: default preference {shown[0]} -> {shown[1]}", *lines)


def _links(old: Parsed, new: Parsed, shared: Collection[str]) -> Iterator[Reason]:
    """Links that went, came, or cost something else. Those between two routers whose lines are the same are the same."""
    sides = [
        {
            _key(link): link
            for link in network.links
            if not (link.low.device.name in shared and link.high.device.name in shared)
        }
        for network in (old, new)
    ]
    for key, link in sides[0].items():
        if key not in sides[1]:
            yield Reason(_word(link), f"{_named(link)} is gone{_behind(_why(link, new))}", *_lines(link, old, new))
    for key, link in sides[1].items():
        if key not in sides[0]:
            yield Reason(
                _word(link), f"{_named(link)} is new{_behind(_why(link, old), 'before, ')}", *_lines(link, old, new)
            )
    for key, link in sides[0].items():
        if key in sides[1]:
            yield from _costs(link, sides[1][key])


def _key(link: Link) -> frozenset[tuple[str, str]]:
    """What makes two links one: the ends by router and interface, in BGP by router and address."""
    return frozenset(
        (end.device.name, str(end.address) if end.neighbor else end.interface.name) for end in (link.low, link.high)
    )


def _word(link: Link) -> str:
    return "session" if link.low.neighbor else "adjacency"


def _named(link: Link) -> str:
    ends = [f"{end.device.name} {end.interface.name}" for end in (link.low, link.high)]
    return f"{_word(link)} {ends[0]} - {ends[1]} ({link.subnet})"


def _lines(link: Link, old: Parsed, new: Parsed) -> tuple[tuple[Line, ...], tuple[Line, ...]]:
    """The lines of both sides on which the link hangs, at the ends that both sides have."""
    ends = [end for end in (link.low, link.high) if end.device.name in old.by_name and end.device.name in new.by_name]
    before, after = (
        tuple(line for end in ends for line in end_lines(network, end.device.name, end.interface.name, end))
        for network in (old, new)
    )
    return before, after


def end_lines(network: Parsed, router: str, name: str, end: End | None = None) -> Iterator[Line]:
    """The lines of an interface, of the processes that use it, and in BGP of the neighbour beyond it."""
    device = network.by_name.get(router)
    if device is None:
        return
    for interface in device.interfaces:
        if interface.name == name:
            yield interface.line
            yield from (interface.lines[word] for word in ("address", "shut") if word in interface.lines)
    if device.ospf:
        yield device.ospf.line
        yield from device.ospf.passive_lines
        yield from (area.line for area in device.ospf.areas)
    neighbor = device.bgp.neighbors.get(end.neighbor.address) if device.bgp and end and end.neighbor else None
    if device.bgp and neighbor:
        yield device.bgp.line
        yield neighbor.line
        yield from (neighbor.lines[word] for word in ("shut",) if word in neighbor.lines)


def _behind(reason: str, when: str = "") -> str:
    """A reason behind what it is for, if there is one."""
    return reason and f": {when}{reason}"


def _why(link: Link, other: Parsed) -> str:
    """Why the other side does not have the link, where that is seen at an end."""
    for end in (link.low, link.high):
        device = other.by_name.get(end.device.name)
        if device is None:
            return f"there is no router {end.device.name}"
        interface = next((one for one in device.interfaces if one.name == end.interface.name), None)
        if interface is None:
            return f"{device.name} has no interface {end.interface.name}"
        if interface.is_shut:
            return f"{device.name} {interface.name} is shut ({printable(str(interface.lines['shut'].place))})"
        if interface.address != end.interface.address:
            return f"{device.name} {interface.name} has {interface.address or 'no address'}"
        lacking = _without_process(end, device, interface)
        if lacking:
            return lacking
    for end in (link.low, link.high):
        device = other.by_name[end.device.name]
        neighbor = device.own_bgp.neighbors.get(end.neighbor.address) if end.neighbor else None
        if neighbor:
            return f"at {device.name}, {unmatched_reason(other, device, neighbor)}"
    return ""


def _without_process(end: End, device: Device, interface: Interface) -> str:
    """What a device and its interface lack for an adjacency or a session, before its neighbours are looked at."""
    if end.neighbor:
        return "" if device.bgp else f"{device.name} has no BGP process"
    if device.ospf is None:
        return f"{device.name} has no OSPF process"
    if not is_in_area(device, interface):
        return f"{device.name} {interface.name} is not in the area"
    return "" if is_active(device, interface) else f"{device.name} {interface.name} is passive"


def _costs(before: Link, after: Link) -> Iterator[Reason]:
    """The ends of a link whose costs differ."""
    ends = {end.device.name: end for end in (after.low, after.high)}
    for end in (before.low, before.high):
        other = ends[end.device.name]
        if end.neighbor is None and end.cost != other.cost:
            far = (before.high if end is before.low else before.low).device.name
            words = f"cost of {end.device.name} {end.interface.name} towards {far}: {end.cost} -> {other.cost}"
            yield Reason("cost", words, _cost_lines(end), _cost_lines(other))


def _cost_lines(end: End) -> tuple[Line, ...]:
    return (end.interface.lines.get("cost", end.interface.line),)


def _origins(old: Parsed, new: Parsed, shared: Collection[str]) -> Iterator[Reason]:
    # (of a router that is gone or new, all is)
    routers = {name for name in old.by_name if name in new.by_name and name not in shared}
    sides = [
        {
            (name, one.prefix): one
            for name, device in network.by_name.items()
            if name in routers
            for one in origins_of(device)
        }
        for network in (old, new)
    ]
    for key in {**sides[0], **sides[1]}:
        before, after = (side.get(key) for side in sides)
        lines = [_origin_lines(network, before or after) for network in (old, new)]
        name = f"{key[0]} originates {key[1]}"
        if before is None or after is None:
            yield Reason("origin", f"{name}: {'no more' if after is None else 'new'}", *lines)
        elif before.cost != after.cost:
            yield Reason("origin", f"{name}: {_cost_words(before.cost, after.cost)}", *lines)


def _cost_words(before: int | None, after: int | None) -> str:
    """With what costs a prefix is originated, in BGP with none."""
    if before is None or after is None:
        return " -> ".join("in BGP" if cost is None else f"in OSPF with cost {cost}" for cost in (before, after))
    return f"cost {before} -> {after}"


def _origin_lines(network: Parsed, origin: Origin | None) -> tuple[Line, ...]:
    """The lines of a network on which an origin hangs: those of the interface, and in BGP the one that names the prefix."""
    assert origin
    device = network.by_name.get(origin.device)
    if device is None:
        return ()
    lines = list(end_lines(network, origin.device, origin.interface))
    lines += [one.lines["cost"] for one in device.interfaces if one.name == origin.interface and "cost" in one.lines]
    if device.bgp and origin.prefix in device.bgp.networks:
        lines.append(device.bgp.networks[origin.prefix])
    return tuple(lines)


Pairs = Mapping[tuple[int, int], tuple[str, ...]]


def _policies(both: Pair, pairs: Pairs) -> Iterator[PolicyEdit]:
    """The edits of policies, each with what it changes."""
    found = list(edits(*both.around))
    if not found:
        return
    old, new = both.old, both.new
    edited = {edit.router for edit in found}
    sessions = [sessions_of(network, edited) for network in both.around]
    firsts = {prefixes[0]: prefixes for prefixes in pairs.values()}
    # (an originator takes no route of its own prefix)
    own = {
        prefixes[0]: set(old.class_of(pair[0]).origins) & set(new.class_of(pair[1]).origins)
        for pair, prefixes in pairs.items()
    }
    acts = Acts(list(firsts))
    for edit in found:
        alike: dict[ActChange, list[str]] = {}
        not_known: dict[str, None] = {}
        common = [one for one in edit.directions if one in sessions[0] and one in sessions[1]]
        for direction in common:
            before, after = (acts.of(side[direction]) for side in sessions)
            for first, prefixes in firsts.items():
                if direction.importer in own[first]:
                    continue
                if first not in before or first not in after:
                    not_known |= dict.fromkeys(prefixes)
                elif before[first] != after[first]:
                    ends = direction.importer, direction.exporter
                    alike.setdefault(ActChange(*ends, (), before[first], after[first]), []).extend(prefixes)
        changes = tuple(dataclasses.replace(change, prefixes=tuple(names)) for change, names in alike.items())
        yield PolicyEdit(edit, len(common), changes, tuple(not_known))


Forms = tuple[Mapping[int, Form], Mapping[int, Form]]


def _forms(forms: Forms, differing: Pairs) -> Iterator[FormChange]:
    """The classes whose groups, or links between them, are others, those that change alike together."""
    alike: dict[FormChange, list[str]] = {}
    for pair, common in differing.items():
        before, after = forms[0][pair[0]], forms[1][pair[1]]
        groups = [form.sorted_groups for form in (before, after)]
        links = tuple(None if form.refusal else form.links for form in (before, after))
        if groups[0] == groups[1] and links[0] == links[1]:
            continue
        counts = tuple(None if form.refusal else len(form.groups) for form in (before, after))
        gone, new = (tuple(sorted(one - other)) for one, other in ((groups[0], groups[1]), (groups[1], groups[0])))
        found = FormChange((), (counts[0], counts[1]), (links[0], links[1]), gone, new)
        alike.setdefault(found, []).extend(common)
    for found, prefixes in alike.items():
        yield dataclasses.replace(found, prefixes=tuple(prefixes))
