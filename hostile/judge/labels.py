"""Labels: a solution's text, candidates, stability, and the correspondence of two solutions."""
from __future__ import annotations

import dataclasses
from typing import Any

from hostile.judge import words
from hostile.judge.network import Refused
from hostile.judge.problem import Edge, Problem
from hostile.judge.reading import lines_of, split


@dataclasses.dataclass(frozen=True)
class Route:
    """A BGP route; in OSPF a number stands for it."""

    preference: int
    path: tuple[int, ...]
    communities: frozenset[int]


Label = Route | int | None


def read(text: bytes, problem: Problem) -> list[Label]:
    """The labels of a solution in the order of routers, or Refused."""
    found: dict[str, Label] = {}
    lines = lines_of(text)
    for place, line in enumerate(lines, 1):
        parts = split(line)
        if not parts:
            continue
        label = _label(parts, place)
        if parts[0] not in problem.names:
            raise Refused(place, "UnknownRouter")
        if parts[0] in found:
            raise Refused(place, "Repeated")
        if label is not None and isinstance(label, Route) != (problem.protocol == "bgp"):
            raise Refused(place, "WrongProtocol")
        found[parts[0]] = label
    if len(found) < len(problem.names):
        raise Refused(len(lines) + 1, "Missing")
    return [found[name] for name in problem.names]


def _label(parts: list[str], place: int) -> Label:
    bad = Refused(place, "BadForm")
    if not words.router_name(parts[0]):
        raise bad
    match parts[1:]:
        case ["none"]:
            return None
        case ["cost", word] if (cost := words.number(word)) is not None:
            return cost
        case ["bgp", word, "path", *rest] if (preference := words.number(word)) is not None and "comms" in rest:
            at = rest.index("comms")
            path, values = _path(rest[:at]), words.all_given(words.community(one) for one in rest[at + 1 :])
            if path is None or values is None or words.WELL_KNOWN in values or values != sorted(set(values)):
                raise bad
            return Route(preference, path, frozenset(values))
    raise bad


def _path(parts: list[str]) -> tuple[int, ...] | None:
    path: list[int] = []
    for part in parts:
        word, star, times = part.partition("*")
        number, count = words.number(word, 1), words.number(times, 2, 11) if star else 1
        if number is None or count is None:
            return None
        path += [number] * count
    return tuple(path)


def key(problem: Problem, label: Label) -> Any:
    """What labels are compared by: the least is the best."""
    if not isinstance(label, Route):
        return label
    lone = problem.lone_numbers.intersection(label.path)
    return -label.preference, len(label.path), sorted(label.communities), sorted(lone)


def offered(problem: Problem, edge: Edge, label: Label) -> Label:
    """What an edge makes of its exporter's label."""
    if label is None:
        return None
    if not isinstance(label, Route):
        return label + edge.act if label + edge.act <= words.MOST else None
    result = edge.act[problem.places[_seen(problem, label.communities)]]
    if result is None:
        return None
    preference, communities, count = result
    if problem.unnamed in communities:
        communities = communities - {problem.unnamed} | (label.communities - problem.distinguished)
    path = (problem.numbers[edge.exporter],) * (count + 1) + label.path
    return None if problem.numbers[edge.importer] in path else Route(preference, path, communities)


def _seen(problem: Problem, carried: frozenset[int]) -> frozenset[int]:
    """The carried set as acts list it: one community stands for all that no line names."""
    return carried if carried <= problem.distinguished else carried & problem.distinguished | {problem.unnamed}


def start(problem: Problem, place: int) -> Label:
    """The initial route of an originator."""
    value = problem.initial[place]
    return Route(value, (), frozenset()) if problem.protocol == "bgp" else value


def text(label: Label) -> str:
    """A label as a solution has it behind the name."""
    if label is None:
        return "none"
    if not isinstance(label, Route):
        return f"cost {label}"
    values = [f"{one >> 16}:{one & 65535}" for one in sorted(label.communities)]
    return " ".join(["bgp", str(label.preference), "path", *map(str, label.path), "comms", *values])


def candidates(problem: Problem, labels: list[Label], place: int) -> list[Label]:
    """The routes that a router can choose."""
    found: list[Label] = []
    if place in problem.initial:
        found.append(start(problem, place))
        if problem.protocol == "bgp":
            return found
    for edge in problem.edges:
        if edge.importer == place and (route := offered(problem, edge, labels[edge.exporter])) is not None:
            found.append(route)
    return found


def fault(problem: Problem, labels: list[Label]) -> tuple[str, str] | None:
    """The first router that breaks stability, and why."""
    for place, name in enumerate(problem.names):
        label, found = labels[place], candidates(problem, labels, place)
        if problem.protocol == "bgp" and place in problem.initial:
            if label != found[0]:
                return name, "wrong-origin"
        elif label is None:
            if found:
                return name, "none-with-candidate"
        elif label not in found:
            return name, "not-a-candidate"
        elif min(key(problem, route) for route in found) < key(problem, label):
            return name, "better-candidate"
    return None


def activated(problem: Problem, before: list[Label], after: list[Label], router: int) -> bool:
    """Whether an activation of a router leads from labels to others: it has a best candidate, or none without one, and
    nothing else changed."""
    found = candidates(problem, before, router)
    others = all(one == other for place, (one, other) in enumerate(zip(before, after)) if place != router)
    if not found:
        return others and after[router] is None
    return (
        others and after[router] in found and key(problem, after[router]) == min(key(problem, route) for route in found)
    )


def forwards(problem: Problem, labels: list[Label], place: int) -> set[int]:
    """The routers to which a router forwards: those whose offers have the key of its label."""
    if labels[place] is None or problem.protocol == "bgp" and place in problem.initial:
        return set()
    mine = key(problem, labels[place])
    return {
        edge.exporter
        for edge in problem.edges
        if edge.importer == place
        and (route := offered(problem, edge, labels[edge.exporter])) is not None
        and key(problem, route) == mine
    }


def correspond(
    large: Problem, above: list[Label], parts: list[list[int]], small: Problem, below: list[Label]
) -> str | None:
    """Why labels do not correspond, or None: keys, and the groups to which routers forward."""
    group = {place: number for number, part in enumerate(parts) for place in part}
    for place, name in enumerate(large.names):
        if key(large, above[place]) != key(small, below[group[place]]):
            return f"the keys of {name} differ"
        ahead = {group[other] for other in forwards(large, above, place)}
        if ahead != forwards(small, below, group[place]):
            return f"{name} forwards to other groups"
    return None
