"""A class of a network as formulas: each router's label, its candidates, and that no candidate is better.

Labels are written down to their keys: preference, length, communities, and the AS numbers of lone routers on the path.
No other number on a path matters: where a router is not lone, a route that came through itself is longer than its own
and of the same preference. A path is longer than the one behind it, so no route hangs on itself, and labels that
satisfy the formulas have paths.
"""

from __future__ import annotations

import collections
import dataclasses
import functools

from hostile.judge.network import Interface, Neighbor
from hostile.judge.problem import Network, named
from hostile.judge.rests import Down
from hostile.judge.words import MOST
from hostile.solver.formulas import (
    Bits,
    Formula,
    Number,
    Writer,
    conjunction,
    disjunction,
    equal,
    less,
    less_bits,
    negation,
    same,
    same_bits,
    total,
)
from hostile.solver.policies import OTHER, default_preference, named_preferences, session
from hostile.solver import smt


@dataclasses.dataclass
class Held:
    """A label, or a candidate: whether there is one, and its parts. In OSPF `length` is the cost."""

    is_there: Formula
    preference: Number
    length: Number
    communities: Bits
    numbers: Bits


@dataclasses.dataclass
class Offer:
    """A candidate, and the router that it comes from; none for an initial route."""

    exporter: int | None
    route: Held


@dataclasses.dataclass
class Encoding:
    """A problem: its labels and candidates by router, its lone AS numbers, and the formulas of stable labels and of
    weakly stable ones, which speak of what the writer has."""

    writer: Writer
    is_bgp: bool
    labels: list[Held]
    offers: list[list[Offer]]
    initial: dict[int, int]
    lone: list[int]
    stable: list[Formula] = dataclasses.field(default_factory=list)
    weak: list[Formula] = dataclasses.field(default_factory=list)

    def same_key(self, one: Held, other: Held) -> Formula:
        """Both have the same key; both are there."""
        return conjunction(
            [
                same_weakly(one, other),
                same_bits(one.communities, other.communities),
                same_bits(one.numbers, other.numbers),
            ]
        )

    def better(self, one: Held, other: Held) -> Formula:
        """The key of the first is better."""
        alike = same_bits(one.communities, other.communities)
        last = disjunction(
            [
                less_bits(one.communities, other.communities),
                conjunction([alike, less_bits(one.numbers, other.numbers)]),
            ]
        )
        return disjunction([better_weakly(one, other), conjunction([same_weakly(one, other), last])])


def better_weakly(one: Held, other: Held) -> Formula:
    """The first has the higher preference, or the same and the shorter path; in OSPF the lower cost."""
    shorter = conjunction([equal(one.preference, other.preference), less(one.length, other.length)])
    return disjunction([less(other.preference, one.preference), shorter])


def same_weakly(one: Held, other: Held) -> Formula:
    """Both have the same preference and length."""
    return conjunction([equal(one.preference, other.preference), equal(one.length, other.length)])


@dataclasses.dataclass(frozen=True)
class Way:
    """One direction of a link."""

    importer: int
    exporter: int
    inward: Neighbor | Interface
    outward: Neighbor | Interface


def ways(net: Network, down: Down) -> list[Way]:
    """Both directions of the links that are left."""
    found = []
    for number, (low, high, near, far) in enumerate(net.links):
        if number in down.links or {low, high} & down.routers:
            continue
        found.append(Way(low, high, near, far))
        found.append(Way(high, low, far, near))
    return found


@functools.lru_cache(5000)
def _accepted(net: Network, number: int, importer: int, exporter: int, near: int, far: int) -> frozenset[int]:
    """The preferences that routes over a session can get, whatever communities they hold; `near` and `far` are the
    neighbours' addresses in the importer and the exporter."""
    mine, its = net.routers[importer], net.routers[exporter]
    assert mine.bgp and its.bgp
    inward, outward, writer = mine.bgp.neighbors[near], its.bgp.neighbors[far], Writer()
    carried: Bits = {value: writer.variable(f"c{value}", "Bool") for value in [OTHER, *sorted(named(net.routers))]}
    passed = session(writer, mine, inward, its, outward, net.classes[number].prefixes[0], carried)
    asked = {
        value: conjunction([passed.accepts, equal(passed.preference, value)])
        for value in named_preferences(mine, inward)
    }
    open_ones = [value for value, formula in asked.items() if not isinstance(formula, bool)]
    solver = smt.shared("preferences")
    solver.begin(writer.lines)
    met = dict(zip(open_ones, solver.each_satisfiable([asked[value] for value in open_ones])))
    return frozenset(value for value, formula in asked.items() if met.get(value, formula))


def lone_routers(net: Network, number: int, left: list[Way]) -> set[int]:
    """The routers that may get routes of different preference over the ways that are left."""
    into: dict[int, list[tuple[int, Neighbor, Neighbor]]] = collections.defaultdict(list)
    for way in left:
        assert isinstance(way.inward, Neighbor) and isinstance(way.outward, Neighbor)
        into[way.importer].append((way.exporter, way.inward, way.outward))
    lone = set()
    for place, own in into.items():
        written = set().union(*(named_preferences(net.routers[place], inward) for _, inward, _ in own))
        if place in net.classes[number].origins or len(written) < 2:
            continue
        accepted = [
            _accepted(net, number, place, other, inward.address, outward.address) for other, inward, outward in own
        ]
        if len(set().union(*accepted)) > 1:
            lone.add(place)
    return lone


def encoded(net: Network, number: int, down: Down) -> Encoding:
    """The problem of a class, by its place, without the routers and links that are down."""
    left = ways(net, down)
    origins = {place: value for place, value in net.classes[number].origins.items() if place not in down.routers}
    made = _bgp(net, number, left, origins) if net.protocol == "bgp" else _ospf(net, left, origins)
    for place, (label, offers) in enumerate(zip(made.labels, made.offers)):
        if not (made.is_bgp and place in made.initial):
            _settle(made, label, [offer.route for offer in offers])
    return made


def _settle(made: Encoding, label: Held, routes: list[Held]) -> None:
    """A router has a label where it has a candidate, it is one of them, and none is better."""
    held = [same(label.is_there, disjunction(route.is_there for route in routes))]
    taken = [conjunction([route.is_there, made.same_key(route, label)]) for route in routes]
    held.append(disjunction([negation(label.is_there), *taken]))
    made.stable += held
    made.weak += held
    for route in routes:
        made.stable.append(disjunction([negation(route.is_there), negation(made.better(route, label))]))
        made.weak.append(disjunction([negation(route.is_there), negation(better_weakly(route, label))]))


def _ospf(net: Network, left: list[Way], origins: dict[int, int]) -> Encoding:
    writer = Writer()
    labels = [
        Held(writer.variable(f"h{at}", "Bool"), 0, writer.variable(f"n{at}", "Int"), {}, {})
        for at in range(len(net.routers))
    ]
    offers: list[list[Offer]] = [[] for _ in net.routers]
    for place, cost in origins.items():
        offers[place].append(Offer(None, Held(True, 0, cost, {}, {})))
    for way in left:
        assert isinstance(way.inward, Interface)
        behind = labels[way.exporter]
        reached = writer.number(total(behind.length, way.inward.ospf_cost or 0))
        is_there = writer.formula(conjunction([behind.is_there, less(reached, MOST + 1)]))
        offers[way.importer].append(Offer(way.exporter, Held(is_there, 0, reached, {}, {})))
    return Encoding(writer, False, labels, offers, origins, [])


def _bgp(net: Network, number: int, left: list[Way], origins: dict[int, int]) -> Encoding:
    writer = Writer()
    own = [router.bgp.number if router.bgp else 0 for router in net.routers]
    lone = sorted(own[place] for place in lone_routers(net, number, left))
    labels = _bgp_labels(writer, net, origins, lone)
    offers: list[list[Offer]] = [[] for _ in net.routers]
    for way in left:
        if way.importer in net.classes[number].origins:
            continue
        assert isinstance(way.inward, Neighbor) and isinstance(way.outward, Neighbor)
        behind, mine, its = labels[way.exporter], net.routers[way.importer], net.routers[way.exporter]
        prefix = net.classes[number].prefixes[0]
        passed = session(writer, mine, way.inward, its, way.outward, prefix, behind.communities)
        numbers: Bits = {value: value == own[way.exporter] or behind.numbers[value] for value in lone}
        is_looped = numbers.get(own[way.importer], False)
        is_there = writer.formula(conjunction([behind.is_there, passed.accepts, negation(is_looped)]))
        if is_there is not False:
            length = writer.number(total(total(behind.length, passed.count), 1))
            offers[way.importer].append(
                Offer(way.exporter, Held(is_there, passed.preference, length, passed.communities, numbers))
            )
    return Encoding(writer, True, labels, offers, origins, lone)


def _bgp_labels(writer: Writer, net: Network, origins: dict[int, int], lone: list[int]) -> list[Held]:
    values = sorted(named(net.routers))
    labels = []
    for at, router in enumerate(net.routers):
        if at in origins:
            none: Bits = {value: False for value in [OTHER, *values]}
            labels.append(Held(True, default_preference(router), 0, none, {value: False for value in lone}))
            continue
        communities: Bits = {OTHER: False}
        communities |= {value: writer.variable(f"c{at}_{value}", "Bool") for value in values}
        numbers: Bits = {value: writer.variable(f"v{at}_{value}", "Bool") for value in lone}
        preference, length = writer.variable(f"p{at}", "Int"), writer.variable(f"n{at}", "Int")
        labels.append(Held(writer.variable(f"h{at}", "Bool"), preference, length, communities, numbers))
    return labels


def keys_differ(made: Encoding, keys: tuple[object, ...]) -> Formula:
    """The labels do not have these keys."""
    return disjunction(negation(_has_key(label, key)) for label, key in zip(made.labels, keys))


def _has_key(label: Held, key: object) -> Formula:
    if key is None:
        return negation(label.is_there)
    if isinstance(key, int):
        return conjunction([label.is_there, equal(label.length, key)])
    assert isinstance(key, tuple)
    preference, length, communities, numbers = key
    parts = [label.is_there, equal(label.preference, -preference), equal(label.length, length)]
    parts += [same(held, value in communities) for value, held in label.communities.items()]
    return conjunction([*parts, *(same(held, value in numbers) for value, held in label.numbers.items())])
