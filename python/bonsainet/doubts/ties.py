"""Ties: routers at rest with two routes of one preference and length, between which communities or lone numbers
decided.

Real routers break such ties by age or identifier, and may rest elsewhere. The program is asked on the compressed
network of a class: by `run` for the labels at rest and for the route that each session brings, the router's other
sessions shut, and by `check` whether such a route is beaten.
"""
from __future__ import annotations

import dataclasses
from collections.abc import Iterator, Sequence

from bonsainet.ask.shares import side_by_side
from bonsainet.asking.reports import Tie
from bonsainet.cli.progress import counted_off
from bonsainet.configs.compressed import Asked, Compressed
from bonsainet.doubts.finding import Doubt, doubt
from bonsainet.doubts.untied import Met, ties_met
from bonsainet.ask.labels import BgpLabel, Label, read_solution, solution_text
from bonsainet.configs.network import End, Network
from bonsainet.configs.profile import community_text
from bonsainet.ask.program import Answer, NotAnswered, Program, Status
from bonsainet.configs.text import read_text, text_of

MOST_CLASSES = 16
MOST_ROUNDS = 64
MOST_TOLD = 6
MOST_NAMED = 4
COMMUNITIES = "communities"
LONE_NUMBERS = "lone numbers"

Alike = dict[bytes, list[Compressed]]


@dataclasses.dataclass(frozen=True)
class HeldTie:
    """A router of a compressed network, the route that it holds, and one that it holds not, with the neighbours that
    offer them."""

    router: str
    held: BgpLabel
    held_from: str
    other: BgpLabel
    other_from: str

    @property
    def decided(self) -> str:
        """What decided."""
        return COMMUNITIES if self.held.communities != self.other.communities else LONE_NUMBERS


@dataclasses.dataclass(frozen=True)
class Route:
    """A route of a tie, in the names of the network: the groups that it passes, nearest first, and its communities. The
    numbers on the path of a compressed network are those of first members, and no router of the network need hold
    them together."""

    over: tuple[tuple[str, ...], ...]
    communities: tuple[str, ...]

    @property
    def told(self) -> str:
        """The route in words."""
        return f"over {' '.join(map(_one_of, self.over))}{' with ' + ' '.join(self.communities) if self.communities else ''}"


@dataclasses.dataclass(frozen=True)
class Unasked:
    """Why the routes of a class were not asked, in words, with the tie that bonsai-ask names, if it names one."""

    told: str
    tie: Tie | None = None


@dataclasses.dataclass(frozen=True)
class Tied:
    """A group that holds a tied route: the routers, what decided, the route that they hold in the profile, and the
    others, which real routers may hold as well."""

    members: tuple[str, ...]
    decided: tuple[str, ...]
    held: Route
    others: tuple[Route, ...]

    @property
    def told(self) -> str:
        """The tie in words."""
        shown = "; ".join(route.told for route in self.others[:MOST_TOLD])
        more = f"; and {len(self.others) - MOST_TOLD} more" if len(self.others) > MOST_TOLD else ""
        return f"{' and '.join(self.decided)} decided for the route {self.held.told}, and real routers may hold the one {shown}{more}"


class TiesAsked:
    """Who asks for the ties of a network's classes. Which classes have none, bonsai-ask says of all of them at once. Of the
    others the routes are asked on the compressed networks, of the first 16 that differ in more than their prefixes."""

    def __init__(self, program: Program, asked: Asked, numbers: Sequence[int]) -> None:
        self.program, self.asked = program, asked
        self.met = ties_met(asked.text, sorted(numbers)) if asked.network.protocol == "bgp" else Met({})
        self.found: dict[bytes, list[Tied] | Unasked] = {}

    def of(self, shapes: Alike) -> list[tuple[list[Compressed], list[Tied] | Unasked]]:
        """The ties of some classes, those together that are alike except for their prefixes, of which the first is asked."""
        unknown = [shape for shape, alike in shapes.items() if shape not in self.found and not self._have_none(alike)]
        asked = unknown[: max(0, MOST_CLASSES - len(self.found))]
        routes = side_by_side(lambda shape: tied_groups(self.program, shapes[shape][0]), asked)
        self.found.update(zip(asked, routes))
        return [(alike, self._ties(shape, alike)) for shape, alike in shapes.items()]

    def by_class(self, classes: Sequence[Compressed]) -> dict[int, list[Tied] | Unasked]:
        """For each class the groups that hold a tied route, or why they were not asked. Empty where the network has no
        BGP."""
        if self.asked.network.protocol != "bgp":
            return {}
        shapes: Alike = {}
        for small in classes:
            shapes.setdefault(small.shape_sum, []).append(small)
        return {one.number: ties for alike, ties in self.of(shapes) for one in alike}

    def _have_none(self, alike: list[Compressed]) -> bool:
        return all(self.met.has_none(one.number) for one in alike)

    def _ties(self, shape: bytes, alike: list[Compressed]) -> list[Tied] | Unasked:
        if self._have_none(alike):
            return []
        if shape in self.found:
            return self.found[shape]
        tie = self.met.ties.get(alike[0].number)
        met = f"bonsai-ask meets a tie at {tie.router}, by {tie.by}; " if tie else ""
        told = f"the routes were asked of {MOST_CLASSES} other classes, and bonsai-doubts --class asks for those of one"
        return Unasked(met + told, tie)


def doubts_of_ties(program: Program, asked: Asked, numbers: Sequence[int]) -> Iterator[Doubt]:
    """The ties of some classes; of classes whose compressed networks are alike except for their prefixes the first is
    asked."""
    if asked.network.protocol != "bgp":
        return
    ties = TiesAsked(program, asked, numbers)
    if ties.met.late:
        yield Doubt("tie-not-asked", "", None, "", ties.met.told_of_late)
    shapes: Alike = {}
    left = [number for number in sorted(numbers) if not ties.met.has_none(number)]
    for small in counted_off("classes with ties", len(left), asked.compress_each(left)):
        alike = shapes.setdefault(small.shape_sum, [])
        # (of a large network few classes are in memory as a whole)
        alike.append(small if not alike and len(shapes) <= MOST_CLASSES else small.without_network())
    for classes, found in ties.of(shapes):
        yield from _doubts(asked, classes, found)
        yield from _told_alone(asked, classes, found, ties.met)


def _told_alone(asked: Asked, classes: list[Compressed], found: list[Tied] | Unasked, met: Met) -> Iterator[Doubt]:
    """A tie that bonsai-ask names, and that was not met where the originators alone begin."""
    tie = met.ties.get(classes[0].number)
    if tie and found == []:
        line = asked.network.by_name[tie.router].own_bgp.line
        words = f"class {classes[0].number}: bonsai-ask meets two routes of one preference and length here, which differ in {tie.by}"
        yield doubt("tie", tie.router, line, f"{words}, and real routers may hold either")


def _doubts(asked: Asked, classes: list[Compressed], found: list[Tied] | Unasked) -> Iterator[Doubt]:
    small = classes[0]
    told = f"class {small.number}" if len(classes) == 1 else f"classes {' '.join(str(one.number) for one in classes)}"
    if isinstance(found, Unasked):
        yield Doubt("tie-not-asked", "", None, "", f"{told}: {found.told}")
        return
    for tied in found:
        line = asked.network.by_name[tied.members[0]].own_bgp.line
        yield doubt("tie", " ".join(tied.members), line, f"{told}: {tied.told}")


def _one_of(members: Sequence[str]) -> str:
    """The name of a router, or in brackets those of which one is meant."""
    if len(members) == 1:
        return members[0]
    more = f" and {len(members) - MOST_NAMED} more" if len(members) > MOST_NAMED else ""
    return f"({' '.join(members[:MOST_NAMED])}{more})"


def tied_groups(program: Program, small: Compressed) -> list[Tied] | Unasked:
    """The groups of a class that hold a tied route, or why they were not asked."""
    found = ties_of(program, small)
    if isinstance(found, Unasked):
        return found
    members = {group.members[0]: group.members for group in small.groups}
    by_number = {device.bgp.number: device.name for device in small.network.devices if device.bgp}

    def route(label: BgpLabel) -> Route:
        over = dict.fromkeys(by_number[number] for number in label.path)
        return Route(tuple(members.get(name, (name,)) for name in over), tuple(map(community_text, label.communities)))

    tied = []
    for name in dict.fromkeys(tie.router for tie in found):
        those = [tie for tie in found if tie.router == name]
        decided = tuple(sorted({tie.decided for tie in those}))
        others = tuple(dict.fromkeys(route(tie.other) for tie in those))
        tied.append(Tied(members[name], decided, route(those[0].held), others))
    return tied


def ties_of(program: Program, small: Compressed) -> list[HeldTie] | Unasked:
    """The ties of a class, or why they were not asked."""
    if small.refusal:
        return Unasked(f"`compress` refused it: {small.refusal}")
    rounds = "* " * min(MOST_ROUNDS, 2 * len(small.groups) + 2)
    told = _run(program, small.text, rounds)
    if not told.startswith("rest\n"):
        return Unasked(f"it does not rest after {len(rounds.split())} rounds of all groups")
    labels = read_solution(told.partition("\n")[2])
    return [tie for name in labels for tie in _at(program, small, labels, name)]


def _at(program: Program, small: Compressed, labels: dict[str, Label], name: str) -> Iterator[HeldTie]:
    """The ties at a router."""
    held = labels[name]
    ends = [far for near, far in _ends(small.network) if near.device.name == name]
    if not isinstance(held, BgpLabel) or not held.path or len(ends) < 2:
        return
    brought = [(far.device.name, _brought(program, small, labels, name, far)) for far in ends]
    giver = next((neighbour for neighbour, label in brought if label == held), "another")
    for neighbour, label in brought:
        if not isinstance(label, BgpLabel) or label == held:
            continue
        is_even = label.preference == held.preference and len(label.path) == len(held.path)
        if is_even and _is_beaten(program, small.text, {**labels, name: label}, name):
            yield HeldTie(name, held, giver, label, neighbour)


def _ends(network: Network) -> Iterator[tuple[End, End]]:
    """Both ends of each session, from each side."""
    for link in network.links:
        yield from ((link.low, link.high), (link.high, link.low))


def _brought(program: Program, small: Compressed, labels: dict[str, Label], name: str, far: End) -> Label:
    """The route that one session brings: the routers on its path are activated in order, and then this one, its other
    sessions shut."""
    offered = labels[far.device.name]
    if not isinstance(offered, BgpLabel):
        return None
    by_number = {device.bgp.number: device.name for device in small.network.devices if device.bgp}
    path = dict.fromkeys([far.device.name, *(by_number[number] for number in offered.path)])
    if name in path:
        return None
    told = _run(program, _with_one_session(small.text, name, str(far.address)), " ".join([*reversed(path), name]))
    return read_solution(told.partition("\n")[2])[name]


def _with_one_session(text: str, name: str, address: str) -> str:
    """The text in which all neighbours of a router except one are shut."""
    routers = read_text(text, "F")
    for router in routers:
        for stanza in router.with_head("router", "bgp") if router.name == name else ():
            others = [
                line
                for line in stanza.body
                if line.words[:1] == ["neighbor"] and line.words[2:3] == ["remote-as"] and line.words[1] != address
            ]
            stanza.body += [line.with_text(f" neighbor {line.words[1]} shutdown") for line in others]
    return text_of(routers)


def _is_beaten(program: Program, text: str, labels: dict[str, Label], name: str) -> bool:
    """Whether `check` says of a router's route that another beats it. The router comes first in the text, so that it
    is judged first."""
    routers = sorted(read_text(text, "F"), key=lambda router: router.name != name)
    answer = program.ask("check", "F", "1", "S", texts={"F": text_of(routers), "S": solution_text(labels)})
    return answer.reason == f"not stable: {name} better-candidate"


def _run(program: Program, text: str, schedule: str) -> str:
    """What `run` writes."""
    answer: Answer = program.ask("run", "F", "1", "S", texts={"F": text, "S": f"{schedule}\n"})
    if answer.status != Status.DONE:
        raise NotAnswered(answer, "run")
    return answer.text
