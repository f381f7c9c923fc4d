"""`hostile/losses`: routers and links of running FRR taken down for real, and what is left at rest against `without`."""

from __future__ import annotations

import argparse
import dataclasses
import functools
import os
import random
import re

from bonsainet.ask.labels import BgpLabel, OspfLabel
from bonsainet.ask.program import TOP
from bonsainet.bench.states import kind
from bonsainet.configs.network import Network as TextNetwork
from bonsainet.configs.network import read_network
from bonsainet.exporting import frr
from bonsainet.lab.down import Down, withdrawn
from bonsainet.lab.enclosure import refuse_unless_able, run_plan
from bonsainet.lab.held import labels_of
from bonsainet.lab.plan import plan_of
from hostile.asking import Asker
from hostile.judge import answers, labels, rests
from hostile.judge.labels import Label, Route
from hostile.judge.problem import Network, Problem, problem
from hostile.judge.words import dotted
from hostile.resting import lost_record
from hostile.resting.command import is_weakly_stable
from hostile.resting.lost_networks import Text, losses, texts
from hostile.resting.trying import NotRun, each_tried, how

# (how long a network without a solution is left to itself before and between losses)
RESTLESS_SECONDS = 15.0


@dataclasses.dataclass(frozen=True)
class Said:
    """What the program says of a class without something: the problem as the second reader has it, the keys of each
    solution, and whether the class is tied."""

    left: Problem
    keys: tuple[tuple[object, ...], ...]
    is_tied: bool


@dataclasses.dataclass
class Found:
    """What a network came to. A comparison is a loss with a class: in a solution, in other labels that are stable except
    for a tie that the program reports, or in none of both."""

    name: str
    source: str
    routers: int = 0
    links: int = 0
    both: int = 0
    classes: int = 0
    compared: int = 0
    solutions: int = 0
    tied: int = 0
    withdrawn: int = 0
    restless: list[str] = dataclasses.field(default_factory=list)
    wrong: list[str] = dataclasses.field(default_factory=list)
    seconds: list[float] = dataclasses.field(default_factory=list)


@dataclasses.dataclass(frozen=True)
class Case:
    """A network as the tools read it and as the second reader does, and the program that is asked."""

    text: Text
    network: TextNetwork
    net: Network
    program: Asker

    def said(self, number: int, down: Down) -> Said:
        """What the program says of a class, by its place, without something."""
        words = ("F", str(number + 1), "without", down.word)
        listed = self.program.ask(*words, "solutions", texts={"F": self.text.text})
        origin = self.net.routers[min(self.net.classes[number].origins)].name
        tie = self.program.ask(*words, "route", origin, texts={"F": self.text.text})
        if listed.status or tie.status not in (0, 8):
            raise NotRun(f"the program: {down.word}: {listed.reason or tie.reason or listed.status}")
        left = rests.without(problem(self.net, self.net.classes[number]), self._down(down))
        blocks = re.split(r"^solution \d+\n", listed.text, flags=re.M)[1:]
        keys = tuple(rests.keys(left, labels.read(block.encode(), left)) for block in blocks)
        return Said(left, keys, " tied " in tie.text)

    def _down(self, down: Down) -> rests.Down:
        names = [router.name for router in self.net.routers]
        links = {
            number
            for number, link in enumerate(self.net.links)
            if frozenset((names[link[0]], names[link[1]])) in down.pairs
        }
        return rests.Down(frozenset(map(names.index, down.routers)), frozenset(links))

    @functools.cached_property
    def prefixes(self) -> list[str]:
        """A prefix of each class."""
        return [f"{dotted(one.prefixes[0][0])}/{one.prefixes[0][1]}" for one in self.net.classes]

    @functools.cached_property
    def all_prefixes(self) -> list[set[str]]:
        """The prefixes of each class."""
        return [{f"{dotted(base)}/{length}" for base, length in one.prefixes} for one in self.net.classes]


def _label(label: object) -> Label:
    if isinstance(label, BgpLabel):
        return Route(label.preference, label.path, frozenset(label.communities))
    return label.cost if isinstance(label, OspfLabel) else None


def compare(case: Case, found: Found, down: Down, record: dict) -> None:
    """Puts what a loss came to into what is found of its network."""
    gone = withdrawn(case.network, down)
    asked = [number for number, own in enumerate(case.all_prefixes) if not own & gone]
    found.withdrawn += len(case.prefixes) - len(asked)
    said = {number: case.said(number, down) for number in asked}
    if "fault" in record:
        found.restless.append(down.word)
        if not record["still_changes"] or all(one.keys for one in said.values()):
            found.wrong.append(f"without {down.word}: {record['fault']}")
        return
    found.seconds.append(round(record["rest"], 1))
    for number, one in said.items():
        held = labels_of(case.network, record["held"], case.prefixes[number])
        given = [_label(held[name]) for name in one.left.names]
        found.compared += 1
        if rests.keys(one.left, given) in one.keys and labels.fault(one.left, given) is None:
            found.solutions += 1
        elif one.is_tied and is_weakly_stable(one.left, given):
            found.tied += 1
        else:
            lines = " | ".join(f"{name} {labels.text(label)}" for name, label in zip(one.left.names, given))
            found.wrong.append(f"without {down.word}, class {number + 1}: {lines}")


def tried(text: Text, given: argparse.Namespace) -> Found:
    """Takes things down in a network, and judges."""
    net = answers.read(text.text.encode())
    assert isinstance(net, Network)
    network, program = read_network(text.text, text.name), Asker(os.path.abspath(given.program))
    try:
        case = Case(text, network, net, program)
        downs = losses(network, random.Random(f"{given.seed} {text.name}"))[: given.most]
        plan = plan_of(network, frr.export(network, with_lab_timers=True), case.prefixes, downs)
        before = given.seconds if text.rests else RESTLESS_SECONDS
        record = run_plan(plan, given.seconds, given.quiet, before)
        found = Found(text.name, text.source, classes=len(case.prefixes))
        for down, after in zip(downs, record["losses"], strict=True):
            found.routers += not down.pairs
            found.links += not down.routers
            found.both += bool(down.pairs and down.routers)
            compare(case, found, down, after)
        return found
    finally:
        program.close()


def main(arguments: list[str] | None = None) -> int:
    """Status 0 where FRR rested as the program says, 1 where it did not or could not run, 2 for wrong words."""
    parser = argparse.ArgumentParser(prog="hostile/losses", description=(__doc__ or "").strip())
    parser.add_argument("--program", required=True, help="the program bonsai-ask")
    parser.add_argument("--seconds", type=float, default=90, help="how long rest may take (default %(default)s)")
    parser.add_argument(
        "--quiet", type=float, default=3, help="how long no table changes at rest (default %(default)s)"
    )
    parser.add_argument("--side", type=int, default=3, help="networks side by side (default %(default)s)")
    parser.add_argument("--seed", default="1", help="the links that are taken down follow from it")
    parser.add_argument("--most", type=int, help="no more losses than so many in each network")
    parser.add_argument("--only", action="append", metavar="NAME", help="this network alone; can be repeated")
    parser.add_argument("--list", action="store_true", help="start nothing: name the networks and what is taken down")
    parser.add_argument("--record", action="store_true", help="keep what was found in hostile/measured/losses.json")
    given = parser.parse_args(arguments)
    chosen = [text for text in texts() if not given.only or text.name in given.only]
    if given.list:
        for text in chosen:
            downs = losses(read_network(text.text), random.Random(f"{given.seed} {text.name}"))
            print(f"{text.name}: {' '.join(down.word for down in downs)}")
        return 0
    refuse_unless_able()
    load, failed = os.getloadavg()[0], False
    for found in each_tried("losses", tried, chosen, given):
        failed |= found is None or bool(found.wrong)
        if found and given.record:
            asked = {"program": kind(TOP / given.program)}
            kept = dataclasses.asdict(found) | how(given, load) | asked
            lost_record.keep(kept, [text.name for text in texts()])
    return 1 if failed else 0
