"""`hostile/solve`: both readers of questions over made networks: exhaustive search, and a solver."""

from __future__ import annotations

import argparse
import collections
import dataclasses
import functools
import json
import os
import random
import time
from pathlib import Path

from hostile import slices
from hostile.asked_run import text_of
from hostile.judge import answers, asked_words, questions
from hostile.judge.problem import Network
from hostile.judge.rests import Down, TooLarge
from hostile.makers.asked import Maker
from hostile.recording import keep_record
from hostile.solver import reader, smt

QUESTIONS = 4
KEPT = Path(__file__).resolve().parent.parent / "measured" / "solve.json"


def down_of(chance: random.Random, net: Network) -> Down:
    """Nothing, or a router or a link, or both."""
    routers = frozenset([chance.randrange(len(net.routers))]) if net.routers and chance.random() < 0.3 else frozenset()
    links = frozenset([chance.randrange(len(net.links))]) if net.links and chance.random() < 0.4 else frozenset()
    return Down(routers, links)


def differences(chance: random.Random, net: Network, number: int) -> list[str]:
    """What the readers find differently of a class without something. TooLarge where the search cannot tell."""
    down = down_of(chance, net)
    found = []
    if sorted(questions.keys(net, number, down)) != sorted(reader.keys(net, number, down)):
        found.append("keys")
    if sorted(questions.forwards(net, number, down)) != sorted(reader.forwards(net, number, down)):
        found.append("forwards")
    if questions.ties_matter(net, number, down) != reader.ties_matter(net, number, down):
        found.append("ties")
    maker = Maker(chance, net)
    for _ in range(QUESTIONS):
        words = [str(number + 1), *maker.question()]
        question = asked_words.call_of(net, words).question
        assert question
        if questions.verdict(net, number, question, down) != reader.verdict(net, number, question, down):
            found.append(" ".join(words))
    return [f"{what}, class {number + 1}, {down}" for what in found]


@dataclasses.dataclass
class Found:
    """What was compared: texts, classes, how many of these have what, what was too large, and what differs."""

    counts: collections.Counter[str] = dataclasses.field(default_factory=collections.Counter)
    differences: list[str] = dataclasses.field(default_factory=list)

    def add(self, other: Found) -> None:
        """Takes what another job found to this."""
        self.counts += other.counts
        self.differences += other.differences


def over_text(start: int, found: Found, is_one: bool) -> None:
    """Compares the classes of a text, or one of them."""
    chance = random.Random(start)
    net = answers.read(text_of(chance))
    if isinstance(net, answers.Expected) or answers.has_many_communities(net) or not net.classes:
        return
    found.counts["texts"] += 1
    for number in [chance.randrange(len(net.classes))] if is_one else range(len(net.classes)):
        try:
            found.differences += [f"text {start}: {one}" for one in differences(chance, net, number)]
            found.counts["classes"] += 1
            found.counts[net.protocol] += 1
            solutions = questions.solutions(net, number, Down())[1]
            found.counts["of no solution" if not solutions else "of several" if len(solutions) > 1 else "of one"] += 1
        except TooLarge:
            found.counts["too large"] += 1


def part_of_job(seed: int, is_one: bool, number: int, turn: int, seconds: float) -> tuple[Found, int]:
    """A job's texts from a turn on, for some time, and the next turn."""
    slices.leave_signals()
    found, until = Found(), time.monotonic() + seconds
    while time.monotonic() < until:
        turn += 1
        over_text(seed * 1_000_003 + number * 100_000_007 + turn, found, is_one)
    return found, turn


def main(arguments: list[str] | None = None) -> int:
    """Status 0 without a difference, 1 with one, 2 for wrong words."""
    parser = argparse.ArgumentParser(prog="hostile/solve", description=(__doc__ or "").strip())
    parser.add_argument("--seconds", type=float, default=20, help="how long (default %(default)s)")
    parser.add_argument("--texts", type=int, help="end when so many texts were read")
    parser.add_argument("--one", action="store_true", help="one class of each text, in the place of all")
    parser.add_argument("--jobs", type=int, default=1, help="how many processes (default %(default)s), each with a Z3")
    parser.add_argument("--seed", type=int, help="the same seed makes the same texts in the same order")
    parser.add_argument("--record", metavar="NAME", help=f"keep the counts in measured/{KEPT.name} by this name")
    given = parser.parse_args(arguments)
    if not smt.is_there():
        print("solve: left out: the program z3 is not there: install the package z3")
        return 0
    seed = given.seed if given.seed is not None else int.from_bytes(os.urandom(3), "big")
    found, begun, load = Found(), time.monotonic(), os.getloadavg()[0]

    def is_enough(more: Found) -> bool:
        found.add(more)
        return given.texts is not None and found.counts["texts"] >= given.texts

    slices.work(functools.partial(part_of_job, seed, given.one), given.jobs, given.seconds, is_enough)
    table = {
        "date": time.strftime("%Y-%m-%d"),
        "seed": seed,
        "seconds": round(time.monotonic() - begun),
        "jobs": given.jobs,
        "load": [round(load, 1), round(os.getloadavg()[0], 1)],
        **dict(sorted(found.counts.items())),
        "differences": found.differences,
    }
    print(json.dumps(table, indent=1))
    if given.record:
        keep_record(KEPT, given.record, table)
    return 1 if found.differences else 0
