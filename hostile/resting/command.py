"""`hostile/events`: FRR started many times in random orders and with random delays; what it rests in, against `bonsai-ask`."""

from __future__ import annotations

import argparse
import dataclasses
import json
import os
import re
import subprocess
from collections import Counter
from pathlib import Path

from bonsainet.ask.labels import BgpLabel
from bonsainet.ask.program import TOP
from bonsainet.configs.network import Network as TextNetwork
from bonsainet.configs.network import read_network
from bonsainet.exporting import frr
from bonsainet.lab.enclosure import ENCLOSE, PYTHON, refuse_unless_able
from bonsainet.lab.held import labels_of
from bonsainet.lab.plan import plan_of
from hostile.asking import Asker
from hostile.judge import answers, labels, rests
from hostile.judge.labels import Label, Route
from hostile.judge.problem import Problem, problem
from hostile.resting import pictures, record
from hostile.resting.networks import PREFIX, Made, networks
from hostile.resting.trying import NotRun, each_tried, how


@dataclasses.dataclass
class Outcome:
    """What a network came to: the solutions that the program lists, and how often FRR rested in each, in weakly stable
    labels of other keys, in labels that are neither, or not at all."""

    name: str
    solutions: int
    is_tied: bool
    rests: dict[int, int]
    weak: int
    others: list[str]
    without_rest: int
    seconds: list[float]

    @property
    def is_right(self) -> bool:
        """Whether FRR did what the program says."""
        is_explained = not self.others and (self.is_tied or not self.weak)
        return is_explained and (self.without_rest > 0) == (self.solutions == 0)


def records_of(text: TextNetwork, seed: str, times: int, seconds: float, quiet: float) -> list[dict]:
    """The starts of a network in an enclosure."""
    plan = plan_of(text, frr.export(text, with_lab_timers=True), [PREFIX])
    told = {"plan": plan.text(), "seed": seed, "times": times, "seconds": seconds, "quiet": quiet}
    process = subprocess.Popen(
        [*ENCLOSE, PYTHON, "-m", "hostile.resting.inside"],
        stdin=subprocess.PIPE,
        stdout=subprocess.PIPE,
        stderr=subprocess.PIPE,
        text=True,
        cwd=TOP,
        env={**os.environ, "PYTHONPATH": f"{TOP}:{TOP / 'python'}"},
    )
    assert process.stdin and process.stdout and process.stderr
    try:
        process.stdin.write(json.dumps(told) + "\n")
        process.stdin.flush()
        answer = process.stdout.read()
        words = "" if answer.strip() else process.stderr.read()
    finally:
        process.kill()
        process.wait()
    if not answer.strip():
        raise NotRun(f"the lab ended without an answer: {words.strip()[-300:]}")
    found = json.loads(answer)
    if "fault" in found:
        raise NotRun(found["fault"])
    return found["records"]


def listed(program: Asker, text: str, whole: Problem) -> tuple[list[list[Label]], bool]:
    """The solutions that the program lists, and whether it says that the class is tied."""
    told = program.ask("F", PREFIX, "solutions", texts={"F": text})
    tie = program.ask("F", PREFIX, "route", "r0", texts={"F": text})
    if told.status or tie.status not in (0, 8):
        raise NotRun(f"the program: status {told.status} and {tie.status}: {told.reason or tie.reason}")
    blocks = re.split(r"^solution \d+\n", told.text, flags=re.M)[1:]
    return [labels.read(block.encode(), whole) for block in blocks], " tied " in tie.text


def is_weakly_stable(whole: Problem, given: list[Label]) -> bool:
    """Whether each router holds a candidate that none beats in preference and length, or none where it has none."""
    for place, label in enumerate(given):
        found = labels.candidates(whole, given, place)
        if label is None or not found:
            if label is not None or found:
                return False
        elif label not in found or min(map(_weak(whole), found)) != _weak(whole)(label):
            return False
    return True


def _weak(whole: Problem):
    return lambda label: rests.weak_key(whole, label)


def judged(made: Made, program: Asker, starts: list[dict]) -> Outcome:
    """What the starts of a network came to."""
    text, net = read_network(made.text, made.name), answers.read(made.text.encode())
    assert not isinstance(net, answers.Expected)
    whole = problem(net, net.classes[0])
    solutions, is_tied = listed(program, made.text, whole)
    known = {rests.keys(whole, one): place for place, one in enumerate(solutions, 1)}
    found: Counter[int] = Counter()
    weak, others, without_rest = 0, [], 0
    for start in starts:
        if "held" not in start:
            without_rest += 1
            continue
        told = labels_of(text, start["held"], PREFIX)
        given = [_label(told[name]) for name in whole.names]
        place = known.get(rests.keys(whole, given))
        if place and labels.fault(whole, given) is None:
            found[place] += 1
        elif is_weakly_stable(whole, given):
            weak += 1
        else:
            others.append(" | ".join(f"{name} {labels.text(one)}" for name, one in zip(whole.names, given)))
    seconds = sorted(start["rest"] for start in starts if "rest" in start)
    return Outcome(made.name, len(solutions), is_tied, dict(sorted(found.items())), weak, others, without_rest, seconds)


def _label(label: object) -> Label:
    assert label is None or isinstance(label, BgpLabel)
    return Route(label.preference, label.path, frozenset(label.communities)) if label else None


def tried(made: Made, given: argparse.Namespace) -> Outcome:
    """Starts a network, and judges."""
    program = Asker(os.path.abspath(given.program))
    try:
        is_restless = made.count == 0
        times, seconds = (given.restless, 120.0) if is_restless else (given.times, given.seconds)
        text = read_network(made.text, made.name)
        return judged(made, program, records_of(text, f"{given.seed} {made.name}", times, seconds, given.quiet))
    finally:
        program.close()


def main(arguments: list[str] | None = None) -> int:
    """Status 0 where FRR did what the program says, 1 where it did not or could not run, 2 for wrong words."""
    parser = argparse.ArgumentParser(prog="hostile/events", description=(__doc__ or "").strip())
    parser.add_argument("--program", help="the program bonsai-ask")
    parser.add_argument("--times", type=int, default=20, help="starts of each network (default %(default)s)")
    parser.add_argument(
        "--restless", type=int, default=3, help="starts of a network without a solution, of two minutes each"
    )
    parser.add_argument(
        "--seconds", type=float, default=90, help="how long a start may take to rest (default %(default)s)"
    )
    parser.add_argument(
        "--quiet", type=float, default=4, help="how long no table changes at rest (default %(default)s)"
    )
    parser.add_argument("--side", type=int, default=3, help="networks side by side (default %(default)s)")
    parser.add_argument("--seed", default="1", help="orders and delays follow from it (default %(default)s)")
    parser.add_argument("--only", action="append", metavar="NAME", help="this network alone; can be repeated")
    parser.add_argument("--record", action="store_true", help="keep what was found in hostile/measured/events.json")
    parser.add_argument("--pictures", action="store_true", help="start nothing: draw the pictures of the page")
    parser.add_argument("--texts", metavar="FOLDER", help="start nothing: write the networks into this folder")
    given = parser.parse_args(arguments)
    if given.texts:
        for made in networks():
            (Path(given.texts) / f"{made.name.replace(' ', '-')}.cfg").write_text(made.text)
        return 0
    if not given.program:
        parser.error("--program names the program bonsai-ask")
    if given.pictures:
        pictures.draw(Asker(os.path.abspath(given.program)), networks())
        return 0
    refuse_unless_able()
    chosen = [made for made in networks() if not given.only or made.name in given.only]
    load, failed = os.getloadavg()[0], False
    kept = json.loads(record.KEPT.read_text("utf-8")) if given.record and record.KEPT.is_file() else {}
    for made, found in zip(chosen, each_tried("events", tried, chosen, given)):
        failed |= found is None or not found.is_right
        if found:
            kept[found.name] = dataclasses.asdict(found) | {"source": made.source} | how(given, load)
    if given.record:
        order = [made.name for made in networks()]
        kept = {name: kept[name] for name in order if name in kept}
        record.KEPT.write_text(json.dumps(kept, indent=1) + "\n", "utf-8")
        record.write()
    return 1 if failed else 0
