"""`hostile/tools`: its words, its cases, its log and its statuses."""
from __future__ import annotations

import argparse
import concurrent.futures
import dataclasses
import functools
import json
import random
import sys
import tempfile
import time
import traceback
from collections import Counter
from collections.abc import Callable
from pathlib import Path
from typing import TextIO

from bonsainet.ask.program import Program
from bonsainet.ask.where import NoProgram
from bonsainet.cli.workers import workers
from hostile.begun import log_of, seed_of, words_given
from hostile.tooling import folders, processes, texts

Attack = Callable[[random.Random, Path, Program], list[str]]
# How often each attack comes, of a thousand cases: those that start processes cost a hundred times as much.
ATTACKS: dict[str, tuple[Attack, int]] = {
    "folder": (folders.attack, 380),
    "text": (texts.attack, 600),
    "closed": (processes.closed, 8),
    "full": (processes.full, 4),
    "killed": (processes.killed, 5),
    "resumed": (processes.resumed, 3),
}
PIECE = 20
LOG_EVERY = 60.0


@dataclasses.dataclass
class Found:
    """What cases came to: how many there were of each attack, and what failed."""

    cases: Counter[str] = dataclasses.field(default_factory=Counter)
    failures: list[str] = dataclasses.field(default_factory=list)

    def line(self, seconds: float) -> str:
        """The same as one line of JSON."""
        return json.dumps(
            {"seconds": round(seconds, 1), "cases": dict(sorted(self.cases.items())), "failures": self.failures}
        )


@functools.cache
def _program() -> Program:
    return Program()


def attack_of(number: int) -> str:
    """The attack of a case."""
    names = sorted(ATTACKS)
    return random.Random(number * 7919).choices(names, [ATTACKS[name][1] for name in names])[0]


def case(number: int, name: str | None = None) -> tuple[str, list[str]]:
    """One case, by its number: its attack, and what failed."""
    name = name or attack_of(number)
    with tempfile.TemporaryDirectory(prefix="hostile-tools-") as room:
        try:
            return name, ATTACKS[name][0](random.Random(number), Path(room), _program())
        except Exception:  # (a run goes on, and tells)
            return name, [traceback.format_exc()]


def piece(first: int, count: int) -> Found:
    """Some cases."""
    found = Found()
    for number in range(first, first + count):
        name, faults = case(number)
        found.cases[name] += 1
        found.failures += [f"case {number}, {name}: {fault}" for fault in faults]
    return found


def run(given: argparse.Namespace, seed: int, log: TextIO | None) -> tuple[Found, float]:
    """All cases, until time is over or enough were tried. Interrupted, it ends with what it has."""
    begun, found, logged, at = time.monotonic(), Found(), 0.0, 0
    with workers(given.jobs) as pool:
        waiting: set[concurrent.futures.Future[Found]] = set()
        try:
            while True:
                spent = time.monotonic() - begun
                while len(waiting) < given.jobs and spent < given.seconds and at < given.cases:
                    count = min(PIECE, given.cases - at)
                    waiting.add(pool.submit(piece, seed * 10_000_019 + at, count))
                    at += count
                if not waiting:
                    break
                done, waiting = concurrent.futures.wait(waiting, return_when=concurrent.futures.FIRST_COMPLETED)
                for one in done:
                    found.cases += one.result().cases
                    found.failures += one.result().failures
                if log and time.monotonic() - begun - logged >= LOG_EVERY:
                    logged = time.monotonic() - begun
                    print(found.line(logged), file=log, flush=True)
        except KeyboardInterrupt:
            pool.shutdown(cancel_futures=True)
    seconds = time.monotonic() - begun
    if log:
        print(found.line(seconds), file=log, flush=True)
    return found, seconds


def words() -> argparse.ArgumentParser:
    """The words of `hostile/tools`."""
    parser = argparse.ArgumentParser(
        prog="hostile/tools",
        description="Attack the tools: changed folders, made texts, closed streams, full disks, kills; tell what is lost, "
        "half written or changed in silence.",
    )
    parser.add_argument("--seconds", type=float, default=20, help="how long (default 20)")
    parser.add_argument("--jobs", type=int, default=2, help="how many processes (default 2)")
    parser.add_argument("--cases", type=int, default=10**9, help="end when so many cases were tried")
    parser.add_argument("--at-least", type=int, default=1, help="status 1 where fewer cases were tried (default 1)")
    parser.add_argument("--seed", type=int, help="the seed, a number; the same seed makes the same cases")
    parser.add_argument(
        "--log", type=Path, help="a file that gets the counts as a line of JSON each minute and at the end"
    )
    parser.add_argument(
        "--only", type=int, metavar="CASE", help="try the case of this number alone, as a failure names it"
    )
    return parser


def main(arguments: list[str] | None = None) -> int:
    """Status 0 without a failure, 1 with one or without a program, 2 for wrong words, 3 where the log can't be made."""
    parser = words()
    given = words_given(parser, arguments)
    try:
        sum_of = _program().identity.sha256
    except NoProgram as why:
        parser.exit(1, f"hostile/tools: {why}\n")
    if given.only is not None:
        name, faults = case(given.only)
        print(
            "\n".join([f"case {given.only}, {name}", *faults] if faults else [f"case {given.only}, {name}: no failure"])
        )
        return 1 if faults else 0
    seed = seed_of(given)
    print(f"seed {seed}", flush=True)
    with log_of(parser, given, seed=seed, jobs=given.jobs, program_sha256=sum_of) as log:
        found, seconds = run(given, seed, log)
    total = sum(found.cases.values())
    counts = ", ".join(f"{name} {count}" for name, count in sorted(found.cases.items()))
    print(f"cases {total} in {seconds:.0f} s: {counts or 'none'}")
    print(f"failures {len(found.failures)}: " + ("none" if not found.failures else ""))
    print("".join(f"  {fault}\n" for fault in found.failures), end="")
    if total < given.at_least:
        print(f"hostile/tools: {total} cases were tried, and {given.at_least} are wanted", file=sys.stderr)
    return 1 if found.failures or total < given.at_least else 0
