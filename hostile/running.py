"""Many texts asked by several jobs for some time, and what they found. Each job is a process of its own."""
from __future__ import annotations

import concurrent.futures
import dataclasses
import functools
import hashlib
import json
import random
import resource
import subprocess
import time
import traceback
from collections import Counter
from collections.abc import Callable
from pathlib import Path
from typing import TextIO

from hostile import laws, shrink
from hostile.asking import Asked, Asker, Counts
from hostile.compare import Comparison, Difference, Enough
from hostile.judge.network import Refused
from hostile.kept_answers import KeptAsker
from hostile.makers import makers
from hostile.slices import in_slices
from bonsainet.ask.program import Program
from bonsainet.cli.workers import workers

SLICE = 5.0
LOG_EVERY = 60.0


@dataclasses.dataclass
class Found:
    """What a job, or all of them, came to, and the processor seconds of it."""

    runs: int = 0
    own_seconds: float = 0.0
    program_seconds: float = 0.0
    counts: Counts = dataclasses.field(default_factory=Counts)
    differences: list[str] = dataclasses.field(default_factory=list)
    starts: list[int] = dataclasses.field(default_factory=list)

    def add(self, other: Found) -> None:
        """Takes what another job found to this."""
        self.runs += other.runs
        self.own_seconds += other.own_seconds
        self.program_seconds += other.program_seconds
        self.counts.partly += other.counts.partly
        self.counts.commands += other.counts.commands
        self.counts.kinds += other.counts.kinds
        self.differences += other.differences
        self.starts += other.starts

    @property
    def processor(self) -> float:
        """The processor seconds of both."""
        return self.own_seconds + self.program_seconds

    @property
    def asked(self) -> int:
        """How many commands were asked."""
        return sum(self.counts.commands.values())


@dataclasses.dataclass(frozen=True)
class Plan:
    """What a run asks for: its seed, how long and by how many jobs, at most how many commands and processor seconds,
    whether the first difference ends it, a file of answers, and whether texts that differ are kept as they were
    made."""

    seed: int
    seconds: float
    jobs: int
    folder: Path
    commands: int | None = None
    first: bool = False
    answers: Path | None = None
    processor: float | None = None
    unshrunk: bool = False


def differences(program: Program, text: bytes, seed: int, counts: Counts) -> list[Difference]:
    """What differs over a text: against the judge, and against the laws. An answer that never comes differs too, and a
    text over which the judge fails."""
    asked = Asked(program, counts)
    return _caught(lambda: Comparison(asked, text, seed).run() + laws.broken(asked, text, seed))


def still_differs(program: Program, text: bytes, seed: int, command: str) -> bool:
    """Whether a command differs over a text. No more is asked than shows it."""
    asked = Asked(program, Counts())
    if command.startswith("law-"):
        found = _caught(lambda: laws.broken(asked, text, seed))
    else:
        compared = Comparison(asked, text, seed, command)
        try:
            found = _caught(compared.run)
        except Enough:
            found = compared.found
    return any(one.command == command for one in found)


def _caught(found: Callable[[], list[Difference]]) -> list[Difference]:
    try:
        return found()
    except Enough:
        raise
    except Refused as refused:
        return [Difference("labels", "labels that can be read", str(refused))]
    except subprocess.TimeoutExpired as late:
        return [Difference(str(late.cmd[1]), "an answer", "none in time")]
    except Exception:  # a long run goes on, and the text is kept
        return [Difference("reader", "that the second reader does not fail", traceback.format_exc())]


@functools.cache
def _program(answers: Path | None) -> Asker:
    return KeptAsker(answers) if answers else Asker()


def text_of(start: int) -> bytes:
    """The text of a number."""
    return makers.made(random.Random(start))


def part_of_job(plan: Plan, number: int, turn: int, seconds: float) -> tuple[Found, int]:
    """A job's texts from a turn on, for some time, and the next turn. A difference ends it where the first is looked
    for."""
    program, found, until, used = _program(plan.answers), Found(), time.monotonic() + seconds, _used()
    while time.monotonic() < until and not (plan.first and found.differences):
        turn += 1
        start = plan.seed * 1_000_003 + number * 100_000_007 + turn
        text = text_of(start)
        differ = differences(program, text, start, found.counts)
        found.runs += 1
        found.differences += [_kept(program, text, start, difference, plan) for difference in differ[:1]]
        found.starts += [start for _ in differ[:1]]
    found.own_seconds, found.program_seconds = (after - before for after, before in zip(_used(), used))
    return found, turn


def _used() -> tuple[float, float]:
    """The processor seconds of this process, and of the programs that it ran."""
    own, children = (resource.getrusage(who) for who in (resource.RUSAGE_SELF, resource.RUSAGE_CHILDREN))
    return own.ru_utime + own.ru_stime, children.ru_utime + children.ru_stime


def _kept(program: Program, text: bytes, start: int, difference: Difference, plan: Plan) -> str:
    small, folder = text, plan.folder
    if not plan.unshrunk:
        small = shrink.smallest(text, lambda smaller: still_differs(program, smaller, start, difference.command))
    again = next(
        (other for other in differences(program, small, start, Counts()) if other.command == difference.command),
        difference,
    )
    folder.mkdir(parents=True, exist_ok=True)
    name = f"{difference.command}-{hashlib.sha256(small).hexdigest()[:12]}"
    (folder / f"{name}.cfg").write_bytes(small)
    (folder / f"{name}.txt").write_text(
        f"seed {start}\ncommand {again.command}\nexpected {again.expected}\nanswered {again.answered}\n"
    )
    return name


def run(plan: Plan, log: TextIO | None = None) -> tuple[Found, float]:
    """All jobs until their time is over, or enough was asked or found; and the seconds that it took. Interrupted, it
    ends with what it has."""
    begun, found, logged = time.monotonic(), Found(), 0.0
    spent = lambda: time.monotonic() - begun  # noqa: E731
    with workers(plan.jobs) as pool:

        def part(number: int, turn: int) -> concurrent.futures.Future[tuple[Found, int]]:
            return pool.submit(part_of_job, plan, number, turn, min(SLICE, max(0.0, plan.seconds - spent())))

        def goes_on() -> bool:
            return spent() < plan.seconds and not _is_enough(plan, found)

        try:
            for more in in_slices(part, plan.jobs, goes_on):
                found.add(more)
                if log and spent() - logged >= LOG_EVERY:
                    logged = spent()
                    print(line_of_log(found, logged), file=log, flush=True)
        except KeyboardInterrupt:
            pool.shutdown(cancel_futures=True)
    if log:
        print(line_of_log(found, spent()), file=log, flush=True)
    return found, spent()


def _is_enough(plan: Plan, found: Found) -> bool:
    is_asked = plan.commands is not None and found.asked >= plan.commands
    is_used = plan.processor is not None and found.processor >= plan.processor
    return is_asked or is_used or bool(plan.first and found.differences)


def line_of_log(found: Found, seconds: float) -> str:
    """What was asked so far, as one line of JSON."""
    counts = {
        "commands": dict(sorted(found.counts.commands.items())),
        "kinds": dict(sorted(found.counts.kinds.items())),
    }
    return json.dumps(
        {
            "seconds": round(seconds, 1),
            "texts": found.runs,
            "partly": found.counts.partly,
            "asked": found.asked,
            "own_seconds": round(found.own_seconds, 1),
            "program_seconds": round(found.program_seconds, 1),
            **counts,
            "differences": found.differences,
        }
    )


def report(found: Found, seconds: float, jobs: int) -> str:
    """What is printed at the end."""

    def table(counter: Counter[str]) -> str:
        return " ".join(
            f"{name}:{count}" for name, count in sorted(counter.items(), key=lambda pair: (-pair[1], pair[0]))
        )

    rows = [
        f"runs {found.runs}, of which {found.counts.partly} name too many communities for more than classes and laws",
        f"seconds {seconds:.1f}, {found.asked / max(seconds, 0.001) / jobs:.0f} commands a second for each of {jobs} jobs",
        f"processor seconds {found.own_seconds:.1f} here and {found.program_seconds:.1f} in the program",
        f"commands {found.asked}: {table(found.counts.commands)}",
        f"refusals and other ends: {table(found.counts.kinds)}",
        f"differences {len(found.differences)}: {' '.join(sorted(found.differences)) or 'none'}",
        *(f"again: hostile/run --only {start}" for start in found.starts),
    ]
    return "\n".join(rows) + "\n"
