"""`hostile/frames`: over made texts `bonsai-all` writes the frames of what `bonsai` writes class by class, or what the second
reader finds for each class."""

from __future__ import annotations

import argparse
import collections
import concurrent.futures
import contextlib
import dataclasses
import functools
import itertools
import json
import os
import random
import signal
import subprocess
import sys
import time
from collections.abc import Iterator
from pathlib import Path

from bonsainet.ask.program import TOP, Answer, Program, Status, classes_of
from bonsainet.ask.where import NoProgram, named_by
from bonsainet.cli.command_line import Refused
from hostile import frames_judged
from hostile.asking import Asker
from hostile.makers import makers
from hostile.recording import keep_record, told_of

KEPT = Path(__file__).resolve().parent / "measured" / "frames.json"
COMMANDS = ("groups", "compress", "report", "json", "canon", "certify")
USAGE_LINE = b"usage: bonsai-all F groups|compress|report|json|canon|certify [FROM TO]\n"
NOT_ALL = 8
WRITE_FAULT = (Status.WRITE_FAULT.value, b"write fault\n")
LARGEST_NUMBER = 999_999_999
OF_NO_FORM = (
    (),
    ("classes",),
    ("groups", "1"),
    ("groups", "2", "1"),
    ("groups", "01", "2"),
    ("groups", "1", "2", "3"),
    ("groups", "1", "1000000000"),
    ("Groups",),
    ("groups", "", "1"),
)


@dataclasses.dataclass(frozen=True)
class Programs:
    """The two programs, `bonsai` and `bonsai-all`. Without the first the second reader judges."""

    one: Asker | None
    every: Asker


@dataclasses.dataclass
class Found:
    """What was asked: texts, frames by command and status, ends of `bonsai-all`, and what differs."""

    texts: int = 0
    frames: collections.Counter[str] = dataclasses.field(default_factory=collections.Counter)
    ends: collections.Counter[str] = dataclasses.field(default_factory=collections.Counter)
    differences: list[str] = dataclasses.field(default_factory=list)

    def add(self, other: Found) -> None:
        """Takes what another job found to this."""
        self.texts += other.texts
        self.frames += other.frames
        self.ends += other.ends
        self.differences += other.differences


def frame(number: int, answer: Answer) -> bytes:
    """The frame of the class of a number, from what `bonsai` answers for it."""
    text = answer.err if answer.status else answer.out
    return b"class %d %d %d\n" % (number, answer.status, len(text)) + text


def wanted(program: Asker, text: bytes, command: str, numbers: range, found: Found) -> Answer:
    """What `bonsai-all` must answer for these classes of a text that is not refused."""
    answers = [(number, program.ask(command, "F", str(number), texts={"F": text})) for number in numbers]
    found.frames.update(f"{command} {answer.status}" for _, answer in answers)
    is_done = all(answer.status == Status.DONE for _, answer in answers)
    return Answer(0 if is_done else NOT_ALL, b"".join(frame(*it) for it in answers), b"")


def ranges(chance: random.Random, count: int) -> Iterator[tuple[int, int]]:
    """Ranges of numbers within the classes, over their ends, and far behind them."""
    for _ in range(2):
        first = chance.randint(0, count + 2)
        yield first, first + chance.randint(0, 3)
    yield LARGEST_NUMBER - 1, LARGEST_NUMBER


def judged(every: Asker, text: bytes, start: int) -> Found:
    """Asks `bonsai-all` over one text, and judges each frame by the second reader."""
    calls, frames, differ = frames_judged.over_text(every, text, start, COMMANDS)
    told = [f"{start}: {one.command}: expected {one.expected}, answered {one.answered}" for one in differ]
    return Found(1, collections.Counter(frames), collections.Counter(calls=calls), told)


def over_text(programs: Programs, text: bytes, start: int) -> Found:
    """Asks both programs over one text, and compares."""
    if programs.one is None:
        return judged(programs.every, text, start)
    chance, found = random.Random(start), Found(texts=1)
    one = programs.one
    told = one.ask("classes", "F", texts={"F": text})

    def compare(words: tuple[str, ...], expected: Answer) -> None:
        answer = programs.every.ask("F", *words, texts={"F": text})
        found.ends[f"status {answer.status}"] += 1
        if answer != expected:
            found.differences.append(f"{start}: {' '.join(words)}: {difference(expected, answer)}")

    words = chance.choice(OF_NO_FORM)
    compare(words, Answer(Status.USAGE, b"", USAGE_LINE))
    for command in COMMANDS:
        if told.status:
            compare((command,), told)
            continue
        count = len(classes_of(told.text))
        compare((command,), wanted(one, text, command, range(1, count + 1), found))
        for first, last in ranges(chance, count):
            numbers = range(first, last + 1)
            compare((command, str(first), str(last)), wanted(one, text, command, numbers, found))
    if not told.status and told.out:
        command = chance.choice(COMMANDS)
        for device in (full, closed_pipe):
            end = to_device(programs.every, text, command, device)
            if end != WRITE_FAULT:
                found.differences.append(f"{start}: {command} to a device that is {device.__name__}: {end}")
    return found


def difference(expected: Answer, answer: Answer) -> str:
    """Where two answers differ, in words."""
    if expected.status != answer.status or expected.err != answer.err:
        return f"wanted status {expected.status} {expected.reason}, got {answer.status} {answer.reason}"
    pairs = enumerate(itertools.zip_longest(expected.out, answer.out))
    at = next((place for place, (one, other) in pairs if one != other), 0)
    return f"from byte {at} wanted {expected.out[at:at + 60]!r}, got {answer.out[at:at + 60]!r}"


@contextlib.contextmanager
def full() -> Iterator[int]:
    """A device that takes nothing."""
    with open("/dev/full", "wb") as device:
        yield device.fileno()


@contextlib.contextmanager
def closed_pipe() -> Iterator[int]:
    """A pipe that nobody reads."""
    reader, writer = os.pipe()
    os.close(reader)
    try:
        yield writer
    finally:
        os.close(writer)


def to_device(program: Asker, text: bytes, command: str, device: object) -> tuple[int, bytes]:
    """The status and the line on standard error where the output goes to a device that fails."""
    file = os.memfd_create("text")
    try:
        os.write(file, text)
        with device() as out:  # type: ignore[operator]
            ran = subprocess.run(
                [program.path, f"/proc/self/fd/{file}", command],
                stdin=subprocess.DEVNULL,
                stdout=out,
                stderr=subprocess.PIPE,
                pass_fds=[file],
                check=False,
            )
    finally:
        os.close(file)
    return ran.returncode, ran.stderr


@functools.cache
def _programs(one: str | None, every: str) -> Programs:
    signal.signal(signal.SIGINT, signal.SIG_IGN)
    return Programs(Asker(one) if one else None, Asker(every))


def part_of_job(one: str | None, every: str, seed: int, places: range, keep: Path) -> Found:
    """Some texts of a run."""
    found = Found()
    for place in places:
        start = seed * 1_000_003 + place
        text = makers.made(random.Random(start))
        try:
            more = over_text(_programs(one, every), text, start)
        except subprocess.TimeoutExpired as late:
            more = Found(texts=1, differences=[f"{start}: no answer in time: {late.cmd[1:]}"])
        if more.differences:
            keep.mkdir(parents=True, exist_ok=True)
            (keep / f"frames-{start}.cfg").write_bytes(text)
        found.add(more)
    return found


AT_ONCE = 20


def run(one: str | None, every: str, given: argparse.Namespace, seed: int) -> Found:
    """Texts by several jobs until there are enough, or the time is over."""
    found, until = Found(), time.monotonic() + given.seconds
    with concurrent.futures.ProcessPoolExecutor(given.jobs) as pool:
        parts = (range(at, min(at + AT_ONCE, given.texts)) for at in range(0, given.texts, AT_ONCE))
        waiting: set[concurrent.futures.Future[Found]] = set()
        for places in parts:
            if time.monotonic() >= until:
                break
            waiting.add(pool.submit(part_of_job, one, every, seed, places, given.keep))
            if len(waiting) >= 2 * given.jobs:
                done, waiting = concurrent.futures.wait(waiting, return_when=concurrent.futures.FIRST_COMPLETED)
                for part in done:
                    found.add(part.result())
        for part in concurrent.futures.as_completed(waiting):
            found.add(part.result())
    return found


def words() -> argparse.ArgumentParser:
    """The words of `hostile/frames`."""
    parser = argparse.ArgumentParser(
        prog="hostile/frames",
        description="Ask bonsai-all over made texts, and compare each frame with what bonsai writes for that class alone.",
    )
    parser.add_argument("--one", metavar="PROGRAM", help="the program bonsai (default: the one that ./bonsai names)")
    parser.add_argument("--every", metavar="PROGRAM", help="the program bonsai-all (default: by ./bonsai-all)")
    parser.add_argument(
        "--by",
        choices=("bonsai", "reader"),
        default="bonsai",
        help="who says what a frame must be: bonsai (default), or the second reader",
    )
    parser.add_argument("--record", metavar="NAME", help=f"keep the counts in measured/{KEPT.name} by this name")
    parser.add_argument("--texts", type=int, default=200, help="how many texts (default 200)")
    parser.add_argument("--seconds", type=float, default=600, help="begin no text after so long (default 600)")
    parser.add_argument("--jobs", type=int, default=2, help="how many processes (default 2)")
    parser.add_argument("--seed", type=int, help="the same seed makes the same texts in the same order")
    parser.add_argument("--keep", type=Path, default=Path("out/hostile"), help="the folder for texts that differ")
    return parser


def main(arguments: list[str] | None = None) -> int:
    """Status 0 without a difference, 1 with one, without a program or where no text was asked, 2 for wrong words."""
    parser = words()
    given = parser.parse_args(arguments)
    seed = given.seed if given.seed is not None else int.from_bytes(os.urandom(3), "big")
    try:
        one = None if given.by == "reader" else os.path.abspath(given.one or Program().path)
        every = given.every or named_by(str(TOP / "bonsai-all")).path
    except (Refused, NoProgram, FileNotFoundError) as why:
        print(f"hostile/frames: refused: {why}", file=sys.stderr)
        return 1
    load, begun = os.getloadavg()[0], time.monotonic()
    found = run(one, os.path.abspath(every), given, seed)
    table = {
        "date": time.strftime("%Y-%m-%d"),
        "by": given.by,
        "seconds": round(time.monotonic() - begun),
        "jobs": given.jobs,
        "load": [round(load, 1), round(os.getloadavg()[0], 1)],
        "program": told_of(Path(every)),
        "seed": seed,
        "texts": found.texts,
        "frames": sum(found.frames.values()),
        "by_command_and_status": dict(sorted(found.frames.items())),
        "by_end": dict(sorted(found.ends.items())),
        "differences": found.differences,
    }
    print(json.dumps(table, indent=1))
    if given.record:
        keep_record(KEPT, given.record, table)
    return 1 if found.differences or not found.texts else 0
