"""`hostile/plant` and `hostile/sensitivity`: plant faults, one at a time, and tell which of them a run finds."""
from __future__ import annotations

import argparse
import concurrent.futures
import dataclasses
import os
import re
import subprocess
import sys
import tempfile
import time
from collections.abc import Callable
from pathlib import Path

from hostile.asking import Asker
from hostile.planting import ask_faults, asked, copies, expecting, judge_faults, record, switching, tool_faults, tools
from hostile.planting.copies import Unfit
from hostile.planting.fault import Fault
from hostile.planting.program_faults import FAULTS, SWITCHED
from bonsainet.ask.program import TOP

WAITS = 20
"""How many times longer than asked a run may take on a machine that others use too."""


@dataclasses.dataclass(frozen=True)
class Outcome:
    """Whether a fault was found: at which command (empty: not), and behind how many texts and processor seconds."""

    fault: Fault
    command: str
    texts: int
    seconds: float

    def row(self) -> str:
        """A line of the tables of hostile/README.md."""
        return record.row(self.fault, self.command, self.texts, self.seconds)


def outcome(fault: Fault, script: Path, program: Path, given: argparse.Namespace, *more: str) -> Outcome:
    """A run that ends at its first difference, or when its jobs used the processor seconds that they are given."""
    keep = given.folder.resolve() / "differed" / fault.name
    words = [
        "--seconds",
        str(WAITS * given.seconds),
        "--processor-seconds",
        str(given.jobs * given.seconds),
        "--jobs",
        str(given.jobs),
        "--seed",
        str(given.seed),
    ]
    environment = {**os.environ, "BONSAI_PROGRAM": str(program.resolve())}
    ran = subprocess.run(
        [
            *switching.words_of(fault, SWITCHED),
            str(script),
            *words,
            "--first",
            "--unshrunk",
            "--keep",
            str(keep),
            *more,
        ],
        env=environment,
        capture_output=True,
        text=True,
        check=False,
    )
    texts, seconds = re.search(r"runs (\d+)", ran.stdout), re.search(
        r"processor seconds ([\d.]+) here and ([\d.]+)", ran.stdout
    )
    if not texts or not seconds:
        raise Unfit(f"{fault.name}: {ran.stderr[-2000:]}")
    names = re.search(r"differences [1-9]\d*: (\S+)", ran.stdout)
    return Outcome(
        fault, names[1].rpartition("-")[0] if names else "", int(texts[1]), float(seconds[1]) + float(seconds[2])
    )


def built(fault: Fault, given: argparse.Namespace) -> Path:
    """The program with a fault, which may be one of several in it, built where the file is not there."""
    if fault in SWITCHED:
        return switching.program_of(SWITCHED, given.folder.resolve() / "bonsai-with-faults", "bonsai")
    return copies.program(fault, given.folder)


def of_program(fault: Fault, given: argparse.Namespace) -> Outcome | None:
    """A fault of the program. None where it is only built."""
    return None if given.build else outcome(fault, TOP / "hostile" / "run", built(fault, given), given)


def of_judge(fault: Fault, given: argparse.Namespace) -> Outcome | None:
    """A fault of the second reader, asked about the program as it is, whose answers serve for all faults."""
    program = Asker()
    program.close()
    with tempfile.TemporaryDirectory(prefix="sensitivity-") as room:
        given.folder.mkdir(parents=True, exist_ok=True)
        return outcome(
            fault,
            copies.reader(fault, Path(room)),
            Path(program.path),
            given,
            "--answers",
            str(given.folder.resolve() / "answers"),
        )


def expected(fault: Fault, given: argparse.Namespace) -> Outcome:
    """The first text over which the faulty reader expects something else than the right one."""
    begun = time.monotonic()
    with tempfile.TemporaryDirectory(prefix="sensitivity-") as room:
        copies.reader(fault, Path(room))
        words = [sys.executable, "-m", "hostile.planting.expecting", str(given.folder.resolve() / "expected")]
        ran = subprocess.run(words, cwd=room, capture_output=True, text=True, check=False)
    if ran.returncode:
        raise Unfit(f"{fault.name}: {ran.stderr[-2000:]}")
    texts, _, command = ran.stdout.strip().partition(" ")
    return Outcome(fault, command, int(texts), time.monotonic() - begun)


def words(name: str, what: str, seconds: float) -> argparse.ArgumentParser:
    """The words that both have."""
    parser = argparse.ArgumentParser(
        prog=f"hostile/{name}",
        description=f"Plant faults in {what}, one at a time, and tell which of them hostile/run finds.",
    )
    parser.add_argument("name", nargs="*", help="faults by their names; all without a name")
    parser.add_argument("--list", action="store_true", help="name the faults, and plant none")
    parser.add_argument("--side", type=int, default=1, help="how many faults are tried side by side (default 1)")
    parser.add_argument(
        "--seconds",
        type=float,
        default=seconds,
        help=f"how many processor seconds each process of a run may take (default {seconds:.0f})",
    )
    parser.add_argument("--jobs", type=int, default=2, help="the processes of a run (default 2)")
    parser.add_argument("--seed", type=int, default=1, help="the seed of each run (default 1)")
    parser.add_argument(
        "--folder",
        type=Path,
        default=Path("out") / name,
        help=f"where built copies, answers and what differed are kept (default out/{name})",
    )
    return parser


def plant(arguments: list[str] | None = None) -> int:
    """`hostile/plant`."""
    parser = words("plant", "copies of the program", 120)
    parser.add_argument("--build", action="store_true", help="build the copies, and run none")
    parser.add_argument(
        "--as-it-is",
        action="store_true",
        help="build a copy without a fault, and write where it is: for `BONSAI_PROGRAM` of hostile/failing and hostile/limits",
    )
    parser.add_argument(
        "--record",
        action="store_true",
        help="keep what was found in hostile/measured/planted.json, and write the table of hostile/README.md from it",
    )
    parser.add_argument(
        "--tools",
        action="store_true",
        help="plant faults of the tools, the launcher and the build in copies of the repository, and tell which their tests see",
    )
    parser.add_argument(
        "--asked",
        action="store_true",
        help="plant faults of bonsai-ask and bonsai-all, all into one copy of each, and report which hostile/ask and hostile/frames find",
    )
    given = parser.parse_args(arguments)
    if given.tools:
        return _of_tools(parser, given)
    if given.asked:
        return _of_asked(parser, given)
    if not given.as_it_is:
        return _all(parser, arguments, FAULTS, of_program, built)
    try:
        print(copies.program(None, given.folder))
        return 0
    except Unfit as why:
        print(f"{parser.prog}: {why}", file=sys.stderr)
        return 1


def _of_tools(parser: argparse.ArgumentParser, given: argparse.Namespace) -> int:
    """The faults of the tools."""
    unknown = set(given.name) - {fault.name for fault in tool_faults.FAULTS}
    if unknown:
        parser.error("no such fault; --list names them")
    if given.list:
        print("".join(f"{fault.name:22} {fault.means}\n" for fault in tool_faults.FAULTS), end="")
        return 0
    return tools.plant(given.name, given.record)


def _of_asked(parser: argparse.ArgumentParser, given: argparse.Namespace) -> int:
    """The faults of `bonsai-ask`."""
    if set(given.name) - {fault.name for fault in ask_faults.FAULTS}:
        parser.error("no such fault; --list names them")
    if given.list:
        print("".join(f"{fault.name:22} {fault.layer}: {fault.means}\n" for fault in ask_faults.FAULTS), end="")
        return 0
    try:
        return asked.plant(given.name, given.seed, given.seconds, given.folder, given.record)
    except Unfit as why:
        print(f"{parser.prog}: {why}", file=sys.stderr)
        return 1


def sensitivity(arguments: list[str] | None = None) -> int:
    """`hostile/sensitivity`."""
    parser = words("sensitivity", "copies of the second reader", 120)
    parser.add_argument(
        "--alone",
        type=int,
        metavar="TEXTS",
        help="ask no program: compare with what the right reader expects over so many texts",
    )
    given = parser.parse_args(arguments)
    if given.alone is None:
        return _all(parser, arguments, judge_faults.FAULTS, of_judge)
    given.folder.mkdir(parents=True, exist_ok=True)
    expecting.keep(given.folder / "expected", given.alone, given.seed)
    return _all(parser, arguments, judge_faults.FAULTS, expected)


def _all(
    parser: argparse.ArgumentParser,
    arguments: list[str] | None,
    faults: list[Fault],
    tried: Callable[[Fault, argparse.Namespace], Outcome | None],
    building: Callable[[Fault, argparse.Namespace], Path] | None = None,
) -> int:
    """Status 0 where each fault is found but at most one in ten, 1 else, 2 for wrong words. What is built is built before any is
    tried: the launcher, which handles signals meanwhile, builds in the main thread alone."""
    given = parser.parse_args(arguments)
    chosen = [fault for fault in faults if not given.name or fault.name in given.name]
    if len(chosen) < len(set(given.name)):
        parser.error("no such fault; --list names them")
    if given.list:
        print("".join(f"{fault.name:22} {fault.layer}: {fault.means}\n" for fault in chosen), end="")
        return 0
    missed = failed = 0
    for fault in list(chosen):
        try:
            if building:
                building(fault, given)
        except Unfit as why:
            failed += 1
            chosen.remove(fault)
            print(f"{parser.prog}: {why}", file=sys.stderr)
    with concurrent.futures.ThreadPoolExecutor(given.side) as pool:
        for one in [pool.submit(tried, fault, given) for fault in chosen]:
            try:
                found = one.result()
            except Unfit as why:
                failed += 1
                print(f"{parser.prog}: {why}", file=sys.stderr)
                continue
            if found:
                missed += not found.command
                print(found.row(), flush=True)
                if getattr(given, "record", False):
                    record.keep(
                        fault=found.fault,
                        command=found.command,
                        texts=found.texts,
                        seconds=found.seconds,
                        seed=given.seed,
                    )
    return 1 if failed or missed > len(chosen) / 10 else 0
