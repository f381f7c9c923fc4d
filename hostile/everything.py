"""`hostile/run --all`: every attack on the programs and every judge of them, one after another."""

from __future__ import annotations

import dataclasses
import subprocess
import sys
from pathlib import Path

from bonsainet.ask.program import TOP
from bonsainet.cli.command_line import Refused
from bonsainet.lab.enclosure import ENCLOSE, refuse_unless_able
from hostile.asked_run import own_program

ENDLESS = "1000000000"
FEW_MINUTES = 600
"""Below so many seconds FRR runs on a few networks alone: all of them take a quarter of an hour."""
FEW = ["--only", "disagree", "--only", "wedgie"]
LAB = "mount -t tmpfs tmpfs /run && ip link add one type veth peer name other"
"""What each lab does first, as far as a system may not allow it."""


@dataclasses.dataclass(frozen=True)
class Wanted:
    """How long to run, by how many processes, from which seed, how many texts `hostile/run` is to ask over at least, and the folder
    of the corpus, if that is asked about too."""

    seconds: float
    jobs: int
    seed: int
    at_least: int = 1
    corpus: Path | None = None


def steps(wanted: Wanted) -> list[list[str]]:
    """The commands that end by their time, with an equal share of the seconds for each."""
    frames = ["frames", "--texts", ENDLESS]
    run = ["run", "--at-least", str(wanted.at_least)]
    timed = [run, ["ask"], frames, [*frames, "--by", "reader"], ["solve"]]
    more = ["--jobs", str(wanted.jobs), "--seed", str(wanted.seed), "--seconds", f"{wanted.seconds / len(timed):.0f}"]
    return [[*words, *more] for words in timed]


def lab_steps(program: str, wanted: Wanted) -> list[list[str]]:
    """The commands that start FRR, each network once, or a few networks where there is little time. They take as long as they
    take."""
    more = ["--program", program, "--seed", str(wanted.seed)]
    few = FEW if wanted.seconds < FEW_MINUTES else []
    return [
        ["events", "--times", "1", "--restless", "1", *few, *more],
        ["losses", "--most", "1" if few else "2", *few, *more],
    ]


def refuse_unless_enclosed() -> None:
    """Refuses where the system does not let this process make the namespaces of a lab."""
    try:
        made = subprocess.run([*ENCLOSE, "sh", "-c", LAB], capture_output=True, check=False).returncode == 0
    except OSError:
        made = False
    if not made:
        raise Refused("the system allows no namespaces")


def run(wanted: Wanted) -> int:
    """Runs all, and says what is left out. The status of the first that fails, else 0."""
    commands = steps(wanted)
    program = own_program()
    try:
        refuse_unless_able()
        refuse_unless_enclosed()
        commands += lab_steps(program, wanted) if program else []
    except Refused as why:
        print(f"hostile/run: left out: events and losses: {why}", flush=True)
    if wanted.corpus and program:
        commands.append(["corpus", str(wanted.corpus), "--program", program])
    for name, *words in commands:
        print(f"hostile/run: hostile/{name} {' '.join(words)}", flush=True)
        status = subprocess.run([str(TOP / "hostile" / name), *words], check=False).returncode
        if status:
            print(f"hostile/run: hostile/{name} ended with status {status}", file=sys.stderr)
            return status
    return 0
