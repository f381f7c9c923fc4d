"""What is measured of a run, and how often: programs take turns, and the least figure of each counts."""
from __future__ import annotations

import dataclasses
import os
import re
import subprocess
from collections.abc import Callable
from pathlib import Path

from bonsainet.bench.paper import asked as timed_answer
from bonsainet.cli.command_line import Refused

SLOWER, FASTER = 1.05, 0.9
SHORT, SHORT_TURNS = 0.05, 2
LONG = 45.0
MORE_TURNS = 4


@dataclasses.dataclass(frozen=True)
class Run:
    """A command on a network of a size that was asked for.

    `bytes` are read and written. `load` is the machine's load when the figures were kept.
    """

    size: int
    command: str
    routers: int
    links: int
    classes: int
    bytes: int
    turns: int
    load: float


@dataclasses.dataclass(frozen=True)
class Measure:
    """What is measured of a run: its name, its unit, how a figure is written, from which figure on two are compared,
    and which difference counts.

    `of` gives the figure that is compared first, and figures that are only kept behind it.
    """

    name: str
    unit: str
    form: str
    compared_from: float
    resolved: float
    of: Callable[[Path, list[str]], tuple[float, ...]]

    def is_more(self, before: float, after: float) -> bool:
        """Whether the later figure is worse by more than chance."""
        return after > SLOWER * before and after - before > self.resolved


def seconds(program: Path, asked: list[str]) -> tuple[float, float]:
    """The processor seconds of one run, and those that the kernel books to the user. Refused where its status is not 0.

    The sum is exact. A kernel that divides it by what it finds at each tick of its clock, every 4 ms here, gives parts
    that are off by several ticks.
    """
    with open(os.devnull, "wb") as sink:
        ran = subprocess.Popen([program, *asked], stdin=subprocess.DEVNULL, stdout=sink, stderr=sink)
        _, status, used = os.wait4(ran.pid, 0)
    ran.returncode = os.waitstatus_to_exitcode(status)
    if ran.returncode:
        raise Refused(f"{program} {' '.join(asked)}: status {ran.returncode}")
    return used.ru_utime + used.ru_stime, used.ru_utime


def resident(program: Path, asked: list[str]) -> tuple[float]:
    """The most memory that is resident in one run, in MiB."""
    return (timed_answer(program, *asked)[2],)


def instructions(program: Path, asked: list[str]) -> tuple[float]:
    """The instructions of one run, in millions, which other load does not change. Refused where its status is not 0."""
    ran = subprocess.run(
        ["valgrind", "--tool=callgrind", "--callgrind-out-file=/dev/null", program, *asked],
        stdin=subprocess.DEVNULL,
        stdout=subprocess.DEVNULL,
        stderr=subprocess.PIPE,
        check=False,
    )
    found = re.search(rb"Collected : (\d+)", ran.stderr)
    if ran.returncode or not found:
        raise Refused(f"{program} {' '.join(asked)}: status {ran.returncode}")
    return (int(found[1]) / 1e6,)


SECONDS = Measure("turns", "s", ".4f", 0.005, 0.001, seconds)
INSTRUCTIONS = Measure("instructions", "million instructions", ".1f", 0, 0.0, instructions)
MEMORY = Measure("memory", "MiB", ".1f", 0, 0.5, resident)


def in_turn(
    programs: list[Path], asked: list[list[str]], runs: int, measure: Measure
) -> list[tuple[tuple[tuple[float, ...], ...], int]]:
    """For each of some commands the least figures of each program, and the number of turns that found them.

    In a turn all have a run, so that all meet the same load. From turn to turn they run in the other order, so that
    none always comes first.
    """
    found: list[list[tuple[tuple[float, ...], ...]]] = [[] for _ in asked]
    while wanting := [place for place, turns in enumerate(found) if len(turns) < wanted(turns, runs, measure)]:
        for place in wanting:
            found[place].append(turn(programs, asked[place], measure, len(found[place]) % 2 == 1))
    return [(least(turns), len(turns)) for turns in found]


def turn(programs: list[Path], asked: list[str], measure: Measure, is_backward: bool) -> tuple[tuple[float, ...], ...]:
    """The figures of one run of each program, in the order of the programs, whichever ran first."""
    order = reversed(programs) if is_backward else programs
    figures = [measure.of(program, asked) for program in order]
    return tuple(reversed(figures) if is_backward else figures)


def least(found: list[tuple[tuple[float, ...], ...]]) -> tuple[tuple[float, ...], ...]:
    """Of each program the least of each figure."""
    return tuple(
        tuple(min(figures) for figures in zip(*of_program, strict=True)) for of_program in zip(*found, strict=True)
    )


def wanted(found: list[tuple[tuple[float, ...], ...]], runs: int, measure: Measure) -> int:
    """How many turns there are to be, after those that are found.

    Short runs get more turns, long ones fewer. There are more until the last program is faster by a tenth, since chance
    only adds: the least figures of both come down. So neither a random difference nor one that noise hides is taken
    for granted.
    """
    if not found or measure.name != SECONDS.name:
        return runs
    spent = sum(figures[0] for turn in found for figures in turn)
    if spent > LONG:
        return len(found)
    now = least(found)
    usual = runs * (SHORT_TURNS if now[0][0] < SHORT else 1)
    first, last = now[0][0], now[-1][0]
    is_doubtful = len(found) >= usual and last > FASTER * first
    return usual * MORE_TURNS if is_doubtful else usual
