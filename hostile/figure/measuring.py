"""Processor seconds for `route '*'` by a solver and by programs, and what FRR takes to come to rest."""

from __future__ import annotations

import contextlib
import dataclasses
import resource
import subprocess
import tempfile
from collections.abc import Iterator
from pathlib import Path

from bonsainet.ask.program import Program, Size
from bonsainet.cli.command_line import Refused
from bonsainet.configs.network import read_network
from bonsainet.exporting import frr
from bonsainet.lab.enclosure import refuse_unless_small, run_plan
from bonsainet.lab.plan import plan_of
from hostile.figure.networks import Family
from hostile.judge import answers
from hostile.judge.problem import Network
from hostile.judge.questions import class_of
from hostile.judge.rests import Down
from hostile.solver.smt import PROGRAM
from hostile.solver.solving import route_texts

MOST_SECONDS = 60
MOST_MEMORY = 8 << 30
MOST_ON_FRR = 200
FRR_SECONDS = 240
QUIET = 4.0
GAVE_UP = float("inf")


class Disagreement(Exception):
    """Two of those that were asked answer otherwise."""


@dataclasses.dataclass
class Row:
    """A network before and after `compress`: its sizes, and processor seconds of each. None: not tried; infinite: given
    up after a minute. Those of FRR are of all daemons together until they rest, and may be more than a minute; `rest` is by
    the clock, and given up after four minutes."""

    family: str
    size: int
    routers: int
    links: int
    groups: int
    links_after: int
    answer: str
    compress: float | None
    solver: float | None
    solver_after: float | None
    ask: float | None
    ask_after: float | None
    frr: float | None = None
    frr_after: float | None = None
    rest: float | None = None
    rest_after: float | None = None


def ran(words: list[str]) -> tuple[str, float]:
    """What a program writes, and its processor seconds; infinite ones where it was given up."""
    before = resource.getrusage(resource.RUSAGE_CHILDREN)
    done = subprocess.run(words, capture_output=True, text=True, check=False, preexec_fn=_limited)
    after = resource.getrusage(resource.RUSAGE_CHILDREN)
    if done.returncode < 0:
        return "", GAVE_UP
    return done.stdout, after.ru_utime + after.ru_stime - before.ru_utime - before.ru_stime


def _limited() -> None:
    resource.setrlimit(resource.RLIMIT_CPU, (MOST_SECONDS, MOST_SECONDS))


def by_solver(text: str, prefix: str) -> tuple[str, float]:
    """The answer of Z3, and its processor seconds. Those that Python takes to write the formulas are not counted."""
    net = answers.read(text.encode())
    number = class_of(net, prefix) if isinstance(net, Network) else None
    if number is None or not isinstance(net, Network):
        raise Refused(f"no class has {prefix}")
    told, seconds = [], 0.0
    for formulas in route_texts(net, number, Down()):
        with tempfile.NamedTemporaryFile("w", suffix=".smt2") as file:
            file.write(formulas)
            file.flush()
            out, took = ran([PROGRAM, f"-memory:{MOST_MEMORY >> 20}", file.name])
        seconds += took
        told.append(out.strip())
        if told[-1] not in ("sat", "unsat"):
            return "", GAVE_UP
        if told == ["sat"]:
            return "no", seconds
    return "yes" if told[-1] == "sat" else "none", seconds


def by_program(program: Path, text: str, prefix: str) -> tuple[str, float]:
    """The answer of `bonsai-ask`, and its processor seconds."""
    with _file_of(text) as name:
        out, seconds = ran([str(program), name, prefix, "route", "*"])
    return (out.split()[2] if out else ""), seconds


@dataclasses.dataclass(frozen=True)
class Compressed:
    """A class of a text: its sizes before and after `compress`, what that writes, and its processor seconds."""

    size: Size
    text: str
    seconds: float


def compressed(bonsai: Path, text: str, prefix: str) -> Compressed:
    """The class of a prefix, compressed."""
    program = Program(str(bonsai))
    number = next(found.number for found in program.classes(text) if prefix in found.prefixes)
    with _file_of(text) as name:
        out, seconds = ran([str(bonsai), "compress", name, str(number)])
    return Compressed(program.size(text, number), out, seconds)


@contextlib.contextmanager
def _file_of(text: str) -> Iterator[str]:
    with tempfile.NamedTemporaryFile("w", suffix=".cfg") as file:
        file.write(text)
        file.flush()
        yield file.name


def on_frr(text: str, prefix: str) -> tuple[float, float]:
    """The processor seconds of all daemons, and the seconds by the clock, until FRR rests. Refused where there is no memory
    for so many routers."""
    network = read_network(text, "F")
    plan = plan_of(network, frr.export(network, with_lab_timers=True), [prefix])
    refuse_unless_small(len(plan.routers))
    try:
        record = run_plan(plan, FRR_SECONDS, QUIET)
    except Refused:
        return GAVE_UP, GAVE_UP
    return record["work"], record["rest"]


def measured(bonsai: Path, ask: Path, family: Family, size: int, before: Row | None, known: Row | None = None) -> Row:
    """The row of a size. What was given up at the size before is not tried again; what the solver took in a known row is
    taken from there, unless it was given up. Disagreement where answers differ."""
    text, prefix = family.text(size), family.prefix
    small = compressed(bonsai, text, prefix)
    told: dict[str, str] = {}
    found: dict[str, float | None] = {}
    for name, given in (("", text), ("_after", small.text)):
        for who in ("solver", "ask"):
            if before and getattr(before, who + name) in (None, GAVE_UP):
                found[who + name] = None
                continue
            if who == "solver":
                answer, seconds = _known_to_solver(known, name) or by_solver(given, prefix)
            else:
                answer, seconds = by_program(ask, given, prefix)
            found[who + name] = seconds
            if seconds != GAVE_UP:
                told[who + name] = answer
    if len(set(told.values())) > 1:
        raise Disagreement(f"{family.name} {size}: {told}")
    of = small.size
    return Row(
        family.name, size, of.routers, of.links, of.groups, of.links_after, next(iter(told.values()), ""), small.seconds,
        found["solver"], found["solver_after"], found["ask"], found["ask_after"],
    )  # fmt: skip


def with_frr_of(row: Row, known: Row | None) -> Row:
    """A row with what FRR took by a known one: that depends on no program that is measured."""
    if known is None:
        return row
    told = {name: getattr(known, name) for name in ("frr", "frr_after", "rest", "rest_after")}
    return dataclasses.replace(row, **told)


def _known_to_solver(known: Row | None, name: str) -> tuple[str, float] | None:
    """The answer and the seconds that a row has of the solver, or None."""
    seconds = getattr(known, f"solver{name}") if known else None
    return None if not known or seconds in (None, GAVE_UP) else (known.answer, seconds)


def measure_programs(bonsai: Path, ask: Path, family: Family, row: Row) -> None:
    """Puts into a row what `compress` and `bonsai-ask` take. Disagreement where the answer is another one."""
    text = family.text(row.size)
    small = compressed(bonsai, text, family.prefix)
    answer, row.ask = by_program(ask, text, family.prefix)
    answer_after, row.ask_after = by_program(ask, small.text, family.prefix)
    row.compress = small.seconds
    if {answer, answer_after} != {row.answer}:
        raise Disagreement(f"{family.name} {row.size}: {row.answer}, now {answer} and {answer_after}")


def is_for_frr(routers: int, smaller: float | None) -> bool:
    """Whether FRR is started: in a lab that is not too large, where it was started at the size before and took no minute."""
    return routers <= MOST_ON_FRR and smaller is not None and smaller <= MOST_SECONDS


def measure_frr(bonsai: Path, family: Family, row: Row, before: Row | None) -> bool:
    """Puts into a row what FRR takes to rest after `compress` and before it, where that is not known. `before` is the row of the
    size before. Whether something was put there. Refused where there is no memory for the lab: what was put stays."""
    was = dataclasses.replace(row)
    if row.frr_after is None and is_for_frr(row.groups, before.frr_after if before else 0.0):
        small = compressed(bonsai, family.text(row.size), family.prefix)
        row.frr_after, row.rest_after = on_frr(small.text, family.prefix)
    if row.frr is None and is_for_frr(row.routers, before.frr if before else 0.0):
        row.frr, row.rest = on_frr(family.text(row.size), family.prefix)
    return row != was
