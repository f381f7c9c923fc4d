"""bench/all: every measurement of two states of the program, kept, and the pages and plots made from it."""
from __future__ import annotations

import argparse
import importlib.util
import os
import shutil
import subprocess
import sys
import time
from pathlib import Path
from types import ModuleType

from bonsainet.ask.program import TOP, NotAnswered
from bonsainet.bench import paper, plot, profile, questions, tools, turns
from bonsainet.bench.checkouts import checkout_around
from bonsainet.bench.states import add_named, names_of, program_at
from bonsainet.cli.command_line import Refused, parser

TOOL_RUNS = "3"
Step = tuple[ModuleType, list[str]]


def words() -> argparse.ArgumentParser:
    """The words of the command line."""
    made = parser(
        "all",
        "Measures two states of the program: `bench/turns --keep`, the same with --memory and with --instructions, `bench/profile --keep`, and of the state after `bench/paper --keep` and"
        " `bench/turns --questions --keep`; of the checkouts in which the programs were built `bench/tools --keep`, which takes some six minutes of the time;"
        " then `bench/plot` writes the plots and the tables of the pages. A run that ended early goes on where it was, except for the tools. Takes about twenty minutes, and longer where"
        " many rows of the states differ: these get more turns.",
    )
    states = "the state before, and the state after: programs that ./build proved, or others with a file PROGRAM.made: how it was made, and its SHA-256 (a line each)"
    made.add_argument("programs", nargs=2, type=Path, metavar="PROGRAM", help=states)
    add_named(made)
    made.add_argument(
        "--ask",
        type=Path,
        metavar="PROGRAM",
        help="the program bonsai-ask: measures `bench/asked` too, with the state after, and as root FRR",
    )
    made.add_argument("--runs", type=int, default=5, help="turns of `bench/turns` (default: %(default)s)")
    made.add_argument("--anew", action="store_true", help="measure again what is kept of these programs")
    return made


def main(argv: list[str] | None = None) -> None:
    """Runs the tool."""
    work(words().parse_args(argv))


def work(arguments: argparse.Namespace) -> None:
    """Measures, keeps and writes. What a later step needs is looked for before the first. A step that is refused keeps
    no other from its work, and is reported at the end."""
    if missing := packages(bool(arguments.ask)):
        raise Refused(f"programs or modules are not there: install the packages {', '.join(missing)}")
    questions.programs_of(program_at(arguments.programs[1]))
    failed = []
    for tool, asked in steps(arguments):
        started, name = time.monotonic(), tool.__name__.rpartition(".")[2]
        try:
            tool.work(tool.words().parse_args(asked))
        except (Refused, NotAnswered, OSError) as why:
            failed.append(f"{name}: {why}")
        print(f"all: {name} {' '.join(asked)}: {time.monotonic() - started:.0f} s", file=sys.stderr)
    if arguments.ask:
        failed += figure(arguments.programs[1], arguments.ask)
    if failed:
        raise Refused("; ".join(failed))


def figure(bonsai: Path, ask: Path) -> list[str]:
    """Measures one question over large networks and small ones, and writes its table and its plot, also without FRR. What
    fails of this, in words."""
    programs = ["--bonsai", str(program_at(bonsai)), "--ask", str(program_at(ask))]
    calls = [[*programs, "--keep"], [*programs, "--frr"], ["--draw"]]
    failed: list[str] = []
    for words in [call for call in calls if "--frr" not in call or os.geteuid() == 0]:
        status = subprocess.run([TOP / "bench" / "asked", *words], check=False).returncode
        failed += [f"bench/asked {' '.join(words)}: status {status}"] if status else []
        if status and "--keep" in words:
            break
    return failed


def packages(asks: bool) -> list[str]:
    """The packages of what is not there, of all that the steps need, `bench/asked` among them if it is to run."""
    needed = {
        "linux-perf": shutil.which("perf"),
        "time": os.access(paper.TIME, os.X_OK),
        "valgrind": shutil.which("valgrind"),
        "python3-matplotlib": importlib.util.find_spec("matplotlib"),
        "graphviz": shutil.which("dot"),
        "python3-graphviz": importlib.util.find_spec("graphviz"),
        "python3-jinja2": importlib.util.find_spec("jinja2"),
        "z3": not asks or shutil.which("z3"),
    }
    return [package for package, found in needed.items() if not found]


def steps(arguments: argparse.Namespace) -> list[Step]:
    """The tools and their words, in order."""
    programs = [program_at(program) for program in arguments.programs]
    names = names_of(arguments.named, programs)
    both = [*map(str, programs), "--keep", "--named", ",".join(names)]
    anew = ["--anew"] if arguments.anew else []
    return [
        (turns, [*both, *anew, "--runs", str(arguments.runs)]),
        (turns, [*both, *anew, "--memory", "--runs", "3"]),
        (turns, [*both, *anew, "--instructions"]),
        (profile, both),
        (paper, ["--keep", "--program", str(programs[1]), "--named", names[1]]),
        (turns, [str(programs[1]), "--questions", "--keep", "--runs", str(arguments.runs), "--named", names[1]]),
        *of_tools(programs, names),
        (plot, []),
    ]


def of_tools(programs: list[Path], names: list[str]) -> list[Step]:
    """The step that measures the tools of the checkouts in which the programs were built: of both, or of the state after alone.
    None where that program is elsewhere."""
    places = [checkout_around(program) for program in programs]
    for program in [program for program, place in zip(programs, places, strict=True) if not place]:
        print(f"all: {program}: is in no checkout, so no tools of that state are measured", file=sys.stderr)
    if not places[-1]:
        return []
    known = [(str(place), name) for place, name in zip(places, names, strict=True) if place]
    named = ",".join(name for _, name in known)
    return [(tools, [*(place for place, _ in known), "--keep", "--runs", TOOL_RUNS, "--named", named])]
