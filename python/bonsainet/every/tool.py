"""bonsai-every: a command of bonsai for all classes of a network, by many processors and machines."""
from __future__ import annotations

import argparse
import sys
from pathlib import Path

from bonsainet.ask.accepted import accepted_classes, add_text
from bonsainet.ask.native import native
from bonsainet.ask.program import ALL, BONSAI, named
from bonsainet.ask.shares import meanwhile
from bonsainet.cli.command_line import name_of, parser, read_input
from bonsainet.cli.progress import is_terminal
from bonsainet.every.jobs import Lock, Where, run
from bonsainet.every.plan import PLAN, begin, make, plan

COMMANDS = ("compress", "canon", "groups", "report", "json", "certify")
PURPOSE = """Runs compress, or another command, for every class of a network and keeps each answer in a file of its own.

bonsai-all is asked, by ranges of classes that the processors share, and with --machines other machines too, by GNU parallel. An answer has its
name only when it is whole; DIR/answers.tsv has its length and checksum, DIR/index.tsv the prefixes of each class. DIR/plan.json says which program
answers, and whether it is proved. An interrupted run goes on with --resume: it asks again each class whose answer is not there as it was."""


def words() -> argparse.ArgumentParser:
    """The words of the command line."""
    made = parser("bonsai-every", PURPOSE)
    add_text(made)
    made.add_argument(
        "folder", metavar="DIR", type=Path, help="where the answers go: a folder that is empty or not there"
    )
    made.add_argument(
        "--command", choices=COMMANDS, default="compress", help="what is asked for each class (default: compress)"
    )
    made.add_argument(
        "--then",
        metavar="SHELL",
        default="",
        help="a shell command that reads each answer and whose output is kept in its place; CLASS is the number",
    )
    made.add_argument("--resume", action="store_true", help="go on with an interrupted run, and ask again what failed")
    made.add_argument(
        "--jobs",
        metavar="J",
        help="how many processes at a time, with --machines on each machine, as parallel takes it (default: one a processor)",
    )
    made.add_argument(
        "--machines",
        metavar="HOST,..",
        help="run on these machines, as parallel takes them behind --sshlogin; `:` is this one. Program and text are copied to each once",
    )
    made.add_argument("--ssh", metavar="COMMAND", help="the ssh command, with its options")
    made.add_argument(
        "--no-progress", action="store_true", help="no progress bar, as where standard error is no terminal"
    )
    return made


def main(argv: list[str] | None = None) -> int:
    """Runs the tool."""
    return work(words().parse_args(argv))


def work(arguments: argparse.Namespace) -> int:
    """Plans and runs the jobs. The status is 1 where a job failed."""
    where = Where(arguments.machines, arguments.ssh, arguments.jobs, is_terminal() and not arguments.no_progress)
    where.must_fit()
    program = named(ALL)
    raw = read_input(arguments.file)
    with meanwhile(lambda: program.identity):
        classes = accepted_classes(named(BONSAI), raw, name_of(arguments.file))
    executable = native(program)
    make(arguments.folder, arguments.resume)
    with Lock(arguments.folder) as lock:
        if arguments.resume and not (arguments.folder / PLAN).exists():
            tell(f"{arguments.folder}: no {PLAN} is there, so no class was asked: the run begins with the first")
        made = plan(program, raw, classes, arguments.command, arguments.then)
        begin(arguments.folder, made, classes, raw)
        if not classes:
            tell("the network has no class, so nothing is asked")
            return 0
        failures = run(arguments.folder, made, executable, where, lock)
    others = f"; the files {arguments.folder}/class-N.*.err say why the others were not" if failures else ""
    tell(f"{len(classes) - failures} of {len(classes)} answered{others}")
    return 1 if failures else 0


def tell(told: str) -> None:
    """Writes a line to standard error."""
    print(f"bonsai-every: {told}", file=sys.stderr, flush=True)
