"""`hostile/run`: its words, its log and its statuses."""
from __future__ import annotations

import argparse
import hashlib
import sys
from pathlib import Path

from hostile import everything, running
from hostile.asking import Asker, Counts
from hostile.begun import log_of, seed_of, words_given
from bonsainet.ask.where import NoProgram
from bonsainet.cli.command_line import Refused


def words() -> argparse.ArgumentParser:
    """The words of `hostile/run`."""
    parser = argparse.ArgumentParser(
        prog="hostile/run", description="Ask the program and the second reader over made texts, and tell what differs."
    )
    parser.add_argument("--seconds", type=float, default=20, help="how long (default 20)")
    parser.add_argument("--jobs", type=int, default=2, help="how many processes (default 2)")
    parser.add_argument("--commands", type=int, help="end when so many commands were asked")
    parser.add_argument(
        "--processor-seconds",
        type=float,
        help="end when the jobs and the program used so much, as on a machine that others use too",
    )
    parser.add_argument(
        "--at-least", type=int, default=1, metavar="TEXTS", help="status 1 where fewer texts were asked (default 1)"
    )
    parser.add_argument("--first", action="store_true", help="end at the first difference")
    parser.add_argument(
        "--unshrunk",
        action="store_true",
        help="keep texts that differ as they were made, in place of the smallest that still differs",
    )
    parser.add_argument(
        "--seed", type=int, help="the seed, a number; the same seed makes the same texts in the same order"
    )
    parser.add_argument(
        "--keep", type=Path, default=Path("out/hostile"), help="the folder for texts that differ (default out/hostile)"
    )
    parser.add_argument(
        "--log",
        type=Path,
        help="a file that gets the counts as a line of JSON each minute and at the end, behind what it had",
    )
    parser.add_argument(
        "--answers",
        type=Path,
        help="a file that keeps the program's answers, so that later runs over the same texts do not ask it again",
    )
    parser.add_argument(
        "--all",
        action="store_true",
        help="share the seconds with hostile/ask, hostile/frames and hostile/solve, and where FRR can be started run"
        " hostile/events and hostile/losses once behind them, below ten minutes over two networks; the other options but --jobs,"
        " --seed, --at-least and --corpus say nothing then",
    )
    parser.add_argument(
        "--corpus", type=Path, metavar="FOLDER", help="with --all: ask hostile/corpus too about what FOLDER has"
    )
    parser.add_argument("--text", type=Path, help="ask over this text alone, with --seed")
    parser.add_argument(
        "--only", type=int, metavar="NUMBER", help="ask over the text of this number alone, as a difference names it"
    )
    return parser


def main(arguments: list[str] | None = None) -> int:
    """Status 0 without a difference, 1 with one or without a program, 2 for wrong words, 3 where a file can't be read or made."""
    parser = words()
    given = words_given(parser, arguments)
    try:
        Asker().close()
    except (Refused, NoProgram) as why:
        parser.exit(1, f"hostile/run: refused: {why}\n")
    seed = seed_of(given)
    if given.all:
        return everything.run(
            everything.Wanted(given.seconds, given.jobs, seed, given.at_least, given.corpus and given.corpus.resolve())
        )
    if given.only is not None:
        return _told(running.differences(Asker(), running.text_of(given.only), given.only, Counts()))
    if given.text:
        return _alone(parser, given.text, seed)
    plan = running.Plan(
        seed,
        given.seconds,
        given.jobs,
        given.keep,
        given.commands,
        given.first,
        given.answers,
        given.processor_seconds,
        given.unshrunk,
    )
    print(f"seed {seed}", flush=True)
    told = {"seed": seed, "jobs": plan.jobs, "for_seconds": plan.seconds, "program_sha256": sum_of_program()}
    with log_of(parser, given, **told) as log:
        found, seconds = running.run(plan, log)
    print(running.report(found, seconds, plan.jobs), end="")
    if found.runs < given.at_least:
        print(f"hostile/run: {found.runs} texts were asked, and {given.at_least} are wanted", file=sys.stderr)
    return 1 if found.differences or found.runs < given.at_least else 0


def sum_of_program() -> str:
    """The SHA-256 sum of the program that is asked."""
    program = Asker()
    program.close()
    return hashlib.sha256(Path(program.path).read_bytes()).hexdigest()


def _alone(parser: argparse.ArgumentParser, file: Path, seed: int) -> int:
    try:
        differ = running.differences(Asker(), file.read_bytes(), seed, Counts())
    except OSError as fault:
        parser.exit(3, f"hostile/run: {file}: {fault.strerror}\n")
    return _told(differ)


def _told(differ: list[running.Difference]) -> int:
    print(
        "\n".join(f"{one.command}: expected {one.expected}\nanswered {one.answered}" for one in differ)
        or "no difference"
    )
    return 1 if differ else 0
