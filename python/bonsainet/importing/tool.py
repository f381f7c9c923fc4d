"""The command `bonsai-import`: a folder or files in, a text for Bonsai out, and a report of every line that changed."""
from __future__ import annotations

import argparse
import contextlib
import dataclasses
import gc
import json
import os
import re
import sys
from collections.abc import Iterator

from bonsainet.cli.command_line import ESCAPED, Refused, parser, printable, shown, write_output
from bonsainet.cli.progress import counted_off, progress
from bonsainet.importing.decisions import Decisions, apply_drops, decisions_in
from bonsainet.importing.folder import Folder, Source
from bonsainet.importing.guard import guarded
from bonsainet.importing.ignored import is_ignored
from bonsainet.importing.judge import judge
from bonsainet.importing.names import refuse_same_names
from bonsainet.importing.read import add_skip, read_folder, read_given
from bonsainet.importing.report import FAILED, TITLES, Report, report_of
from bonsainet.importing.rules import STEPS
from bonsainet.importing.rules.filters import leave_out_unused
from bonsainet.importing.rules.interfaces import leave_out_idle
from bonsainet.importing.rules.options import Options
from bonsainet.importing.scrubbing import scrub
from bonsainet.importing.suggest import skeleton
from bonsainet.ask.program import NotAnswered, Program
from bonsainet.ask.shares import meanwhile
from bonsainet.configs.text import Line, Stanza
from bonsainet.cli.words import counted

REPORT = re.compile(
    rf"({'|'.join(sorted(TITLES))}) \(\d+\)\n|{FAILED}|Judged by |\{{\n \"(program|refused)\": |\{{\"failed\": "
)
PURPOSE = """Reads the running configurations of routers (Cisco IOS, FRR) and writes one text that Bonsai reads.

Only what says the same is written otherwise; each line that did not reach the text unchanged is in the report, which goes
to standard error. Where a line can change routes and no rule can write it, nothing is written and the status is 1; a file of
decisions can drop such lines, each with a reason. docs/use/IMPORT.md lists the rules."""


def import_folder(
    name: str, program: Program, decisions: Decisions | None = None, options: Options | None = None
) -> Report:
    """Reads a folder, works through all rules and asks the program. The report's folder has the routers as they stand
    at the end."""
    with without_collection():
        return imported(read_folder(name), program, decisions, options)


def imported(
    folder: Folder, program: Program, decisions: Decisions | None = None, options: Options | None = None
) -> Report:
    """Works through all rules on a folder that was read, asks the program, and reports what changed."""
    work(folder, program, decisions, options)
    with progress("lines compared"):
        return dataclasses.replace(report_of(folder), is_scrubbed=bool(options and options.scrub))


def work(folder: Folder, program: Program, decisions: Decisions | None = None, options: Options | None = None) -> None:
    """Works through all rules on a folder that was read, and asks the program."""
    with without_collection():
        _work(folder, program, decisions, options)


@contextlib.contextmanager
def without_collection() -> Iterator[None]:
    """No search for cycles among the many lines of a folder, which have none, for the time of the context."""
    was_on = gc.isenabled()
    gc.disable()
    try:
        yield
    finally:
        if was_on:
            gc.enable()


def _work(folder: Folder, program: Program, decisions: Decisions | None, options: Options | None) -> None:
    folder.decisions = decisions or Decisions()
    folder.takes = is_ignored
    if refuse_same_names(folder):
        return
    options = options or Options()
    apply_drops(folder, guarded(folder, program, options, _excuse))
    for step in counted_off("rules worked through", len(STEPS), STEPS):
        step(folder, options)
    if options.scrub:
        scrub(folder)
    judge(folder, program, _excuse)


def _excuse(folder: Folder, router: Source, stanza: Stanza, line: Line) -> bool:
    """Whether a refused line stands where nothing has a bearing, and is left out for that."""
    return leave_out_unused(folder, router, stanza, line) or leave_out_idle(folder, router, stanza, line)


def command_line() -> argparse.ArgumentParser:
    """The tool's command line."""
    made = parser("bonsai-import", PURPOSE)
    made.add_argument(
        "given",
        nargs="+",
        metavar="FOLDER|FILE",
        help="a folder: a file for each router, one file with several, or a folder of FRR's files for each; of a Batfish snapshot `configs/` is read. "
        "Or the files themselves, - for standard input",
    )
    add_skip(made)
    made.add_argument(
        "--decisions", metavar="FILE", help="what to do with lines that no rule can write, each with a reason"
    )
    made.add_argument(
        "--own-as", action="store_true", help="give each router of a shared AS number a number of its own"
    )
    made.add_argument(
        "--stub",
        metavar="PEER=PREFIX,..",
        action="append",
        default=[],
        help="add a router at the address PEER that announces these prefixes",
    )
    made.add_argument(
        "--area",
        metavar="N",
        help="keep one area of OSPF of several: its routers, links and prefixes; the report says at its end what is lost",
    )
    made.add_argument(
        "--scrub",
        action="store_true",
        help="leave passwords, keys and communities of SNMP out of text and report, as where they leave the machine",
    )
    made.add_argument("--report", metavar="FILE", help="write the report to FILE and not to standard error")
    made.add_argument("--json", action="store_true", help="write the report as JSON")
    made.add_argument(
        "--suggest", metavar="FILE", help="write a skeleton of decisions to FILE, with one for each refused line"
    )
    return made


def _refuse_own(name: str, given: list[str], report: Report) -> None:
    """Refuses to write the report over a file that was read."""
    files = {place.file for place in report.folder.raw}
    tops = [(given[0], ""), (given[0], "configs")] if len(given) == 1 and os.path.isdir(given[0]) else [("", "")]
    own = {os.path.realpath(os.path.join(*top, file)) for file in files for top in tops}
    if name != "-" and os.path.realpath(name) in own:
        raise Refused(f"{name}: is a file that is read")


def _refuse_decisions(name: str) -> None:
    """Refuses to write a skeleton over decisions that somebody made."""
    if os.path.isfile(name):
        with open(name, encoding="utf-8", errors="replace") as file:
            if any(line.strip() and not line.startswith("#") for line in file):
                raise Refused(f"{name}: has lines that are no comments, and a skeleton would take their place")


def mark_old_report(name: str | None, is_json: bool, why: str) -> None:
    """Writes over a report of an earlier run that this one ended before its own, so that nobody takes it for that."""
    if not name or name == "-" or not os.path.isfile(name):
        return
    with open(name, "rb") as file:
        is_report = REPORT.match(file.read(200).decode("utf-8", "replace")) is not None
    if is_report:
        told = json.dumps({"failed": shown(why)}) if is_json else f"{FAILED}: {printable(why)}"
        write_output(name, f"{told}\n".encode("utf-8", ESCAPED))


def _imported_by(words: argparse.Namespace) -> Report:
    """The import that the words of the command line ask for."""
    decisions = decisions_in(words.decisions) if words.decisions else None
    program = Program()
    folder = read_given(words.given, words.skip)
    options = Options.of(words.own_as, words.stub, words.scrub, words.area)
    # (the launcher is asked which program it is while the rules work)
    _ = program.path
    with meanwhile(lambda: program.identity):
        report = imported(folder, program, decisions, options)
    return dataclasses.replace(report, program=program.identity)


def main(argv: list[str] | None = None) -> int:
    """Runs the tool."""
    with without_collection():
        return _main(argv)


def _main(argv: list[str] | None) -> int:
    made = command_line()
    words = made.parse_args(argv)
    if len(words.given) > 1 and any(os.path.isdir(name) for name in words.given):
        made.error("one folder is read, or several files and no folder")
    try:
        report = _imported_by(words)
    except (Refused, NotAnswered, OSError, KeyboardInterrupt) as fault:
        mark_old_report(words.report, words.json, str(fault) or "interrupted")
        raise
    with progress("report made"):
        told = report.json if words.json else report.text
    if words.report:
        _refuse_own(words.report, words.given, report)
        write_output(words.report, told.encode("utf-8", ESCAPED), words.decisions or "-")
    else:
        sys.stderr.write(told)
    refusals = report.folder.log.refusals
    if words.suggest:
        _refuse_own(words.suggest, words.given, report)
        _refuse_decisions(words.suggest)
        made_decisions = skeleton(report.folder, report.refused).encode("utf-8", ESCAPED)
        write_output(words.suggest, made_decisions, words.decisions or "-")
    if refusals:
        lines = counted(len(refusals), "line is", "lines are")
        raise Refused(
            f"{lines} refused, the first at {refusals[0].place}; decide them by --decisions{'' if words.suggest else ', of which --suggest FILE writes a skeleton'}"
        )
    if words.report:
        sys.stderr.writelines(f"bonsai-import: {printable(warning)}\n" for warning in report.folder.log.warnings)
    sys.stdout.write(report.folder.text)
    return 0
