"""The command `bonsai-export`."""
from __future__ import annotations

import contextlib
import dataclasses
import json
import os
import shutil
import sys
from pathlib import Path
from typing import Any

from bonsainet.configs.change import Change
from bonsainet.ask.accepted import accepted_text
from bonsainet.cli.command_line import (
    Refused,
    beside,
    kept,
    name_of,
    parser,
    printable,
    read_input,
    refuse_source,
    writing,
)
from bonsainet.exporting import batfish, frr, ios
from bonsainet.exporting.writer import Exported, NotExported
from bonsainet.configs.network import read_network
from bonsainet.ask.program import Program
from bonsainet.ask.where import Identity, judged_by
from bonsainet.cli.words import counted


def main(argv: list[str] | None = None) -> int:
    """Writes one configuration for each router of a text, in the syntax of a target, and reports what it changed."""
    made = parser(
        "bonsai-export",
        main.__doc__ or "",
        epilog="exit status: 0 done, 1 refused, 2 usage, 3 read fault, 4 write fault; see docs/use/EXPORT.md",
    )
    made.add_argument("--to", choices=("frr", "ios", "batfish"), required=True, help="the target")
    made.add_argument(
        "--switches", action="store_true", help="ios: the devices are switches, whose ports need `no switchport`"
    )
    made.add_argument("--report", metavar="FILE", help="write the report to FILE and not to standard error")
    made.add_argument("--json", action="store_true", help="write the report as JSON")
    made.add_argument("text", metavar="TEXT", help="a text that bonsai accepts, or - for standard input")
    made.add_argument("folder", metavar="FOLDER", help="a folder that is not there yet, or is empty")
    words = made.parse_args(argv)
    if words.switches and words.to != "ios":
        made.error("--switches goes with --to ios")
    text = read_input(words.text)
    name = name_of(words.text)
    program = Program()
    network = read_network(accepted_text(program, text, name), name)
    try:
        exported = (
            ios.export(network, words.switches)
            if words.to == "ios"
            else {"frr": frr, "batfish": batfish}[words.to].export(network)
        )
    except NotExported as cause:
        raise Refused(str(cause)) from None
    folder = Path(words.folder)
    report = json_text(exported, program.identity) if words.json else report_text(exported, program.identity)
    if words.report and Path(words.report).resolve().is_relative_to(folder.resolve()):
        raise Refused(f"{words.report}: the report goes beside {folder}, not into it")
    if words.report:
        refuse_source(words.report, words.text)
    with kept(words.report, report.encode()) if words.report else contextlib.nullcontext():
        write_folder(folder, exported.files)
    if not words.report:
        sys.stderr.write(report)
    print(f"{counted(len(exported.files), 'configuration')} in {words.folder}")
    return 0


def write_folder(folder: Path, files: dict[str, str]) -> None:
    """Writes all files, or none. Refused where the folder holds something. A folder that is there stays the same one."""
    with writing(folder):
        if folder.exists() and (not folder.is_dir() or any(folder.iterdir())):
            raise Refused(f"{folder}: not an empty folder")
    whole = Path(os.path.abspath(folder))
    partial = Path(beside(whole))
    try:
        with writing(folder):
            partial.mkdir()
            for name, text in files.items():
                place = partial / name
                place.parent.mkdir(parents=True, exist_ok=True)
                place.write_text(text)
            if whole.is_dir():
                _move_all(partial, whole)
            else:
                os.rename(partial, whole)
    finally:
        shutil.rmtree(partial, ignore_errors=True)


def _move_all(source: Path, to: Path) -> None:
    """Moves what a folder holds to another, all or nothing."""
    moved = []
    try:
        for path in sorted(source.iterdir()):
            os.rename(path, to / path.name)
            moved.append(to / path.name)
    except OSError:
        for path in moved:
            os.rename(path, source / path.name)
        raise


def report_text(exported: Exported, program: Identity) -> str:
    """What changed and what the target may take otherwise, rule by rule: its reason, and each line by its place. At the end which program read the text."""
    return f"{_by_rule('Lines', exported.changes)}{_by_rule('Doubts', exported.doubts)}{judged_by(program)}\n"


def _by_rule(title: str, changes: list[Change]) -> str:
    by_rule: dict[str, list[Change]] = {}
    for change in changes:
        by_rule.setdefault(change.rule, []).append(change)
    lines = [f"{title} ({len(changes)})"] if changes else []
    for rule, own in by_rule.items():
        lines.append(f"{rule}: {own[0].reason}")
        lines += [printable(f"  {change.place}: {told(change)}") for change in own]
    return "".join(f"{line}\n" for line in lines)


def told(change: Change) -> str:
    """A change in words."""
    after = ", ".join(f"`{line}`" for line in change.after)
    if change.after == (change.before,):
        return f"`{change.before}`"
    if not change.before:
        return f"added {after}"
    return f"`{change.before}` became {after}" if change.after else f"left out `{change.before}`"


def _plain(change: Change) -> dict[str, Any]:
    return dataclasses.asdict(change) | {"place": change.place._asdict()}


def json_text(exported: Exported, program: Identity) -> str:
    """Files, changes and doubts as JSON, and which program read the text."""
    record = {
        "form": 1,
        "program": program.plain,
        "files": sorted(exported.files),
        "changes": [_plain(change) for change in exported.changes],
        "doubts": [_plain(change) for change in exported.doubts],
    }
    return json.dumps(record) + "\n"
