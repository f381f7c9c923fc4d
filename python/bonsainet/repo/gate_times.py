"""Processor minutes of a run of the gate: for each crate its proof, its tests and its must-fail edits. What no look saw stands in a line of its own."""
from __future__ import annotations

import argparse
import json
import shutil
import signal
import sys
import time
from collections.abc import Callable
from pathlib import Path
from typing import Any

from bonsainet.cli import command_line
from bonsainet.repo import building
from bonsainet.cli.command_line import Refused
from bonsainet.repo.proof_run import PARTS


def clocked() -> Callable[[str], None]:
    """Writes lines, each with the minute and second since now at its head."""
    start = time.monotonic()

    def write(line: str) -> None:
        minutes, seconds = divmod(int(time.monotonic() - start), 60)
        print(f"{minutes:3}:{seconds:02} {line}", end="", flush=True)

    return write


def table(found: dict[str, Any]) -> str:
    """The table: a line for each crate in processor minutes, the dearest first, then what no look saw, and the
    whole."""
    crates: dict[str, dict[str, float]] = found["crates"]
    lines = [f"{'crate':<24}{'proof':>8}{'tests':>8}{'edits':>8}{'number':>8}{'all':>8}"]

    def line(name: str, parts: list[float], number: int) -> str:
        return (
            f"{name:<24}" + "".join(f"{seconds / 60:8.1f}" for seconds in parts) + f"{number:8}{sum(parts) / 60:8.1f}"
        )

    for name, parts in sorted(crates.items(), key=lambda it: -sum(it[1].values())):
        lines.append(line(name, [parts[part] for part in PARTS], found["edits"].get(name, 0)))
    sums = [sum(parts[part] for parts in crates.values()) for part in PARTS]
    lines.append(line("all crates", sums, sum(found["edits"].values())))
    rest = max(found["processor_seconds"] - sum(sums), 0)
    lines.append(f"{'what no look saw':<48}{'':8}{rest / 60:8.1f}")
    lines.append(f"{'the run':<48}{'':8}{found['processor_seconds'] / 60:8.1f}")
    lines.append(
        f"rt {' '.join(found['words'])}: status {found['status']}, {found['minutes']:.0f} minutes; the columns are processor minutes, number is of edits"
    )
    return "\n".join(lines) + "\n"


def main(words: list[str] | None = None) -> None:
    """The command line of dev/gate-times."""
    given = command_line.parser("gate-times", __doc__ or "")
    verbs = given.add_subparsers(dest="verb", required=True)
    run = verbs.add_parser(
        "run",
        help="run the gate as `./build --gate` does, each line with its minute and second, and print the table after them",
    )
    run.add_argument("--keep", metavar="FILE", help="keep the figures in a file of your own too, for `table`")
    again = verbs.add_parser("table", help="print the table of figures that were kept")
    again.add_argument(
        "file",
        metavar="FILE",
        nargs="?",
        help="the file (default: that of the last run of the gate or of ./build, out/gate-times.json)",
    )
    given.epilog = "Exit status: 0 done; 1 not proved, or no kit; 2 the words are wrong; 3 a file could not be read or written; 130 interrupted."
    asked = given.parse_args(words)
    # (so that rt ends too)
    for ending in (signal.SIGTERM, signal.SIGHUP):
        signal.signal(ending, lambda number, _: sys.exit(128 + number))
    carry_out(asked)


def carry_out(asked: argparse.Namespace) -> None:
    """Runs and reports, or reports again."""
    if asked.verb == "table":
        print(table_of(Path(asked.file or building.FIGURES)), end="")
        return
    building.FIGURES.unlink(missing_ok=True)
    try:
        building.gate(clocked())
    finally:
        if building.FIGURES.is_file():
            if asked.keep:
                shutil.copyfile(building.FIGURES, asked.keep)
            print(table_of(building.FIGURES), end="", flush=True)


def table_of(file: Path) -> str:
    """The table of a file of figures."""
    try:
        return table(json.loads(file.read_text("utf-8")))
    except (ValueError, KeyError, TypeError, AttributeError) as fault:
        raise Refused(f"{file}: these are not figures of a run of the gate") from fault
