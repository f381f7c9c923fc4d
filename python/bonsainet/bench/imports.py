"""bench/imports: the processor seconds, the time and the memory of `bonsai-import` over large folders that it makes.

The import is that of this clone, or of others that are named; all take turns on a folder, and the least of several runs
counts.
"""
from __future__ import annotations

import argparse
import csv
import dataclasses
import io
import os
import tempfile
import time
from collections.abc import Callable
from pathlib import Path

from bonsainet.ask.program import TOP, Program
from bonsainet.bench.states import machine, with_compiled
from bonsainet.bench.taken import taken
from bonsainet.cli.command_line import Refused, parser, write_output
from bonsainet.nets.campus import campus_text
from bonsainet.nets.fat_tree import fat_tree_text
from bonsainet.nets.running import write_running
from bonsainet.repo.marks import with_measured

KEPT = TOP / "bench" / "measured" / "imports.csv"
PAGE = TOP / "docs" / "inside" / "MEASURED.md"
IDLE_PORTS = 24
ACCESS = 18


@dataclasses.dataclass(frozen=True)
class Folder:
    """A folder: its name, and the function that writes it and gives its lines."""

    name: str
    write: Callable[[Path], int]


@dataclasses.dataclass(frozen=True)
class Row:
    """An import of a folder by a state. `seconds` are those of processors, of user and system together, with those of the
    program that judges; `wall` is the time; memory is the most that was resident, in MiB."""

    network: str
    state: str
    files: int
    lines: int
    seconds: float
    wall: float
    memory: float
    load: float


def campus(blocks: int) -> Callable[[Path], int]:
    """A campus of so many blocks, whose switches have ports that carry no route."""
    return lambda room: write_running(campus_text(blocks, ACCESS), room, IDLE_PORTS)


def fat_tree(size: int) -> Callable[[Path], int]:
    """A fat tree of a size."""
    return lambda room: write_running(fat_tree_text(size), room)


FOLDERS = (Folder("fat tree", fat_tree(20)), Folder("campus", campus(100)))
QUICK = (Folder("fat tree", fat_tree(4)), Folder("campus", campus(1)))


def words() -> argparse.ArgumentParser:
    """The words of the command line."""
    made = parser("imports", "Measures bonsai-import over large folders of running configurations, which it makes.")
    made.add_argument("--runs", type=int, default=1, help="runs of each, of which the least counts (default: 1)")
    made.add_argument("--quick", action="store_true", help="small folders, to try it")
    made.add_argument("--keep", action="store_true", help="keep what is measured, and write the table of MEASURED.md")
    made.add_argument(
        "--state",
        metavar="NAME=CLONE",
        action="append",
        default=[],
        help="a clone of the repository whose import is measured too, and its name in the table (may stand several times)",
    )
    return made


def main(argv: list[str] | None = None) -> None:
    """Runs the tool."""
    arguments = words().parse_args(argv)
    states = dict(_state(word) for word in arguments.state) | {"now": TOP}
    rows = [
        row for folder in (QUICK if arguments.quick else FOLDERS) for row in measured(folder, states, arguments.runs)
    ]
    told = f"{time.strftime('%Y-%m-%d')}, {machine()}; bonsai: {Program().identity.told}"
    if arguments.keep:
        write_output(str(KEPT), csv_of(rows, told).encode("ascii", "backslashreplace"))
        write_output(str(PAGE), with_table(PAGE.read_text("utf-8"), rows, told).encode())
    print(table(rows, told), end="")


def _state(word: str) -> tuple[str, Path]:
    name, _, clone = word.partition("=")
    if not (Path(clone) / "tools" / "bonsai-import").is_file():
        raise Refused(f"--state {word}: not of the form NAME=CLONE with tools/bonsai-import in it")
    return name, Path(clone)


def measured(folder: Folder, states: dict[str, Path], runs: int) -> list[Row]:
    """The least of several runs of each state on a folder; the states take turns."""
    least: dict[str, Row] = {}
    with tempfile.TemporaryDirectory(prefix="bonsai-imports-") as room:
        lines = folder.write(Path(room))
        files = len(os.listdir(room))
        for name, clone in [*states.items()] * runs:
            row = Row(folder.name, name, files, lines, *run(clone, room), os.getloadavg()[0])
            if name not in least or row.seconds < least[name].seconds:
                least[name] = row
    return list(least.values())


def run(clone: Path, folder: str) -> tuple[float, float, float]:
    """An import by a clone: processor seconds, wall seconds, MiB."""
    found = taken(["/usr/bin/python3", str(clone / "tools" / "bonsai-import"), folder], with_compiled())
    return found.processors, found.wall, found.memory


def csv_of(rows: list[Row], told: str) -> str:
    """The rows as they are kept."""
    made = io.StringIO()
    made.write(f"# {told}\n")
    out = csv.DictWriter(made, [field.name for field in dataclasses.fields(Row)], lineterminator="\n")
    out.writeheader()
    out.writerows(dataclasses.asdict(row) for row in rows)
    return made.getvalue()


def table(rows: list[Row], told: str) -> str:
    """The table of the page."""
    lines = [
        "| network | files | lines | import | processor s | wall s | MiB | load |",
        "|---|---:|---:|---|---:|---:|---:|---:|",
    ]
    lines += [
        f"| {row.network} | {row.files:,} | {row.lines:,} | {row.state} | {row.seconds:.1f} | {row.wall:.0f} | {row.memory:.0f} | {row.load:.0f} |"
        for row in rows
    ]
    return "\n".join([*lines, "", f"Made with: {told}.", ""])


def with_table(page: str, rows: list[Row], told: str) -> str:
    """The page with the table in its place."""
    return with_measured(page, "imports", table(rows, told))
