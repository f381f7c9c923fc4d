"""bench/difference: how long `bonsai-diff` takes for two networks of 500 routers in which one line differs.

Both are texts, or folders with a file for each router. Seconds are those of the clock, and those of processors: of the
process of the tool, and of all that it starts. The least of several turns counts.
"""
from __future__ import annotations

import argparse
import csv
import dataclasses
import os
import re
import subprocess
import sys
import tempfile
import time
from collections.abc import Callable, Iterable, Iterator
from pathlib import Path

from bonsainet.ask.program import ALL, ASK, BONSAI, TOP, named
from bonsainet.bench.states import in_ascii, kind, machine, with_compiled
from bonsainet.cli.command_line import Refused, parser
from bonsainet.nets.campus import campus_text
from bonsainet.nets.fat_tree import fat_tree_text
from bonsainet.repo.marks import with_measured

KEPT = TOP / "bench" / "measured" / "difference.csv"
PAGE = TOP / "docs" / "inside" / "MEASURED.md"
DIFFERS = 8
# Runs the tool of a folder, and writes what its own process and those that it started took.
RUN = """
import resource, sys
sys.path.insert(0, sys.argv[1])
from bonsainet.cli.start import bonsai_diff
status = bonsai_diff(sys.argv[3:])
used = [resource.getrusage(who) for who in (resource.RUSAGE_SELF, resource.RUSAGE_CHILDREN)]
with open(sys.argv[2], "w") as file:
    print(*(one.ru_utime + one.ru_stime for one in used), file=file)
sys.exit(status)
"""


@dataclasses.dataclass(frozen=True)
class Case:
    """A network, and what is changed in it: the first such words behind some others become others."""

    network: str
    change: str
    text: Callable[[], str]
    behind: str
    old: str
    new: str

    def sides(self) -> tuple[str, str]:
        """The text before and after."""
        text = self.text()
        at = text.index(self.old, text.index(self.behind))
        return text, text[:at] + self.new + text[at + len(self.old) :]


CASES = (
    Case(
        "fat tree, BGP",
        "a session shut",
        lambda: fat_tree_text(20),
        "hostname agg3-4\n",
        " send-community",
        " shutdown",
    ),
    Case("campus, OSPF", "a cost", lambda: campus_text(50, 8), "hostname access7-3\n", " cost 5\n", " cost 7\n"),
)


@dataclasses.dataclass(frozen=True)
class Row:
    """What a comparison took: seconds of the clock, and of processors for the tool's own process and for those that it
    starts. `load` is that of the machine when the row was made."""

    tool: str
    network: str
    change: str
    sides: str
    routers: int
    classes: int
    changed: int
    turns: int
    seconds: float
    own: float
    started: float
    load: float

    @property
    def key(self) -> tuple[str, ...]:
        """What was compared, and by which tool."""
        return self.network, self.sides, self.tool


def words() -> argparse.ArgumentParser:
    """The words of the command line."""
    made = parser("difference", (__doc__ or "").partition("\n\n")[2])
    made.add_argument("--runs", type=int, default=3, help="turns of each comparison (default: %(default)s)")
    made.add_argument(
        "--keep", action="store_true", help="keep the rows in bench/measured, and write the table of the page"
    )
    made.add_argument(
        "--before", metavar="FOLDER", help="another state of the repository, whose tool takes turns with this"
    )
    names = [case.network for case in CASES]
    made.add_argument("--network", choices=names, action="append", help="compare only these networks")
    made.add_argument("--sides", choices=("texts", "folders"), action="append", help="compare only these")
    return made


def main(argv: list[str] | None = None) -> None:
    """Runs the tool."""
    given = words().parse_args(argv)
    tools = {"now": TOP} | ({"before": Path(given.before).resolve()} if given.before else {})
    programs = {name: named(name).path for name in (BONSAI, ASK, ALL)}
    told = in_ascii(f"{', '.join(f'{name} ({kind(Path(path))})' for name, path in programs.items())}; {machine()}")
    rows = kept_of(told) if given.keep else []
    for case in [case for case in CASES if case.network in (given.network or [case.network])]:
        for row in measured(case, given.sides or ("texts", "folders"), tools, given.runs):
            processors = f"{row.own:.2f} + {row.started:.2f} s of processors"
            print(
                f"{row.tool}: {row.network}, {row.sides}: {row.seconds:.2f} s, {processors}, load {row.load:.0f}",
                flush=True,
            )
            rows = sorted([one for one in rows if one.key != row.key] + [row], key=lambda one: one.key)
            if given.keep:
                keep(rows, told)
    if given.keep:
        PAGE.write_text(with_table(PAGE.read_text("utf-8"), *read()), "utf-8")


def kept_of(told: str) -> list[Row]:
    """The rows that are kept of these programs on this machine."""
    first, rows = read() if KEPT.is_file() else ("", [])
    return rows if first == told else []


def measured(case: Case, forms: Iterable[str], tools: dict[str, Path], runs: int) -> Iterator[Row]:
    """The comparisons of a case by each tool."""
    sides = case.sides()
    classes = len(named(BONSAI).classes(sides[0]))
    with tempfile.TemporaryDirectory(prefix="bonsai-") as made:
        for form in forms:
            places = [_written(Path(made, f"{form}-{name}"), text, form) for name, text in zip(("old", "new"), sides)]
            found: dict[str, list[tuple[float, float, float, int]]] = {name: [] for name in tools}
            for _ in range(runs):
                for name, top in tools.items():
                    found[name].append(_run(top, places))
            for name, turns in found.items():
                seconds, own, started = (round(min(figures), 3) for figures in list(zip(*turns))[:3])
                load = round(os.getloadavg()[0], 1)
                sizes = sides[0].count("hostname "), classes, turns[0][3], len(turns)
                yield Row(name, case.network, case.change, form, *sizes, seconds, own, started, load)


def _written(place: Path, text: str, form: str) -> Path:
    """A side as a file, or as a folder with a file for each router."""
    if form == "texts":
        place.write_text(text, "ascii")
        return place
    place.mkdir()
    for piece in re.findall(r".*?^end\n", text, re.M | re.S):
        (place / f"{piece.split()[1]}.cfg").write_text(piece, "ascii")
    return place


def _run(top: Path, places: list[Path]) -> tuple[float, float, float, int]:
    """The seconds of the clock, those of processors for the tool and for what it starts, and how many prefixes change."""
    with tempfile.NamedTemporaryFile("r") as told:
        begin = time.monotonic()
        asked = [sys.executable, "-c", RUN, str(top / "python"), told.name, *map(str, places)]
        ran = subprocess.run(
            asked, stdin=subprocess.DEVNULL, capture_output=True, text=True, check=False, env=with_compiled()
        )
        seconds = time.monotonic() - begin
        changed = re.search(r"^(\d+) prefix(?:es)? changes?, ", ran.stdout, re.M)
        if ran.returncode != DIFFERS or not changed:
            raise Refused(f"bonsai-diff ended with status {ran.returncode}", ran.stderr.splitlines())
        own, started = map(float, told.read().split())
        return seconds, own, started, int(changed[1])


def keep(rows: Iterable[Row], told: str, place: Path = KEPT) -> None:
    """Keeps the rows; the first line says which programs were measured on which machine."""
    with open(place, "w", newline="", encoding="ascii") as file:
        file.write(f"# {told}\n")
        out = csv.DictWriter(file, [field.name for field in dataclasses.fields(Row)], lineterminator="\n")
        out.writeheader()
        out.writerows(dataclasses.asdict(row) for row in rows)


def read(place: Path = KEPT) -> tuple[str, list[Row]]:
    """What is kept: which programs were measured on which machine, and the rows."""
    first, *lines = place.read_text("ascii").splitlines()
    kinds = {field.name: {"str": str, "int": int, "float": float}[str(field.type)] for field in dataclasses.fields(Row)}
    found = [Row(**{name: kinds[name](value) for name, value in row.items()}) for row in csv.DictReader(lines)]
    return first.removeprefix("# "), found


def with_table(page: str, told: str, rows: list[Row]) -> str:
    """The page with the table of the rows."""
    return with_measured(page, "difference", table(told, rows))


def table(told: str, rows: list[Row]) -> str:
    """The table."""
    lines = [
        "| network | change | sides | routers | classes | prefixes that change | tool | s | processor s | of the tool itself | load |",
        "|---|---|---|---:|---:|---:|---|" + "---:|" * 4,
    ]
    for row in rows:
        sizes = f"{row.routers:,} | {row.classes:,} | {row.changed:,}"
        figures = f"{row.seconds:.2f} | {row.own + row.started:.2f} | {row.own:.2f} | {row.load:.0f}"
        lines.append(f"| {row.network} | {row.change} | {row.sides} | {sizes} | {row.tool} | {figures} |")
    turns = [row.turns for row in rows]
    return "\n".join([*lines, "", f"Made with: {told}; the least of {min(turns)} to {max(turns)} turns."]) + "\n"
