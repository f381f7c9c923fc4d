"""`bench/asked`: seconds for `route '*'` by a solver, by `bonsai-ask` and by FRR, over large networks and over what
`compress` wrote of them."""

from __future__ import annotations

import argparse
import csv
import dataclasses
import os
import shutil
import sys
import time
from pathlib import Path
from typing import Any

from bonsainet.ask.program import TOP
from bonsainet.bench.states import in_ascii, kind, machine, program_at
from bonsainet.cli.command_line import Refused
from bonsainet.lab.enclosure import refuse_unless_able
from hostile.figure import drawing, measuring
from hostile.figure.measuring import Disagreement, Row, measure_frr, measure_programs, measured, with_frr_of
from hostile.figure.networks import FAMILIES

KEPT = TOP / "bench" / "measured" / "asked.csv"


def main(arguments: list[str] | None = None) -> int:
    """Status 0: done; 1: what was asked answers otherwise, or a program is not there; 2: wrong words."""
    parser = argparse.ArgumentParser(prog="bench/asked", description=(__doc__ or "").strip())
    parser.add_argument("--bonsai", type=Path, help="the program bonsai, which compresses")
    parser.add_argument("--ask", type=Path, help="the program bonsai-ask")
    parser.add_argument("--only", action="append", metavar="FAMILY", help="this family alone; can be repeated")
    parser.add_argument("--most", type=int, default=sys.maxsize, metavar="SIZE", help="no size above this one")
    parser.add_argument(
        "--limit",
        type=int,
        default=60,
        help="processor seconds after which a program is given up (default %(default)s)",
    )
    parser.add_argument(
        "--frr",
        action="store_true",
        help="measure nothing else: put what FRR takes into the kept rows that have none, which needs root",
    )
    parser.add_argument("--anew", action="store_true", help="with --frr: into all kept rows")
    parser.add_argument(
        "--more",
        action="store_true",
        help="take from the kept rows what Z3 took where it was not given up",
    )
    parser.add_argument(
        "--again",
        action="store_true",
        help="measure the two programs alone, over the kept rows: what Z3 and FRR took stays",
    )
    parser.add_argument("--keep", action="store_true", help=f"keep the rows in {KEPT.relative_to(TOP)}")
    parser.add_argument(
        "--draw",
        action="store_true",
        help="measure nothing: print the table of what is kept, draw the plot, and write both to docs",
    )
    given = parser.parse_args(arguments)
    if given.draw:
        drawing.write(read(KEPT), KEPT.read_text("ascii").partition("\n")[0].removeprefix("# "))
        return 0
    if not given.bonsai or not (given.ask or given.frr):
        parser.error("--bonsai and --ask name the programs")
    if given.frr:
        return _frr(program_at(given.bonsai), given.only, given.most, given.anew)
    if given.again:
        return _again(program_at(given.bonsai), program_at(given.ask), given.limit)
    if not shutil.which("z3"):
        print("asked: the program z3 is not there: install the package z3", file=sys.stderr)
        return 1
    bonsai, ask = program_at(given.bonsai), program_at(given.ask)
    known = {(row.family, row.size): row for row in read(KEPT)}
    rows = [row for row in known.values() if given.only and row.family not in given.only] if given.keep else []
    frr = KEPT.read_text("ascii").partition("\n")[0].partition("; FRR: ")[2] if known else ""
    load = os.getloadavg()[0]
    measuring.MOST_SECONDS = given.limit
    try:
        for family in FAMILIES:
            if given.only and family.name not in given.only:
                continue
            last = None
            for size in family.sizes:
                if size <= given.most:
                    one = known.get((family.name, size))
                    last = with_frr_of(measured(bonsai, ask, family, size, last, one if given.more else None), one)
                    rows.append(last)
                    print(f"asked: {last}", file=sys.stderr, flush=True)
                    if given.keep:
                        told = _told(load, bonsai, ask, given.limit)
                        keep(rows, f"{told}; FRR: {frr}" if frr else told)
    except (Disagreement, Refused) as why:
        print(f"asked: {why}", file=sys.stderr)
        return 1
    print(drawing.table(rows), end="")
    return 0


def _again(bonsai: Path, ask: Path, limit: int) -> int:
    """Puts what the two programs take into the kept rows."""
    rows, load = read(KEPT), os.getloadavg()[0]
    told = KEPT.read_text("ascii").partition("\n")[0].removeprefix("# ")
    by_name = {family.name: family for family in FAMILIES}
    for row in rows:
        measure_programs(bonsai, ask, by_name[row.family], row)
        print(f"asked: {row}", file=sys.stderr, flush=True)
    _, frr, of_frr = told.partition("; FRR: ")
    keep(rows, _told(load, bonsai, ask, limit) + frr + of_frr)
    return 0


def _frr(bonsai: Path, only: list[str] | None, most: int, anew: bool) -> int:
    """Puts what FRR takes into the kept rows that have none, or into all. Status 1 where no lab can be. Where there is no memory
    for a large one, that is said, and the row can be measured later."""
    try:
        refuse_unless_able()
    except Refused as why:
        print(f"asked: {why}", file=sys.stderr)
        return 1
    told, rows = KEPT.read_text("ascii").partition("\n")[0].removeprefix("# "), read(KEPT)
    load = os.getloadavg()[0]
    for family in FAMILIES:
        if only and family.name not in only:
            continue
        chosen = [row for row in rows if row.family == family.name and row.size <= most]
        if anew:
            for row in chosen:
                row.frr = row.rest = row.frr_after = row.rest_after = None
        before = None
        for row in chosen:
            try:
                if measure_frr(bonsai, family, row, before):
                    print(f"asked: {row}", file=sys.stderr, flush=True)
                    keep(rows, _with_frr(told, load))
            except Refused as why:
                print(f"asked: left out: {family.name} {row.size}: {why}", file=sys.stderr, flush=True)
            before = row
    return 0


def _with_frr(told: str, load: float) -> str:
    date, now = time.strftime("%Y-%m-%d"), os.getloadavg()[0]
    return in_ascii(f"{told.partition('; FRR: ')[0]}; FRR: {date}, load {load:.0f} before and {now:.0f} after")


def _told(load: float, bonsai: Path, ask: Path, limit: int) -> str:
    programs = f"each run given up after {limit} processor seconds; bonsai: {kind(bonsai)}; bonsai-ask: {kind(ask)}"
    return in_ascii(
        f"{time.strftime('%Y-%m-%d')}, {machine()}, load {load:.0f} before and {os.getloadavg()[0]:.0f} after; {programs}"
    )


def keep(rows: list[Row], told: str) -> None:
    """Writes the rows in the order of the families; the first line says how they were made."""
    order = [family.name for family in FAMILIES]
    rows = sorted(rows, key=lambda row: (order.index(row.family), row.size))
    with open(KEPT, "w", newline="", encoding="ascii") as file:
        file.write(f"# {told}\n")
        out = csv.DictWriter(file, [field.name for field in dataclasses.fields(Row)], lineterminator="\n")
        out.writeheader()
        for row in rows:
            out.writerow(
                {name: f"{one:.4f}" if isinstance(one, float) else one for name, one in dataclasses.asdict(row).items()}
            )


def read(place: Path) -> list[Row]:
    """The kept rows."""
    if not place.is_file():
        return []
    with open(place, newline="", encoding="ascii") as file:
        found = csv.DictReader(line for line in file if not line.startswith("#"))
        return [Row(**{name: _value(name, word) for name, word in row.items()}) for row in found]


def _value(name: str, word: str) -> Any:
    if name in ("family", "answer"):
        return word
    if name in ("size", "routers", "links", "groups", "links_after"):
        return int(word)
    return float(word) if word else None
