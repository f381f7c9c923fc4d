"""`hostile/corpus`: the networks of FRR's topology tests that are imported, and what `bonsai-ask` says of each class."""

from __future__ import annotations

import argparse
import dataclasses
import json
import os
import re
import sys
import time
from collections import Counter
from pathlib import Path

from bonsainet.ask.program import TOP, Program
from bonsainet.configs.text import text_of
from bonsainet.corpus.tool import VETH, networks
from bonsainet.importing.decisions import read_decisions
from bonsainet.importing.read import read_folder
from bonsainet.importing.report import report_of
from bonsainet.importing.rules.options import Options
from bonsainet.importing.tool import work
from bonsainet.repo.marks import with_measured
from hostile.asking import Asker

KEPT = TOP / "hostile" / "measured" / "corpus.json"
PAGE = TOP / "docs" / "inside" / "CORPUS-ASKED.md"
SECONDS = 120.0


@dataclasses.dataclass
class Asked:
    """A network: its classes, how often each count of solutions was told, the answers to `route *`, those that are tied,
    and for each number of routers without which a class is not whole how many classes have it."""

    name: str
    routers: int
    classes: int
    counts: dict[str, int]
    route: dict[str, int]
    tied: int
    failing: dict[str, int]


def imported(folder: Path, program: Program) -> tuple[str, int] | None:
    """The text of a network as it stands, or with AS numbers of their own, and how many routers it has. None where it is
    refused."""
    for options in (Options(), Options(own_as=True)):
        read = read_folder(str(folder))
        work(read, program, read_decisions(VETH, "veth"), options)
        report = report_of(read)
        if not report.folder.log.refusals:
            return text_of(report.folder.routers), len(report.folder.routers)
        if {found.name for found in report.folder.log.refusals} != {"shared-as"}:
            return None
    return None


def asked(program: Asker, name: str, text: str, routers: int) -> Asked:
    """What the program says of all classes of a network."""

    def told(*words: str) -> str:
        answer = program.ask("F", "*", *words, texts={"F": text}, seconds=SECONDS)
        if answer.status not in (0, 8):
            raise ValueError(f"{name}: {' '.join(words)}: status {answer.status} {answer.reason}")
        return answer.text

    counts = Counter(re.findall(r"^class \d+ solutions (\d+)$", told("count"), re.M))
    route = re.findall(r"^class \d+ (yes|no|none)( tied .*)?$", told("route", "*"), re.M)
    failing = re.findall(r"^class \d+ failing (\d+) of (\d+)", told("failing", "routers", "route", "*"), re.M)
    lost = Counter(f"{bad} of {most}" for bad, most in failing)
    words = Counter(word for word, _ in route)
    tied = sum(bool(tie) for _, tie in route)
    return Asked(name, routers, len(route), dict(counts), dict(words), tied, dict(lost))


def table(found: list[Asked]) -> str:
    """The networks with classes as Markdown, and a line that counts."""
    lines = ["| network | routers | classes | solutions | `route '*'` | tied | `failing routers route '*'` |"]
    lines.append("|---|---:|---:|---|---|---:|---|")
    for one in found:
        if one.classes:
            told = [_told(part) for part in (one.counts, one.route)]
            row = [one.name, f"{one.routers}", f"{one.classes}", *told, f"{one.tied or ''}", _told(one.failing)]
            lines.append(f"| {' | '.join(row)} |")
    with_classes = [one for one in found if one.classes]
    classes = sum(one.classes for one in with_classes)
    return "\n".join(lines) + f"\n\n{len(with_classes)} networks have classes, {classes:,} together.\n"


def _told(counts: dict[str, int]) -> str:
    """Counts in words: the value alone where all classes have it."""
    if len(counts) == 1:
        return next(iter(counts))
    return ", ".join(f"{value} ({count})" for value, count in sorted(counts.items(), key=lambda item: -item[1]))


def main(arguments: list[str] | None = None) -> int:
    """Status 0: done, 1: the program did not answer, 2: wrong words."""
    parser = argparse.ArgumentParser(prog="hostile/corpus", description=(__doc__ or "").strip())
    parser.add_argument("folder", type=Path, help="what `dev/corpus --fetch FOLDER` fetched")
    parser.add_argument("--program", required=True, help="the program bonsai-ask")
    parser.add_argument("--only", action="append", metavar="NAME", help="this network alone; can be repeated")
    parser.add_argument("--record", action="store_true", help="keep the answers, and write the table of the page")
    given = parser.parse_args(arguments)
    bonsai, program = Program(), Asker(os.path.abspath(given.program))
    found = []
    for folder in networks(given.folder / "tests" / "topotests"):
        if given.only and folder.name not in given.only:
            continue
        whole = imported(folder, bonsai)
        if whole is None:
            continue
        try:
            found.append(asked(program, folder.name, *whole))
        except ValueError as why:
            print(f"corpus: {why}", file=sys.stderr)
            return 1
        print(found[-1], file=sys.stderr, flush=True)
    print(table(found), end="")
    if given.record:
        rows = [dataclasses.asdict(one) for one in found]
        KEPT.write_text(json.dumps({"date": time.strftime("%Y-%m-%d"), "networks": rows}, indent=1) + "\n", "utf-8")
        page = PAGE.read_text("utf-8")
        PAGE.write_text(with_measured(page, "corpus", table(found)), "utf-8")
    return 0
