"""Faults of `bonsai-ask` and `bonsai-all`, all in one copy of each, and whether `hostile/ask` or `hostile/frames` finds each that is
switched on."""

from __future__ import annotations

import argparse
import dataclasses
import json
import re
import time
from collections import Counter
from pathlib import Path

from bonsainet.ask.program import TOP, Program
from hostile import frames_run
from hostile.asked_run import How, run
from hostile.planting import switching
from hostile.planting.ask_faults import BY_PROGRAM, FAULTS
from hostile.planting.fault import Fault

KEPT = TOP / "hostile" / "measured" / "ask-planted.json"
PAGE = TOP / "hostile" / "README.md"
BEGIN = "<!-- ask faults: this table is written by hostile/plant --asked --record -->"
END = "<!-- ask faults: end -->"
TEXTS = 20
CALLS = 4
ROUTERS = 5
"""Texts of few routers show these faults as well, and many more of them are judged in the same time."""


@dataclasses.dataclass(frozen=True)
class Seen:
    """A fault: after how many texts it was found, and the words of the command that found it (empty: none)."""

    fault: Fault
    words: str
    texts: int


def asked_over(program: Path, seed: int, seconds: float, keep: Path) -> tuple[int, list[str]]:
    """Asks `hostile/ask` over some texts: how many, and the words of each command that differs."""
    found = run(How(str(program), seed, "search", CALLS, keep, ROUTERS), seconds, 1, TEXTS, None)
    told = (re.match(r"words (.*)\n", (keep / f"{name}.txt").read_text("utf-8")) for name in found.differences)
    return found.texts, [one[1] for one in told if one]


def framed_over(program: Path, seed: int, seconds: float, keep: Path) -> tuple[int, list[str]]:
    """The same by `hostile/frames`."""
    given = argparse.Namespace(texts=TEXTS, jobs=1, keep=keep, seconds=seconds)
    found = frames_run.run(Program().path, str(program), given, seed)
    told = (re.match(r"\d+: (.*?): ", difference) for difference in found.differences)
    return found.texts, [one[1] for one in told if one]


def tried(fault: Fault, number: int, called: str, program: Path, seed: int, seconds: float, keep: Path) -> Seen:
    """Asks a copy with one fault switched on, some texts at a time, until something differs or the time is over."""
    over = asked_over if called == "bonsai-ask" else framed_over
    texts, until = 0, time.monotonic() + seconds
    with switching.switched(number):
        while time.monotonic() < until:
            more, words = over(program, seed, until - time.monotonic(), keep)
            texts, seed = texts + more, seed + 1
            if words:
                return Seen(fault, words[0], texts)
    return Seen(fault, "", texts)


def plant(names: list[str], seed: int, seconds: float, folder: Path, is_kept: bool) -> int:
    """Tries the faults, and prints which were found. A copy in which none is switched on must not differ. Status 0 where all
    were found, and nothing else."""
    wrong = 0
    for called, faults in BY_PROGRAM.items():
        chosen = [(number, fault) for number, fault in switching.numbered(faults) if not names or fault.name in names]
        if not chosen:
            continue
        program = switching.program_of(faults, folder.resolve() / f"{called}-with-faults", called)
        none = Fault("none", called, "", "", "", "none is switched on")
        if tried(none, 0, called, program, seed, min(seconds, 20.0), folder / "differed" / called).words:
            print(f"{called}: it differs where no fault is switched on", flush=True)
            wrong += 1
        for number, fault in chosen:
            one = tried(fault, number, called, program, seed, seconds, folder / "differed" / fault.name)
            wrong += not one.words
            print(row(one), flush=True)
            if is_kept:
                keep(one)
    return 1 if wrong else 0


def row(one: Seen) -> str:
    """A line of the table."""
    by = f"`{one.words}`" if one.words else "**not found**"
    return f"| {one.fault.layer} | {one.fault.means} | {by} | {one.texts} |"


def keep(one: Seen, file: Path = KEPT, page: Path = PAGE) -> None:
    """Keeps one more outcome, and writes the table."""
    found = json.loads(file.read_text("utf-8")) if file.is_file() else {}
    found[one.fault.name] = {"words": one.words, "texts": one.texts}
    file.write_text(json.dumps(dict(sorted(found.items())), indent=1) + "\n", "utf-8")
    head, _, rest = page.read_text("utf-8").partition(BEGIN)
    page.write_text(f"{head}{BEGIN}\n{table(found)}\n{END}{rest.partition(END)[2]}", "utf-8")


def table(found: dict[str, dict]) -> str:
    """The table, in the order of the faults, with a line that counts."""
    faults = [Seen(fault, **found[fault.name]) for fault in FAULTS if fault.name in found]
    counts = Counter(bool(one.words) for one in faults)
    head = ["| crate | fault | found by | texts |", "|---|---|---|---:|"]
    return "\n".join([*head, *map(row, faults), "", f"Found: {counts[True]} of the {len(faults)} that were tried."])
