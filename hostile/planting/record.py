"""What `hostile/plant --record` found: kept in a file, from which the table of hostile/README.md is written."""
from __future__ import annotations

import json
from pathlib import Path
from typing import Any

from hostile.planting.fault import Fault
from hostile.planting.program_faults import FAULTS
from bonsainet.ask.program import TOP

KEPT = TOP / "hostile" / "measured" / "planted.json"
PAGE = TOP / "hostile" / "README.md"
BEGIN, END = "<!-- planted: this table is written by hostile/plant --record -->", "<!-- planted: end -->"
Kept = dict[str, dict[str, Any]]


def row(fault: Fault, command: str, texts: int, seconds: float) -> str:
    """A line of a table."""
    return f"| {fault.layer} | {fault.means} | {f'`{command}`' if command else '**not found**'} | {texts:,} | {seconds:.0f} |"


def kept(file: Path = KEPT) -> Kept:
    """What was found of each fault that was tried."""
    return json.loads(file.read_text("utf-8")) if file.is_file() else {}


def table(found: Kept) -> str:
    """The table, in the order of the faults, with a line that counts."""
    rows = ["| layer | fault | found by | texts | processor seconds |", "|---|---|---|---:|---:|"]
    tried = [fault for fault in FAULTS if fault.name in found]
    rows += [
        row(fault, str(one["command"]), int(one["texts"]), float(one["seconds"]))
        for fault in tried
        for one in [found[fault.name]]
    ]
    missed = [fault.means for fault in tried if not found[fault.name]["command"]]
    told = f"Found: {len(tried) - len(missed)} of the {len(tried)} that were tried; `hostile/plant --list` names {len(FAULTS)}."
    return "\n".join([*rows, "", f"{told} Missed: {'; '.join(missed)}." if missed else told])


def keep(
    *, fault: Fault, command: str, texts: int, seconds: float, seed: int, file: Path = KEPT, page: Path = PAGE
) -> None:
    """Keeps one more outcome, and writes the table."""
    found = {**kept(file), fault.name: {"command": command, "texts": texts, "seconds": round(seconds, 1), "seed": seed}}
    file.write_text(json.dumps(dict(sorted(found.items())), indent=1) + "\n", "utf-8")
    head, _, rest = page.read_text("utf-8").partition(BEGIN)
    page.write_text(f"{head}{BEGIN}\n{table(found)}\n{END}{rest.partition(END)[2]}", "utf-8")
