"""The rounds whose output a page keeps: one after the other, with date, versions and the load of the machine."""
from __future__ import annotations

import datetime
import os

from bonsainet.cli.command_line import Refused, parser
from bonsainet.lab.enclosure import refuse_unless_able
from bonsainet.lab.figures import versions
from bonsainet.lab.lab import Waiting
from bonsainet.lab.round_trip import run_round, table
from bonsainet.lab.tools import tell
from bonsainet.ask.program import TOP, Program

KEPT = TOP / "docs" / "data" / "rounds.txt"
ROUNDS = [
    *(("fat-tree-4", number) for number in (1, 2, 3)),
    *(("campus", number) for number in (1, 10)),
    ("ring-with-maps", 1),
    ("two-lone-routers", 1),
    ("four-marks", 1),
    *(("ospf-wire", number) for number in (1, 2, 3)),
]


def main(argv: list[str] | None = None) -> int:
    """Runs the rounds of the examples and keeps what they print in docs/data/rounds.txt."""
    parser("keep-rounds", main.__doc__ or "").parse_args(argv)
    refuse_unless_able()
    program = Program()
    now = datetime.datetime.now(datetime.timezone.utc).strftime("%Y-%m-%d %H:%M UTC")
    parts = [f"{now}, {versions()}, {os.cpu_count()} processors, load {os.getloadavg()[0]:.1f} at the start\n"]
    agree = True
    for name, number in ROUNDS:
        tell(f"{name}, class {number}")
        text = (TOP / "examples" / "inputs" / f"{name}.cfg").read_text()
        found = run_round(program, text, name, number, "both", Waiting(), tell)
        agree = agree and found.agrees
        parts.append(f"$ dev/round-trip examples/inputs/{name}.cfg {number}\n{table(found)}")
    KEPT.write_text("\n".join(parts))
    if not agree:
        raise Refused("not every round ends with agreement; see docs/data/rounds.txt")
    return 0
