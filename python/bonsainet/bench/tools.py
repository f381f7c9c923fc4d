"""bench/tools: how long the tools take over large networks, in one state of the repository or in two that take turns.

Seconds are those of the clock, and those of processors: of the tool and of all that it starts.
"""
from __future__ import annotations

import argparse
import os
import statistics
import sys
import tempfile
from collections.abc import Iterator, Mapping
from pathlib import Path

from bonsainet.bench import tool_rows
from bonsainet.bench.checkouts import STATES, Checkout, checkout_at, told_of
from bonsainet.bench.taken import Taken, taken
from bonsainet.bench.tool_plans import FOLDER, MADE, TEXT, TOOLS, Command, Plan, chosen, plans
from bonsainet.bench.tool_rows import Row, tools_text, with_newer
from bonsainet.cli.command_line import Refused, parser

PURPOSE = """Measures how long the tools take over large networks, which it makes, and prints a table.

BEFORE and AFTER are folders with the repository in some state, its tools and its programs: crates/*/out has these after ./build.
BONSAI_PROGRAM, BONSAI_ASK_PROGRAM and BONSAI_ALL_PROGRAM name others, which then both states ask. Where AFTER alone is given, it is measured
alone. Two states take turns, so that both meet the same load, and from turn to turn the other one comes first.

Over a fat tree of 500 routers: `bonsai groups`, `bonsai-draw` of the same class, `bonsai-page` and `bonsai-doubts`. Over one of 2,000 routers:
`bonsai-every`, which compresses all classes, and `bonsai-json` of one class and of all. `bonsai-import` of 500 files and of 2,002, the folders
of bench/imports. Each has its seconds of the clock, and those of processors, user and system together, of the tool and of all processes that it
starts: the least of all runs, which other load disturbs least, and in brackets the median. What the tools write is thrown away. The column
*goal* has the seconds of the clock that a command is meant to take on four processors; that of `bonsai-draw` counts from `bonsai groups`.

Both folders get what Python compiles of the tools. A turn takes about a minute for each state. --keep writes the rows to
bench/measured/tools.csv, and bench/plot makes the table of docs/inside/MEASURED.md from them."""


def words() -> argparse.ArgumentParser:
    """The words of the command line."""
    made = parser("tools", PURPOSE)
    made.add_argument("before", nargs="?", type=Path, metavar="BEFORE", help="a checkout in the state before")
    made.add_argument("after", type=Path, metavar="AFTER", help="a checkout in the state after, or in the only one")
    made.add_argument("--runs", type=int, default=5, help="turns of each command (default: %(default)s)")
    made.add_argument("--tool", action="append", choices=TOOLS, help="only this tool (may be repeated)")
    made.add_argument("--quick", action="store_true", help="small networks, to try it")
    made.add_argument(
        "--keep",
        action="store_true",
        help="keep the rows, beside those of other commands that are kept of the same states",
    )
    made.add_argument(
        "--named",
        metavar="BEFORE,AFTER",
        help="what the states are called on the page; one name for one state (default: their commits)",
    )
    return made


def main(argv: list[str] | None = None) -> None:
    """Runs the tool."""
    work(words().parse_args(argv))


def work(arguments: argparse.Namespace) -> None:
    """Measures, keeps what was measured over each network, and prints the table."""
    if arguments.quick and arguments.keep:
        raise Refused("--quick is to try it: its rows are not kept")
    if arguments.runs < 1:
        raise Refused(f"--runs {arguments.runs}: there is at least one turn")
    states = states_of([it for it in (arguments.before, arguments.after) if it], arguments.named)
    told = told_of(states)
    rows = kept_of(told) if arguments.keep else []
    for checkout in states.values():
        checkout.compile()
    for plan in [chosen(it, arguments.tool) for it in plans(arguments.quick)]:
        if plan.commands:
            rows = with_newer(rows, measured(plan, states, arguments.runs))
        if plan.commands and arguments.keep:
            tool_rows.write(rows, told, tool_rows.KEPT)
    print(tools_text(told, rows), end="")


def states_of(folders: list[Path], named: str | None) -> dict[str, Checkout]:
    """The checkouts by their states. One alone is the state after."""
    names = named.split(",") if named else [""] * len(folders)
    if len(names) != len(folders):
        raise Refused(f"--named {named}: {len(folders)} states are measured, and each has one name")
    made = [checkout_at(folder, name) for folder, name in zip(folders, names, strict=True)]
    return dict(zip(STATES[-len(made) :], made, strict=True))


def kept_of(told: str) -> list[Row]:
    """The rows that are kept of these states on this machine."""
    first, rows = tool_rows.read(tool_rows.KEPT) if tool_rows.KEPT.is_file() else ("", [])
    return rows if first == told else []


def measured(plan: Plan, states: Mapping[str, Checkout], runs: int) -> Iterator[Row]:
    """The commands of a plan over its network. All of them, in all states, have a run in each turn."""
    with tempfile.TemporaryDirectory(prefix="bonsai-") as made:
        room = Path(made)
        plan.write(room)
        size, order = plan.size(room), list(states)
        found: dict[tuple[Command, str], list[Taken]] = {}
        for turn in range(runs):
            print(f"tools: {plan.network}, {size:,} {plan.unit}: turn {turn + 1} of {runs}", file=sys.stderr)
            for command in plan.commands:
                for state in reversed(order) if turn % 2 else order:
                    found.setdefault((command, state), []).append(run(states[state], command, room))
    for command in plan.commands:
        for state in states:
            yield row_of(plan, size, command, state, found[command, state])


def run(checkout: Checkout, command: Command, room: Path) -> Taken:
    """One run of a command over what is in a folder. What it makes is gone afterwards."""
    name, *rest = command.words.split()
    with tempfile.TemporaryDirectory(prefix="bonsai-") as made:
        places = {TEXT: room / TEXT, FOLDER: room, MADE: Path(made) / MADE}
        asked = [str(checkout.start(name)), *(str(places.get(word, word)) for word in rest)]
        return taken(asked, checkout.environment)


def row_of(plan: Plan, size: int, command: Command, state: str, turns: list[Taken]) -> Row:
    """The row of a command in a state, from all its runs."""
    walls, processors = [it.wall for it in turns], [it.processors for it in turns]
    return Row(
        command=command.words,
        network=plan.network,
        size=size,
        unit=plan.unit,
        above=command.above,
        goal=command.goal,
        state=state,
        turns=len(turns),
        wall=round(min(walls), 3),
        wall_median=round(statistics.median(walls), 3),
        processors=round(min(processors), 3),
        processors_median=round(statistics.median(processors), 3),
        load=round(os.getloadavg()[0], 1),
    )
