"""The rows of `bench/tools`, as they are kept in bench/measured, and the table of docs/inside/MEASURED.md from them."""
from __future__ import annotations

import csv
import dataclasses
from collections.abc import Iterable, Iterator
from pathlib import Path
from typing import Any

from bonsainet.ask.program import TOP
from bonsainet.bench.checkouts import STATES

KEPT = TOP / "bench" / "measured" / "tools.csv"


@dataclasses.dataclass(frozen=True)
class Row:
    """What a command took in one state: the least and the median of several runs. `wall` is in seconds of the clock,
    `processors` in seconds of all processors. `load` is that of the machine when the row was made."""

    command: str
    network: str
    size: int
    unit: str
    above: str
    goal: float | None
    state: str
    turns: int
    wall: float
    wall_median: float
    processors: float
    processors_median: float
    load: float

    @property
    def over(self) -> tuple[str, int, str]:
        """The network that the command was run over."""
        return self.network, self.size, self.unit

    @property
    def key(self) -> tuple[str, ...]:
        """What the row is about. A newer row takes the place of one with this key."""
        return self.command, self.network, str(self.size), self.unit, self.state

    def less(self, other: Row) -> Row:
        """The row with what it takes above another."""
        figures = {name: getattr(self, name) - getattr(other, name) for name in FIGURES}
        return dataclasses.replace(self, **figures)


FIGURES = ("wall", "wall_median", "processors", "processors_median")
KINDS: dict[str, Any] = {
    "str": str,
    "int": int,
    "float": float,
    "float | None": lambda word: float(word) if word else None,
}


def write(rows: Iterable[Row], told: str, place: Path) -> None:
    """Keeps the rows; the first line says which states were measured on which machine."""
    with open(place, "w", newline="", encoding="ascii") as file:
        file.write(f"# {told}\n")
        out = csv.DictWriter(file, [field.name for field in dataclasses.fields(Row)], lineterminator="\n")
        out.writeheader()
        out.writerows(dataclasses.asdict(row) for row in rows)


def read(place: Path) -> tuple[str, list[Row]]:
    """What is kept: which states were measured on which machine, and the rows."""
    first, *lines = place.read_text("ascii").splitlines()
    kinds = {field.name: KINDS[str(field.type)] for field in dataclasses.fields(Row)}
    found = [Row(**{name: kinds[name](value) for name, value in row.items()}) for row in csv.DictReader(lines)]
    return first.removeprefix("# "), found


def with_newer(rows: Iterable[Row], newer: Iterable[Row]) -> list[Row]:
    """The rows, each newer one in the place of the one that it measures again."""
    return list(({row.key: row for row in rows} | {row.key: row for row in newer}).values())


def tools_text(told: str, rows: list[Row]) -> str:
    """The table, a row for each command over each network, and what it comes to."""
    states = [state for state in STATES if any(row.state == state for row in rows)]
    columns = [f"{unit}, {state}" for unit in ("s", "processor s") for state in states]
    lines = [
        f"| command | network | goal, s | {' | '.join(columns)} |",
        "|---|---|" + "---:|" * (1 + len(columns)),
        *(line(name, found, states) for name, found in shown(rows)),
    ]
    turns, loads = [row.turns for row in rows], [row.load for row in rows]
    made = f"- Made with: {told}, in {min(turns)} to {max(turns)} turns, at a load of {min(loads):.1f} to {max(loads):.1f}."
    return "\n".join([*lines, "", *judgement(rows, states[-1]), made]) + "\n"


def shown(rows: list[Row]) -> Iterator[tuple[str, dict[str, Row]]]:
    """The lines of the table: a name, and the rows of the states. A command whose goal counts from another one has a second line,
    with what it takes above that."""
    found: dict[tuple[str, tuple[str, int, str]], dict[str, Row]] = {}
    for row in rows:
        found.setdefault((row.command, row.over), {})[row.state] = row
    for (command, over), of_states in found.items():
        above = next(iter(of_states.values())).above
        whole = {state: dataclasses.replace(row, goal=None) for state, row in of_states.items()} if above else of_states
        yield f"`{command}`", whole
        others = found.get((above, over), {})
        differences = {state: row.less(others[state]) for state, row in of_states.items() if state in others}
        if differences:
            yield f"`{command}`, above `{above}`", differences


def line(name: str, of_states: dict[str, Row], states: list[str]) -> str:
    """A line of the table. The median stands in brackets behind the least figure."""
    one = next(iter(of_states.values()))
    goal = "" if one.goal is None else f"{one.goal:g}"
    found = [of_states.get(state) for state in states]
    wall = [f"{row.wall:.2f} ({row.wall_median:.2f})" if row else "" for row in found]
    processors = [f"{row.processors:.2f} ({row.processors_median:.2f})" if row else "" for row in found]
    return f"| {name} | {one.network}, {one.size:,} {one.unit} | {goal} | {' | '.join([*wall, *processors])} |"


def judgement(rows: list[Row], state: str) -> list[str]:
    """Which commands take longer than they are meant to, by their least figures."""
    aimed = [(name, row) for name, found in shown(rows) if (row := found.get(state)) and row.goal is not None]
    over = [
        f"{name} over {row.size:,} {row.unit}, {row.wall:.2f} s for {row.goal:g}"
        for name, row in aimed
        if row.goal is not None and row.wall > row.goal
    ]
    return [f"- Longer than its goal, of {len(aimed)} commands with one: {'; '.join(over) or 'none'}."] if aimed else []
