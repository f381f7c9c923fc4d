"""The tables of docs/inside/MEASURED.md from the rows that `bench/turns --keep` keeps: two states of the program, and what is
slower or grows fast."""
from __future__ import annotations

import math
from collections.abc import Callable, Iterator
from typing import Protocol, TypeVar

from bonsainet.bench.kept import Row, Table
from bonsainet.bench.measures import SECONDS, SLOWER

MOST_GROWTH = 2.3
# (a figure that grows hardly faster than what is read and written)
AS_BYTES = 1.15
FOR_EACH_CLASS = ("summary", "trial")
# (the same instructions are counted twice; so much is the addresses that the system chooses)
MORE_INSTRUCTIONS = 1.02


def turns_text(table: Table) -> str:
    """The table of processor seconds, and what it comes to."""
    lines = [
        "| network | routers | command | s, before | s, after | factor | growth before | growth after |",
        "|---|---:|---|" + "---:|" * 5,
    ]
    for rows in series(table.rows):
        last = rows[-1]
        factor = f"{last.after / last.before:.2f}"
        seconds = f"{last.before:.3f} | {last.after:.3f}"
        lines.append(
            f"| {last.shape} | {last.routers:,} | `{last.command}` | {seconds} | {factor} | {_grown(rows, _before)} | {_grown(rows, _after)} |"
        )
    turns = [row.turns for row in table.rows]
    return (
        "\n".join(
            [
                *lines,
                "",
                *judgement(table.rows),
                f"- Made with: {table.told}, in {min(turns)} to {max(turns)} turns, {_load(table.rows)}.",
            ]
        )
        + "\n"
    )


def memory_text(table: Table) -> str:
    """The table of memory."""
    commands = list(dict.fromkeys(row.command for row in table.rows))
    lines = [
        "| network | routers | " + " | ".join(f"MiB, `{name}`" for name in commands) + " |",
        "|---|---:|" + "---:|" * len(commands),
    ]
    found = {(row.shape, row.size, row.command): row for row in table.rows}
    for shape, size in dict.fromkeys((row.shape, row.size) for row in table.rows):
        of_network = [found.get((shape, size, command)) for command in commands]
        routers = next(row.routers for row in of_network if row)
        lines.append(
            f"| {shape} | {routers:,} | "
            + " | ".join(f"{row.before:.0f}, {row.after:.0f}" if row else "" for row in of_network)
            + " |"
        )
    most = max(table.rows, key=_after)
    return (
        "\n".join(
            [
                *lines,
                "",
                f"Each cell has the state before and the one after. The most is now {most.after:.0f} MiB. Made with: {table.told}, {_load(table.rows)}.",
            ]
        )
        + "\n"
    )


def instructions_text(table: Table) -> str:
    """The table of instructions: a row for each command, a column for each network, and commands that make their own
    networks below it."""
    commands = [name for name in dict.fromkeys(row.command for row in table.rows) if name != "trial"]
    networks = list(dict.fromkeys((row.shape, row.routers) for row in table.rows if row.command != "trial"))
    found = {(row.shape, row.routers, row.command): row for row in table.rows}
    lines = [
        "| command | " + " | ".join(f"{shape} {routers:,}" for shape, routers in networks) + " |",
        "|---|" + "---:|" * len(networks),
    ]
    for command in commands:
        of_command = [found.get((*network, command)) for network in networks]
        lines.append(f"| `{command}` | " + " | ".join(_counted(row) if row else "" for row in of_command) + " |")
    trials = [f"{row.routers:,} routers {_counted(row)}" for row in table.rows if row.command == "trial"]
    more = [row for row in table.rows if row.after > MORE_INSTRUCTIONS * row.before]
    told = [f"{row.shape} {row.routers:,} `{row.command}` {row.after / row.before:.2f}" for row in more]
    return (
        "\n".join(
            [
                *lines,
                "",
                "Each cell has the million instructions of the state after, and their factor to those of the state before.",
                "",
                *([f"- `trial` on fat trees: {'; '.join(trials)}."] if trials else []),
                f"- More by over {100 * MORE_INSTRUCTIONS - 100:.0f} %, of {len(table.rows)} rows: {'; '.join(told) or 'none'}.",
                f"- Made with: {table.told}.",
            ]
        )
        + "\n"
    )


def _counted(row: Row) -> str:
    return f"{row.after:,.1f} ({row.after / row.before:.2f})"


def _load(rows: list[Row]) -> str:
    """The load of the machine while the rows were made."""
    loads = [row.load for row in rows]
    return f"at a load of {min(loads):.1f} to {max(loads):.1f}"


def series(rows: list[Row]) -> Iterator[list[Row]]:
    """The rows of each command on each shape, by size, in the order in which the shapes and commands came first."""
    found: dict[tuple[str, str], list[Row]] = {}
    shapes = list(dict.fromkeys(row.shape for row in rows))
    for row in sorted(rows, key=lambda row: shapes.index(row.shape)):
        found.setdefault((row.shape, row.command), []).append(row)
    for of_command in found.values():
        yield sorted(of_command, key=lambda row: row.size)


class Linked(Protocol):
    """A row of a network."""

    @property
    def links(self) -> int:
        """How many links the network has."""


Some = TypeVar("Some", bound=Linked)


def growth(last: Some, before: Some, figure: Callable[[Some], float]) -> float:
    """By which factor a figure grows while the links of the network double, as two sizes show it."""
    return (figure(last) / figure(before)) ** (1 / math.log2(last.links / before.links))


def judgement(rows: list[Row]) -> list[str]:
    """Which rows are slower, and which grow fast."""
    slower = [_slower(row) for row in rows if SECONDS.is_more(row.before, row.after)]
    of_commands = list(series(rows))
    judged = [of_command for of_command in of_commands if _is_told(of_command, _after)]
    fast = [told for of_command in judged if (told := _fast(of_command))]
    more = [it for it in rows if it.before < it.after and not SECONDS.is_more(it.before, it.after)]
    return [
        f"- Slower by more than {100 * SLOWER - 100:.0f} % and {1000 * SECONDS.resolved:.0f} ms, of {len(rows)} rows of all sizes: {'; '.join(slower) or 'none'}. "
        f"By less: {len(more)} rows; faster or alike: {len(rows) - len(slower) - len(more)}.",
        f"- Grows by more than {MOST_GROWTH} while the links double, of {len(judged)} of {len(of_commands)} series, which take at least "
        f"{1000 * SECONDS.compared_from:.0f} ms at the smaller size: {'; '.join(fast) or 'none'}.",
        *_reading([of_command[-1] for of_command in of_commands if of_command[-1].command == "classes"]),
    ]


def _reading(rows: list[Row]) -> Iterator[str]:
    """How fast the largest texts are read."""
    rates = [row.bytes / 1e6 / row.after for row in rows]
    if rates:
        yield f"- `classes` reads and writes {min(rates):.0f} to {max(rates):.0f} MB a second."


def _slower(row: Row) -> str:
    return f"{row.shape} {row.routers:,} `{row.command}` {row.after / row.before:.2f} ({row.before:.4f} s, {row.after:.4f} s)"


def _fast(rows: list[Row]) -> str:
    """A series that is judged and grows fast, or nothing. Classes grow with the network, and so do paths: then what a
    class costs, or a byte, is what counts."""
    last, before = rows[-1], rows[-2]
    found = growth(last, before, _after)
    name = f"{last.shape} `{last.command}` {found:.1f}"
    if has_more_classes(rows):
        each = growth(last, before, lambda row: row.after / row.classes)
        return f"{name}, for each class {each:.1f}" if found > MOST_GROWTH or each > MOST_GROWTH else ""
    if found <= MOST_GROWTH:
        return ""
    of_bytes = growth(last, before, lambda row: row.bytes)
    return (
        f"{name}, where the bytes that are read and written grow by {of_bytes:.1f}"
        if found <= AS_BYTES * of_bytes
        else name
    )


def _is_told(rows: list[Row], figure: Callable[[Row], float]) -> bool:
    return len(rows) > 1 and figure(rows[-2]) >= SECONDS.compared_from


def _grown(rows: list[Row], figure: Callable[[Row], float]) -> str:
    if not _is_told(rows, figure):
        return ""
    last, before = rows[-1], rows[-2]
    found = f"{growth(last, before, figure):.1f}"
    return (
        f"{found} ({growth(last, before, lambda row: figure(row) / row.classes):.1f} a class)"
        if has_more_classes(rows)
        else found
    )


def has_more_classes(rows: list[Row]) -> bool:
    """Whether the command answers for all classes, and those of the larger network are more."""
    return rows[-1].command in FOR_EACH_CLASS and rows[-1].classes != rows[-2].classes


def _before(row: Row) -> float:
    return row.before


def _after(row: Row) -> float:
    return row.after
