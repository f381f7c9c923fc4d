"""The tables of docs/use/LINES.md that are made from data, each between two marks on the page."""
from __future__ import annotations

import functools
import re
from collections.abc import Callable, Iterable

from bonsainet.cli.command_line import parser
from bonsainet.lines.kinds import KINDS
from bonsainet.lines.remedies import ELSE, OTHER, OTHERWISE, REFUSED, UNKNOWN, Remedy
from bonsainet.configs.profile import DEFAULT_COSTS
from bonsainet.ask.program import TOP

PAGE = TOP / "docs" / "use" / "LINES.md"
MARK = "†"


def kinds_table() -> str:
    """A row for each kind."""
    rows = [f"| {kind.name} | {kind.stands} | `{_cell(kind.example)}` | {kind.remedy} |" for kind in KINDS]
    return _table("| kind | is at | such a line | what to do |", rows)


def costs_table() -> str:
    """A row for each default cost, with the types of interfaces that have it."""
    costs = sorted(set(DEFAULT_COSTS.values()))
    return _table(
        "| cost | type: the name up to its first digit |",
        [
            f"| {cost} | {' '.join(f'`{kind}`' for kind, given in DEFAULT_COSTS.items() if given == cost)} |"
            for cost in costs
        ],
    )


def refused_table() -> str:
    """A row for each refused head or several of one remedy."""
    return _table("| where | head | what to do |", map(_row, REFUSED))


def unknown_table() -> str:
    """A row for the unknown heads that are met most, and for all others."""
    return _table("| where | head | what to do |", [*map(_row, UNKNOWN), f"| | any other | {_marked(OTHER)} |"])


TABLES: dict[str, Callable[[], str]] = {
    "kinds": kinds_table,
    "costs": costs_table,
    "refused": refused_table,
    "unknown": unknown_table,
}


def _between(table: str, found: re.Match[str]) -> str:
    return found[1] + table + found[2]


def with_tables(page: str) -> str:
    """The page with its tables as the data have them."""
    for name, table in TABLES.items():
        page = re.sub(
            rf"(<!-- {name}: begin -->\n).*?(<!-- {name}: end -->)",
            functools.partial(_between, table()),
            page,
            flags=re.DOTALL,
        )
    return page


def main(words: list[str] | None = None) -> None:
    """Writes the tables of docs/use/LINES.md that python/bonsainet/lines has as data."""
    parser("lines-page", main.__doc__ or "").parse_args(words)
    PAGE.write_text(with_tables(PAGE.read_text("utf-8")), "utf-8")


def _row(remedy: Remedy) -> str:
    return f"| {remedy.scope} | {' '.join(f'`{head}`' for head in remedy.heads)} | {_marked(remedy.told)} |"


def _marked(told: str) -> str:
    """A remedy with a mark in the place of the words that end many of them."""
    return told.replace(OTHERWISE, MARK).replace(ELSE, MARK)


def _table(head: str, rows: Iterable[str]) -> str:
    rule = "|" + "---|" * (head.count("|") - 1)
    return "".join(f"{line}\n" for line in (head, rule, *rows))


def _cell(text: str) -> str:
    return text.strip().replace("|", "\\|")
