"""The heads of lines. The known ones stand here; refused and ignored ones are read from the tables of docs/use/LINES.md."""
from __future__ import annotations

import functools
import re
from pathlib import Path

from hostile.judge import words

PAGE = Path(__file__).resolve().parents[2] / "docs" / "use" / "LINES.md"
SCOPES = {"top": "top", "interface": "interface", "router bgp": "bgp", "router ospf": "ospf", "route-map": "entry"}
KNOWN = {
    "top": [
        "hostname",
        "interface",
        "router bgp",
        "router ospf",
        "ip prefix-list",
        "ip community-list",
        "route-map",
        "end",
    ],
    "interface": ["ip address", "ip ospf cost", "shutdown"],
    "bgp": [
        "bgp default local-preference",
        "network",
        "neighbor ADDRESS remote-as",
        "neighbor ADDRESS shutdown",
        "neighbor ADDRESS send-community",
        "neighbor ADDRESS prefix-list",
        "neighbor ADDRESS route-map",
    ],
    "ospf": ["network", "passive-interface", "no passive-interface"],
    "entry": [
        "match ip address prefix-list",
        "match community",
        "set local-preference",
        "set community",
        "set comm-list",
        "set as-path prepend",
    ],
}


def _table(title: str) -> dict[str, list[str]]:
    """The heads of one table of the page, by scope."""
    part = PAGE.read_text().split(f"\n## {title}", 1)[1].split("\n## ")[0]
    found: dict[str, list[str]] = {}
    for row in part.splitlines():
        cells = [cell.strip() for cell in row.strip().strip("|").split("|")]
        if len(cells) < 2 or cells[0] not in SCOPES:
            continue
        plain, _, behind = cells[1].partition("`neighbor ADDRESS` with")
        heads = re.findall(r"`([^`]+)`", plain) + [
            f"neighbor ADDRESS {word}" for word in re.findall(r"`([^`]+)`", behind)
        ]
        found[SCOPES[cells[0]]] = heads
    return found


TABLES = {"known": KNOWN, "refused": _table("Refused lines"), "ignored": _table("Ignored lines")}

BY_FIRST: dict[tuple[str, str], list[tuple[str, list[str]]]] = {}
"""The heads by scope and first word, with their kind."""
for _kind, _table_of in TABLES.items():
    for _scope, _heads in _table_of.items():
        for _head in _heads:
            BY_FIRST.setdefault((_scope, _head.split()[0]), []).append((_kind, _head.split()))


def _fits(head: list[str], line: tuple[str, ...]) -> bool:
    return len(line) >= len(head) and all(_is(part, word) for part, word in zip(head, line))


def _is(part: str, word: str) -> bool:
    if part in ("ADDRESS", "NAME"):
        return True
    if part == "100-500":
        return words.number(word, 100, 500) is not None
    return part == word


PARTS = {part for heads in BY_FIRST.values() for _, head in heads for part in head}
"""The words that heads have. Other words are alike to them, except for numbers."""
LONGEST = max(len(head) for heads in BY_FIRST.values() for _, head in heads)


def what(scope: str, line: list[str]) -> str | None:
    """`known`, `refused` or `ignored`, by the longest head that begins the line; None for a line of no head."""
    return _what(scope, tuple(word if word in PARTS or word.isdigit() else "" for word in line[:LONGEST]))


@functools.lru_cache(100_000)
def _what(scope: str, line: tuple[str, ...]) -> str | None:
    fitting = [(len(head), kind) for kind, head in BY_FIRST.get((scope, line[0]), []) if _fits(head, line)]
    return max(fitting, key=lambda found: found[0], default=(0, None))[1]
