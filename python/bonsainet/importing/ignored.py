"""The heads that the program ignores, as docs/use/LINES.md lists them: a rule cuts no line that the program passes over.

This table decides only how short a report is: the program judges what is in the text.
"""
from __future__ import annotations

import functools
import re

from bonsainet.ask.program import TOP
from bonsainet.importing.rewriting import fits

PAGE = TOP / "docs" / "use" / "LINES.md"
SCOPES = {"top": "top", "interface": "interface", "router bgp": "bgp", "router ospf": "ospf", "route-map": "entry"}
ANY = ("*", "NAME")


@functools.cache
def heads_of(title: str) -> dict[str, tuple[tuple[str, ...], ...]]:
    """The heads of a table of the page, by scope."""
    text = PAGE.read_text("utf-8") if PAGE.is_file() else ""
    part = text.partition(f"## {title}")[2].partition("\n## ")[0]
    found: dict[str, tuple[tuple[str, ...], ...]] = {}
    for row in part.splitlines():
        cells = [cell.strip() for cell in row.strip().strip("|").split("|")]
        if len(cells) > 1 and cells[0] in SCOPES:
            heads = [tuple(head.split()) for head in re.findall(r"`([^`]+)`", cells[1])]
            if cells[0] == "router bgp":
                heads = [head for head in heads if head != ("neighbor", "ADDRESS") and head != ("ADDRESS",)]
                behind = cells[1].partition("`neighbor ADDRESS` with")[2]
                own = {tuple(head.split()) for head in re.findall(r"`([^`]+)`", behind)}
                heads = [("neighbor", "*", *head) if head in own and head != ("ADDRESS",) else head for head in heads]
            found[SCOPES[cells[0]]] = tuple(heads)
    return found


def longest(words: list[str], title: str, scope: str) -> int:
    """The length of the longest head of a table that begins the words, 0 where none does. `*` and `NAME` stand for any
    word."""
    near = _near(title, scope).get(words[0]) if words else None
    if not near:
        return 0
    found = 0
    for key in ((), tuple(words[1:2]), ("*", *words[2:3])):
        for head in near.get(key, ()):
            if len(head) > found and fits(words, head):
                found = len(head)
    return found


@functools.cache
def _near(title: str, scope: str) -> dict[str, dict[tuple[str, ...], list[list[str]]]]:
    """The heads of a scope of a table by their first word, and below it with none, by their second, or, where any word may
    be second, by that and the third."""
    found: dict[str, dict[tuple[str, ...], list[list[str]]]] = {}
    for given in heads_of(title).get(scope, ()):
        head = ["*" if word in ANY else word for word in given]
        key = tuple(head[1:3] if head[1:2] == ["*"] else head[1:2])
        found.setdefault(head[0], {}).setdefault(() if key and key[-1] == "*" else key, []).append(head)
    return found


@functools.lru_cache(maxsize=1 << 16)
def is_ignored(scope: str, text: str) -> bool:
    """Whether the program passes over a line of a scope."""
    words = text.split()
    ignored = longest(words, "Ignored lines", scope)
    return ignored > 0 and ignored >= longest(words, "Refused lines, and what to do with them", scope)
