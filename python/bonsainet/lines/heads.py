"""Which head a line has for a person: its scope, and the words by which refusals are grouped and remedies found."""
from __future__ import annotations

import functools
from collections.abc import Iterable, Sequence

from bonsainet.lines.kinds import BY_NAME
from bonsainet.lines.remedies import OTHER, REFUSED, UNKNOWN, Remedy

SCOPES = {
    ("interface",): "interface",
    ("router", "bgp"): "router bgp",
    ("router", "ospf"): "router ospf",
    ("route-map",): "route-map",
}
FAMILIES = ("ipv4", "ipv6")
OF_LINES = ("NotAscii", "LineTooLong", "TooManyLines")


def scope_under(opener: str | None) -> str:
    """The scope of the lines under a top line, and `top` where there is none."""
    words = tuple((opener or "").split())
    return next(
        (scope for head, scope in SCOPES.items() if words[: len(head)] == head), "top" if opener is None else "other"
    )


def head_of(kind: str, scope: str, words: Sequence[str]) -> str:
    """The head by which a refused line is grouped: that of a table, else its first words except numbers, and `a line`
    where no word counts."""
    if kind in OF_LINES:
        return "a line"
    if kind in ("Unsupported", "UnknownLine"):
        found = _longest(REFUSED if kind == "Unsupported" else UNKNOWN, scope, words)
        if found:
            return found[0]
    short = [word for word in words[:2] if word in FAMILIES or not any(letter.isdigit() for letter in word)]
    if scope == "router bgp" and words[:1] == ["neighbor"] and len(words) > 2:
        short = ["neighbor", "A", words[2]]
    return " ".join(short) or " ".join(words[:1])


def remedy_of(kind: str, scope: str, words: Sequence[str]) -> str:
    """What to do with a refused line."""
    if kind == "Unsupported":
        found = _longest(REFUSED, scope, words)
    elif kind == "UnknownLine":
        found = _longest(UNKNOWN, scope, words)
        if not found:
            return OTHER
    else:
        found = None
    return found[1].told if found else BY_NAME[kind].remedy if kind in BY_NAME else "ask about a part of the network"


@functools.cache
def heads_in(scope: str, is_refused: bool) -> tuple[tuple[tuple[str, ...], Remedy], ...]:
    """The heads of a scope, each with its remedy."""
    table = REFUSED if is_refused else UNKNOWN
    return tuple((tuple(head.split()), remedy) for remedy in table if remedy.scope == scope for head in remedy.heads)


def _longest(table: Iterable[Remedy], scope: str, words: Sequence[str]) -> tuple[str, Remedy] | None:
    fitting = [(head, remedy) for head, remedy in heads_in(scope, table is REFUSED) if _begins(head, words)]
    if not fitting:
        return None
    head, remedy = max(fitting, key=lambda item: len(item[0]))
    return " ".join(head), remedy


def _begins(head: Sequence[str], words: Sequence[str]) -> bool:
    return len(words) >= len(head) and all(_is_word_for(want, word) for want, word in zip(head, words))


def _is_word_for(want: str, word: str) -> bool:
    return word == want or want == "100-500" and word.isdigit() and 100 <= int(word) <= 500
