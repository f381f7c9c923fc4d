"""Ties that a search for all solutions may meet: at which routers, and in what their offers then differ."""

from __future__ import annotations

import enum
import itertools
from collections.abc import Iterator

from hostile.judge import labels, rests
from hostile.judge.labels import Label, Route
from hostile.judge.problem import Problem
from hostile.judge.rests import Held, TooLarge

MOST_COMPARED = 300


class Word(enum.Enum):
    """In what two offers of a router differ."""

    COMMUNITIES = "communities"
    PATH = "path"


def ties(left: Problem) -> dict[str, frozenset[Word]] | None:
    """The routers that may have two offers of equal preference and length and other keys at one time of a search, and in
    what such offers may differ. None where there are too many routes to tell.

    An offer comes over a path without a loop, on which each router has settled on one label. What is not here cannot be;
    what is here need not.
    """
    if left.protocol != "bgp":
        return {}
    try:
        found = rests.routes(left)
    except TooLarge:
        return None
    words = {left.names[place]: frozenset(_words(left, of)) for place, of in found.items()}
    return {name: each for name, each in words.items() if each}


def _words(left: Problem, routes: list[Held]) -> Iterator[Word]:
    alike: dict[object, list[Held]] = {}
    for held in routes:
        alike.setdefault(rests.weak_key(left, held.label), []).append(held)
    for group in alike.values():
        if len(group) > MOST_COMPARED:
            yield from Word
            return
        for one, other in itertools.combinations(group, 2):
            if labels.key(left, one.label) != labels.key(left, other.label) and _go_together(one, other):
                yield Word.PATH if _communities(one.label) == _communities(other.label) else Word.COMMUNITIES


def _communities(label: Label) -> frozenset[int]:
    assert isinstance(label, Route)
    return label.communities


def _go_together(one: Held, other: Held) -> bool:
    """Whether the routers on both paths have one label each. The router itself has both offers, and has not settled."""
    settled = {held.router: held.label for held in itertools.islice(one.chain(), 1, None)}
    return all(settled.get(held.router, held.label) == held.label for held in itertools.islice(other.chain(), 1, None))
