"""A doubt: a line that is accepted and likely not meant, and why."""
from __future__ import annotations

import dataclasses

from bonsainet.configs.text import Line, Place


@dataclasses.dataclass(frozen=True)
class Doubt:
    """What is doubted (`sort` is one word for it), of which router, at which place, and a sentence."""

    sort: str
    router: str
    place: Place | None
    text: str
    told: str


SORTS = {
    "tie": "ties: routes of one preference and length, of which communities or lone numbers decided and real routers do not",
    "tie-not-asked": "classes whose ties were not asked",
    "originates-nothing": "`network` lines that originate nothing",
    "no-session": "neighbours that are part of no session",
    "no-neighbour": "interfaces in the OSPF area without a neighbour",
    "no-link": "routers without links",
    "no-agreement": "links whose ends say different things in lines that Bonsai passes over",
    "unused": "lists and maps that nothing uses",
    "not-reached": "entries that nothing reaches",
    "multiplied": "route maps for which a command that compresses may not end",
    "own-number": "AS numbers given by --own-as",
    "suggested-link": "links that the folder suggests and the text has not",
}


def doubt(sort: str, router: str, line: Line | None, told: str) -> Doubt:
    """A doubt at a line, or at none."""
    return Doubt(sort, router, line.place if line else None, line.text.strip() if line else "", told)
