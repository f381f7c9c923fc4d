"""What stays of routers whose refused lines, or the stanzas of these, are set aside round by round.

Where a refusal is that something lacks, it is put there and not taken away: a host name for NoHostname, an `end` for
NoEnd.
"""
from __future__ import annotations

import copy
import dataclasses
from collections.abc import Sequence

from bonsainet.ask.program import Program
from bonsainet.ask.rounds import set_aside_refused
from bonsainet.refusals.causes import cause_of
from bonsainet.refusals.layout import END, openers, stanza_at

ADDED_NAME = "hostname name-added-here"


@dataclasses.dataclass(frozen=True)
class Found:
    """A refusal at a line of a router, by its place from 0, and the place of the line set aside of which it is the
    consequence."""

    place: int
    kind: str
    cause: int | None = None


class Rest:
    """What stays of a router's lines. `put` has the lines that stand in the place of refused ones."""

    def __init__(self, texts: list[str]) -> None:
        self.texts = texts
        self.aside: set[int] = set()
        self.refused: list[Found] = []
        self.put: dict[int, str] = {}
        self.is_named = self.is_ended = True

    def copy(self) -> Rest:
        """The same, so that what is set aside in one is not in the other."""
        made = copy.copy(self)
        made.aside, made.refused, made.put = set(self.aside), list(self.refused), dict(self.put)
        return made

    def numbered(self) -> list[tuple[int, str]]:
        """The lines that stay, each with its place; what was added has the place of the first or the last line."""
        kept = [(place, self.put.get(place, text)) for place, text in enumerate(self.texts) if place not in self.aside]
        first = [] if self.is_named else [(0, ADDED_NAME)]
        return [*first, *kept, *([] if self.is_ended else [(len(self.texts) - 1, END)])]

    def refuse(self, place: int, kind: str) -> None:
        """Notes a refusal and sets its line aside, or adds what is lacking."""
        self.refused.append(Found(place, kind, cause_of(kind, self.texts, place, self.refused)))
        if kind == "NoHostname":
            self.is_named = False
        elif kind == "NoEnd":
            self.is_ended = False
        elif self.texts[place].split()[:1] == [END] and openers(self.texts)[place] == place:
            self.put[place] = END
        else:
            self.aside.update(stanza_at(self.texts, place))


@dataclasses.dataclass(frozen=True)
class Text:
    """What stays of routers that are judged as one text. With `only_last` a refusal in another router than the last ends
    the rounds."""

    rests: Sequence[Rest]
    only_last: bool = False

    def text(self) -> str:
        """The text of what stays."""
        return "".join(f"{text}\n" for rest in self.rests for _, text in rest.numbered())

    def spot(self, line: int) -> tuple[int, int] | None:
        """The router and the place in it of a line of the text of what stays."""
        for number, rest in enumerate(self.rests):
            lines = rest.numbered()
            if line <= len(lines):
                return number, lines[line - 1][0]
            line -= len(lines)
        return None

    def refuse(self, spot: tuple[int, int], kind: str) -> bool:
        """Notes the refusal of a router at a place, where it counts. Whether there are more rounds."""
        number, place = spot
        if self.only_last and number != len(self.rests) - 1:
            return False
        self.rests[number].refuse(place, kind)
        return True


def judge(program: Program, rests: Sequence[Rest], only_last: bool = False) -> str | None:
    """Judges routers as one text until nothing is refused. The kind where the text as a whole cannot be judged, else
    none."""
    found = set_aside_refused(program, Text(rests, only_last))
    return found.kind if found else None
