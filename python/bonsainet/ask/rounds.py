"""Rounds of asking: a text is judged, what is refused is set aside, and what stays is judged again."""
from __future__ import annotations

from typing import Protocol, TypeVar

from bonsainet.ask.program import Program, Refusal

Spot = TypeVar("Spot")


class Remainder(Protocol[Spot]):
    """What stays of a text from which refused lines are set aside."""

    def text(self) -> str:
        """The text of what stays."""

    def spot(self, line: int) -> Spot | None:
        """What the line of this number, from 1, of that text is; none where it is no line that can be set aside."""

    def refuse(self, spot: Spot, kind: str) -> bool:
        """Notes a refusal and sets aside what it needs. Whether there are more rounds."""


def set_aside_refused(program: Program, remainder: Remainder[Spot]) -> Refusal | None:
    """Judges what stays, until nothing is refused or the remainder ends the rounds.

    The refusal for which nothing can be set aside: it names no such line, or is that of the round before. Else none.
    """
    before: tuple[Spot, str] | None = None
    while found := program.refusal(remainder.text()):
        spot = remainder.spot(found.line) if found.line is not None else None
        if spot is None or (spot, found.kind) == before:
            return found
        if not remainder.refuse(spot, found.kind):
            return None
        before = (spot, found.kind)
    return None
