"""Which classes have no tie in any stable solution, as bonsai-ask says.

Each class is asked what is true in every network, that no chain of forwarding is longer than there are routers. Behind
the answer the program names a router for which two offers of one preference and length met in the search, or nobody:
then whatever breaks ties, routers rest in the keys of a stable solution.
"""
from __future__ import annotations

import dataclasses
from collections.abc import Sequence

from bonsainet.asking.reports import ClassAnswer, Tie
from bonsainet.asking.shares import ALWAYS_TRUE, parts_of

SECONDS = 120.0


@dataclasses.dataclass(frozen=True)
class Met:
    """The ties that bonsai-ask meets: of each class that has a stable solution a tie, or none; and the ranges of classes
    that it did not answer in its time."""

    ties: dict[int, Tie | None]
    late: tuple[tuple[int, int], ...] = ()

    def has_none(self, number: int) -> bool:
        """Whether a class has no tie in any stable solution, and has one."""
        return self.ties.get(number, NOT_KNOWN) is None

    @property
    def told_of_late(self) -> str:
        """In words which classes were not answered."""
        names = [str(first) if first == last else f"{first} to {last}" for first, last in self.late]
        kind = "class" if len(self.late) == 1 and self.late[0][0] == self.late[0][1] else "classes"
        return f"{kind} {', '.join(names)}: bonsai-ask was ended, since it took more than {SECONDS:g} seconds"


NOT_KNOWN = Tie("", "")


def ties_met(text: str, numbers: Sequence[int]) -> Met:
    """The ties of these classes, ascending."""
    found: dict[int, Tie | None] = {}
    late = []
    for asked, parts in parts_of(text, ALWAYS_TRUE, numbers, SECONDS) if numbers else ():
        if parts is None:
            late.append(asked)
        for part in parts or ():
            # (a class without a stable solution is asked by labels, which do not come to rest)
            if isinstance(part, ClassAnswer) and (part.tie or part.verdict == "yes"):
                found[part.number] = part.tie
    return Met(found, tuple(late))
