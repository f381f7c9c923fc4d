"""Names of routers on the page: each stands there once, and elsewhere its number. The script of the page puts the names back."""
from __future__ import annotations

import re
from collections.abc import Iterable, Sequence
from itertools import groupby

from bonsainet.ask.program import Group

MEMBERS = re.compile(r"(?:^! member \S+\n)+", re.M)
FOLDED = re.compile(r"^! members (\d+)\n", re.M)


class Numbers:
    """The routers of a network by their numbers, from 1."""

    def __init__(self, names: Iterable[str]) -> None:
        self.names = list(names)
        self.number_of = {name: number for number, name in enumerate(self.names, 1)}

    def runs(self, names: Sequence[str]) -> str:
        """The numbers of some routers, in their order: a number, or the first and the last of several that follow each other."""
        numbers = [self.number_of[name] for name in names]
        runs = (
            [number for _, number in run] for _, run in groupby(enumerate(numbers), lambda found: found[1] - found[0])
        )
        return " ".join(f"{run[0]}-{run[-1]}" if run[1:] else str(run[0]) for run in runs)


def folded(text: str, groups: Sequence[Group]) -> str:
    """A compressed text in which the lines of a group's members are one, `! members N`. A text that has such a line stays as it is."""
    number_of = {_lines(group): group.number for group in groups}
    if FOLDED.search(text):
        return text
    return MEMBERS.sub(lambda found: f"! members {number_of[found[0]]}\n" if found[0] in number_of else found[0], text)


def unfolded(text: str, groups: Sequence[Group]) -> str:
    """The text of which `folded` made one, as the script of the page makes it."""
    lines_of = {group.number: _lines(group) for group in groups}
    return FOLDED.sub(lambda found: lines_of[int(found[1])], text)


def _lines(group: Group) -> str:
    return "".join(f"! member {name}\n" for name in group.members)
