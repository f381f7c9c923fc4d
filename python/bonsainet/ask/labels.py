"""Labels as plain data: what a router holds for a class, their text as the program reads it, and their keys."""
from __future__ import annotations

import dataclasses
from collections.abc import Iterable, Mapping
from itertools import groupby

from bonsainet.configs.profile import community, community_text

LONGEST_PIECE = 11


@dataclasses.dataclass(frozen=True)
class BgpLabel:
    """A BGP route: preference, numbers on the path, nearest first, and ascending communities."""

    preference: int
    path: tuple[int, ...]
    communities: tuple[int, ...]

    @property
    def text(self) -> str:
        """The words of the label."""
        path = "".join(f" {piece}" for piece in pieces(self.path))
        return f"bgp {self.preference} path{path} comms{''.join(f' {community_text(value)}' for value in self.communities)}"

    def key(self, lone: frozenset[int]) -> tuple[object, ...]:
        """The key, in which the smaller is the better: preference, length, communities, lone numbers on the path."""
        return (-self.preference, len(self.path), self.communities, tuple(sorted(lone & set(self.path))))


@dataclasses.dataclass(frozen=True)
class OspfLabel:
    """An OSPF route: its cost."""

    cost: int

    @property
    def text(self) -> str:
        """The words of the label."""
        return f"cost {self.cost}"

    def key(self, _lone: frozenset[int]) -> tuple[object, ...]:
        """The key: the cost."""
        return (self.cost,)


Label = BgpLabel | OspfLabel | None


def pieces(path: Iterable[int]) -> list[str]:
    """The words of a path: runs of one number as pieces of at most eleven."""
    words = []
    for number, run in groupby(path):
        count = len(list(run))
        while count:
            piece = min(count, LONGEST_PIECE)
            words.append(f"{number}*{piece}" if piece > 1 else str(number))
            count -= piece
    return words


def solution_text(labels: Mapping[str, Label]) -> str:
    """The text of labels, a line for each router."""
    return "".join(f"{name} {label.text if label else 'none'}\n" for name, label in labels.items())


def read_solution(text: str) -> dict[str, Label]:
    """The labels of a solution that the program wrote or accepts. ValueError where a line is of no form."""
    return {words[0]: _label(words[1:]) for words in map(str.split, text.splitlines()) if words}


def _label(words: list[str]) -> Label:
    match words:
        case ["cost", cost]:
            return OspfLabel(int(cost))
        case ["bgp", preference, "path", *rest]:
            at = rest.index("comms")
            runs = (piece.partition("*") for piece in rest[:at])
            path = tuple(int(number) for number, _, count in runs for _ in range(int(count or 1)))
            return BgpLabel(int(preference), path, tuple(map(community, rest[at + 1 :])))
        case ["none"]:
            return None
        case _:
            raise ValueError(f"no label: {' '.join(words)}")
