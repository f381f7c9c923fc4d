"""Certificates of docs/use/FORMATS.md: read line by line, each split made on blocks."""
from __future__ import annotations

from hostile.judge import words
from hostile.judge.network import Refused
from hostile.judge.problem import Problem
from hostile.judge.reading import lines_of, split


class Judge:
    """The blocks so far, and the groups named so far."""

    def __init__(self, problem: Problem) -> None:
        self.problem = problem
        self.blocks: list[list[int]] = []
        self.named: list[list[int]] = []
        starts: dict[object, list[int]] = {}
        for place in range(len(problem.names)):
            kind = ("lone", place) if place in problem.lone else ("starts", problem.initial.get(place))
            starts.setdefault(kind, []).append(place)
        self.blocks = list(starts.values())

    def read(self, text: bytes) -> None:
        """Accepts a certificate, or Refused at its line."""
        lines = lines_of(text)
        begun = ended = False
        for place, line in enumerate(lines, 1):
            found = split(line)
            if not found:
                continue
            if ended or begun != (found != ["bonsai", "certificate", "1"]):
                raise Refused(place, "BadForm")
            if not begun:
                begun = True
            elif found == ["end"]:
                self._end(place)
                ended = True
            else:
                self._line(found, place)
        if not ended:
            raise Refused(len(lines) + 1, "NoEnd")

    def _line(self, found: list[str], place: int) -> None:
        if found[0] == "group" and len(found) > 1 and all(map(words.router_name, found[1:])):
            self._group(found[1:], place)
        elif found[0] == "split" and len(found) == 5 and not self.named and words.router_name(found[3]):
            numbers = words.all_given(words.number(found[at]) for at in (1, 2, 4))
            if numbers is None:
                raise Refused(place, "BadForm")
            self._split(numbers[0], numbers[1], found[3], numbers[2], place)
        else:
            raise Refused(place, "BadForm")

    def _split(self, block: int, other: int, name: str, link: int, place: int) -> None:
        if name not in self.problem.names:
            raise Refused(place, "UnknownRouter")
        importer = self.problem.names.index(name)
        acts = [edge.act for edge in self.problem.edges if (edge.importer, edge.link) == (importer, link)]
        if not acts:
            raise Refused(place, "NoEdge")
        if not (1 <= block <= len(self.blocks) and 1 <= other <= len(self.blocks)):
            raise Refused(place, "NoBlock")
        if block == other:
            raise Refused(place, "SameBlock")
        aim = set(self.blocks[other - 1])
        moved = {edge.importer for edge in self.problem.edges if edge.act == acts[0] and edge.exporter in aim}
        parts = [[one for one in self.blocks[block - 1] if (one in moved) == side] for side in (False, True)]
        if not all(parts):
            raise Refused(place, "NothingSplit")
        self.blocks[block - 1] = parts[0]
        self.blocks.append(parts[1])

    def _groups(self) -> list[list[int]]:
        return sorted(self.blocks, key=lambda block: block[0])

    def _group(self, names: list[str], place: int) -> None:
        if not set(names) <= set(self.problem.names):
            raise Refused(place, "UnknownRouter")
        expected = self._groups()
        if len(self.named) >= len(expected) or [self.problem.names[one] for one in expected[len(self.named)]] != names:
            raise Refused(place, "WrongGroups")
        self.named.append(expected[len(self.named)])

    def _end(self, place: int) -> None:
        if self.named != self._groups():
            raise Refused(place, "WrongGroups")
        group = {one: number for number, block in enumerate(self.named) for one in block}
        for block in self.named:
            seen = [
                {
                    (edge.act, group[edge.exporter])
                    for edge in self.problem.edges
                    if edge.importer == one and group[edge.exporter] != group[one]
                }
                for one in block
            ]
            if any(acts != seen[0] for acts in seen):
                raise Refused(place, "NotAdmissible")
