"""What routers rest in after a loss, against all solutions that `bonsai-ask` lists without what was lost."""
from __future__ import annotations

import dataclasses
from collections.abc import Iterable, Mapping

from bonsainet.ask.labels import Label, read_solution
from bonsainet.ask.program import Class, NotAnswered, Program
from bonsainet.asking.calls import IS_DONE
from bonsainet.asking.reports import ClassAnswer, Solution, Tie, reports_of
from bonsainet.configs.network import Network
from bonsainet.lab.down import Down

Labels = Mapping[str, Label]


@dataclasses.dataclass(frozen=True)
class Expected:
    """What the program says of a class without something: its solutions, in the order of the program, the tie that it
    reports, and the AS numbers of lone routers, which keys name."""

    solutions: tuple[Labels, ...]
    tie: Tie | None
    lone: frozenset[int]

    def place_of(self, labels: Labels) -> int | None:
        """The number, from 1, of the solution that has the keys of these labels. None where no solution has them."""
        keys = [self._keys(one) for one in self.solutions]
        own = self._keys(labels)
        return keys.index(own) + 1 if own in keys else None

    def _keys(self, labels: Labels) -> dict[str, object]:
        return {name: label and label.key(self.lone) for name, label in labels.items()}


def expected(bonsai: Program, ask: Program, text: str, network: Network, of_class: Class, down: Down) -> Expected:
    """What the programs say of a class without something. NotAnswered where one of them does not."""

    def said(*task: str) -> str:
        words = (str(of_class.number), "without", down.word, *task)
        answer = ask.ask("F", *words, texts={"F": text})
        if answer.status not in IS_DONE:
            raise NotAnswered(answer, " ".join(words))
        return answer.text

    (listed,) = reports_of(said("solutions"))
    solutions = [read_solution("\n".join(part.lines)) for part in listed.parts if isinstance(part, Solution)]
    # (a router that originates the class has a route, so the answer is no `no`, which has no word about ties)
    (asked,) = reports_of(said("route", of_class.origins[0][0]))
    (answer,) = asked.parts
    assert isinstance(answer, ClassAnswer)
    return Expected(tuple(solutions), answer.tie, lone_without(bonsai, text, network, of_class.prefixes[0], down))


def lone_without(bonsai: Program, text: str, network: Network, prefix: str, down: Down) -> frozenset[int]:
    """The AS numbers of the lone routers of the class of a prefix without something: of the text in which one neighbour of
    each session that is lost has `shutdown`."""
    if network.protocol != "bgp":
        return frozenset()
    lost = (link.low.neighbor for link in network.links if down.loses(link))
    left = with_shutdown(text, (neighbor.line.place.line for neighbor in lost if neighbor))
    number = next(found.number for found in bonsai.classes(left) if prefix in found.prefixes)
    names = [name for group in bonsai.groups(left, number) if group.is_lone for name in group.members]
    return frozenset(network.by_name[name].own_bgp.number for name in names)


def with_shutdown(text: str, heads: Iterable[int]) -> str:
    """The text in which neighbours are shut, each named by the number of its first line."""
    lines = text.split("\n")
    for number in sorted(set(heads), reverse=True):
        address = lines[number - 1].split()[1]
        lines.insert(number, f" neighbor {address} shutdown")
    return "\n".join(lines)
