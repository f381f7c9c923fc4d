"""A class of destination prefixes, and what the programs say of it."""
from __future__ import annotations

import dataclasses
import functools
from collections.abc import Iterable, Mapping
from typing import TYPE_CHECKING, Literal

from bonsainet.ask.labels import BgpLabel, Label, OspfLabel, read_solution, solution_text
from bonsainet.ask.program import BONSAI, Answer, Class, Group, Size, groups_of, report_of
from bonsainet.library.calls import call, read
from bonsainet.library.errors import NotStable, ProgramFailed, WordsRefused
from bonsainet.library.questions import Questions, names_of

if TYPE_CHECKING:
    from bonsainet.library.networks import Network

__all__ = ["DestClass", "Group", "Size"]

Labels = dict[str, Label]
STABLE = b"stable\n"


@dataclasses.dataclass(frozen=True)
class DestClass:
    """A class of destination prefixes that the network routes alike: its number from 1, its prefixes, and the routers that
    originate them."""

    network: Network = dataclasses.field(repr=False)
    number: int
    prefixes: tuple[str, ...]
    origins: tuple[str, ...]

    @classmethod
    def of(cls, network: Network, found: Class) -> DestClass:
        """The class that the program lists."""
        return cls(network, found.number, found.prefixes, tuple(name for name, _ in found.origins))

    @property
    def ask(self) -> Questions:
        """Questions about every stable solution of the class."""
        return Questions(self)

    def without(self, *down: str) -> Questions:
        """The same questions with routers `A` and links `A:B` down."""
        return Questions(self, down)

    def failing(self, what: Literal["links", "routers"], down: Iterable[str] = ()) -> Questions:
        """The same questions, each asked again without each one link or router more than those that are down. These are the
        seven questions alone, without `count`, `solutions`, `forwards` and `ways`."""
        return Questions(self, names_of(down), what)

    @functools.cached_property
    def _groups(self) -> tuple[Group, ...]:
        return tuple(read(groups_of, self._done("groups")))

    def groups(self) -> tuple[Group, ...]:
        """The groups of routers that behave alike for the class: the coarsest that are admissible."""
        return self._groups

    def size(self) -> Size:
        """How many routers and links there are before and after compression."""
        return read(report_of, self._done("report"))[0]

    def compress(self) -> Network:
        """The compressed network of the class: a router for each group. TextRefused where the program refuses the class, as
        one with a prefix in 100.64.0.0/10, from which links get their addresses."""
        from bonsainet.library.networks import Network

        return Network(self._done("compress").text, f"class {self.number} of {self.network.name}")

    def canon(self) -> Network:
        """The compressed network with canonical maps, which do not depend on how the maps of the network were written.
        TextRefused as for `compress`, and with the kind `NoCanon` where a session has no canonical maps."""
        from bonsainet.library.networks import Network

        return Network(self._done("canon").text, f"class {self.number} of {self.network.name}, canonical")

    def solutions(self) -> list[Labels]:
        """Each stable solution: for each router its label, a BgpLabel or an OspfLabel, or none."""
        return self.ask.solutions()

    def forwards(self) -> list[dict[str, tuple[str, ...] | None]]:
        """For each stable solution the next hops: to whom each router forwards, nobody where it holds its own route, and
        none where it has no route."""
        return self.ask.forwards()

    def check(self, labels: Mapping[str, Label]) -> bool:
        """Whether labels are a stable solution. WordsRefused where they are not those of the routers."""
        try:
            said = self._said("check", labels)
        except NotStable:
            return False
        if said.out != STABLE:
            raise ProgramFailed(said.status, f"{BONSAI} did not say whether they are stable")
        return True

    def fold(self, labels: Mapping[str, Label]) -> Labels:
        """The solution of the groups that corresponds to a stable solution of the routers. NotStable where that is none."""
        return read(read_solution, self._said("fold", labels))

    def lift(self, labels: Mapping[str, Label]) -> Labels:
        """The solution of the routers that corresponds to a stable solution of the groups. NotStable where that is none."""
        return read(read_solution, self._said("lift", labels))

    def _said(self, command: str, labels: Mapping[str, Label]) -> Answer:
        """What the program says to a command about labels."""
        words = [command, "F", str(self.number), "S"]
        return call(BONSAI, words, self.network.text, self.network.name, _text_of(labels))

    def _done(self, command: str) -> Answer:
        return call(BONSAI, [command, "F", str(self.number)], self.network.text, self.network.name)


def _text_of(labels: Mapping[str, Label]) -> str:
    """The text of labels. WordsRefused where a name would be no word of its line."""
    for name, label in labels.items():
        if len(name.split()) != 1 or name != name.strip():
            raise WordsRefused(f"no name of a router: {name!r}")
        if not isinstance(label, BgpLabel | OspfLabel | None):
            raise WordsRefused(f"no label of {name}: {label!r}")
    return solution_text(labels)
