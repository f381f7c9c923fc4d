"""Two networks that are compared, and what is read and asked of both for it."""
from __future__ import annotations

import dataclasses
import functools

from bonsainet.ask.frames import Frame, frames_of
from bonsainet.ask.program import ALL
from bonsainet.ask.shares import side_by_side
from bonsainet.configs.network import Network as Parsed
from bonsainet.library.calls import errors_of, program
from bonsainet.library.networks import Network
from bonsainet.library.routers import Routers
from bonsainet.library.states import State, spans, states_of


@dataclasses.dataclass(frozen=True)
class Pair:
    """The network before and the one after."""

    old: Network
    new: Network

    @functools.cached_property
    def routers(self) -> tuple[Routers, Routers]:
        """The routers of both. One whose lines are the same on both sides is read once, and is one device in both, whose
        lines have the places that they have before."""
        old = Routers(self.old)
        return old, Routers(self.new, old)

    @functools.cached_property
    def parsed(self) -> tuple[Parsed, Parsed]:
        """What the lines of both say."""
        old, new = (side.among(side.texts) for side in self.routers)
        return old, new

    @functools.cached_property
    def shared(self) -> frozenset[str]:
        """The routers whose lines are the same on both sides."""
        old, new = self.routers
        return frozenset(name for name, text in new.texts.items() if old.texts.get(name) == text)

    @functools.cached_property
    def around(self) -> tuple[Parsed, Parsed]:
        """What both say of the routers that are not the same, and of those with an address in a subnet of theirs: each link
        of a router that is not the same is between two of these, on both sides. Other links are the same."""
        old, new = self.routers
        others = {name: None for side in self.routers for name in side.texts if name not in self.shared}
        subnets = {
            interface.subnet
            for side in self.routers
            for name in others
            if name in side.texts
            for interface in side.device(name).interfaces
            if interface.address
        }
        names = [*others, *old.in_subnets(subnets, self.shared)]
        return old.among(names), new.among(names)

    @functools.cached_property
    def states(self) -> tuple[dict[int, State], dict[int, State]]:
        """What each class of both may come to rest in, by the number of the class."""
        old, new = states_of([self.old, self.new])
        return old, new

    @functools.cached_property
    def canons(self) -> tuple[dict[int, Frame], dict[int, Frame]]:
        """What the program writes for `canon` of each class of both, by the number of the class."""
        # (the program is found once, and not by several threads)
        program(ALL)
        old, new = side_by_side(_canons, (self.old, self.new))
        return old, new

    def has_one_canon(self, old: int, new: int) -> bool:
        """Whether two classes have the same compressed network with canonical maps, so that they have the same labels."""
        before, after = self.canons[0][old], self.canons[1][new]
        return before.refusal is None and after.refusal is None and before.written == after.written


def _canons(network: Network) -> dict[int, Frame]:
    numbers = [found.number for found in network.classes]
    with errors_of(network.name, network.text):
        frames = frames_of(network.raw, ["canon"], numbers, spans(len(numbers))) if numbers else ()
        return {frame.number: frame for (frame,) in frames}
