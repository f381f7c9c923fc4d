"""A certificate of the groups of a class, split by split: which routers each split takes out of a block.

The certificate and the acts are the program's. Which members of a block a split takes is read from the canonical compressed
network, in which edges that act alike have the same entries, and the program verifies it.
"""
from __future__ import annotations

import dataclasses
from collections.abc import Iterable, Iterator, Sequence

from bonsainet.ask.program import Group, Status
from bonsainet.cli.command_line import Refused
from bonsainet.configs.network import End
from bonsainet.configs.network import Network as Parsed
from bonsainet.diffing.forms import NOTHING_PASSES, Act, Form
from bonsainet.library import DestClass
from bonsainet.library.calls import BONSAI, call, program

HEAD = "bonsai certificate 1"


@dataclasses.dataclass(frozen=True)
class Split:
    """A line `split B T NAME L`, its number from 1, and the edge of NAME over the link L: the near end, and the far one."""

    number: int
    text: str
    block: int
    into: int
    near: End = dataclasses.field(compare=False, repr=False)
    far: End = dataclasses.field(compare=False, repr=False)


@dataclasses.dataclass(frozen=True)
class Step:
    """What a split does: the routers that it takes out of a block, those that it leaves there, the block into which they
    have an edge, and how that edge acts."""

    split: Split
    taken: frozenset[str]
    left: frozenset[str]
    into: frozenset[str]
    act: Act


@dataclasses.dataclass(frozen=True)
class Reading:
    """A class with what the program says of its groups, its compressed network, and the splits of its certificate."""

    of: DestClass
    parsed: Parsed
    groups: tuple[Group, ...]
    form: Form
    splits: tuple[Split, ...]

    @classmethod
    def of_class(cls, found: DestClass) -> Reading:
        """The reading of a class. WordsRefused where the program writes no compressed network for it."""
        parsed = found.network.parsed
        form = Form(found.canon().raw)
        text = call(BONSAI, ["certify", "F", str(found.number)], found.network.text, found.network.name).text
        return cls(found, parsed, found.groups(), form, tuple(_splits(text, parsed)))

    def group_of(self, router: str) -> Group:
        """The group of a router. Refused where there is no such router."""
        group = next((one for one in self.groups if router in one.members), None)
        if group is None:
            raise Refused(f"{self.of.network.name}: no router {router}")
        return group

    def acts(self, importer: str, exporter: str) -> frozenset[Act]:
        """How a router takes routes from another of another group, if it takes any."""
        return self.form.acts(importer, exporter) - {NOTHING_PASSES}

    def act_of(self, near: End, far: End) -> frozenset[Act]:
        """How the near end of a link takes routes. Several acts where the groups of both have several, and the lines do not say
        which of them it is."""
        if near.neighbor is None:
            return frozenset([(f"cost {near.cost}",)])
        return self.acts(near.device.name, far.device.name)

    @property
    def first_blocks(self) -> list[frozenset[str]]:
        """The blocks before the first split: each lone router, routers that originate the class alike, and the others."""
        found: dict[object, list[str]] = {}
        for group in self.groups:
            for member in group.members:
                found.setdefault((group.number,) if group.is_lone else self.initial(member), []).append(member)
        place = {device.name: number for number, device in enumerate(self.parsed.devices)}
        blocks = sorted(found.values(), key=lambda members: min(place[member] for member in members))
        return [frozenset(members) for members in blocks]

    def initial(self, router: str) -> object:
        """What a router begins with: its cost, or its default preference, where it originates the class."""
        device, prefix = self.parsed.by_name[router], self.of.prefixes[0]
        if router not in self.of.origins:
            return None
        if device.bgp:
            return "preference", 100 if device.bgp.preference is None else device.bgp.preference
        return "cost", next(
            one.cost for one in self.parsed.origins if (one.device, str(one.prefix)) == (router, prefix)
        )

    def steps(self) -> Iterator[Step]:
        """What each split does, in order. Refused where the program does not verify it."""
        blocks = self.first_blocks
        for split in self.splits:
            block, into = blocks[split.block - 1], blocks[split.into - 1]
            for act in sorted(self.act_of(split.near, split.far)):
                taken = self._taken(block, into, act)
                trial = [*blocks, taken]
                trial[split.block - 1] = block - taken
                if taken and taken != block and self._is_so(split.number, trial):
                    blocks = trial
                    yield Step(split, taken, block - taken, into, act)
                    break
            else:
                raise Refused(f"the program does not verify what this tool makes of the line {split.text!r}")

    def _taken(self, block: Iterable[str], into: Iterable[str], act: Act) -> frozenset[str]:
        """The members of a block that have an edge into another which acts so. Members of one group have the same."""
        firsts = {self.group_of(name).members[0] for name in into}
        groups = {self.group_of(name) for name in block}
        return frozenset(
            member
            for group in groups
            if any(act in self.acts(group.members[0], first) for first in firsts)
            for member in group.members
        )

    def _is_so(self, count: int, blocks: Sequence[frozenset[str]]) -> bool:
        """Whether the program says that these are the blocks after so many splits: it accepts them as groups, or finds
        nothing wrong with them but that they can be split further."""
        names = [device.name for device in self.parsed.devices]
        place = {name: number for number, name in enumerate(names)}
        ordered = sorted((sorted(block, key=place.__getitem__) for block in blocks), key=lambda one: place[one[0]])
        lines = [HEAD, *(split.text for split in self.splits[:count])]
        lines += [f"group {' '.join(members)}" for members in ordered] + ["end"]
        texts: dict[str, str | bytes] = {"F": self.of.network.raw, "S": "".join(f"{line}\n" for line in lines)}
        answer = program(BONSAI).ask("verify", "F", str(self.of.number), "S", texts=texts)
        not_yet = f"refused: certificate line {len(lines)}: NotAdmissible"
        return answer.status == Status.DONE or answer.reason == not_yet


def _splits(text: str, parsed: Parsed) -> Iterator[Split]:
    lines = [line for line in text.splitlines() if line.startswith("split ")]
    for number, line in enumerate(lines, 1):
        _, block, into, name, link = line.split()
        found = parsed.links[int(link)]
        near, far = (found.low, found.high) if found.low.device.name == name else (found.high, found.low)
        yield Split(number, line, int(block), int(into), near, far)
