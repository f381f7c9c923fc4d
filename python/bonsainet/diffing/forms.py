"""The compressed networks of two sides with canonical maps, as `bonsai-all F canon` writes them: their groups, and the acts
of the edges between these.

The canonical entries of an act depend on what is imported and on nothing else, so two edges act alike where they have the same
entries, however the route maps were written.
"""
from __future__ import annotations

import dataclasses
import functools
import io
import re
from collections.abc import Iterator

from bonsainet.ask.frames import Frame, frames_in
from bonsainet.configs.network import End, read_network
from bonsainet.configs.profile import Device, MapEntry, community_text
from bonsainet.library.pairs import Pair

# What an edge does to routes, step by step: what the far end does, whether communities are sent, what the near end does.
Act = tuple[str, ...]
NOTHING_PASSES: Act = ("lets nothing pass",)
# (most groups of a class are those of others too)
KEPT = 1 << 9
# (a class has few other lines, and a line of these for each router)
MEMBER = re.compile(rb"^! member (\S+)\n", re.MULTILINE)
# (in 100.64.0.0/10, from which the program takes the addresses of links)
END_OF_LINK = re.compile(
    rb"^ ip address 100\.(?:6[4-9]|[7-9]\d|1[01]\d|12[0-7])\.\d+\.\d+ 255\.255\.255\.254$", re.MULTILINE
)


@dataclasses.dataclass(frozen=True)
class Form:
    """The compressed network of a class: its groups by the names of their members, how many links are between them, and the
    acts by which a router of one group takes routes from one of another. `refusal` says why there is none."""

    text: bytes
    refusal: str = ""

    @functools.cached_property
    def groups(self) -> list[tuple[str, ...]]:
        """The groups, each by the names of its members."""
        return [_members(head) for head, _ in self._routers]

    @functools.cached_property
    def sorted_groups(self) -> frozenset[tuple[str, ...]]:
        """The groups in no order."""
        return frozenset(_sorted_members(head) for head, _ in self._routers)

    @property
    def _routers(self) -> Iterator[tuple[bytes, bytes]]:
        """The text of each router, up to the last line of a member and behind it."""
        for router in self.text.split(b"\nend\n"):
            if router:
                end = router.find(b"\n", router.rfind(b"\n! member ") + 1) + 1
                yield router[:end], router[end:]

    @functools.cached_property
    def _acts(self) -> dict[tuple[str, str], frozenset[Act]]:
        network = read_network(MEMBER.sub(b"", self.text).decode("ascii"), "canon")
        acts: dict[tuple[str, str], set[Act]] = {}
        for link in network.links:
            for near, far in ((link.low, link.high), (link.high, link.low)):
                acts.setdefault((near.device.name, far.device.name), set()).add(_act(near, far))
        return {pair: frozenset(found) for pair, found in acts.items()}

    @property
    def links(self) -> int:
        """How many links there are between groups. Each has two addresses of its own, and nothing else has such."""
        return sum(_link_ends(rest) for _, rest in self._routers) // 2

    @functools.cached_property
    def group_of(self) -> dict[str, tuple[str, ...]]:
        """The group of each router, by the names of its members."""
        return {member: members for members in self.groups for member in members}

    def acts(self, importer: str, exporter: str) -> frozenset[Act]:
        """The acts by which the group of a router takes routes from that of another. Empty where both are in one group, or
        where there is no such link."""
        ends = [self.group_of[name][0] for name in (importer, exporter) if name in self.group_of]
        return self._acts.get((ends[0], ends[1]), frozenset()) if len(ends) == 2 else frozenset()


def _act(near: End, far: End) -> Act:
    """What a link does to routes that its near end takes: what the far end does, and then the near end."""
    if near.neighbor is None or far.neighbor is None:
        return (f"cost {near.cost}",)
    given = far.device.maps.get(far.neighbor.map_out or "", [])
    taken = near.device.maps.get(near.neighbor.map_in or "", [])
    for name, entries in ((far.neighbor.map_out, given), (near.neighbor.map_in, taken)):
        if name and not any(entry.is_permit for entry in entries):
            return NOTHING_PASSES
    steps = [f"out {_entries(far.device, given)}"] if given else []
    steps += [] if far.neighbor.sends_communities else ["communities are not sent"]
    steps += [_entries(near.device, taken)] if taken else []
    return tuple(steps) or ("as it is",)


def act_words(act: Act) -> str:
    """An act in words."""
    return ", then ".join(act)


def _entries(device: Device, entries: list[MapEntry]) -> str:
    """Canonical entries in words; the first that fits a route decides."""
    return "; else ".join(_entry(device, entry) for entry in entries)


def _entry(device: Device, entry: MapEntry) -> str:
    """A canonical entry in words: the communities that it asks for, and what it does."""
    asked = [_listed(device, name) for name in entry.community_list_names]
    head = f"with {' or '.join(asked)}{' and no other' if entry.is_exact else ''}: " if asked else ""
    if not entry.is_permit:
        return f"{head}denied"
    done = []
    if entry.preference is not None:
        done.append(f"preference {entry.preference}")
    if entry.delete_list is not None:
        done.append(f"without {_listed(device, entry.delete_list)}")
    if entry.communities is not None:
        names = " ".join(map(community_text, entry.communities)) or "no communities"
        done.append(f"{'adds ' if entry.is_additive else ''}{names}")
    if entry.prepended:
        done.append(f"{len(entry.prepended)} more on the path")
    return f"{head}{', '.join(done) or 'as it is'}"


def _listed(device: Device, name: str) -> str:
    """The communities of a list: of each line those that it names."""
    found = [
        "+".join(map(community_text, line.communities)) if line.is_permit else f"not {line.line.text.split()[-1]}"
        for line in device.community_lists.get(name, [])
    ]
    return " or ".join(found)


@functools.lru_cache(KEPT)
def _members(head: bytes) -> tuple[str, ...]:
    """The names that the lines of members have."""
    return tuple(name.decode("ascii") for name in MEMBER.findall(head))


@functools.lru_cache(KEPT)
def _sorted_members(head: bytes) -> tuple[str, ...]:
    return tuple(sorted(_members(head)))


@functools.lru_cache(KEPT)
def _link_ends(lines: bytes) -> int:
    """How many ends of links these lines have."""
    return len(END_OF_LINK.findall(lines))


def forms_of(both: Pair) -> tuple[dict[int, Form], dict[int, Form]]:
    """The forms of all classes of each side, by their numbers."""
    old, new = ({number: _form(frame) for number, frame in frames.items()} for frames in both.canons)
    return old, new


def _form(frame: Frame) -> Form:
    return Form(frame.written) if frame.refusal is None else Form(b"", frame.refusal)


def read_forms(written: bytes) -> Iterator[tuple[int, Form]]:
    """The forms in what the program wrote."""
    yield from ((frame.number, _form(frame)) for frame in frames_in(io.BytesIO(written)))
