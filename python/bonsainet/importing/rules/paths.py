"""AS path lists: where each path that a prefix can have answers alike, the list is a list of prefixes.

A path of a prefix ends at a router that originates it, and begins at the neighbour that sends it. The rest can be any
other routers of the folder, so an expression is asked about more paths than there are.
"""
from __future__ import annotations

import dataclasses
from collections.abc import Iterator
from ipaddress import IPv4Network

from bonsainet.importing.folder import Folder, Source, address_of, network_of
from bonsainet.importing.rule import rule
from bonsainet.importing.rules import lists
from bonsainet.importing.rules.neighbors import Peer, peers_of
from bonsainet.importing.rules.options import Options
from bonsainet.importing.rules.outgoing import fresh_name
from bonsainet.importing.rules.regex import BLANK, Machine, Unread, machine_of
from bonsainet.configs.text import Line, Stanza

PATHS = rule(
    "as-path-list",
    "a path ends at an originator of its prefix and begins at the neighbour that sends it, and the list answers alike for all such paths of the folder: so it is a list of prefixes",
    "RFC 4271 section 5.1.2; Cisco IOS BGP, `ip as-path access-list`; FRR user guide, AS path access lists",
)
REFUSED = "as-path"
HEAD = ["ip", "as-path", "access-list"]
Origins = dict[IPv4Network, list[Source]]
Answers = dict[IPv4Network, bool | None]


@dataclasses.dataclass(frozen=True)
class Ways:
    """The paths that a prefix can have at one place: the numbers that come first (none where there is no path but the
    empty one), those between, and those that can end it."""

    first: frozenset[int] | None
    between: frozenset[int]
    ends: frozenset[int]


def prefix_lists(folder: Folder, _options: Options) -> None:
    """Writes AS path lists in maps and filters of neighbours as prefix lists."""
    origins = _origins(folder)
    up = folder.up
    for router in folder.routers:
        process = router.process("bgp")
        if process is None or not any(router.with_head(*HEAD)):
            continue
        peers = {peer.name: peer for peer in peers_of(router, up)}
        names = _Writer(folder, router, process, peers, origins).write()
        gone = [
            stanza for stanza in router.with_head(*HEAD) if stanza.head.words[3:4] and stanza.head.words[3] in names
        ]
        for stanza in gone:
            folder.log.cut(stanza.lines, PATHS)
        router.stanzas = [stanza for stanza in router.stanzas if all(stanza is not one for one in gone)]


def _origins(folder: Folder) -> Origins:
    """The routers that originate each prefix, by a `network` line over an interface."""
    found: Origins = {}
    for router in folder.routers:
        subnets = {address.network for stanza in router.interfaces if (address := address_of(stanza))}
        for process in router.with_head("router", "bgp"):
            for line in process.body:
                prefix = network_of(line) if line.words[:1] == ["network"] else None
                if prefix in subnets:
                    found.setdefault(prefix, []).append(router)
    return found


class _Writer:
    """Writes the lines of one router that name AS path lists."""

    def __init__(
        self, folder: Folder, router: Source, process: Stanza, peers: dict[str, Peer], origins: Origins
    ) -> None:
        self.folder = folder
        self.router = router
        self.process = process
        self.peers = peers
        self.origins = origins
        self.done: dict[tuple[object, ...], bool | None] = {}

    def write(self) -> set[str]:
        """Writes what can be written, refuses the rest, and gives the lists that no line names any more."""
        seen: set[str] = set()
        left: set[str] = set()
        for line in list(self.process.body):
            words = line.words
            if words[:1] == ["neighbor"] and words[2:3] == ["filter-list"] and words[4:] in (["in"], ["out"]):
                (seen if self._filter(line) else left).add(words[3])
        for stanza in self.router.with_head("route-map"):
            for line in list(stanza.body):
                if line.words[:2] == ["match", "as-path"]:
                    (seen if self._match(stanza, line) else left).update(line.words[2:])
        return seen - left

    def _filter(self, line: Line) -> bool:
        words = line.words
        answers = self._answers(line, [words[3]], [(words[1], words[4])])
        if answers is None:
            return False
        own = next(
            (
                one
                for one in self.process.body
                if one.words[:3] == ["neighbor", words[1], "prefix-list"] and one.words[4:] == words[4:]
            ),
            None,
        )
        return self._write(
            self.process,
            line,
            answers,
            own,
            own.words[3:4] if own else [],
            f"neighbor {words[1]} prefix-list {{}} {words[4]}",
        )

    def _match(self, stanza: Stanza, line: Line) -> bool:
        uses = [
            (one.words[1], one.words[4])
            for one in self.process.body
            if one.words[:1] == ["neighbor"]
            and one.words[2:4] == ["route-map", stanza.head.words[1]]
            and len(one.words) == 5
        ]
        if not uses:
            return False
        answers = self._answers(line, line.words[2:], uses)
        if answers is None:
            return False
        own = next((one for one in stanza.body if one.words[:4] == ["match", "ip", "address", "prefix-list"]), None)
        return self._write(stanza, line, answers, own, own.words[4:] if own else [], "match ip address prefix-list {}")

    def _write(
        self, stanza: Stanza, line: Line, answers: Answers, own: Line | None, names: list[str], form: str
    ) -> bool:
        """Writes a line as one that names a prefix list of the prefixes for which its answer, and that of the prefix
        lists that stand beside it, is yes."""
        beside = [lists.prefix_list(self.router, name) for name in names]
        if None in beside:
            self.folder.log.refuse(
                line, REFUSED, f"the prefix list {' '.join(names)} that stands beside it is not defined"
            )
            return False
        known = [rungs for rungs in beside if rungs is not None]
        permitted = [
            prefix
            for prefix in sorted(answers)
            if answers[prefix] and (own is None or any(lists.prefix_permits(rungs, prefix) for rungs in known))
        ]
        name = fresh_name(self.router, f"PATHS-{line.words[-1] if stanza is not self.process else line.words[3]}"[:50])
        is_all = own is None and len(permitted) == len(answers)
        ends = [f"permit {prefix}" for prefix in permitted] or ["deny 0.0.0.0/0 le 32"]
        self.router.stanzas += [
            Stanza(line.with_text(f"ip prefix-list {name} seq {5 * at} {end}"))
            for at, end in enumerate(["permit 0.0.0.0/0 le 32"] if is_all else ends, 1)
        ]
        self.folder.log.by(line, PATHS)
        if own:
            self.folder.log.by(own, PATHS)
        made = line.with_text(f" {form.format(name)}")
        stanza.body = [made if one is line else one for one in stanza.body if one is not own]
        return True

    def _answers(self, line: Line, names: list[str], uses: list[tuple[str, str]]) -> Answers | None:
        """What the lists answer for each prefix, the same for all uses; refused and none where that is not so."""
        found: Answers = {}
        for peer, way in uses:
            for prefix in self.origins:
                ways = self._ways(self.peers.get(peer), way, prefix)
                if ways is None:
                    continue
                answer = self._of_lists(line, names, ways)
                if answer is None or found.get(prefix, answer) != answer:
                    why = (
                        "its lists have an expression that is not read here, or are not defined"
                        if answer is None
                        else ""
                    )
                    self.folder.log.refuse(
                        line,
                        REFUSED,
                        f"for {prefix} the list answers unlike for different paths or neighbours, so it is no list of prefixes{'; or ' + why if why else ''}",
                    )
                    return None
                found[prefix] = answer
        return {prefix: found.get(prefix, True) for prefix in self.origins}

    def _ways(self, peer: Peer | None, way: str, prefix: IPv4Network) -> Ways | None:
        """The paths that a prefix can have at a neighbour; none where no route of it comes or goes."""
        own = self.router.number or 0
        origins = self.origins[prefix]
        numbers = frozenset(router.number or 0 for router in self.folder.routers) - {own, 0}
        ends = frozenset(router.number or 0 for router in origins) - {own}
        if any(router is self.router for router in origins):
            return Ways(None, frozenset(), frozenset()) if way == "out" else None
        if not ends or peer is None or (way == "in" and peer.far is None):
            return None
        if way == "out" or peer.far is None:
            return Ways(frozenset(), numbers - ends, ends)
        far = peer.far[0].number or 0
        if any(router is peer.far[0] for router in origins):
            return Ways(frozenset([far]), frozenset(), frozenset())
        return Ways(frozenset([far]), numbers - ends - {far}, ends)

    def _of_lists(self, line: Line, names: list[str], ways: Ways) -> bool | None:
        answers = [self._of_list(name, ways) for name in names]
        return None if None in answers else any(answers)

    def _of_list(self, name: str, ways: Ways) -> bool | None:
        entries = sorted(
            (_numbered(stanza.head.words[4:]) for stanza in self.router.with_head(*HEAD, name)),
            key=lambda found: found[0],
        )
        for _, act, text in entries:
            answer = self._decided(text, ways)
            if answer is None or act not in ("permit", "deny"):
                return None
            if answer:
                return act == "permit"
        return False if entries else None

    def _decided(self, text: str, ways: Ways) -> bool | None:
        """Whether an expression holds for all paths, or for none; none where it holds for some."""
        key = (text, ways)
        if key not in self.done:
            try:
                self.done[key] = decided(machine_of(text), ways)
            except Unread:
                self.done[key] = None
        return self.done[key]


def _numbered(words: list[str]) -> tuple[int, str, str]:
    """The number, the act and the expression of an entry, of which one without a number keeps its place."""
    is_numbered = words[:1] == ["seq"] and len(words) > 1 and words[1].isdigit()
    rest = words[2:] if is_numbered else words
    return int(words[1]) if is_numbered else 0, rest[0] if rest else "", BLANK.join(rest[1:])


def decided(machine: Machine, ways: Ways) -> bool | None:
    """Whether an expression is found in all paths, or in none; none where it is found in some."""
    if ways.first is None:
        return machine.searches("")
    found: set[bool] = set()
    begun = (0, 0, machine.begun())
    seen, waiting = {begun}, [begun]
    while waiting and len(found) < 2:
        place, last, states = waiting.pop()
        for number, to, is_end in _next(ways, place, last):
            text = f"{BLANK if place else ''}{number}"
            after = (to, number if to != 2 else 0, machine.read(states, text))
            if is_end:
                found.add(machine.finds(after[2], False))
            if after not in seen:
                seen.add(after)
                waiting.append(after)
    return found.pop() if len(found) == 1 else None


def _next(ways: Ways, place: int, last: int) -> Iterator[tuple[int, int, bool]]:
    """The numbers that can come next on a path, each with its place and whether a path can end there: place 1 has the
    first number, 2 those between, 3 the last."""
    first = ways.first or frozenset()
    if place == 0 and first:
        yield from ((number, 1, not ways.ends) for number in first)
        return
    if place == 1:
        yield last, 1, not ways.ends
    if place == 3:
        yield last, 3, True
        return
    yield from ((number, 2, False) for number in ways.between)
    yield from ((number, 3, True) for number in ways.ends)
