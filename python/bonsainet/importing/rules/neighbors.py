"""Lines of BGP neighbours: numbers, sources, hops and limits, each by its true bearing."""
from __future__ import annotations

import dataclasses
import functools
from collections import defaultdict
from collections.abc import Callable, Iterator
from ipaddress import IPv4Address, IPv4Network

from bonsainet.importing.folder import (
    Dialect,
    Folder,
    Source,
    Up,
    address_of,
    an_address,
    as_number,
    has,
    name_of,
    network_of,
    numbers_of,
)
from bonsainet.importing.rewriting import cut_lines, rewrite
from bonsainet.importing.rule import Rule, rule
from bonsainet.importing.rules.options import Options
from bonsainet.configs.text import Line, Stanza

EXTERNAL = rule(
    "remote-as-external",
    "`external` takes any other number, and the peer in the folder has this one",
    "FRR user guide, BGP, `neighbor PEER remote-as`",
)
AS_DOT = rule("as-dot", "an AS number with a point is the same as a plain number", "RFC 5396")
ABSENT = rule("absent-peer", "a neighbour whose peer is not in the folder takes part in no session here", "the profile")
ON_LINK = rule(
    "session-on-link",
    "the session uses the addresses of one subnet, so the line has no bearing",
    "RFC 4271 section 5.1.3; Cisco IOS BGP, `neighbor update-source`, `neighbor ebgp-multihop`",
)
LIMIT = rule(
    "maximum-prefix",
    "the folder has no more prefixes than the limit, so it is never passed",
    "Cisco IOS BGP, `neighbor maximum-prefix`",
)
STUB_LIMIT = rule(
    "maximum-prefix-stub",
    "the peer is a stub with this session alone, and announces no more prefixes than the limit",
    "Cisco IOS BGP, `neighbor maximum-prefix`",
)
WARNING = rule(
    "maximum-prefix-warning",
    "with `warning-only` the limit does no more than warn",
    "Cisco IOS BGP, `neighbor maximum-prefix`",
)
DEFAULT = rule("default", "the line says the default", "Cisco IOS BGP; FRR user guide, BGP")
SEND = rule(
    "send-community",
    "standard communities are sent, and the profile has no others",
    "RFC 1997; Cisco IOS BGP, `neighbor send-community`",
)
PASSIVE = rule(
    "passive-end", "the other end opens the session", "RFC 4271 section 8; FRR user guide, BGP, `neighbor PEER passive`"
)
NEXT_HOP = rule(
    "next-hop-self", "over external sessions on one subnet the next hop is the sender itself", "RFC 4271 section 5.1.3"
)
SHUTDOWN = rule("shutdown-message", "the message of a shutdown is text for people", "RFC 9003")
TWICE = rule("said-twice", "the same line stands above", "the profile takes it once")
HOPS = ("ebgp-multihop", "disable-connected-check", "ttl-security", "update-source")
INTERNAL = "internal-peer"
MULTIHOP = "multihop"
MASKS = "mask-mismatch"


@dataclasses.dataclass
class Peer:
    """A neighbour of a process: its address and the word that names it, the router and interface that have it (none
    where it is not in the folder), the own interface towards it, and its lines as they stood when it was looked for, those
    that are the first of their kind by the word behind its name."""

    router: Source
    process: Stanza
    address: IPv4Address
    far: tuple[Source, Stanza] | None
    near: Stanza | None
    name: str
    lines: list[Line]
    firsts: dict[str, Line]

    def line(self, word: str, *more: str) -> Line | None:
        """Its first line with these words."""
        if not more:
            return self.firsts.get(word)
        wanted, end = [word, *more], 3 + len(more)
        return next((line for line in self.lines if line.words[2:end] == wanted), None)

    @property
    def is_on_link(self) -> bool:
        """Whether both ends have an interface in one subnet."""
        if not self.far or not self.near:
            return False
        far, near = numbers_of(self.far[1]), numbers_of(self.near)
        return far[1] == near[1] and not (far[0] ^ near[0]) & near[1]


class Ends:
    """The neighbours of all routers, and from each the one that names it back."""

    def __init__(self, folder: Folder) -> None:
        up = folder.up
        self.all = [peer for router in folder.routers for peer in peers_of(router, up)]
        self.at = {(id(peer.router), int(peer.address)): peer for peer in reversed(self.all)}

    def back(self, peer: Peer) -> Peer | None:
        """The neighbour of the far router that names the near interface, or none."""
        if not peer.far or not peer.near:
            return None
        return self.at.get((id(peer.far[0]), numbers_of(peer.near)[0]))

    def session(self, peer: Peer) -> Peer | None:
        """The other end of a session that no line shuts, none where there is no such session. A stub is none: nothing is
        known of its settings."""
        back = self.back(peer)
        is_known = back is not None and not back.router.is_stub and not _is_shut(peer) and not _is_shut(back)
        return back if is_known else None


def peers_of(router: Source, up: Up | None = None) -> Iterator[Peer]:
    """The IPv4 neighbours of a router."""
    process = router.process("bgp")
    if not process:
        return
    own = _Subnets(router)
    for name, (lines, firsts) in process.fact(_named_neighbors).items():
        if address := an_address(name):
            number = int(address)
            far = up.get(number) if up else None
            yield Peer(router, process, address, far, own.of(number), name, lines, firsts)


class _Subnets:
    """The subnets of the up interfaces of a router, by their masks."""

    def __init__(self, router: Source) -> None:
        self.by_mask: dict[int, dict[int, list[tuple[int, int, Stanza]]]] = {}
        for place, stanza in enumerate(router.interfaces):
            if found := numbers_of(stanza):
                own, mask = found
                self.by_mask.setdefault(mask, {}).setdefault(own & mask, []).append((place, own, stanza))

    def of(self, address: int) -> Stanza | None:
        """The first interface in whose subnet an address is that is not its own."""
        first, found = None, None
        for mask, by_base in self.by_mask.items():
            for place, own, stanza in by_base.get(address & mask, ()):
                if own != address and (first is None or place < first):
                    first, found = place, stanza
        return found


def _named_neighbors(body: list[Line]) -> dict[str, tuple[list[Line], dict[str, Line]]]:
    """The neighbours that a line of their own names, each with its lines, those with `no` among them, and the first of each
    kind."""
    lines: dict[str, list[Line]] = defaultdict(list)
    names: dict[str, dict[str, Line]] = {}
    for line in body:
        words = line.words
        if len(words) > 1 and words[0] == "neighbor":
            lines[words[1]].append(line)
            if len(words) > 2:
                names.setdefault(words[1], {}).setdefault(words[2], line)
        elif len(words) > 2 and words[0] == "no" and words[1] == "neighbor":
            lines[words[2]].append(line)
    return {name: (lines[name], firsts) for name, firsts in names.items()}


def numbers(folder: Folder, _options: Options) -> None:
    """Writes AS numbers plainly, and `external` as the peer's number; leaves out internal peers that are not in the
    folder."""
    for router in folder.routers:
        for process in router.with_head("router", "bgp"):
            _plain_head(folder, process)
            rewrite(process, folder.log, _plain, ("neighbor",))
    up = folder.up
    for router in folder.routers:
        own = router.number
        for peer in list(peers_of(router, up)):
            _number(folder, peer, own)


def _plain_head(folder: Folder, process: Stanza) -> None:
    words = process.head.words
    if len(words) > 2 and "." in words[2] and (number := as_number(words[2])) is not None:
        folder.log.by(process.head, AS_DOT)
        process.head = process.head.with_text(f"router bgp {number}")


def _plain(line: Line) -> tuple[Rule, list[str]] | None:
    words = line.words
    if (
        words[0] == "neighbor"
        and words[2:3] == ["remote-as"]
        and "." in words[-1]
        and (number := as_number(words[-1])) is not None
    ):
        return AS_DOT, [" ".join([*words[:3], str(number)])]
    return None


def _number(folder: Folder, peer: Peer, own: int | None) -> None:
    line = peer.line("remote-as")
    if not line:
        return
    word = line.words[3] if len(line.words) > 3 else ""
    is_internal = word == "internal" or as_number(word) == own
    if word == "external":
        number = peer.far[0].number if peer.far else None
        if number is None or number == own:
            leave_out(folder, peer, ABSENT)
        else:
            rewrite(
                peer.process,
                folder.log,
                lambda found: (EXTERNAL, [f"neighbor {peer.name} remote-as {number}"]) if found is line else None,
            )
    elif is_internal and not peer.far:
        leave_out(folder, peer, ABSENT)
    elif is_internal:
        folder.log.refuse(
            line, INTERNAL, f"the session with {peer.far[0].name} is internal, and the profile has external BGP alone"
        )


def leave_out(folder: Folder, peer: Peer, why: Rule) -> None:
    """Leaves out all lines of a neighbour."""
    lines = set(map(id, peer.lines))
    cut_lines(peer.process, folder.log, why, lambda line: id(line) in lines)


def hops(folder: Folder, _options: Options) -> None:
    """Cuts what says from where and how far a session goes, where both ends are on one subnet, and refuses it
    elsewhere."""
    ends = Ends(folder)
    whys: dict[int, dict[str, Rule]] = defaultdict(dict)
    for peer in ends.all:
        if peer.far and not _is_shut(peer) and not peer.is_on_link:
            _refuse_far(folder, peer)
        _refuse_hops(folder, peer, ends)
        whys[id(peer.process)][peer.name] = ON_LINK if peer.far else ABSENT
    for router in folder.routers:
        for process in router.with_head("router", "bgp"):
            _cut_hops(folder, process, whys[id(process)])


def _is_shut(peer: Peer) -> bool:
    return peer.line("shutdown") is not None


def _refuse_far(folder: Folder, peer: Peer) -> None:
    line = next((found for word in HOPS if (found := peer.line(word))), None)
    own = {address_of(stanza).ip for stanza in peer.router.interfaces if address_of(stanza)}
    if all(found.address not in own for found in peers_of(peer.far[0])):
        return
    if line:
        folder.log.refuse(
            line,
            MULTIHOP,
            f"the session with {peer.far[0].name} goes over other routers or between loopbacks, and the profile has sessions on one subnet",
        )
    elif peer.near and peer.line("remote-as"):
        folder.log.refuse(
            peer.line("remote-as"),
            MASKS,
            f"{name_of(peer.near)} and its other end at {peer.far[0].name} have different masks: a device has this session and the profile has not",
        )
    elif has(peer.process, "bgp", "disable-ebgp-connected-route-check") and peer.line("remote-as"):
        folder.log.refuse(peer.line("remote-as"), MULTIHOP, f"the session with {peer.far[0].name} is not on one subnet")


def _refuse_hops(folder: Folder, peer: Peer, ends: Ends) -> None:
    """Refuses what keeps a session down: both ends are looked at as they were read, so none is cut before all are
    judged."""
    source = peer.line("update-source")
    if source and peer.near and peer.far and not _is_own(peer, source.words[3]):
        folder.log.refuse(
            source,
            MULTIHOP,
            f"the session starts from {source.words[3]}, which is not the interface in the neighbour's subnet",
        )
    security = peer.line("ttl-security")
    if security and (back := ends.back(peer)) and not back.line("ttl-security"):
        folder.log.refuse(
            security,
            MULTIHOP,
            "the other end has no `ttl-security`, so its packets are dropped and there is no session",
        )


def _cut_hops(folder: Folder, process: Stanza, whys: dict[str, Rule]) -> None:
    """Cuts what says from where and how far the session of each neighbour goes."""

    def decide(line: Line) -> tuple[Rule, list[str]] | None:
        words = line.words
        is_of_session = words[0] == "neighbor" and len(words) > 2 and words[2] in HOPS
        return (whys[words[1]], []) if is_of_session and words[1] in whys else None

    rewrite(process, folder.log, decide, ("neighbor",))


def _is_own(peer: Peer, source: str) -> bool:
    return source in (name_of(peer.near), str(address_of(peer.near).ip))


def limits(folder: Folder, _options: Options) -> None:
    """Cuts limits on prefixes that are never reached, defaults, and what only says how communities are sent."""
    count = functools.cache(lambda: len(all_prefixes(folder)))
    ends = Ends(folder)
    own: dict[int, dict[str, Peer]] = defaultdict(dict)
    for peer in ends.all:
        own[id(peer.router)][peer.name] = peer
    for router in folder.routers:
        if process := router.process("bgp"):
            peers = own[id(router)]
            rewrite(
                process,
                folder.log,
                lambda line, router=router, peers=peers: _limit(folder, router, peers, line, count),
                ("neighbor", "no"),
            )
            _cut_passive(folder, list(peers.values()), ends)
            seen: set[str] = set()
            cut_lines(process, folder.log, TWICE, lambda line, seen=seen: _is_seen(line, seen))


def _is_seen(line: Line, seen: set[str]) -> bool:
    text = " ".join(line.words)
    if text in seen:
        return True
    seen.add(text)
    return False


def all_prefixes(folder: Folder) -> set[IPv4Network]:
    """All prefixes that occur: the subnets of up interfaces, and those of `network` lines."""
    found = {
        address_of(stanza).network for router in folder.routers for stanza in router.interfaces if address_of(stanza)
    }
    for router in folder.routers:
        for process in router.with_head("router", "bgp"):
            found |= {prefix for line in process.body if line.words[:1] == ["network"] and (prefix := network_of(line))}
    return found


def _limit(
    folder: Folder, router: Source, peers: dict[str, Peer], line: Line, count: Callable[[], int]
) -> tuple[Rule, list[str]] | None:
    words = line.words
    if (
        words[:2] == ["no", "neighbor"]
        and words[3:4]
        and words[3] in ("shutdown", "send-community", "next-hop-self", "ebgp-multihop")
    ):
        return (DEFAULT, [])
    if words[0] != "neighbor" or len(words) < 3:
        return None
    if words[2] in ("maximum-prefix", "maximum-prefix-out"):
        if "warning-only" in words:
            return WARNING, []
        peer = peers.get(words[1])
        if peer and not peer.far:
            return ABSENT, []
        limit = int(words[3]) if words[3:] and words[3].isdecimal() else -1
        if limit >= count():
            return LIMIT, []
        own = _stub_count(peer) if peer else None
        if own is not None and limit >= own:
            return STUB_LIMIT, []
        folder.log.refuse(
            line,
            "maximum-prefix",
            f"the folder has {count()} prefixes, so the limit can be reached and end the session",
        )
        return None
    if words[2] == "send-community" and words[3:] in (["both"], ["all"], ["standard"], ["large"], ["extended"]):
        if words[3] in ("all",):
            return SEND, [f"neighbor {words[1]} send-community"]
        return (SEND, []) if words[3] == "large" else None
    if (
        words[2] == "dont-capability-negotiate"
        and max(router.number or 0, as_number(_remote(router, words[1])) or 0) > 0xFFFF
    ):
        folder.log.refuse(
            line,
            "two-byte-as",
            "without capabilities an AS number above 65535 does not go over this session (RFC 6793)",
        )
        return None
    if words[2] == "shutdown":
        return (SHUTDOWN, [f"neighbor {words[1]} shutdown"]) if words[3:] else None
    if words[2] == "next-hop-self":
        return (NEXT_HOP, []) if words[3:] else None
    return None


def _stub_count(peer: Peer) -> int | None:
    """How many prefixes a stub with this session alone announces, none where the peer is another router."""
    process = peer.far[0].process("bgp") if peer.far else None
    if process is None or not peer.far[0].is_stub or len(list(peers_of(peer.far[0]))) > 1:
        return None
    return sum(line.words[:1] == ["network"] for line in process.body)


def _remote(router: Source, peer: str) -> str:
    """The word that gives a neighbour's AS number."""
    line = next(
        (found for found in router.process("bgp").body if found.words[:3] == ["neighbor", peer, "remote-as"]), None
    )
    return line.words[3] if line and len(line.words) > 3 else ""


def _cut_passive(folder: Folder, peers: list[Peer], ends: Ends) -> None:
    for peer in peers:
        line = peer.line("passive")
        if not line:
            continue
        back = ends.back(peer)
        theirs = back.line("passive") if back else None
        if theirs and all(found.place != theirs.place for found in folder.log.refusals):
            folder.log.refuse(line, "passive-end", "both ends wait for the other one, so there is no session")
        leave = line
        cut_lines(peer.process, folder.log, PASSIVE, lambda found, leave=leave: found is leave)


def frr_peers_without_number(folder: Folder, _options: Options) -> None:
    """Leaves out lines of FRR neighbours that have no `remote-as`: there is no session without one."""
    up = folder.up
    for router in folder.routers:
        if router.dialect is Dialect.FRR:
            for peer in list(peers_of(router, up)):
                if not peer.line("remote-as"):
                    leave_out(folder, peer, ABSENT)
