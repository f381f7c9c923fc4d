"""Shared AS numbers: each router of a shared number gets one of its own, as an assumption that is reported."""
from __future__ import annotations

from collections import defaultdict

from bonsainet.importing.folder import Folder, Source, as_number
from bonsainet.importing.rewriting import rewrite
from bonsainet.importing.rule import Rule, rule
from bonsainet.importing.rules.neighbors import Peer, peers_of
from bonsainet.importing.rules.options import Options
from bonsainet.configs.text import Line, Stanza

OWN = rule(
    "own-as",
    "each router has an AS number of its own here, which `--own-as` takes as given: a path that would pass two routers of one number is no longer dropped",
    "RFC 4271 section 9.1.2; RFC 7938 section 5.2.1",
)
SHARED = "shared-as"
FIRST = 4_200_000_000
MOST_NAMED = 32


def renumber(folder: Folder, options: Options) -> None:
    """Gives routers of a shared number their own, or refuses the number where that is not asked for."""
    sharing: dict[int, list[Source]] = defaultdict(list)
    for router in folder.routers:
        if router.number is not None:
            sharing[router.number].append(router)
    shared = {number: routers for number, routers in sharing.items() if len(routers) > 1}
    if not options.own_as:
        for number, routers in shared.items():
            for process in filter(None, (router.process("bgp") for router in routers[1:])):
                folder.log.refuse(
                    process.head,
                    SHARED,
                    f"{routers[0].name} has the AS number {number} too, and the profile has one for each router: --own-as gives each its own, and then routes pass between them that the devices' loop check drops",
                )
        return
    fresh = _fresh_numbers(folder, shared)
    up = folder.up
    peers = {id(router): list(peers_of(router, up)) for router in folder.routers}
    apart = {id(one): routers for routers in _kept_apart(folder, shared, peers) for one in routers}
    for router in folder.routers:
        _renumber(folder, router, fresh, peers[id(router)], apart.get(id(router), []))
    _warn(folder, shared, apart)


def _kept_apart(folder: Folder, shared: dict[int, list[Source]], peers: dict[int, list[Peer]]) -> list[list[Source]]:
    """The routers of one number that sessions join, by whatever other routers: devices drop a path with their own
    number, so routes of the one do not reach the other."""
    joined: dict[int, int] = {}
    for router in folder.routers:
        waiting = [router] if id(router) not in joined else []
        while waiting:
            one = waiting.pop()
            if id(one) not in joined:
                joined[id(one)] = id(router)
                waiting += [peer.far[0] for peer in peers[id(one)] if peer.far]
    parts: dict[tuple[int, int], list[Source]] = defaultdict(list)
    for number, routers in shared.items():
        for router in routers:
            parts[number, joined[id(router)]].append(router)
    return [routers for routers in parts.values() if len(routers) > 1]


def _warn(folder: Folder, shared: dict[int, list[Source]], apart: dict[int, list[Source]]) -> None:
    """Warns of the routers that reach each other here alone, except for those that a decision names."""
    meant = folder.decisions.own_as() if folder.decisions else {}
    for number, routers in shared.items():
        those = [router.name for router in routers if id(router) in apart]
        unnamed = [name for name in those if name not in meant]
        for name in those:
            if name in meant:
                meant[name].is_used = True
        if unnamed:
            others = [name for name in those if name in meant]
            told = f"{_names(unnamed)}{' with ' + _names(others) if others else ''}"
            folder.log.warnings.append(
                f"--own-as: {told} of AS {number} reach each other here, and the devices' loop check keeps them apart; where it is meant so, say it by a decision `own-as ROUTER.. because REASON`"
            )
    known = {router.name for routers in shared.values() for router in routers if id(router) in apart}
    for name, decision in meant.items():
        if name not in known:
            folder.log.remarks.append(
                f"line {decision.line} of the decisions: --own-as makes {name} reachable from no router of its number"
            )


def _names(names: list[str]) -> str:
    """The names of some routers, the first of many."""
    more = f" and {len(names) - MOST_NAMED} more" if len(names) > MOST_NAMED else ""
    return " ".join(names[:MOST_NAMED]) + more


def _fresh_numbers(folder: Folder, shared: dict[int, list[Source]]) -> dict[int, tuple[int, int]]:
    """For each router of a shared number: the number, and its own. Numbers that occur are not given."""
    taken = {
        number
        for router in folder.routers
        for line in router.lines
        for word in line.words
        if (number := as_number(word)) is not None
    }
    fresh: dict[int, tuple[int, int]] = {}
    free = (number for number in range(FIRST, FIRST + 94_967_295) if number not in taken)
    for number, routers in shared.items():
        for router in routers:
            fresh[id(router)] = (number, next(free))
    return fresh


def _renumber(
    folder: Folder, router: Source, fresh: dict[int, tuple[int, int]], peers: list[Peer], apart: list[Source]
) -> None:
    process = router.process("bgp")
    if not process:
        return
    for line in process.body:
        if line.words[:1] == ["neighbor"] and line.words[2:3] == ["allowas-in"]:
            folder.log.refuse(
                line,
                SHARED,
                "`allowas-in` takes back paths with the own number, which means nothing else with numbers of their own",
            )
    far = {peer.name: peer.far[0] for peer in peers if peer.far}

    def remote(line: Line) -> tuple[Rule, list[str]] | None:
        words = line.words
        other = far.get(words[1]) if words[0] == "neighbor" and words[2:3] == ["remote-as"] else None
        if other and id(other) in fresh and as_number(words[3]) == fresh[id(other)][0]:
            return OWN, [" ".join([*words[:3], str(fresh[id(other)][1])])]
        return None

    rewrite(process, folder.log, remote, ("neighbor",))
    if id(router) in fresh:
        old, own = fresh[id(router)]
        folder.log.by(process.head, OWN)
        others = _names([other.name for other in apart if other is not router])
        reached = f"routes of {others} reach this router, and the loop check of AS {old} drops them on devices"
        decided = folder.decisions.own_as().get(router.name) if folder.decisions else None
        meant = f", which is meant so: {decided.reason}" if decided else ""
        folder.log.assume(
            process.head,
            f"--own-as: this router has the number {own} for {old}{f'; {reached}{meant}' if others else ''}",
        )
        process.head = process.head.with_text(f"router bgp {own}")
        notes = [f"! assumed: AS number {own} for {old} (--own-as)"]
        notes += [f"! assumed: {reached} (--own-as)"] if others else []
        at = router.stanzas.index(process)
        router.stanzas[at:at] = [Stanza(process.head.with_text(note)) for note in notes]
        for stanza in router.with_head("route-map"):
            rewrite(stanza, folder.log, lambda line: _prepended(line, old, own))


def _prepended(line: Line, old: int, own: int) -> tuple[Rule, list[str]] | None:
    words = line.words
    if words[:3] == ["set", "as-path", "prepend"] and any(as_number(word) == old for word in words[3:]):
        return OWN, [" ".join([*words[:3], *(str(own) if as_number(word) == old else word for word in words[3:])])]
    return None
