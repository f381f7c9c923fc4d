"""What a route map makes of one route whose prefix and communities are known, so that a rule can write it out."""
from __future__ import annotations

import dataclasses
from ipaddress import IPv4Network

from bonsainet.importing.folder import Dialect, Source
from bonsainet.importing.rules import lists
from bonsainet.importing.rules.communities import NONE, Communities, list_permits, set_by
from bonsainet.configs.text import Line, Stanza


@dataclasses.dataclass(frozen=True)
class Route:
    """A route before a map: its prefix, its communities, and the interface of a connected subnet."""

    prefix: IPv4Network
    communities: Communities = NONE
    interface: str = ""


@dataclasses.dataclass(frozen=True)
class Outcome:
    """What a map makes of a route: whether it passes, its communities then, the AS numbers that are prepended, and the
    origin that is set."""

    passes: bool
    communities: Communities = NONE
    prepended: tuple[str, ...] = ()
    origin: str = ""


DENIED = Outcome(False)
# Sets that have no bearing on a route that leaves over an external session, or that wins by its weight.
UNSENT = (["set", "local-preference"],)
CONTINUES = ("continue", "on-match", "call")


def entries_of(router: Source, name: str) -> list[Stanza]:
    """The entries of a route map by their numbers; none of them where one has no number."""
    found = list(router.with_head("route-map", name))
    if any(len(stanza.head.words) != 4 or not stanza.head.words[3].isdigit() for stanza in found):
        return []
    return sorted(found, key=lambda stanza: int(stanza.head.words[3]))


def outcome_of(router: Source, name: str, route: Route) -> Outcome | None:
    """What a route map makes of a route; none where it is not defined, or looks at or sets what is not known here."""
    entries = entries_of(router, name)
    for entry in entries:
        answers = [_holds(router, line, route) for line in entry.body if line.words[:1] == ["match"]]
        if any(answer is None for answer in answers):
            return None
        if all(answers):
            if any(line.words[:1] and line.words[0] in CONTINUES for line in entry.body):
                return None
            return DENIED if entry.head.words[2] == "deny" else _changed(router, entry, route)
    return DENIED if entries else None


def _holds(router: Source, line: Line, route: Route) -> bool | None:
    words = line.words
    if words[:2] != ["match", "community"]:
        return lists.match_holds(router, words, route.prefix, route.interface)
    exact = words[-1] == "exact-match"
    names = words[2:-1] if exact else words[2:]
    answers = [list_permits(router, name, route.communities, exact) for name in names]
    return None if None in answers or not answers else any(answers)


def _changed(router: Source, entry: Stanza, route: Route) -> Outcome | None:
    """What the sets of an entry make of a route. IOS deletes communities before it sets them, FRR goes by the order of
    the lines."""
    held: Communities | None = route.communities
    prepended: tuple[str, ...] = ()
    origin = ""
    lines = [line for line in entry.body if line.words[:1] == ["set"]]
    if router.dialect is Dialect.IOS:
        lines.sort(key=lambda line: line.words[:2] == ["set", "community"])
    for line in lines:
        words = line.words
        if held is None:
            return None
        if words[:2] == ["set", "community"]:
            held = set_by(words[2:], held)
        elif words[:2] == ["set", "comm-list"] and words[3:] == ["delete"]:
            held = _without(router, words[2], held)
        elif words[:3] == ["set", "as-path", "prepend"] and all(word.isdigit() for word in words[3:]):
            prepended = tuple(words[3:])
        elif words[:2] == ["set", "origin"] and words[2:] in (["igp"], ["incomplete"]):
            origin = words[2]
        elif words[:2] not in UNSENT:
            return None
    return None if held is None else Outcome(True, held, prepended, origin)


def _without(router: Source, name: str, held: Communities) -> Communities | None:
    """The communities that a list does not permit one by one."""
    answers = {word: list_permits(router, name, frozenset([word])) for word in held}
    if None in answers.values():
        return None
    return frozenset(word for word, permits in answers.items() if not permits)
