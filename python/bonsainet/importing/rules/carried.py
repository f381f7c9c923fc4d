"""Communities that a route has from its start, by the map of a `network` or `redistribute connected` line: they are set
where the route leaves its originator."""
from __future__ import annotations

from collections import defaultdict
from ipaddress import IPv4Network

from bonsainet.importing.folder import Folder, Source
from bonsainet.importing.rule import rule
from bonsainet.importing.rules import outgoing
from bonsainet.importing.rules.communities import NONE, Communities, value_of
from bonsainet.importing.rules.options import Options
from bonsainet.importing.rules.outcomes import Outcome, Route, outcome_of
from bonsainet.importing.rules.outgoing import Entry
from bonsainet.configs.text import Line, Stanza

CARRIED = rule(
    "origin-communities",
    "an originator's own route wins over all others of its prefix, so no other one leaves it: its communities are set in front of each out map, as that map leaves them",
    "RFC 1997; Cisco IOS BGP, `network route-map`, `redistribute`, weight of own routes; FRR user guide, BGP",
)
REFUSED = "origin-communities"
MOST_NAMED = 5


def carry(folder: Folder, _options: Options) -> None:
    """Sets the communities that routes have from their start in front of the out maps of their originators."""
    told: list[str] = []
    for router in folder.routers:
        process = router.process("bgp")
        if process and router.carried:
            told += [str(line.place) for _, line in router.carried.values()]
            _carry(folder, router, process)
    if told:
        places = list(dict.fromkeys(told))
        more = f" and {len(places) - MOST_NAMED} more" if len(places) > MOST_NAMED else ""
        folder.log.remarks.append(
            f"routes that have communities from their start get them where they leave: the label of a router for a prefix of its own shows none of them ({', '.join(places[:MOST_NAMED])}{more})"
        )


def _carry(folder: Folder, router: Source, process: Stanza) -> None:
    silent = [peer for peer in outgoing.peers(process) if not outgoing.sends(process, peer)]
    sending = [peer for peer in outgoing.peers(process) if outgoing.sends(process, peer)]
    silent = [peer for peer in silent if outgoing.map_of(process, peer, "out")]
    refused: list[tuple[Line, str]] = []

    def entries_for(name: str | None) -> list[Entry]:
        by_outcome: dict[Outcome, list[IPv4Network]] = defaultdict(list)
        for prefix, (held, line) in sorted(router.carried.items()):
            found = _at(router, name, Route(prefix, held))
            plain = _at(router, name, Route(prefix))
            if found is None or plain is None:
                refused.append((line, name or ""))
            elif found != plain:
                by_outcome[found].append(prefix)
        return [_entry(folder, router, process, outcome, prefixes) for outcome, prefixes in by_outcome.items()]

    if not outgoing.put_in_front(folder, router, process, CARRIED, [*sending, *silent], entries_for):
        refused += [(line, "of a neighbour, whose numbers leave no room,") for _, line in router.carried.values()]
    for line, name in refused:
        folder.log.refuse(
            line, REFUSED, f"what the out map {name} makes of this route with its communities is not known here"
        )


def _at(router: Source, name: str | None, route: Route) -> Outcome | None:
    """What an out map makes of a route, where no map changes nothing."""
    return Outcome(True, route.communities) if name is None else outcome_of(router, name, route)


def _entry(folder: Folder, router: Source, process: Stanza, outcome: Outcome, prefixes: list[IPv4Network]) -> Entry:
    """An entry that makes this outcome of the routes of some prefixes, which have no communities before."""
    name = outgoing.fresh_name(router, "ORIGIN")
    line = next(iter(outgoing.peers(process).values()))
    folder.log.by(line, CARRIED)
    router.stanzas += [
        Stanza(line.with_text(f"ip prefix-list {name} seq {5 * at} permit {prefix}"))
        for at, prefix in enumerate(prefixes, 1)
    ]
    texts = [f"match ip address prefix-list {name}"]
    if not outcome.passes:
        return "deny", texts
    if outcome.communities:
        texts.append(f"set community {shown(outcome.communities)}")
    if outcome.prepended:
        texts.append(f"set as-path prepend {' '.join(outcome.prepended)}")
    return "permit", texts


def shown(found: Communities) -> str:
    """Communities as words, in ascending order."""
    return " ".join(sorted(found - NONE, key=value_of))
