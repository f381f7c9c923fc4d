"""Attributes of BGP routes that the profile has not: what sets them is cut where nothing in the folder can tell."""
from __future__ import annotations

from bonsainet.importing.folder import Dialect, Folder, Source, Up, as_number, has
from bonsainet.importing.rewriting import any_begins, begins, cut_lines
from bonsainet.importing.rule import rule
from bonsainet.importing.rules.neighbors import peers_of
from bonsainet.importing.rules.options import Options

MED = rule(
    "med-alone",
    "metrics are compared among routes of one neighbouring AS alone and go no further, and no router has two sessions with one AS",
    "RFC 4271 sections 5.1.4 and 9.1.2.2, c",
)
EXTENDED = rule(
    "other-communities",
    "routes carry extended and large communities, tags and labels of colour, and no line of the folder asks for them",
    "RFC 4360, RFC 8092",
)
SETS = (
    "set extcommunity bandwidth",
    "set extcommunity none",
    "set extcommunity rt",
    "set extcommunity soo",
    "set large-community",
    "set tag",
    "set extcommunity color",
)
ASKS = (
    "match extcommunity",
    "match large-community",
    "set large-comm-list",
    "match tag",
    "set extcomm-list",
    "import",
    "neighbor * soo",
)
COMPARES = (
    "bgp always-compare-med",
    "bgp bestpath med missing-as-worst",
    "bgp bestpath med missing-is-worst",
    "match metric",
    "bgp confederation",
)


def med(folder: Folder, _options: Options) -> None:
    """Cuts `set metric` where no router compares two metrics."""
    entries = [
        stanza for router in folder.routers for stanza in router.with_head("route-map") if has(stanza, "set", "metric")
    ]
    up = folder.up if entries else {}
    if not entries or any_begins(folder.routers, COMPARES) or any(_has_two(router, up) for router in folder.routers):
        return
    for stanza in entries:
        cut_lines(stanza, folder.log, MED, lambda line: line.words[:2] == ["set", "metric"], ("set",))


def set_order(folder: Folder, _options: Options) -> None:
    """Refuses entries of FRR that delete, in a later line, communities that an earlier line sets; the profile deletes
    first."""
    for router in folder.routers:
        for stanza in router.with_head("route-map"):
            lines = [line for line in stanza.body if line.words[:2] in (["set", "community"], ["set", "comm-list"])]
            if router.dialect is Dialect.FRR and [line.words[1] for line in lines] == ["community", "comm-list"]:
                deleted = _deleted(router, lines[1].words[2], lines[0].words[2:])
                if deleted:
                    folder.log.refuse(
                        lines[1], "set-order", f"FRR sets {deleted} and then deletes it, and the profile deletes first"
                    )


def _deleted(router: Source, name: str, communities: list[str]) -> str | None:
    """The first community that a community list permits alone."""
    for community in communities:
        for stanza in router.with_head("ip", "community-list"):
            words = [word for word in stanza.head.words[2:] if word not in ("standard", "expanded")]
            if words[:1] == [name] and set(words[2:]) <= {community}:
                if words[1:2] == ["permit"]:
                    return community
                break
    return None


def _has_two(router: Source, up: Up) -> bool:
    """Whether a router has two neighbours of one AS number in the folder."""
    numbers = [
        as_number(line.words[3]) for peer in peers_of(router, up) if peer.far and (line := peer.line("remote-as"))
    ]
    return len(numbers) != len(set(numbers))


def extra_communities(folder: Folder, _options: Options) -> None:
    """Cuts what sets extended and large communities, and tags, where nothing asks for them."""
    entries = [
        stanza
        for router in folder.routers
        for stanza in router.with_head("route-map")
        if any(begins(line, SETS) for line in stanza.by_word.get("set", ()))
    ]
    if entries and not any_begins(folder.routers, ASKS):
        for stanza in entries:
            cut_lines(stanza, folder.log, EXTENDED, lambda line: begins(line, SETS), ("set",))
