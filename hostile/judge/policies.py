"""What lists and maps answer: RFC 4271 section 9.1 with the lists of docs/use/GLOSSARY.md's import."""
from __future__ import annotations

import functools

from hostile.judge.network import Entry, Neighbor, Router
from hostile.judge.words import Prefix, bits

Communities = frozenset[int]
Imported = tuple[int, Communities, int]
"""What an import gives: a preference, communities, and how often the exporter's number is put before the path."""


def prefix_list_permits(router: Router, name: str, prefix: Prefix) -> bool:
    """The first entry by number that holds decides, and the end denies."""
    for _, (permits, (base, length), least, most) in sorted(router.prefix_lists[name].items()):
        if prefix[0] & bits(length) == base and least <= prefix[1] <= most:
            return permits
    return False


def community_list_permits(router: Router, name: str, carried: Communities, exact: bool) -> bool:
    """The first line that holds decides, and the end denies."""
    for permits, named, _ in router.community_lists[name]:
        if carried == named if exact else named <= carried:
            return permits
    return False


@functools.lru_cache(20_000)
def apply(
    router: Router, name: str | None, prefix: Prefix, carried: Communities
) -> tuple[int | None, Communities, int] | None:
    """A route map: a preference if one is set, communities, and the count of numbers put before. None is a dropped
    route."""
    if name is None:
        return None, carried, 0
    for _, entry in sorted(router.maps[name].items()):
        if _holds(router, entry, prefix, carried):
            return (entry.preference, _changed(router, entry, carried), len(entry.prepends)) if entry.permits else None
    return None


def _holds(router: Router, entry: Entry, prefix: Prefix, carried: Communities) -> bool:
    if entry.prefix_lists is not None and not any(
        prefix_list_permits(router, name, prefix) for name in entry.prefix_lists
    ):
        return False
    lists = entry.community_lists
    return lists is None or any(community_list_permits(router, name, carried, entry.exact) for name in lists)


def _changed(router: Router, entry: Entry, carried: Communities) -> Communities:
    if entry.deletes is not None:
        carried = frozenset(
            one for one in carried if not community_list_permits(router, entry.deletes, frozenset([one]), False)
        )
    if entry.change is None:
        return carried
    how, named = entry.change
    return carried | named if how == "add" else named


def imported(
    importer: Router, inward: Neighbor, exporter: Router, outward: Neighbor, prefix: Prefix, carried: Communities
) -> Imported | None:
    """What the importer makes of a route of the exporter with these communities. `inward` is the importer's line of the
    session."""
    if "out" in outward.lists and not prefix_list_permits(exporter, outward.lists["out"], prefix):
        return None
    if "in" in inward.lists and not prefix_list_permits(importer, inward.lists["in"], prefix):
        return None
    sent = apply(exporter, outward.maps.get("out"), prefix, carried)
    if sent is None:
        return None
    taken = apply(importer, inward.maps.get("in"), prefix, sent[1] if outward.sends else frozenset())
    if taken is None:
        return None
    preference = taken[0] if taken[0] is not None else default_preference(importer)
    return preference, taken[1], sent[2]


def default_preference(router: Router) -> int:
    """That of `bgp default local-preference`, else 100."""
    return router.bgp.preference if router.bgp and router.bgp.preference is not None else 100
