"""What a session makes of a route, as formulas over the communities that the route holds."""

from __future__ import annotations

import dataclasses

from hostile.judge.network import Entry, Neighbor, Router
from hostile.judge.words import Prefix, bits
from hostile.solver.formulas import (
    Bits,
    Formula,
    Number,
    Writer,
    conjunction,
    disjunction,
    either,
    either_number,
    negation,
)

OTHER = 0
"""Stands in a set for a community that no line names. No community has this number."""
DEFAULT_PREFERENCE = 100


@dataclasses.dataclass
class Passed:
    """What a map, or a whole session, does: whether it accepts, the preference, the communities, and how often the
    exporter's number is put before the path."""

    accepts: Formula
    preference: Number
    communities: Bits
    count: Number

    def named(self, writer: Writer) -> Passed:
        """The same, with a name for each part."""
        return Passed(
            writer.formula(self.accepts),
            writer.number(self.preference),
            writer.bits(self.communities),
            writer.number(self.count),
        )


def default_preference(router: Router) -> int:
    """That of `bgp default local-preference`, else 100."""
    own = router.bgp.preference if router.bgp else None
    return DEFAULT_PREFERENCE if own is None else own


def list_permits(router: Router, name: str, prefix: Prefix) -> bool:
    """Whether a prefix list permits a prefix: its first entry that holds decides, and its end denies."""
    base, length = prefix
    for _, (permits, (within, fixed), least, most) in sorted(router.prefix_lists[name].items()):
        if base & bits(fixed) == within and least <= length <= most:
            return permits
    return False


def _community_list(router: Router, name: str, carried: Bits, is_exact: bool) -> Formula:
    """Whether a community list permits what a route carries: its first line that holds decides, and its end denies."""
    found: Formula = False
    for permits, named, _ in reversed(router.community_lists[name]):
        holds = conjunction(
            held if value in named else negation(held) for value, held in carried.items() if value in named or is_exact
        )
        found = either(holds, permits, found)
    return found


def _holds(router: Router, entry: Entry, prefix: Prefix, carried: Bits) -> Formula:
    if entry.prefix_lists is not None and not any(list_permits(router, name, prefix) for name in entry.prefix_lists):
        return False
    if entry.community_lists is None:
        return True
    return disjunction(_community_list(router, name, carried, entry.exact) for name in entry.community_lists)


def _changed(router: Router, entry: Entry, carried: Bits) -> Bits:
    """The communities behind `set comm-list delete` and then `set community`."""
    if entry.deletes is not None:
        alone: dict[int, Bits] = {value: {other: other == value for other in carried} for value in carried}
        carried = {
            value: conjunction([held, negation(_community_list(router, entry.deletes, alone[value], False))])
            for value, held in carried.items()
        }
    if entry.change is None:
        return carried
    how, named = entry.change
    return {value: value in named or (held if how == "add" else False) for value, held in carried.items()}


def _map(writer: Writer, router: Router, name: str | None, prefix: Prefix, carried: Bits, default: int) -> Passed:
    """What a route map does: its first entry that holds decides, and its end denies."""
    if name is None:
        return Passed(True, default, carried, 0)
    found = Passed(False, default, carried, 0)
    for _, entry in sorted(router.maps[name].items(), reverse=True):
        holds = writer.formula(_holds(router, entry, prefix, carried))
        if not entry.permits:
            found.accepts = conjunction([negation(holds), found.accepts])
            continue
        changed = _changed(router, entry, carried)
        preference = default if entry.preference is None else entry.preference
        found = Passed(
            disjunction([holds, found.accepts]),
            either_number(holds, preference, found.preference),
            {value: either(holds, changed[value], found.communities[value]) for value in carried},
            either_number(holds, len(entry.prepends), found.count),
        )
    return found.named(writer)


def session(
    writer: Writer,
    importer: Router,
    inward: Neighbor,
    exporter: Router,
    outward: Neighbor,
    prefix: Prefix,
    carried: Bits,
) -> Passed:
    """What a session makes of a route of the exporter with these communities. `inward` is the importer's neighbour."""
    default = default_preference(importer)
    closed = Passed(False, default, carried, 0)
    if "out" in outward.lists and not list_permits(exporter, outward.lists["out"], prefix):
        return closed
    if "in" in inward.lists and not list_permits(importer, inward.lists["in"], prefix):
        return closed
    sent = _map(writer, exporter, outward.maps.get("out"), prefix, carried, DEFAULT_PREFERENCE)
    received: Bits = sent.communities if outward.sends else {value: False for value in carried}
    taken = _map(writer, importer, inward.maps.get("in"), prefix, received, default)
    return Passed(conjunction([sent.accepts, taken.accepts]), taken.preference, taken.communities, sent.count)


def named_preferences(importer: Router, inward: Neighbor) -> set[int]:
    """The preferences that lines give to routes over a session, whether or not any route meets these lines."""
    default = default_preference(importer)
    name = inward.maps.get("in")
    if name is None:
        return {default}
    entries = importer.maps[name].values()
    return {default if entry.preference is None else entry.preference for entry in entries if entry.permits}
