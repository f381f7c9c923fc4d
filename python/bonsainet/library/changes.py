"""What changes in routing from one network to another, by prefix."""
from __future__ import annotations

import dataclasses
import enum
import functools
from collections.abc import Collection

from bonsainet.ask.program import Answer, Status
from bonsainet.asking.reports import Tie
from bonsainet.library.calls import reading
from bonsainet.library.comparing import Comparison
from bonsainet.library.networks import Network
from bonsainet.library.pairs import Pair
from bonsainet.library.routes import Aspect, Routes
from bonsainet.library.states import State

NO_ROUTE: Routes = frozenset([None])
# (routers change alike for many prefixes)
KEPT = 1 << 14


class Kind(enum.Enum):
    """What happens to the routes of a router for a prefix."""

    GAINED = "gained"
    LOST = "lost"
    CHANGED = "changed"


@dataclasses.dataclass(frozen=True)
class Change:
    """Routers whose routes change alike: what each may hold before and after, none standing for no route, and in what that
    differs. Where there is one route before and one after, both have nothing but what differs. On a side with more solutions
    than are read a router may hold other routes too: it is not named where the other side may have those that are read.
    """

    kind: Kind
    routers: tuple[str, ...]
    before: Routes
    after: Routes
    aspects: tuple[Aspect, ...] = ()


@dataclasses.dataclass(frozen=True)
class Side:
    """What is read of a side: how many stable solutions, whether these are all, and a tie, where what comes to rest may
    hang on how real routers break ties. Of more than 64 solutions the first 64 are read."""

    solutions: int
    is_whole: bool
    tie: Tie | None

    @property
    def is_tied(self) -> bool:
        """Whether there is a tie. Which router the program names for it is free."""
        return self.tie is not None


@dataclasses.dataclass(frozen=True)
class PrefixChange:
    """Prefixes that change alike: the changes of routers, and both sides."""

    prefixes: tuple[str, ...]
    changes: tuple[Change, ...]
    before: Side
    after: Side

    @property
    def is_whole(self) -> bool:
        """Whether all solutions of both sides are compared."""
        return self.before.is_whole and self.after.is_whole

    @property
    def is_equal_in_part(self) -> bool:
        """Whether both sides have more solutions than are read, and those that are read do not differ."""
        return not (self.before.is_whole or self.after.is_whole or self.changes)


@dataclasses.dataclass(frozen=True)
class Difference:
    """What changes in routing: the prefixes whose routes change, the routers and the prefixes that come and go, and how many
    prefixes stay as they are. `partly` are those among the latter that have more than 64 stable solutions: the canonical
    compressed networks are the same, so all labels are, and next hops are compared in the first 64."""

    changed: tuple[PrefixChange, ...]
    routers_gone: tuple[str, ...]
    routers_new: tuple[str, ...]
    prefixes_gone: tuple[str, ...]
    prefixes_new: tuple[str, ...]
    same: int
    partly: tuple[str, ...] = ()

    def __bool__(self) -> bool:
        """Whether routes change, or may: whether there is a change of a prefix."""
        return bool(self.changed)


def diff(old: Network, new: Network) -> Difference:
    """What changes in routing from one network to another, in every stable solution. The labels are those of the proved
    programs."""
    return difference(Pair(old, new))


def difference(both: Pair) -> Difference:
    """What changes in routing between both networks of a pair."""
    pairs = _pairs(both.old, both.new)
    with reading(Answer(Status.DONE, b"", b"")):
        compared = {} if both.old.text == both.new.text else _compared_each(both, list(dict.fromkeys(pairs.values())))
    alike: dict[PrefixChange, list[str]] = {}
    partly = []
    for prefix, pair in pairs.items():
        found = compared.get(pair)
        if found and found.is_equal_in_part and both.has_one_canon(*pair):
            partly.append(prefix)
        elif found:
            alike.setdefault(found, []).append(prefix)
    old, new = (list(routers.texts) for routers in both.routers)
    return Difference(
        tuple(dataclasses.replace(found, prefixes=tuple(prefixes)) for found, prefixes in alike.items()),
        _without(old, new),
        _without(new, old),
        tuple(prefix for prefix, (_, number) in pairs.items() if not number),
        tuple(prefix for prefix, (number, _) in pairs.items() if not number),
        len(pairs) - sum(map(len, alike.values())),
        tuple(partly),
    )


def _without(names: Collection[str], others: Collection[str]) -> tuple[str, ...]:
    known = set(others)
    return tuple(name for name in names if name not in known)


def _pairs(old: Network, new: Network) -> dict[str, tuple[int, int]]:
    """For each prefix of either network its classes in both, 0 where a network has none."""
    sides = [{prefix: one.number for one in network.classes for prefix in one.prefixes} for network in (old, new)]
    return {prefix: (sides[0].get(prefix, 0), sides[1].get(prefix, 0)) for prefix in {**sides[0], **sides[1]}}


def _compared_each(both: Pair, pairs: list[tuple[int, int]]) -> dict[tuple[int, int], PrefixChange | None]:
    """How the classes of each pair differ, if they do."""
    comparison = Comparison.of(both)
    before, after = both.states
    # (a prefix that nobody originates has one solution, in which nobody has a route)
    absent = [side.without_routes for side in comparison.sides]
    return {
        pair: _compared(before.get(pair[0], absent[0]), after.get(pair[1], absent[1]), comparison) for pair in pairs
    }


def _compared(before: State, after: State, comparison: Comparison) -> PrefixChange | None:
    """How two states differ, if they do."""
    alike: dict[Change, list[str]] = {}
    # (where there is no stable solution, there is nothing to compare)
    for name, old, new in comparison.differing(before, after) if before.solutions and after.solutions else ():
        found = _change(old, new) if _is_seen(before, after, old, new) else None
        if found:
            alike.setdefault(found, []).append(name)
    shown = [Side(state.solutions, state.is_whole, state.tie) for state in (before, after)]
    is_same_count = shown[0].solutions == shown[1].solutions and shown[0].is_whole == shown[1].is_whole
    is_whole = before.is_whole and after.is_whole
    if not alike and is_same_count and is_whole and shown[0].is_tied == shown[1].is_tied:
        return None
    changes = tuple(dataclasses.replace(change, routers=tuple(names)) for change, names in alike.items())
    return PrefixChange((), changes, *shown)


def _is_seen(before: State, after: State, old: Routes, new: Routes) -> bool:
    """Whether routes differ by what is read. In solutions that are not read a router may hold what it holds on the other side."""
    return not (not before.is_whole and old <= new or not after.is_whole and new <= old)


@functools.lru_cache(KEPT)
def _change(old: Routes, new: Routes) -> Change | None:
    """The change from routes to routes, if there is one."""
    if old == new:
        return None
    if NO_ROUTE in (old, new):
        return Change(Kind.GAINED if old == NO_ROUTE else Kind.LOST, (), old, new)
    aspects = tuple(aspect for aspect in Aspect if _values(old, aspect) != _values(new, aspect))
    if len(old) == len(new) == 1:
        old, new = (frozenset(route and route.only(aspects) for route in routes) for routes in (old, new))
    return Change(Kind.CHANGED, (), old, new, aspects)


def _values(routes: Routes, aspect: Aspect) -> set[object]:
    return {route.aspects.get(aspect) for route in routes if route}


def in_all(routes: Routes) -> dict[Aspect, object] | None:
    """What holds in all solutions: what all routes have in common. None where in some or all of them there is no route."""
    if None in routes or not routes:
        return None
    each = [route.aspects for route in routes if route]
    return {aspect: value for aspect, value in each[0].items() if all(one.get(aspect) == value for one in each)}
