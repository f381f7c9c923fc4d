"""A difference in words, for people."""
from __future__ import annotations

from collections.abc import Iterable, Iterator, Mapping, Sequence

from bonsainet.asking.reports import Tie
from bonsainet.cli.words import counted
from bonsainet.configs.profile import community_text
from bonsainet.library.changes import Change, Difference, Kind, PrefixChange, Side, in_all
from bonsainet.library.routes import Aspect, NextHop, Route, Routes
from bonsainet.library.states import MOST_SOLUTIONS

NAMES_SHOWN = 8
CHANGES_SHOWN = 12


def lines(found: Difference, is_long: bool = True) -> Iterator[str]:
    """The lines of a difference: for each set of prefixes that change alike the routers that change alike. Unless it is
    long, it counts what is beyond the first few."""
    yield from head_lines(found, is_long)
    for change in found.changed:
        yield listed(change.prefixes, is_long, " ")
        yield from (f"  {line}" for line in prefix_lines(change, is_long))
    changed = sum(len(one.prefixes) for one in found.changed)
    yield f"{counted(changed, 'prefix changes', 'prefixes change')}, {found.same} stay as they are"
    if found.partly:
        yield f"more than {MOST_SOLUTIONS} stable solutions, with the same labels: {listed(found.partly, is_long)}"
        yield f"  next hops are compared in the first {MOST_SOLUTIONS}"


def head_lines(found: Difference, is_long: bool = True) -> Iterator[str]:
    """The routers and the prefixes that come and go."""
    for title, names in (
        ("routers that are gone", found.routers_gone),
        ("routers that are new", found.routers_new),
        ("prefixes that are gone", found.prefixes_gone),
        ("prefixes that are new", found.prefixes_new),
    ):
        if names:
            yield f"{title}: {listed(names, is_long)}"


def listed(names: Sequence[str], is_long: bool, between: str = ", ") -> str:
    """Names on one line, and how many more there are."""
    if is_long or len(names) <= NAMES_SHOWN + 1:
        return between.join(names)
    return f"{between.join(names[:NAMES_SHOWN])} and {len(names) - NAMES_SHOWN} more"


def prefix_lines(found: PrefixChange, is_long: bool = True) -> Iterator[str]:
    """What changes for prefixes that change alike."""
    sides = (("before", found.before), ("after", found.after))
    if not found.is_whole or (found.before.solutions, found.after.solutions) != (1, 1):
        yield f"stable solutions: {', '.join(f'{solutions(side)} {when}' for when, side in sides)}"
    if not found.is_whole:
        yield f"the first {MOST_SOLUTIONS} stable solutions are compared, and no tie is looked for in more"
    for when, side in sides:
        if side.tie:
            yield f"tied {when}: {tie_words(side.tie)}"
        if not side.solutions:
            yield f"{when} there is no stable solution, so no routes are compared"
    shown = found.changes if is_long or len(found.changes) <= CHANGES_SHOWN + 1 else found.changes[:CHANGES_SHOWN]
    for change in shown:
        yield from change_lines(change, is_long, (found.before.is_whole, found.after.is_whole))
    left = [router for change in found.changes[len(shown) :] for router in change.routers]
    if left:
        yield f"and {counted(len(left), 'router changes', 'routers change')} in other ways: {listed(left, is_long)}"


def solutions(side: Side) -> str:
    """How many stable solutions a side has."""
    return str(side.solutions) if side.is_whole else f"more than {side.solutions}"


def tie_words(tie: Tie) -> str:
    """A tie in words."""
    return f"{tie.router} has tied routes that differ in their {'communities' if tie.by == 'communities' else 'paths'}"


def change_lines(change: Change, is_long: bool = True, are_whole: tuple[bool, bool] = (True, True)) -> Iterator[str]:
    """A change of routers: a line for it, and one for what holds in all of several solutions, or in all that are read."""
    yield f"{change.kind.value} {listed(change.routers, is_long)}: {change_words(change)}"
    for when, routes, is_whole in zip(("before", "after"), (change.before, change.after), are_whole):
        if len(routes) > 1:
            which = "all" if is_whole else f"the first {MOST_SOLUTIONS}"
            yield f"  in {which} solutions {when}: {_common_words(routes)}"


def change_words(change: Change) -> str:
    """What is before, and what is after."""
    if change.kind is Kind.GAINED:
        return _any_of(change.after)
    if change.kind is Kind.LOST:
        return _any_of(change.before)
    if len(change.before) == len(change.after) == 1:
        (before,), (after,) = change.before, change.after
        assert before and after
        # (a route of OSPF and one of BGP have nothing in common but their next hops)
        if before.aspects.keys() == after.aspects.keys():
            return ", ".join(
                _from_to(aspect, before.aspects[aspect], after.aspects[aspect]) for aspect in change.aspects
            )
    return f"{_any_of(change.before)} -> {_any_of(change.after)}"


def _from_to(aspect: Aspect, before: object, after: object) -> str:
    """A value that changes. Of many next hops those that go and come are named."""
    if aspect is Aspect.NEXT_HOPS and isinstance(before, tuple) and isinstance(after, tuple):
        kept = [one for one in before if one in after]
        if len(kept) > 1:
            gone, come = (tuple(one for one in nexts if one not in kept) for nexts in (before, after))
            words = [f"no more {_nexts(gone)}"] * bool(gone) + [f"also {_nexts(come)}"] * bool(come)
            return f"to {len(kept)} as before, {', '.join(words)}"
    return f"{aspect.value} {value_words(aspect, before)} -> {value_words(aspect, after)}"


def _any_of(routes: Routes) -> str:
    """What may be held; several where there are several stable solutions."""
    return " or ".join(sorted(route_words(route) for route in routes))


def _common_words(routes: Routes) -> str:
    found = in_all(routes)
    if found is None:
        return "no route in some"
    return ", ".join(["a route", *_aspect_words(found)])


def route_words(route: Route | None) -> str:
    """A route in words."""
    if route is None:
        return "no route"
    return " ".join([*_aspect_words(route.aspects), *(["here"] if route.nexts == () else [])])


def _aspect_words(aspects: Mapping[Aspect, object]) -> list[str]:
    return [f"{aspect.value} {value_words(aspect, value)}" for aspect, value in aspects.items() if value != ()]


def value_words(aspect: Aspect, value: object) -> str:
    """A value of an aspect in words."""
    if aspect is Aspect.NEXT_HOPS:
        assert isinstance(value, tuple)
        return _nexts(value)
    if aspect is Aspect.COMMUNITIES:
        assert isinstance(value, tuple)
        return " ".join(map(community_text, value)) or "none"
    return str(value)


def _nexts(nexts: Iterable[NextHop]) -> str:
    return " and ".join(f"{name} ({' or '.join(over)})" if over else name for name, over in nexts) or "itself"
