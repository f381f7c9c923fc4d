"""What `bonsai-ask` must answer: words, questions over labels, and the lines of an answer."""

from __future__ import annotations

import dataclasses
import functools

from hostile.judge import labels, rests, words
from hostile.judge.labels import Label, Route
from hostile.judge.problem import Network, Problem, problem
from hostile.judge.rests import Down

QUESTIONS = ("route", "isolated", "hops", "through", "avoids", "carries", "lacks")


@dataclasses.dataclass(frozen=True)
class Question:
    """A question: its word, routers R, routers W, and a number H or a community C."""

    word: str
    routers: tuple[int, ...]
    way: tuple[int, ...] = ()
    value: int = 0


@dataclasses.dataclass(frozen=True)
class Verdict:
    """The answer for one problem, and whether ties can change it, which they cannot where it is `no`."""

    word: str
    ties_matter: bool


def is_true(whole: Problem, given: list[Label], question: Question, down: Down) -> bool:
    """Whether labels make a question true. Routers that are down are not asked."""
    asked = [place for place in question.routers if place not in down.routers]
    way = {place for place in question.way if place not in down.routers}
    match question.word:
        case "route":
            return all(given[place] is not None for place in asked)
        case "isolated":
            return all(given[place] is None for place in asked)
        case "carries":
            return all(given[place] is None or _holds(given[place], question.value) for place in asked)
        case "lacks":
            return not any(_holds(given[place], question.value) for place in asked)
        case "hops":
            return all(_longest(whole, given, place) <= question.value for place in asked)
        case "avoids":
            return not any(_reached(whole, given, place, set()) & way for place in asked)
        case "through":
            return not any(_reached(whole, given, place, way) & set(whole.initial) for place in asked)
    raise ValueError(question.word)


def _holds(label: Label, community: int) -> bool:
    return isinstance(label, Route) and community in label.communities


def _longest(whole: Problem, given: list[Label], place: int) -> int:
    """The most hops of a chain of forwarding that begins at a router."""
    return max((1 + _longest(whole, given, other) for other in labels.forwards(whole, given, place)), default=0)


def _reached(whole: Problem, given: list[Label], place: int, closed: set[int]) -> set[int]:
    """The routers on chains of forwarding that begin at a router and meet no closed one."""
    found: set[int] = set()
    waiting = [place]
    while waiting:
        other = waiting.pop()
        if other not in found and other not in closed:
            found.add(other)
            waiting += labels.forwards(whole, given, other)
    return found


@functools.lru_cache(512)
def left_of(net: Network, number: int, down: Down) -> Problem:
    """The problem of a class, by its place, without something."""
    return rests.without(problem(net, net.classes[number]), down)


@functools.lru_cache(512)
def solutions(net: Network, number: int, down: Down) -> tuple[Problem, list[list[Label]]]:
    """The problem of a class, by its place, without something, and its solutions."""
    left = left_of(net, number, down)
    return left, rests.solutions(left)


@functools.lru_cache(512)
def ties_matter(net: Network, number: int, down: Down) -> bool:
    """Whether routers may rest otherwise than the solutions say."""
    left, found = solutions(net, number, down)
    return rests.ties_matter(left, found)


def keys(net: Network, number: int, down: Down) -> list[str]:
    """The keys of each solution, as text."""
    left, found = solutions(net, number, down)
    return [repr(rests.keys(left, given)) for given in found]


def forwards(net: Network, number: int, down: Down) -> list[str]:
    """The lines of `forwards` for each solution."""
    left, found = solutions(net, number, down)
    return ["\n".join(forward_lines(left, given)) for given in found]


def verdict(net: Network, number: int, question: Question, down: Down) -> Verdict:
    """The answer to a question about a class without something."""
    left, found = solutions(net, number, down)
    if not all(is_true(left, given, question, down) for given in found):
        return Verdict("no", False)
    return Verdict("yes" if found else "none", ties_matter(net, number, down))


def link_names(net: Network) -> list[str]:
    """Each link as `failing links` names it: its routers, that of the lesser line first, and its number among theirs."""
    counts: dict[frozenset[int], int] = {}
    found = []
    for low, high, _, _ in net.links:
        pair = frozenset((low, high))
        counts[pair] = counts.get(pair, 0) + 1
        found.append(f"{net.routers[low].name} {net.routers[high].name} {counts[pair]}")
    return found


def links_down(net: Network, down: Down) -> set[int]:
    """The links that are down, by themselves or with a router."""
    return set(down.links) | {number for number, link in enumerate(net.links) if {link[0], link[1]} & down.routers}


def forward_lines(left: Problem, given: list[Label]) -> list[str]:
    """The lines of `forwards` for one solution."""
    rows = []
    for place, name in enumerate(left.names):
        ahead = [left.names[other] for other in sorted(labels.forwards(left, given, place))]
        rows.append(f"{name} {'none' if given[place] is None else 'to ' + ' '.join(ahead) if ahead else 'here'}")
    return rows


def class_of(net: Network, word: str) -> int | None:
    """The class that a prefix or an address names, by its place."""
    if "/" in word:
        prefix = words.prefix(word)
        return next((at for at, one in enumerate(net.classes) if prefix in one.prefixes), None)
    value = words.address(word)
    if value is None:
        return None
    holding = [
        (length, at)
        for at, one in enumerate(net.classes)
        for base, length in one.prefixes
        if words.cut(value, length) == (base, length)
    ]
    return max(holding)[1] if holding else None
