"""The words of `bonsai-ask`: what they ask of a network, or the refusal that the pages give them."""

from __future__ import annotations

import re

from hostile.judge import questions, words
from hostile.judge.asked import Call
from hostile.judge.problem import Network
from hostile.judge.questions import Question
from hostile.judge.rests import Down

NUMBER = re.compile(r"0|[1-9][0-9]{0,8}")
USAGE = (
    "usage: bonsai-ask F questions S, or F N [without DOWN] count | solutions | forwards | [failing links|routers] QUESTION; "
    "QUESTION: route R, isolated R, hops H R, through W R, avoids W R, carries C R, lacks C R"
)


class NoForm(Exception):
    """Words of no form."""


class Unanswered(Exception):
    """A refusal: its kind, and the words behind it."""

    def __init__(self, kind: str, what: str = "") -> None:
        super().__init__(f"{kind} {what}".strip())
        self.kind = kind


def call_of(net: Network, given: list[str]) -> Call:
    """What the words behind F ask. NoForm, or Unanswered with the first refusal: class, then names, then links."""
    classes, rest = given[:1], given[1:]
    if not classes:
        raise NoForm
    _form_of_classes(classes[0])
    pairs: list[str] = []
    if rest[:1] == ["without"]:
        if len(rest) < 2:
            raise NoForm
        pairs, rest = rest[1].split(","), rest[2:]
        _form_of_down(pairs)
    if rest in (["count"], ["solutions"], ["forwards"]):
        task, failing, parts = rest[0], None, None
    else:
        task, failing = "question", None
        if rest[:1] == ["failing"]:
            if rest[1:2] not in (["links"], ["routers"]):
                raise NoForm
            failing, rest = rest[1], rest[2:]
        parts = _form_of_question(rest)
    numbers, is_single = _classes(net, classes[0])
    question = _question(net, parts) if parts else None
    down = _down(net, pairs)
    return Call(numbers, is_single, down, task, question, failing)


def _form_of_classes(word: str) -> None:
    if word == "*" or NUMBER.fullmatch(word) or words.address(word) is not None:
        return
    low, hyphen, high = word.partition("-")
    if hyphen and NUMBER.fullmatch(low) and NUMBER.fullmatch(high) and 1 <= int(low) <= int(high):
        return
    if "/" in word and words.prefix(word) is not None:
        return
    raise NoForm


def _names(word: str) -> tuple[str, ...] | None:
    """A list of names, or None for all routers."""
    if word == "*":
        return None
    parts = tuple(word.split(","))
    if len(set(parts)) < len(parts) or not all(words.router_name(part) and ":" not in part for part in parts):
        raise NoForm
    return parts


def _form_of_down(items: list[str]) -> None:
    seen = set()
    for item in items:
        ends = item.split(":")
        if len(ends) > 2 or not all(words.router_name(end) for end in ends) or len(set(ends)) < len(ends):
            raise NoForm
        seen.add(frozenset(ends))
    if len(seen) < len(items):
        raise NoForm


def _form_of_question(rest: list[str]) -> tuple[str, tuple[str, ...] | None, tuple[str, ...] | None, int]:
    match rest:
        case ["route" | "isolated" as word, asked]:
            return word, _names(asked), (), 0
        case ["hops", count, asked] if NUMBER.fullmatch(count):
            return "hops", _names(asked), (), int(count)
        case ["through" | "avoids" as word, way, asked]:
            return word, _names(asked), _names(way), 0
        case ["carries" | "lacks" as word, community, asked]:
            value = words.community(community)
            if value is not None and value != words.WELL_KNOWN:
                return word, _names(asked), (), value
    raise NoForm


def _classes(net: Network, word: str) -> tuple[tuple[int, ...], bool]:
    count = len(net.classes)
    if word == "*":
        return tuple(range(count)), False
    low, hyphen, high = word.partition("-")
    if hyphen:
        if int(high) > count:
            raise Unanswered("NoClass", word)
        return tuple(range(int(low) - 1, int(high))), False
    at = int(word) - 1 if NUMBER.fullmatch(word) else questions.class_of(net, word)
    if at is None or not 0 <= at < count:
        raise Unanswered("NoClass", word)
    return (at,), True


def _places(net: Network, names: tuple[str, ...] | None) -> tuple[int, ...]:
    known = {router.name: place for place, router in enumerate(net.routers)}
    if names is None:
        return tuple(range(len(net.routers)))
    for name in names:
        if name not in known:
            raise Unanswered("UnknownRouter", name)
    return tuple(known[name] for name in names)


def _question(net: Network, parts: tuple[str, tuple[str, ...] | None, tuple[str, ...] | None, int]) -> Question:
    word, asked, way, value = parts
    routers = _places(net, asked)
    return Question(word, routers, _places(net, way), value)


def _down(net: Network, items: list[str]) -> Down:
    known = {router.name: place for place, router in enumerate(net.routers)}
    for item in items:
        for name in item.split(":"):
            if name not in known:
                raise Unanswered("UnknownRouter", name)
    routers, links = set(), set()
    for item in items:
        places = {known[name] for name in item.split(":")}
        if ":" not in item:
            routers |= places
            continue
        between = {number for number, link in enumerate(net.links) if {link[0], link[1]} == places}
        if not between:
            raise Unanswered("NoLink", item)
        links |= between
    return Down(frozenset(routers), frozenset(links))
