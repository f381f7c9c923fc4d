"""All refusals of an input: the program's own first, then router by router on many processors, then pairs, then the
whole network."""
from __future__ import annotations

import dataclasses
import os
from collections import defaultdict
from collections.abc import Iterator
from concurrent.futures import BrokenExecutor

from bonsainet.cli.command_line import Refused
from bonsainet.cli.workers import workers
from bonsainet.lines.heads import head_of, remedy_of, scope_under
from bonsainet.ask.program import Program
from bonsainet.refusals.layout import Input, openers
from bonsainet.refusals.network import pairs
from bonsainet.refusals.rounds import Found, Rest, judge
from bonsainet.configs.text import Line, Place

AT_ONCE = min(4, os.cpu_count() or 1)
FEW = 16
A_CHUNK = 32
WHOLE, ROUTER, TWO, NETWORK = "the whole text", "its router alone", "its router and {} alone", "the network"


@dataclasses.dataclass(frozen=True)
class Entry:
    """A refusal: its line (none where the whole is refused), kind, scope, head and remedy, and the text that the
    program refused.

    `because` is the place of the line of whose setting aside it is the consequence.
    """

    line: Line | None
    kind: str
    scope: str
    head: str
    remedy: str
    judged: str
    because: Place | None = None


@dataclasses.dataclass(frozen=True)
class Refusals:
    """All refusals, that of `bonsai` first, and what could not be judged."""

    input: Input
    entries: list[Entry]
    not_judged: str | None = None


def collect(program: Program, given: Input) -> Refusals:
    """All refusals of an input."""
    own = program.refusal(given.text)
    if own is None:
        return Refusals(given, [])
    program = Program(str(program.executable() or program.path))
    rests = [Rest(part.texts) for part in given.parts]
    told: dict[int, list[tuple[Found, str]]] = defaultdict(list)
    start = _place_of(given, own.line) if own.line else None
    first = None
    if start is None:
        first = Entry(None, own.kind, "text", own.kind, remedy_of(own.kind, "text", []), WHOLE)
    else:
        number, place = start
        rests[number].refuse(place, own.kind)
        told[number].append((rests[number].refused[0], WHOLE))
    _router_by_router(program, rests, told)
    _pair_by_pair(program, rests, told)
    not_judged = judge(program, rests)
    _tell(rests, told, NETWORK)
    entries = [_entry(given, number, found, judged) for number in sorted(told) for found, judged in told[number]]
    if start is not None:
        first = _entry(given, start[0], *told[start[0]][0])
        entries.remove(first)
    return Refusals(given, [first, *entries] if first else entries, not_judged)


def _router_by_router(program: Program, rests: list[Rest], told: dict[int, list[tuple[Found, str]]]) -> None:
    """Judges each router alone."""
    work = [(number, rest) for number, rest in enumerate(rests)]
    for (number, _), rest in zip(work, _on_all(program, [[rest] for _, rest in work])):
        rests[number] = rest
    _tell(rests, told, ROUTER)


def _pair_by_pair(program: Program, rests: list[Rest], told: dict[int, list[tuple[Found, str]]]) -> None:
    """Judges two routers alone that can clash; the refusals of the later one count."""
    found = pairs(rests)
    for (earlier, later), rest in zip(
        found, _on_all(program, [[rests[earlier], rests[later]] for earlier, later in found])
    ):
        known = {(refused.place, refused.kind) for refused in rests[later].refused}
        for refused in rest.refused:
            if (refused.place, refused.kind) not in known and refused.place not in rests[later].aside:
                rests[later].refuse(refused.place, refused.kind)
                told[later].append((rests[later].refused[-1], TWO.format(_name_of(rests[earlier]))))


def _tell(rests: list[Rest], told: dict[int, list[tuple[Found, str]]], judged: str) -> None:
    """Notes which text was judged for the refusals that came since."""
    for number, rest in enumerate(rests):
        told[number] += [(found, judged) for found in rest.refused[len(told[number]) :]]


def _on_all(program: Program, work: list[list[Rest]]) -> Iterator[Rest]:
    """Judges each piece of work, and gives its last router as it stands then."""
    if len(work) <= FEW:
        yield from (_judged(program.path, rests) for rests in work)
        return
    chunks = [work[start : start + A_CHUNK] for start in range(0, len(work), A_CHUNK)]
    try:
        with workers(AT_ONCE) as pool:
            for done in pool.map(_judged_each, [program.path] * len(chunks), chunks):
                yield from done
    except BrokenExecutor:
        raise Refused("a process that judged routers was ended before its work was done") from None


def _judged_each(path: str, work: list[list[Rest]]) -> list[Rest]:
    return [_judged(path, rests) for rests in work]


def _judged(path: str, rests: list[Rest]) -> Rest:
    last = rests[-1].copy()
    judge(Program(path), [*rests[:-1], last], only_last=True)
    return last


def _place_of(given: Input, line: int) -> tuple[int, int] | None:
    """The router and the place of a line of the whole text, from 1."""
    for number, part in enumerate(given.parts):
        if line <= len(part.lines):
            return number, line - 1
        line -= len(part.lines)
    return None


def _entry(given: Input, number: int, found: Found, judged: str) -> Entry:
    part = given.parts[number]
    line = part.lines[found.place]
    above = openers(part.texts)[found.place]
    scope = scope_under(None if above is None or above == found.place else part.lines[above].text)
    words = line.words
    because = part.lines[found.cause].place if found.cause is not None else None
    return Entry(
        line, found.kind, scope, head_of(found.kind, scope, words), remedy_of(found.kind, scope, words), judged, because
    )


def _name_of(rest: Rest) -> str:
    return next(
        (words[1] for words in map(str.split, rest.texts) if words[:1] == ["hostname"] and len(words) == 2), "another"
    )
