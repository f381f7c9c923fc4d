"""bonsai-why NET CLASS A B: why two routers are not in one group."""
from __future__ import annotations

import argparse
import json
from collections.abc import Iterable, Iterator

from bonsainet.ask.accepted import a_class, class_of
from bonsainet.cli.command_line import parser
from bonsainet.configs.text import Line
from bonsainet.diffing.reason_words import line_words
from bonsainet.diffing.sides import network_at, place_of, refusing, say_changes
from bonsainet.diffing.words import listed
from bonsainet.library.calls import BONSAI, program
from bonsainet.why.certificate import Reading
from bonsainet.why.documents import document
from bonsainet.why.explain import Cause, Edge, Why, acts_words, why

NAME = "bonsai-why"
LINES_SHOWN = 12
PURPOSE = """Says why two routers are not in one group of a class, by the lines of the configurations.

Groups are the coarsest in which members take routes alike from each other group. `bonsai certify` writes how they come
about: blocks that are split, one after another. The first split that separates the two routers says what one of them has and
the other lacks: this tool follows it back to interfaces, costs, sessions and entries of route maps. The program verifies
the blocks after each split."""


def words() -> argparse.ArgumentParser:
    """The words of the command line."""
    made = parser(NAME, PURPOSE)
    made.add_argument(
        "network", metavar="NET", help="the network: a folder, a text, REVISION:PATH of a Git repository, or -"
    )
    made.add_argument(
        "number",
        metavar="CLASS",
        type=a_class,
        help="the class: its number, as `bonsai classes F` counts it, a prefix of it, or an address",
    )
    made.add_argument("one", metavar="A", help="a router")
    made.add_argument("other", metavar="B", help="another router")
    made.add_argument("--decisions", metavar="FILE", help="the decisions for the import of a folder")
    made.add_argument(
        "--own-as", action="store_true", help="give each router of a shared AS number a number of its own"
    )
    made.add_argument("--json", action="store_true", help="write the answer as one JSON document")
    return made


def main(argv: list[str] | None = None) -> int:
    """Runs the tool."""
    made = words()
    given = made.parse_args(argv)
    place = place_of(given.network)
    if given.decisions and place.is_text:
        made.error("decisions are for a folder, and the network is a text")
    with refusing():
        decisions = place_of(given.decisions) if given.decisions else None
        network = network_at(place, decisions, given.own_as)
        say_changes(NAME, network)
        number = class_of(program(BONSAI).classes(network.raw), given.number, network.name).number
        reading = Reading.of_class(network.class_of(number))
        reason = why(reading, given.one, given.other)
    if given.json:
        print(json.dumps(document(reading, given.one, given.other, reason, program(BONSAI).identity), indent=1))
    else:
        print("\n".join(lines(reading, given.one, given.other, reason)))
    return 0


def lines(reading: Reading, one: str, other: str, reason: Why | None) -> Iterator[str]:
    """The lines of the answer."""
    prefixes = listed(reading.of.prefixes, False, " ")
    if reason is None:
        members = reading.group_of(one).members
        yield f"{one} and {other} are in one group for {prefixes}: {' '.join(members)}"
        return
    yield f"{one} and {other} are in two groups for {prefixes}"
    yield from reason_lines(reason, "  ")


def reason_lines(reason: Why, indent: str) -> Iterator[str]:
    """The lines of a reason, and of what is behind it."""
    if reason.cause is Cause.LONE:
        yield f"{indent}{reason.first} is lone: several preferences can apply there, so it is in a group by itself"
    if reason.cause is Cause.ORIGIN:
        yield f"{indent}they do not originate the prefix alike"
    for part in reason.parts:
        yield f"{indent}  {part.router} {part.words}"
        yield from _line_lines(part.lines, f"{indent}    ")
    if reason.step is None:
        return
    step = reason.step
    yield f"{indent}{reason.first} takes routes from {_block(step.into)} so, and {reason.second} does not: {acts_words([step.act])}"
    yield f"{indent}(split {step.split.number} of the certificate: {step.split.text})"
    for edge in reason.edges:
        yield from _edge_lines(edge, indent)
    if reason.others:
        yield f"{indent}what {reason.second} takes from there"
        for edge in reason.others:
            yield from _edge_lines(edge, indent)
    else:
        yield f"{indent}{reason.second} takes nothing from there"
    if reason.because:
        yield f"{indent}{reason.second} takes routes so from another router"
        yield from _edge_lines(reason.elsewhere[0], indent)
        ends = reason.edges[0].exporter, reason.elsewhere[0].exporter
        yield f"{indent}{ends[0]} and {ends[1]} are in two groups"
        yield from reason_lines(reason.because, f"{indent}  ")


def _block(routers: Iterable[str]) -> str:
    return listed(sorted(routers), False, " ")


def _edge_lines(edge: Edge, indent: str) -> Iterator[str]:
    yield f"{indent}  {edge.router} from {edge.exporter} over {edge.interface}: {acts_words(edge.acts)}"
    yield from _line_lines(edge.lines, f"{indent}    ")


def _line_lines(found: Iterable[Line], indent: str) -> Iterator[str]:
    every = list(found)
    shown = every if len(every) <= LINES_SHOWN + 1 else every[:LINES_SHOWN]
    yield from (f"{indent}{line_words(line)}" for line in shown)
    if len(every) > len(shown):
        yield f"{indent}and {len(every) - len(shown)} more lines"
