"""Texts that were made to break the program, through the tools that read texts."""
from __future__ import annotations

import json
import random
from collections.abc import Callable, Iterator
from pathlib import Path

from bonsainet.ask.program import BONSAI, NotAnswered, Program, Status
from bonsainet.cli.command_line import Refused
from bonsainet.configs.compressed import Asked, asked
from bonsainet.configs.text import lines_of
from bonsainet.document.build import document
from bonsainet.doubts import tool as doubts
from bonsainet.doubts.agreement import doubts_of_agreement
from bonsainet.doubts.links import doubts_of_links
from bonsainet.doubts.policies import doubts_of_policies
from bonsainet.doubts.ties import doubts_of_ties
from bonsainet.drawing.layout import picture
from bonsainet.drawing.tool import graphs, title
from bonsainet.exporting import batfish, frr, ios
from bonsainet.exporting.tool import report_text
from bonsainet.exporting.writer import Exported, NotExported
from bonsainet.refusals import tool as refusals
from bonsainet.refusals.collect import collect
from bonsainet.refusals.layout import Input, parts_of
from hostile.makers import makers

CLASSES = 2
LONGEST = 20_000


def attack(chance: random.Random, _room: Path, program: Program) -> list[str]:
    """What fails where the tools read a text, in words."""
    raw = makers.made(chance)
    answer = program.ask("classes", "F", texts={"F": raw})
    if answer.status == Status.DONE:
        return list(faults_of_accepted(chance, raw, program))
    return list(faults_of_refused(raw, program, answer.reason)) if len(raw) < LONGEST else []


def faults_of_refused(raw: bytes, program: Program, reason: str) -> Iterator[str]:
    """What is wrong with the list of refusals: its first is the program's own, and all of it can be shown."""
    text = raw.decode("ascii", "surrogateescape")
    found = collect(program, Input("F", text, parts_of(lines_of(text, "F")) if text else []))
    if not found.entries:
        yield "nothing is refused, and the program refuses"
        return
    first = found.entries[0]
    place = f"line {first.line.place.line}: " if first.line else ""
    if f"refused: {place}{first.kind}" != reason:
        yield f"the first refusal is {place}{first.kind}, and the program says {reason}"
    if not all(letter.isprintable() for line in refusals.as_text(found) for letter in line):
        yield "the list has what a terminal obeys"
    json.dumps(refusals.as_json(found, program.identity))


def faults_of_accepted(chance: random.Random, raw: bytes, program: Program) -> Iterator[str]:
    """What is wrong with what the tools say of an accepted text."""
    try:
        text = asked(program, raw, "F")
    except Refused as refused:
        # (an empty text is refused by the tools alone)
        if raw.strip():
            yield f"the tools refuse what the program accepts: {refused}"
        return
    numbers = [found.number for found in text.classes]
    chosen = chance.sample(numbers, min(CLASSES, len(numbers)))
    found = list(text.compress_each(sorted(chosen)))
    told = document(text, found, {BONSAI: program.identity})
    if json.loads(json.dumps(told)) != told:
        yield "the document is no JSON"
    for each in found:
        if not each.refusal:
            drawn = picture(graphs(text, each), title(text, each), each.groups).source
            yield from (f"{name} is not drawn" for name in _groups(each) if name not in drawn)
    yield from faults_of_others(text, program, chosen)


def faults_of_others(text: Asked, program: Program, numbers: list[int]) -> Iterator[str]:
    """What is wrong with exports and doubts."""
    network = text.network
    exports: list[Callable[[], Exported]] = [
        lambda: frr.export(network),
        lambda: batfish.export(network),
        lambda: ios.export(network, False),
    ]
    for export in exports:
        try:
            made = export()
        except NotExported:
            continue
        report_text(made, program.identity)
        if len(made.files) < len(text.network.devices):
            yield "a router has no configuration"
    found = [*doubts_of_links(network), *doubts_of_agreement(network), *doubts_of_policies(network)]
    try:
        found += doubts_of_ties(program, text, numbers)
    except NotAnswered as fault:
        yield f"ties: {fault}"
    if not all(letter.isprintable() for line in doubts.as_text("F", found) for letter in line):
        yield "doubts have what a terminal obeys"


def _groups(found: object) -> Iterator[str]:
    yield from (group.members[0] for group in getattr(found, "groups"))
