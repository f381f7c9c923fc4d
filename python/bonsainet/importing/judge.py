"""The program's verdict on the text: router by router, and then on the whole network."""
from __future__ import annotations

import dataclasses
import re
from collections.abc import Callable

from bonsainet.cli.progress import counted_off, progress
from bonsainet.importing.folder import Folder, Source
from bonsainet.lines.heads import remedy_of, scope_under
from bonsainet.lines.remedies import IMPORT
from bonsainet.ask.program import Program
from bonsainet.ask.rounds import set_aside_refused
from bonsainet.configs.text import Line, Place, Stanza, text_of

PROGRAM = "program"
NO_RULE = "the import does so where its rule holds, and here it does not"
LINK = re.compile(r"\[([^]]+)\]\(#[^)]*\)")
Excuse = Callable[[Folder, Source, Stanza, Line], bool]


def judge(folder: Folder, program: Program, excuse: Excuse) -> None:
    """Notes all refusals: where the text is refused, router by router a refused line, or its stanza, is set aside; then
    the network is judged.

    `excuse` may take a refused stanza out of the router for good, with a rule's reason; then it is none.
    """
    with progress("text judged"):
        text = text_of(folder.routers)
        is_accepted = not folder.log.refusals and program.refusal(text) is None
    if is_accepted:
        folder.accepted = text
        return
    for router in counted_off("routers judged", len(folder.routers), folder.routers):
        judge_router(folder, router, program, excuse)
    if not folder.log.refusals:
        _of_network(folder, program)


def judge_router(folder: Folder, router: Source, program: Program, excuse: Excuse) -> None:
    """Notes the refusals of one router alone."""
    refused = {found.place for found in folder.log.refusals}
    aside = [line for line in router.lines if line.place in refused]
    aside += [line for found in list(aside) for line in _consequences(router, found)]
    found = set_aside_refused(program, _Remainder(folder, router, excuse, aside))
    if found:
        folder.log.refuse(_first(router), PROGRAM, f"the program refuses this router: {found.kind}", found.kind)


@dataclasses.dataclass(frozen=True, eq=False)
class _Refused:
    """A refused line and its stanza. Two are never the same: what is set aside is refused no more."""

    line: Line
    stanza: Stanza


@dataclasses.dataclass(frozen=True)
class _Remainder:
    """What stays of a router whose refused lines are set aside."""

    folder: Folder
    router: Source
    excuse: Excuse
    aside: list[Line]

    def text(self) -> str:
        """The text of what stays."""
        return text_of([Source(self.router.name, self._stanzas())])

    def spot(self, line: int) -> _Refused | None:
        """The line of that number in the text of what stays, with its stanza in the router."""
        found, stanza = _line_at(self._stanzas(), line)
        if found is None or stanza is None:
            return None
        return _Refused(found, next(kept for kept in self.router.stanzas if kept.head is stanza.head))

    def refuse(self, spot: _Refused, kind: str) -> bool:
        """Sets a line aside, unless it is excused."""
        line, stanza = spot.line, spot.stanza
        if not self.excuse(self.folder, self.router, stanza, line):
            scope = "top" if line is stanza.head else scope_under(stanza.head.text)
            self.folder.log.refuse(line, PROGRAM, _why(kind, scope, line), kind)
            self.aside.extend([line, *_consequences(self.router, line)])
        return True

    def _stanzas(self) -> list[Stanza]:
        return _without(self.router.stanzas, self.aside)


def _first(router: Source) -> Line:
    """The first line of a router, or an empty one at its file where it has none."""
    return next(router.lines, Line("", Place(router.file, 0)))


def _consequences(router: Source, line: Line) -> list[Line]:
    """The lines of a neighbour whose `remote-as` is set aside: without it they mean nothing."""
    words = line.words
    if words[:1] != ["neighbor"] or words[2:3] != ["remote-as"]:
        return []
    return [
        other for stanza in router.with_head("router", "bgp") for other in stanza.body if other.words[:2] == words[:2]
    ]


def _of_network(folder: Folder, program: Program) -> None:
    found = program.refusal(text_of(folder.routers))
    if found:
        lines: list[Line | None] = [line for router in folder.routers for line in [*router.lines, None]]
        if found.line is None:
            why = f"the program refuses the network as a whole: {found.kind}"
            folder.log.refuse(_first(folder.routers[0]), PROGRAM, why, found.kind)
            return
        line = lines[found.line - 1] if found.line <= len(lines) else None
        own = line or _first(folder.routers[-1])
        scope = scope_under(_opener(folder, own))
        folder.log.refuse(own, PROGRAM, _why(found.kind, scope, own, " in the network"), found.kind)


def _why(kind: str, scope: str, line: Line, where: str = "") -> str:
    """The kind, and what docs/use/LINES.md says of such a line. Where it names a rule of the import, that rule did not
    take this line."""
    told = LINK.sub(r"\1 (docs/use/LINES.md)", remedy_of(kind, scope, line.words)).replace(IMPORT, NO_RULE)
    return f"the program refuses this line{where}: {kind}: {told}"


def _opener(folder: Folder, line: Line) -> str | None:
    """The top line above a line, none where it is one itself."""
    stanzas = (stanza for router in folder.routers for stanza in router.stanzas)
    return next((stanza.head.text for stanza in stanzas if any(line is found for found in stanza.body)), None)


def _line_at(stanzas: list[Stanza], number: int) -> tuple[Line | None, Stanza | None]:
    at = 0
    for stanza in stanzas:
        for line in stanza.lines:
            at += 1
            if at == number:
                return line, stanza
    return None, None


def _without(stanzas: list[Stanza], aside: list[Line]) -> list[Stanza]:
    gone = {id(line) for line in aside}
    kept = [stanza for stanza in stanzas if id(stanza.head) not in gone]
    return [Stanza(stanza.head, [line for line in stanza.body if id(line) not in gone]) for stanza in kept]
