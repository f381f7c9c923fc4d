"""What an import of a folder leaves to a person, in the form of the other refusals."""
from __future__ import annotations

from collections.abc import Sequence

from bonsainet.ask.program import Program
from bonsainet.configs.text import Line
from bonsainet.importing.decisions import Decisions, decisions_in
from bonsainet.importing.folder import Folder
from bonsainet.importing.read import read_folder
from bonsainet.importing.rule import Refusal
from bonsainet.importing.tool import imported
from bonsainet.lines.heads import head_of, scope_under
from bonsainet.refusals.collect import Entry, Refusals
from bonsainet.refusals.layout import Input, Part

JUDGED = "what the import leaves"


def left_by_import(program: Program, name: str, skip: Sequence[str], decisions: str | None) -> Refusals:
    """The refusals of an import, each with what it says of the line."""
    decided = decisions_in(decisions) if decisions else Decisions()
    report = imported(read_folder(name, skip), program, decided)
    parts = [Part(list(router.lines)) for router in report.folder.routers]
    given = Input(name, "", parts, is_folder=True)
    return Refusals(given, [_entry(report.folder, found) for found in report.refused])


def _entry(folder: Folder, found: Refusal) -> Entry:
    words = found.text.split()
    scope = scope_under(_opener(folder, found))
    head = head_of(found.kind, scope, words)
    return Entry(Line(found.text, found.place), found.kind or found.name, scope, head, found.reason, JUDGED)


def _opener(folder: Folder, found: Refusal) -> str | None:
    """The top line above a refused line, none where it is one itself."""
    stanzas = (stanza for router in folder.routers for stanza in router.stanzas)
    return next(
        (stanza.head.text for stanza in stanzas if any(line.place == found.place for line in stanza.body)), None
    )
