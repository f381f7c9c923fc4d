"""bonsai-refusals: all refusals of a text or a folder at once."""
from __future__ import annotations

import argparse
import json
import os
import re
from collections.abc import Iterator
from itertools import groupby

from bonsainet.cli.command_line import Refused, parser, printable, shown
from bonsainet.importing.read import add_skip
from bonsainet.ask.program import Program
from bonsainet.ask.where import Identity, judged_by
from bonsainet.refusals.collect import Entry, Refusals, collect
from bonsainet.refusals.layout import read

LINK = re.compile(r"\[([^]]+)\]\(#[^)]*\)")
PURPOSE = """Lists all refusals of a text or a folder at once, grouped by head with counts and remedies.

Each is the verdict of the program on a text, and the list says which text. The first is that of `bonsai` on the whole. Then each
router is judged alone: a refused line, of a top line its stanza, is set aside, and the rest judged again. Then two routers that
name one thing twice are judged alone, and at the end the network as a whole. A refusal that comes only from setting another line
aside is marked as its consequence. Of a folder it lists what bonsai-import would leave to a person, and with --raw what the program refuses in the folder as it stands. The status is 1 where anything is refused. docs/use/LINES.md explains kinds and heads."""


def words() -> argparse.ArgumentParser:
    """The words of the command line."""
    made = parser("bonsai-refusals", PURPOSE)
    made.add_argument(
        "file",
        metavar="F",
        help="the configurations of the network, - for standard input, or a folder as bonsai-import reads it",
    )
    add_skip(made)
    made.add_argument(
        "--raw", action="store_true", help="of a folder, judge the lines as they stand and not what the import leaves"
    )
    made.add_argument(
        "--decisions", metavar="FILE", help="of a folder, judge what the import leaves with these decisions"
    )
    made.add_argument("--json", action="store_true", help="write one JSON object")
    return made


def main(argv: list[str] | None = None) -> None:
    """Runs the tool."""
    work(words().parse_args(argv))


def work(arguments: argparse.Namespace) -> None:
    """Writes the refusals; Refused where there are some."""
    program = Program()
    is_folder = arguments.file != "-" and os.path.isdir(arguments.file)
    if is_folder and not arguments.raw:
        # (with it the rules of the import load)
        from bonsainet.refusals.left import left_by_import

        found = left_by_import(program, arguments.file, arguments.skip, arguments.decisions)
    else:
        found = collect(program, read(arguments.file, arguments.skip))
    lines = [*as_text(found), "", judged_by(program.identity)]
    print(json.dumps(as_json(found, program.identity), indent=1) if arguments.json else "\n".join(lines))
    if found.entries:
        raise Refused(_counted(found))


def as_json(found: Refusals, program: Identity) -> dict[str, object]:
    """The refusals as one object."""
    return {
        "form": 1,
        "program": program.plain,
        "input": shown(found.input.name),
        "routers": len(found.input.parts),
        "not_judged": found.not_judged,
        "refusals": [_entry_json(entry) for entry in found.entries],
        "groups": [
            {"kind": kind, "scope": scope, "head": _printable(head), "count": len(entries), "remedy": entries[0].remedy}
            for (kind, scope, head), entries in groups(found)
        ],
    }


def as_text(found: Refusals) -> Iterator[str]:
    """The refusals for a person: the first, and then the groups, the largest first."""
    yield _counted(found)
    if not found.entries:
        return
    yield f"first: {_told(found.entries[0])}"
    if found.not_judged:
        yield f"the network as a whole was not judged: {found.not_judged}"
    for (kind, scope, head), entries in groups(found):
        yield ""
        yield f"{kind}: {_printable(head)} ({scope}): {len(entries)}"
        yield f"  {_without_links(entries[0].remedy)}"
        yield from (f"  {_told(entry, False)}{_own(entry, entries[0])}" for entry in entries)


def _own(entry: Entry, first: Entry) -> str:
    """What to do with a line, where it is not that of the group's first."""
    return "" if entry.remedy == first.remedy else f": {_without_links(entry.remedy)}"


def groups(found: Refusals) -> list[tuple[tuple[str, str, str], list[Entry]]]:
    """The refusals of one kind, scope and head together; the largest group first."""

    def key(entry: Entry) -> tuple[str, str, str]:
        return entry.kind, entry.scope, entry.head

    grouped = [(of, list(entries)) for of, entries in groupby(sorted(found.entries, key=key), key)]
    return sorted(grouped, key=lambda item: -len(item[1]))


def _told(entry: Entry, with_kind: bool = True) -> str:
    kind = f": {entry.kind}" if with_kind else ""
    if entry.line is None:
        return f"the text as a whole{kind}"
    because = f" (a consequence of {entry.because})" if entry.because else ""
    return printable(f"{entry.line.place}: {_printable(entry.line.text.strip())}{kind} [{entry.judged}]{because}")


def _without_links(remedy: str) -> str:
    """A remedy in which links on the page are its name."""
    return LINK.sub(r"\1 (docs/use/LINES.md)", remedy)


def _printable(text: str) -> str:
    begun = text if len(text) <= 120 else f"{text[:117]}..."
    return "".join(
        letter if " " <= letter <= "~" else letter.encode("unicode_escape").decode() for letter in shown(begun)
    )


def _counted(found: Refusals) -> str:
    count = len(found.entries)
    if not count:
        return f"{printable(found.input.name)}: nothing is refused"
    places = len({entry.line.place.file for entry in found.entries if entry.line}) if found.input.is_folder else 0
    follow = sum(entry.because is not None for entry in found.entries)
    where = f" in {places} {'file' if places == 1 else 'files'}" if places else ""
    told = f"{count} {'refusal' if count == 1 else 'refusals'}{where}, {follow} of them consequences"
    return f"{printable(found.input.name)}: {told}"


def _entry_json(entry: Entry) -> dict[str, object]:
    place = (
        {"file": shown(entry.line.place.file), "line": entry.line.place.line, "text": _printable(entry.line.text)}
        if entry.line
        else {"file": None, "line": None, "text": None}
    )
    because = {"file": shown(entry.because.file), "line": entry.because.line} if entry.because else None
    return {
        **place,
        "kind": entry.kind,
        "scope": entry.scope,
        "head": _printable(entry.head),
        "remedy": entry.remedy,
        "judged": entry.judged,
        "because": because,
    }
