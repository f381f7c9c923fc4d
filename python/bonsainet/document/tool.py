"""bonsai-json: classes, groups and compressed networks of all classes as one JSON document."""
from __future__ import annotations

import argparse
import json
import shutil
import sys
import tempfile
import textwrap
from collections.abc import Iterator
from typing import Any

from bonsainet.ask.accepted import add_classes, add_text, chosen
from bonsainet.cli.command_line import Refused, name_of, parser, read_input
from bonsainet.configs.compressed import Asked, asked
from bonsainet.document.build import document
from bonsainet.doubts.ties import TiesAsked
from bonsainet.ask.program import ALL, ASK, BONSAI, TOP, identities, named

SCHEMA = TOP / "docs" / "data" / "bonsai.schema.json"


def words() -> argparse.ArgumentParser:
    """The words of the command line."""
    made = parser(
        "bonsai-json",
        "Writes all classes of a network, with ties, groups and compressed networks, as one JSON document.",
    )
    add_text(made)
    add_classes(made, "only this class, by its number, a prefix or an address; may be repeated")
    made.add_argument("--no-ties", action="store_true", help="do not ask which routers hold a tied route")
    made.add_argument("--compact", action="store_true", help="write the document on one line")
    made.add_argument(
        "--check", action="store_true", help="check the document by docs/data/bonsai.schema.json before it is written"
    )
    return made


def main(argv: list[str] | None = None) -> None:
    """Runs the tool."""
    work(words().parse_args(argv))


def work(arguments: argparse.Namespace) -> None:
    """Writes the document, when all of it is made. Few classes are in memory at a time."""
    text = asked(named(BONSAI), read_input(arguments.file), name_of(arguments.file))
    with tempfile.TemporaryFile("w+", encoding="ascii") as made:
        numbers = chosen(text.classes, arguments.numbers, text.name)
        indent, has_ties = None if arguments.compact else 1, not arguments.no_ties
        made.writelines(pieces(text, numbers, indent, has_ties, arguments.check))
        made.seek(0)
        shutil.copyfileobj(made, sys.stdout)
    print()


def pieces(text: Asked, numbers: list[int], indent: int | None, has_ties: bool, is_checked: bool) -> Iterator[str]:
    """The document piece by piece, as `json.dumps` writes it whole."""
    has_ties = has_ties and text.network.protocol == "bgp" and bool(numbers)
    programs = identities(BONSAI, *([ALL] if numbers else []), *([ASK] if has_ties else []))
    head = json.dumps(document(text, [], programs), indent=indent)
    at = head.rindex("[]") + 1
    yield head[:at]
    ties = TiesAsked(named(BONSAI), text, numbers) if has_ties else None
    count = 0
    for found in text.compress_some(numbers):
        made = document(text, found, programs, ties.by_class(found) if ties else None)
        if is_checked:
            check(made)
        for number, each in enumerate(made["classes"], count):
            yield separated(json.dumps(each, indent=indent), number, indent)
        count += len(found)
    yield ("\n " if numbers and indent else "") + head[at:]


def separated(made: str, number: int, indent: int | None) -> str:
    """A class as it stands in the list."""
    if indent is None:
        return f", {made}" if number else made
    return ("," if number else "") + "\n" + textwrap.indent(made, "  ")


def check(made: dict[str, Any]) -> None:
    """Checks a document by the schema; Refused where it does not fit, or the package is not there."""
    try:
        import jsonschema
    except ImportError:
        raise Refused("--check needs the package python3-jsonschema") from None
    try:
        jsonschema.validate(made, json.loads(SCHEMA.read_text()))
    except jsonschema.ValidationError as fault:
        raise Refused(f"the document does not fit the schema at {fault.json_path}: {fault.message}") from None
