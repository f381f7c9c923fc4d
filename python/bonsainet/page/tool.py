"""bonsai-page: all classes of a network on one page."""
from __future__ import annotations

import argparse
import json
import re
from typing import TYPE_CHECKING, Any

from bonsainet.ask.accepted import add_text
from bonsainet.cli.command_line import Refused, name_of, parser, read_input, version, write_output
from bonsainet.configs.compressed import asked
from bonsainet.doubts.ties import TiesAsked
from bonsainet.page.answers import AnswersAsked
from bonsainet.page.build import Rows, everything
from bonsainet.ask.program import ALL, ASK, BONSAI, identities, named

if TYPE_CHECKING:
    import jinja2

LONGEST_REPORT = 1 << 30


def words() -> argparse.ArgumentParser:
    """The words of the command line."""
    made = parser(
        "bonsai-page",
        "Writes one page with all classes of a network: a table, ties, pictures, groups, and the compressed texts.",
    )
    add_text(made)
    made.add_argument("--import-report", metavar="FILE", help="show what bonsai-import reported, as text or as JSON")
    made.add_argument("--no-ties", action="store_true", help="do not ask which routers hold a tied route")
    made.add_argument(
        "--no-answers",
        action="store_true",
        help="do not ask whether all routers have a route, how many stable solutions there are, and what routers hold",
    )
    made.add_argument(
        "--failing",
        choices=("links", "routers"),
        help="ask also which links or routers cut a router off where they fail, one at a time",
    )
    made.add_argument(
        "-o", "--output", metavar="FILE", default="-", help="where the page is written (default: - for standard output)"
    )
    return made


def main(argv: list[str] | None = None) -> None:
    """Runs the tool."""
    work(words().parse_args(argv))


def work(arguments: argparse.Namespace) -> None:
    """Writes the page."""
    room = templates()
    told = read_report(arguments.import_report) if arguments.import_report else None
    text = asked(named(BONSAI), read_input(arguments.file), name_of(arguments.file))
    rows, numbers = Rows(text), [each.number for each in text.classes]
    has_ties = bool(numbers) and not arguments.no_ties and text.network.protocol == "bgp"
    ties = TiesAsked(named(BONSAI), text, numbers) if has_ties else None
    has_answers = bool(numbers) and not arguments.no_answers
    answers = AnswersAsked(text, numbers, arguments.failing) if has_answers else None
    for found in text.compress_some(numbers):
        rows.add(
            found,
            lambda new: ties.by_class(new) if ties else {},
            lambda new: answers.by_class(new) if answers else {},
        )
    asked_of = [ALL] * bool(numbers) + [ASK] * (has_ties or has_answers)
    programs = identities(BONSAI, *asked_of)
    late = ties.met.told_of_late if ties and ties.met.late else None
    page = html(everything(text, rows.all, told, programs, has_ties, late), room)
    write_output(arguments.output, page.encode(), arguments.file, arguments.import_report or "-")


def templates() -> jinja2.Environment:
    """The templates. The package for them loads where a page is written."""
    import jinja2

    loader = jinja2.PackageLoader("bonsainet.page", "templates")
    return jinja2.Environment(
        loader=loader, autoescape=True, trim_blocks=True, lstrip_blocks=True, undefined=jinja2.StrictUndefined
    )


def html(shown: dict[str, Any], room: jinja2.Environment | None = None) -> str:
    """The page."""
    return (room or templates()).get_template("page.html").render(version=version(), **shown)


def read_report(name: str) -> dict[str, Any]:
    """The report of an import, as text or JSON. Refused where it is none, or that of a run that ended before it."""
    raw = read_input(name, LONGEST_REPORT)
    try:
        told = json.loads(raw)
    except ValueError:
        told = report_of_text(raw.decode("utf-8", "replace"))
    if isinstance(told, dict) and "failed" in told:
        raise Refused(f"{name}: bonsai-import ended before its report: {told['failed']}")
    if not isinstance(told, dict) or not isinstance(told.get("lines"), list):
        raise Refused(f"{name}: no report of bonsai-import")
    return told


def report_of_text(text: str) -> dict[str, Any] | None:
    """What a report in words says, as the one in JSON has it; none where the text is no such report."""
    # (with it the rules of the import load)
    from bonsainet.importing.report import FAILED, TITLES

    if text.startswith(FAILED):
        return {"failed": text[len(FAILED) :].strip(" :\n")}
    parts: dict[str, list[list[str]]] = {}
    part: list[list[str]] = []
    for line in text.splitlines():
        head = re.fullmatch(r"([A-Z][A-Za-z ]+) \((\d+)\)", line)
        if head:
            part = parts.setdefault(head[1], [])
        elif line.startswith("    ") and part:
            part[-1].append(line.strip())
        elif line.strip() and not line.startswith("Judged by "):
            part.append([line])
    if not parts or not set(parts) <= TITLES:
        return None
    return {
        "refused": [_placed(lines) for lines in parts.get("Refused", [])],
        "assumed": [_placed(lines) for lines in parts.get("Assumed", [])],
        "told": [lines[0] for lines in parts.get("Told", [])],
        "warned": [lines[0] for lines in parts.get("Warned", [])],
        "lines": [_placed(lines) for lines in parts.get("Lines", [])],
    }


def _placed(lines: list[str]) -> dict[str, Any]:
    """What is told of a line, with its place: `FILE:LINE: TEXT`, and below it why."""
    found = re.fullmatch(r"(.*?):(\d+): (.*)", lines[0])
    file, line, text = found.groups() if found else ("", "", lines[0])
    return {"file": file, "line": line, "text": text, "reason": " ".join(lines[1:])}
