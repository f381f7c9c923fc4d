"""A tool's page of the manual, made from what its command line says of itself, so that both say the same."""
from __future__ import annotations

import argparse
import re
from collections.abc import Iterable, Iterator

STATUSES = (
    ("0", "Done."),
    ("1", "The input was refused, or a part of the work failed. One line on standard error says which and why."),
    ("2", "The words are wrong."),
    ("3", "A file could not be read, or could not be made."),
    ("4", "The output did not take all bytes."),
    ("130", "Interrupted."),
)


def manual(parser: argparse.ArgumentParser) -> str:
    """The page in the language of man."""
    purpose = parser.description or ""
    first, _, _ = purpose.partition(".")
    lines = [
        f'.TH {parser.prog.upper()} 1 "" "Bonsai" "Bonsai manual"',
        ".SH NAME",
        f"{_plain(parser.prog)} \\- {_plain(_small(first))}",
    ]
    lines += [".SH SYNOPSIS", *_synopsis(parser), ".SH DESCRIPTION", *_paragraphs(purpose)]
    lines += [
        ".SH OPTIONS",
        *(line for action in parser._actions if action.help != argparse.SUPPRESS for line in _option(action)),
    ]
    statuses = sorted((*STATUSES, *parser.get_default("statuses")), key=lambda status: int(status[0]))
    lines += [".SH EXIT STATUS", *(line for status, told in statuses for line in (".TP", f".B {status}", told))]
    lines += [
        ".SH ENVIRONMENT",
        ".TP",
        ".B BONSAI_PROGRAM",
        "The program that is asked, in place of the one of the repository.",
    ]
    lines += [".SH SEE ALSO", ".BR bonsai (1)"]
    return "\n".join(lines) + "\n"


class Manual(argparse.Action):
    """Writes the page and ends."""

    def __init__(self, option_strings: list[str], dest: str, **_more: object) -> None:
        super().__init__(option_strings, dest, nargs=0, help=argparse.SUPPRESS)

    def __call__(self, parser: argparse.ArgumentParser, *_rest: object) -> None:
        print(manual(parser), end="")
        parser.exit()


def _small(sentence: str) -> str:
    sentence = " ".join(sentence.split())
    return sentence[:1].lower() + sentence[1:]


def _synopsis(parser: argparse.ArgumentParser) -> Iterator[str]:
    yield f".B {_plain(parser.prog)}"
    for action in parser._actions:
        if action.help == argparse.SUPPRESS:
            continue
        value = _value(action)
        yield f"[\\fB{_plain(action.option_strings[-1])}\\fR{' ' + value if value else ''}]" if action.option_strings else f".I {_name(action)}"


def _option(action: argparse.Action) -> Iterator[str]:
    yield ".TP"
    if action.option_strings:
        value = _value(action)
        yield ", ".join(f"\\fB{_plain(word)}\\fR{' ' + value if value else ''}" for word in action.option_strings)
    else:
        yield f".I {_name(action)}"
    yield from _paragraphs(_sentence((action.help or "") % vars(action)))


def _sentence(text: str) -> str:
    return text[:1].upper() + text[1:] + ("" if text.endswith(".") else ".")


def _value(action: argparse.Action) -> str:
    if action.nargs == 0:
        return ""
    if action.choices and not action.metavar:
        return "|".join(f"\\fB{_plain(str(choice))}\\fR" for choice in action.choices)
    return f"\\fI{_name(action)}\\fR"


def _name(action: argparse.Action) -> str:
    return _plain(str(action.metavar or action.dest.upper()))


def _paragraphs(text: str) -> Iterable[str]:
    """The paragraphs of a text; a line that would begin with a control character is guarded."""
    for number, paragraph in enumerate(re.split(r"\n\s*\n", text.strip())):
        if number:
            yield ".PP"
        words = _plain(" ".join(paragraph.split()))
        yield f"\\&{words}" if words[:1] in (".", "'") else words


def _plain(text: str) -> str:
    return text.replace("\\", "\\e").replace("-", "\\-").replace("`", "\\(ga")
