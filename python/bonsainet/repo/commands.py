"""The commands of the programs, said once: what the launcher's `--help` lists is written into the pages of the manual and the completions.

A file has two marks, and the lines between them are written: in a page of the manual `.\\" commands: begin` and `.\\" commands: end`,
in a completion `# commands: begin` and `# commands: end`. `statuses` are marked in the same way.
"""
from __future__ import annotations

import re
import runpy
from collections.abc import Iterator
from pathlib import Path
from typing import Any

from bonsainet.ask.program import TOP
from bonsainet.cli.command_line import Refused, parser

PLACES = ("docs/man/{name}.1", "tools/completions/{name}.bash", "tools/completions/_{name}")


def launcher() -> dict[str, Any]:
    """What the launcher defines, which is not run."""
    return runpy.run_path(str(TOP / "bonsai"), run_name="launcher")


def _sentence(text: str) -> str:
    return f"{text[:1].upper()}{text[1:]}."


def _man(text: str) -> str:
    return text.replace("\\", "\\e").replace("-", "\\-").replace("`", "\\(ga")


def man_commands(forms: list[tuple[str, str]]) -> Iterator[str]:
    """The commands in the language of man."""
    for form, what in forms:
        name, _, words = form.partition(" ")
        yield from (".TP", f'.BI {_man(name)} " {_man(words)}"', _man(_sentence(what)))


def man_statuses(statuses: list[tuple[int, str]]) -> Iterator[str]:
    """The exit statuses in the language of man."""
    for status, what in statuses:
        yield from (".TP", f".B {status}", _man(_sentence(what)))


def bash_commands(forms: list[tuple[str, str]]) -> Iterator[str]:
    """The names of the commands for bash."""
    yield f'    local commands="{" ".join(form.partition(" ")[0] for form, _ in forms)}"'


def zsh_commands(forms: list[tuple[str, str]]) -> Iterator[str]:
    """The commands with what they write, for zsh."""
    for form, what in forms:
        yield f"        '{form.partition(' ')[0]}:{what.replace(chr(39), '')}'"


def written(text: str, mark: str, lines: list[str]) -> str:
    """The text with these lines between its marks, if it has them."""
    between = re.compile(rf"^(?P<open>[^\n]*\b{mark}: begin[^\n]*\n)(?:.*\n)*?(?P<close>[^\n]*\b{mark}: end\b)", re.M)
    return between.sub(lambda found: found["open"] + "".join(f"{line}\n" for line in lines) + found["close"], text)


def made(name: str, place: str, text: str) -> str:
    """A file of a program with what the launcher says of it."""
    known = launcher()
    _, _, forms, own = known["PROGRAMS"][name]
    statuses = sorted((*known["STATUSES"], own, *known["LAST_STATUSES"]))
    if place.endswith(".1"):
        return written(written(text, "commands", list(man_commands(forms))), "statuses", list(man_statuses(statuses)))
    return written(text, "commands", list((bash_commands if place.endswith(".bash") else zsh_commands)(forms)))


def files() -> Iterator[tuple[str, str, Path]]:
    """The programs with their files."""
    for name in launcher()["PROGRAMS"]:
        for place in PLACES:
            path = TOP / place.format(name=name)
            if path.is_file():
                yield name, place, path


def main(words: list[str] | None = None) -> None:
    """Writes the files, or with --check says which are not as the launcher has them."""
    given = parser("commands", main.__doc__ or "")
    given.add_argument("--check", action="store_true", help="write nothing; refused where a file is not current")
    is_check = given.parse_args(words).check
    stale = []
    for name, place, path in files():
        text = path.read_text("utf-8")
        wanted = made(name, place, text)
        if wanted != text and not is_check:
            path.write_text(wanted, "utf-8")
        elif wanted != text:
            stale.append(str(path.relative_to(TOP)))
    if stale:
        raise Refused("dev/manual writes these files anew", stale)
