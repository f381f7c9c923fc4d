"""A text, or the texts of a folder, as the lines of each router, with what stays of them when lines are set aside."""
from __future__ import annotations

import dataclasses
from collections.abc import Iterable, Sequence
from pathlib import Path

from bonsainet.cli.command_line import read_input
from bonsainet.importing.read import read_folder
from bonsainet.configs.text import Line, Place, lines_of

END = "end"


@dataclasses.dataclass
class Part:
    """The lines of one router, up to its line `end`."""

    lines: list[Line]

    @property
    def texts(self) -> list[str]:
        """The texts of the lines."""
        return [line.text for line in self.lines]


@dataclasses.dataclass(frozen=True)
class Input:
    """What is judged: its name, the text as the program takes it, and its lines router by router."""

    name: str
    text: str
    parts: list[Part]
    is_folder: bool = False

    @property
    def lines(self) -> list[Line]:
        """All lines in order."""
        return [line for part in self.parts for line in part.lines]


def read(name: str, skip: Sequence[str] = ()) -> Input:
    """A file, standard input where the name is `-`, or a folder as `bonsai-import` reads it."""
    if name != "-" and Path(name).is_dir():
        routers = read_folder(name, skip).routers
        parts = [Part(_ended(list(router.lines))) for router in routers]
        return Input(name, "".join(f"{line.text}\n" for part in parts for line in part.lines), parts, is_folder=True)
    text = read_input(name).decode("ascii", "surrogateescape")
    return Input(name, text, parts_of(lines_of(text, "standard input" if name == "-" else name) if text else []))


def parts_of(lines: Iterable[Line]) -> list[Part]:
    """The lines of each router: a top line `end` ends it. Lines without words behind the last one belong to it."""
    parts: list[Part] = []
    now: list[Line] = []
    for line in lines:
        now.append(line)
        if line.words[:1] == [END] and not line.is_indented:
            parts.append(Part(now))
            now = []
    if now and (any(not line.is_blank for line in now) or not parts):
        parts.append(Part(now))
    elif now:
        parts[-1].lines += now
    return parts


def openers(texts: list[str]) -> list[int | None]:
    """For each line the place of the top line to which it belongs: itself, or the one above it; none for skipped
    lines."""
    found: list[int | None] = []
    top = None
    for place, text in enumerate(texts):
        is_skipped = not text.strip() or text.lstrip().startswith("!")
        if not is_skipped and text[:1] not in (" ", "\t"):
            top = place
        found.append(None if is_skipped else top)
    return found


def stanza_at(texts: list[str], place: int) -> list[int]:
    """What is set aside with a line: of a top line all lines that belong to it."""
    if texts[place][:1] in (" ", "\t"):
        return [place]
    return [number for number, opener in enumerate(openers(texts)) if number == place or opener == place]


def _ended(lines: list[Line]) -> list[Line]:
    return [*lines, Line(END, lines[-1].place if lines else Place("", 0))]
