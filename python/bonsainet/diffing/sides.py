"""The two networks that are compared: a folder, a text, or what a Git repository has of them at a revision."""
from __future__ import annotations

import contextlib
import dataclasses
import functools
import os
import re
import sys
import tempfile
from collections.abc import Callable, Iterator
from pathlib import Path
from typing import TYPE_CHECKING

from bonsainet.ask.program import ALL
from bonsainet.ask.shares import side_by_side
from bonsainet.cli.command_line import Refused, printable, read_input
from bonsainet.cli.words import counted
from bonsainet.library import BonsaiError, ImportRefused, Network
from bonsainet.library.calls import ASK, BONSAI, program
from bonsainet.library.networks import judge

if TYPE_CHECKING:
    from bonsainet.importing.decisions import Decisions

# (the rules of the import, and what starts workers, load where a folder is imported)

# A revision has no two points in a row, and neither begins nor ends with a slash, as paths with `..` in them do.
RANGE = re.compile(r"(?P<old>(?!/)(?:(?!\.\.)[^:])*?)(?<!/)(?P<points>\.{2,3})(?![./])(?P<new>(?:(?!\.\.)[^:])*)(?<!/)")
MERGE_BASE = "..."
PREFIX = "bonsai-diff-"


@contextlib.contextmanager
def refusing() -> Iterator[None]:
    """What the library refuses ends a tool with one line, and below it the lines that an import leaves to a person."""
    try:
        yield
    except ImportRefused as refused:
        raise Refused(
            str(refused), [f"  {one.place}: {one.text}: {one.reason}" for one in refused.report.refused]
        ) from None
    except BonsaiError as fault:
        raise Refused(str(fault)) from None


@dataclasses.dataclass(frozen=True)
class Place:
    """Where a network or a file is: a path, and the revision of a Git repository that has it, none for now."""

    path: str
    revision: str | None = None
    title: str = ""

    @property
    def name(self) -> str:
        """What it is called."""
        if self.title or self.revision is None:
            return self.title or ("standard input" if self.path == "-" else self.path)
        return f"{self.revision}:{self.path.removeprefix('./')}"

    @property
    def is_text(self) -> bool:
        """Whether it is a file of now, or standard input."""
        return self.revision is None and (self.path == "-" or os.path.isfile(self.path))


def places(old: str, new: str | None) -> tuple[Place, Place] | None:
    """Where both sides are, by the words of the command line. None where the second is missing."""
    found = None if os.path.exists(old) else RANGE.fullmatch(old)
    if found and (found["old"] or found["new"]):
        from bonsainet.diffing import git

        revisions = found["old"] or "HEAD", found["new"] or "HEAD"
        below = f"./{(new or '').removeprefix('./')}"
        first = git.merge_base(*revisions) if found["points"] == MERGE_BASE else revisions[0]
        shown = below.removeprefix("./")
        return Place(below, first, f"{revisions[0]}:{shown}"), Place(below, revisions[1], f"{revisions[1]}:{shown}")
    return None if new is None else (place_of(old), place_of(new))


def place_of(word: str) -> Place:
    """Where a word says that something is: a path, or `REVISION:PATH` where no file has this name."""
    revision, colon, path = word.partition(":")
    if word == "-" or os.path.exists(word) or not colon or not revision:
        return Place(word)
    return Place(path, revision)


def beside(word: str | None, side: Place) -> Place | None:
    """Where the decisions for a side are. Beside a range of revisions a relative path is one of each revision."""
    if word is None:
        return None
    if side.title and not os.path.isabs(word) and ":" not in word:
        return Place(f"./{word.removeprefix('./')}", side.revision)
    return place_of(word)


def network_at(side: Place, decisions: Place | None, own_as: bool) -> Network:
    """The network of a side. Refused where it is not accepted, or is not there."""
    found = _network(side, decisions, own_as)
    judge([found])
    return found


def _network(side: Place, decisions: Place | None, own_as: bool, room: str | None = None) -> Network:
    """The network of a side, whose text is not judged. What Git has of it stands for that time in a folder below `room`."""
    if side.revision is None:
        if side.path != "-" and os.path.isdir(side.path):
            return _imported(side.path, side.name, decisions, own_as)
        return _text(read_input(side.path), side.name)
    from bonsainet.diffing import git

    kind, name = git.kind_and_name(side.revision, side.path)
    if kind != git.TREE:
        return _text(git.read_file(name), side.name)
    with tempfile.TemporaryDirectory(prefix=PREFIX, dir=room) as made:
        top = Path(made, "folder")
        top.mkdir()
        git.write_folder(name, side.name, top)
        return _named(made, side.name, lambda: _imported(str(top), side.name, decisions, own_as))


def networks_at(
    sides: tuple[Place, Place], decisions: tuple[Place | None, Place | None], own_as: bool
) -> tuple[Network, Network]:
    """Both networks. Refused where one of them is not accepted, or is not there."""
    # (each program is found once, and says once if it is not proved)
    list(side_by_side(program, (BONSAI, ASK, ALL)))
    found = _networks(sides, [functools.partial(_network, side, each, own_as) for side, each in zip(sides, decisions)])
    judge(found)
    return found


def _networks(sides: tuple[Place, Place], works: list[functools.partial[Network]]) -> tuple[Network, Network]:
    """Both networks by these works. Of two folders the second is imported by a process of its own at the same time; where
    that fails, it is imported here, which says what is refused."""
    if not all(side.revision is not None or os.path.isdir(side.path) for side in sides):
        return works[0](), works[1]()
    from bonsainet.cli.workers import workers

    # (a signal ends the process at once: its files are this one's to remove)
    with tempfile.TemporaryDirectory(prefix=PREFIX) as room, workers(1) as pool:
        second = pool.submit(works[1], room)
        old = works[0](room)
        return old, works[1](room) if second.exception() else second.result()


def say_changes(tool: str, network: Network) -> None:
    """Says on standard error how many lines an import changed."""
    if network.report:
        changed = counted(len(network.report.changes), "line is", "lines are")
        name = printable(network.name)
        print(f"{tool}: {name}: {changed} written otherwise or left out; bonsai-import reports each", file=sys.stderr)


def _named(made: str, name: str, work: Callable[[], Network]) -> Network:
    """Work in a folder that is made for it. What is refused names the folder's revision, and not the folder."""
    folder = f"{made}/folder"
    try:
        return work()
    except Refused as fault:
        details = [line.replace(folder, name) for line in fault.details]
        raise Refused(str(fault).replace(folder, name), details) from None


def _text(raw: bytes, name: str) -> Network:
    return Network(raw.decode("ascii", "surrogateescape"), name)


def _imported(folder: str, name: str, decisions: Place | None, own_as: bool) -> Network:
    """The network of a folder."""
    from bonsainet.importing.rules.options import Options
    from bonsainet.importing.tool import import_folder

    made = _decisions(decisions) if decisions else None
    return Network.of_import(import_folder(folder, program(BONSAI), made, Options.of(own_as, [], False)), name)


def _decisions(place: Place) -> Decisions:
    from bonsainet.diffing import git
    from bonsainet.importing.decisions import decisions_in, read_decisions

    if place.revision is None:
        return decisions_in(place.path)
    kind, name = git.kind_and_name(place.revision, place.path)
    if kind != git.BLOB:
        raise Refused(f"{place.name}: is no file")
    return read_decisions(git.read_file(name).decode("utf-8", "replace"), place.name)
