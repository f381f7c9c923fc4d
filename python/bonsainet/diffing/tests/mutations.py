"""Edits of folders of configurations, one by one as an operator makes them, for the tests of their known answers."""
from __future__ import annotations

import dataclasses
import re
from collections.abc import Callable

from bonsainet.ask.program import TOP

INPUTS = TOP / "examples" / "inputs"

Folder = dict[str, str]
Edit = Callable[[Folder], None]


def folder_of(name: str) -> Folder:
    """An example as a folder: a file for each router, by the router's name."""
    pieces = re.split(r"^end\n", (INPUTS / name).read_text(), flags=re.M)
    found = {}
    for piece in pieces:
        named = re.search(r"^hostname (\S+)$", piece, re.M)
        if named:
            found[named[1]] = f"{piece}end\n"
    return found


def replaced(router: str, old: str, new: str) -> Edit:
    """The first such text of a router's file becomes another."""

    def edit(folder: Folder) -> None:
        assert old in folder[router], f"{router} has no {old!r}"
        folder[router] = folder[router].replace(old, new, 1)

    return edit


def everywhere(router: str, old: str, new: str) -> Edit:
    """Each such text of a router's file becomes another."""

    def edit(folder: Folder) -> None:
        assert old in folder[router], f"{router} has no {old!r}"
        folder[router] = folder[router].replace(old, new)

    return edit


def below(router: str, line: str, *added: str) -> Edit:
    """Lines below the first such line of a router's file."""
    return replaced(router, f"{line}\n", "\n".join([line, *added]) + "\n")


def before_end(router: str, *added: str) -> Edit:
    """Lines at the end of a router's file."""
    return replaced(router, "\nend\n", "\n" + "\n".join(added) + "\nend\n")


def without(router: str) -> Edit:
    """The file of a router is gone."""

    def edit(folder: Folder) -> None:
        del folder[router]

    return edit


def with_file(name: str, *lines: str) -> Edit:
    """A new file."""

    def edit(folder: Folder) -> None:
        folder[name] = "\n".join(lines) + "\n"

    return edit


def file_renamed(name: str, other: str) -> Edit:
    """A file has another name."""

    def edit(folder: Folder) -> None:
        folder[other] = folder.pop(name)

    return edit


@dataclasses.dataclass(frozen=True)
class Mutation:
    """An edit of a folder with its name, the lines of the difference that it makes, and what it says of each policy that was
    edited."""

    name: str
    base: str
    edits: tuple[Edit, ...]
    answer: tuple[str, ...]
    policies: tuple[str, ...] = ()

    def made(self) -> Folder:
        """The folder behind the edit."""
        folder = base_folder(self.base)
        for edit in self.edits:
            edit(folder)
        return folder


CAMPUS, FABRIC, DISAGREE = "campus.cfg", "fabric.cfg", "asking/disagree.cfg"
GADGET = "asking/bad-gadget.cfg"
# Examples in which one text is another, as bases of their own.
DISAGREE_SINGLE, GADGET_AT_REST = "disagree, x does not prefer y", "bad gadget, x does not prefer y"
EDITED = {
    DISAGREE_SINGLE: (DISAGREE, replaced("x", " set local-preference 200", " set local-preference 90")),
    GADGET_AT_REST: (GADGET, replaced("x", " set local-preference 200\n", "")),
}


def base_folder(name: str) -> Folder:
    """The folder before an edit: an example, or one of those that differ from an example in one text."""
    example, edit = EDITED.get(name, (name, None))
    folder = folder_of(example)
    if edit:
        edit(folder)
    return folder
