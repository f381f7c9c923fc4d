"""Definitions in specs/*.antt: the lines of each, and what they cite."""
from __future__ import annotations

import dataclasses
import functools
import re
from pathlib import Path

from bonsainet.ask.program import TOP

CRATES = TOP / "crates"
IMPORT = re.compile(r"^\s*(?:ghost |pub )?use Rattle\.([\w.]+?)\.\{([^}]*)\}", re.M)
ALIAS = re.compile(r"^\s*(?:ghost |pub )?use Rattle\.([\w.]+?) as (\w+)", re.M)
HEAD = re.compile(
    r"^(?:pub |abbrev |unfoldable |inline )*(?:(?:record|data|class) )?(?:pub )?(?:record |data )?(◌[^\s\w]+◌|[A-Za-z_][\w-]*)\s*(?=[:({])"
)
WORD = re.compile(r"[A-Za-z_]\w*(?:-[A-Za-z]\w*)*|[!-/:-@\[-`{-~≡≢≤<>×→⊎]+")
APART = re.compile(r"(pub )?(use|mod) |infix")


@dataclasses.dataclass(frozen=True, order=True)
class Place:
    """A definition: its file and its name there."""

    file: Path
    name: str


@dataclasses.dataclass(frozen=True, order=True)
class Declared:
    """A type of src/, by the file that declares it."""

    file: Path
    name: str


def words_of(text: str) -> dict[str, None]:
    """The words of a text, and its operators under the names that they are defined by."""
    return dict.fromkeys(word if re.match(r"\w", word) else f"◌{word}◌" for word in WORD.findall(text))


def spec_of(module: str) -> Path | None:
    """The file of a module of definitions of this repository, or None."""
    crate, *parts = module.split(".")
    if len(parts) < 2 or parts[0] != "specs" or parts[1] == "declared":
        return None
    file = CRATES.joinpath(crate, *parts).with_suffix(".antt")
    return file if file.exists() else None


def declared_of(module: str) -> Declared | None:
    """The type of this repository that a module declares, or whose variants it has, or None."""
    crate, *parts = module.split(".")
    if parts[:2] != ["specs", "declared"]:
        return None
    within = [part for part in parts[2:] if part != "TheVariants"]
    file = CRATES.joinpath(crate, "src", *within[:-1]).with_suffix(".rt")
    return Declared(file, within[-1]) if file.exists() else None


def _brought(text: str) -> list[tuple[str, str, str]]:
    """What the `use` lines bring: module, name there, name here."""
    found = []
    for match in IMPORT.finditer(text):
        for item in match[2].split(","):
            words = item.split()
            if words:
                found.append((match[1], words[0], words[-1]))
    return found


def imports_of(text: str) -> dict[str, Place]:
    """The definitions of this repository that a text imports, by their names here."""
    return {here: Place(file, there) for module, there, here in _brought(text) if (file := spec_of(module))}


def cited_by(text: str, imports: dict[str, Place]) -> list[Place]:
    """The definitions that a text names."""
    return [imports[word] for word in words_of(text) if word in imports]


@dataclasses.dataclass(frozen=True)
class File:
    """A file: its definitions with their lines, without comments; what it imports of this repository, types and kit."""

    path: Path
    definitions: dict[str, list[str]]
    imports: dict[str, Place]
    declared: dict[str, Declared]
    of_kit: dict[str, str]

    @classmethod
    def of(cls, path: Path) -> File:
        """Reads a file."""
        text = path.read_text("utf-8")
        brought = _brought(text)
        declared = {here: it for module, _, here in brought if (it := declared_of(module))}
        declared |= {match[2]: it for match in ALIAS.finditer(text) if (it := declared_of(match[1]))}
        own = {path.name for path in CRATES.iterdir()}
        of_kit = {here: there for module, there, here in brought if module.partition(".")[0] not in own}
        return cls(path, definitions_of(text), imports_of(text), declared, of_kit)

    def words(self, name: str) -> dict[str, None]:
        """The words of a definition."""
        return words_of("\n".join(self.definitions[name]))

    def cited(self, name: str) -> list[Place]:
        """The definitions that one names, of this file and others."""
        found = []
        for word in self.words(name):
            if word in self.imports:
                found.append(self.imports[word])
            elif word in self.definitions:
                found.append(Place(self.path, word))
        return found


def definitions_of(text: str) -> dict[str, list[str]]:
    """The definitions of a text: the lines of each, without comments."""
    found: dict[str, list[str]] = {}
    name = None
    for line in text.splitlines():
        if not line.strip() or line.lstrip().startswith("--") or APART.match(line):
            continue
        if not line[0].isspace():
            name = _defined_by(line, name, found)
        if name:
            found.setdefault(name, []).append(line)
    return found


def _defined_by(line: str, name: str | None, known: dict[str, list[str]]) -> str | None:
    """The name that a line at the margin defines, or goes on with."""
    match = HEAD.match(line)
    if match and match[1] != "module":
        return match[1]
    first = next(iter(words_of(line)), "")
    if first in known:
        return first
    operator = next((word for word in words_of(line) if word in known and word[0] == "◌"), None)
    if operator:
        return operator
    return name if line.startswith(("where", "unfolding")) else None


@functools.cache
def file_of(path: Path) -> File:
    """A file, read once."""
    return File.of(path)
