"""Types of src/*.rt: the lines of their fields and variants, those of their models, and the types that fields and
variants name."""
from __future__ import annotations

import dataclasses
import functools
import re
from collections.abc import Iterable, Iterator
from pathlib import Path

from bonsainet.ask.program import TOP
from bonsainet.cli.command_line import Refused
from bonsainet.repo.definitions import Declared

CRATES = TOP / "crates"
HEAD = re.compile(r"^(?:pub(?:\(crate\))? )?(?:struct|enum) (\w+)")
MODEL = re.compile(r"^impl(?:<[^>]*>)? Model for (\w+)")


@dataclasses.dataclass(frozen=True)
class RustType:
    """A struct or an enum: its file, its name, its lines without comments and attributes, and those of its model, which
    says as which value it is seen."""

    file: Path
    name: str
    lines: tuple[str, ...]
    model: tuple[str, ...] = ()

    @property
    def count(self) -> int:
        """How many lines a reader has to believe."""
        return len(self.lines) + len(self.model)

    def named(self) -> list[str]:
        """The names of types in its fields and variants: words with a capital that are not the variants themselves."""
        is_enum = re.match(r"(pub(\(crate\))? )?enum ", self.lines[0])
        inside = [re.sub(r"^\s*[A-Z]\w*", "", line) if is_enum else line for line in self.lines[1:]]
        return re.findall(r"\b[A-Z]\w*", " ".join([self.lines[0].partition(self.name)[2], *inside]))


@functools.cache
def types_in(file: Path) -> dict[str, RustType]:
    """The types that a file declares, by name."""
    models = dict(_blocks(file, MODEL))
    return {name: RustType(file, name, lines, models.get(name, ())) for name, lines in _blocks(file, HEAD)}


def _blocks(file: Path, head: re.Pattern[str]) -> Iterator[tuple[str, tuple[str, ...]]]:
    """What begins with such a head: the name that the head has, and the lines up to the end, without comments and
    attributes."""
    name: str | None = None
    lines: list[str] = []
    depth = 0
    for line in file.read_text("utf-8").splitlines():
        match = head.match(line)
        if name is None and match:
            name, lines, depth = match[1], [], 0
        if name is None:
            continue
        if line.strip() and not line.lstrip().startswith(("//", "#[")):
            lines.append(line)
        depth += line.count("{") - line.count("}")
        if depth == 0 and (line.rstrip().endswith(("}", ";"))):
            yield name, tuple(lines)
            name = None


@functools.cache
def types_of_crate(crate: Path) -> dict[str, RustType]:
    """The types of a crate by name."""
    return {name: it for file in sorted(crate.glob("src/**/*.rt")) for name, it in types_in(file).items()}


@functools.cache
def types_everywhere() -> dict[str, list[RustType]]:
    """The types of all crates by name."""
    found: dict[str, list[RustType]] = {}
    for crate in sorted(CRATES.iterdir()):
        for name, it in types_of_crate(crate).items():
            found.setdefault(name, []).append(it)
    return found


def _meant(word: str, file: Path) -> RustType | None:
    """The type that a word in a file means: one of its own crate, or else that of a crate from which the file uses it.
    Refused where it uses none of several."""
    if own := types_of_crate(_crate_of(file)).get(word):
        return own
    others = types_everywhere().get(word, [])
    used = [it for it in others if word in _used_from(file, _crate_of(it.file).name)] if len(others) > 1 else others
    if len(used) != 1 and others:
        raise Refused(f"{file.relative_to(CRATES)}: {word} is a type of several crates")
    return used[0] if used else None


def _used_from(file: Path, crate: str) -> set[str]:
    """The names that a file uses from a crate."""
    lines = re.findall(rf"^(?:pub )?use {crate}::([^;]+);", file.read_text("utf-8"), re.MULTILINE)
    return {word for line in lines for word in re.findall(r"\w+", line)}


def _crate_of(file: Path) -> Path:
    return CRATES / file.relative_to(CRATES).parts[0]


def types_named(start: Iterable[Declared]) -> list[RustType]:
    """The types of these names, and those that their fields and variants name, in the order in which they are met.
    Refused where it is unclear which type a name means."""
    found: dict[tuple[Path, str], RustType] = {}
    waiting = [it for place in start if (it := types_in(place.file).get(place.name))]
    while waiting:
        this = waiting.pop(0)
        if (this.file, this.name) in found:
            continue
        found[this.file, this.name] = this
        waiting += [other for word in this.named() if (other := _meant(word, this.file))]
    return list(found.values())
