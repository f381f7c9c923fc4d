"""Checkouts whose tools are measured: a folder of the repository in some state, and the programs that its tools ask."""
from __future__ import annotations

import compileall
import dataclasses
import os
import subprocess
from collections.abc import Mapping
from pathlib import Path

from bonsainet.ask.program import ALL, ASK, BONSAI, variable_of
from bonsainet.bench.states import in_ascii, machine, program_at, programs_told, with_compiled
from bonsainet.cli.command_line import Refused

STATES = ("before", "after")


@dataclasses.dataclass(frozen=True)
class Checkout:
    """A folder of the repository, what its state is called, and its programs by their names."""

    folder: Path
    called: str
    programs: Mapping[str, Path]

    @property
    def environment(self) -> dict[str, str]:
        """The environment of its tools. It names every program, so no launcher begins a build."""
        return with_compiled() | {variable_of(name): str(place) for name, place in self.programs.items()}

    def start(self, name: str) -> Path:
        """The file that a command of this name runs: a program, or a tool."""
        return self.programs.get(name) or self.folder / "tools" / name

    def compile(self) -> None:
        """Has Python keep what it compiles of the tools, as it does where somebody runs them again."""
        compileall.compile_dir(self.folder / "python", quiet=2)


def checkout_at(folder: Path, called: str = "") -> Checkout:
    """The checkout in a folder. Refused where it has no tools, or lacks a program."""
    place = folder.resolve()
    if not (place / "tools").is_dir():
        raise Refused(f"{folder}: no checkout of the repository: it has no folder tools")
    programs = {name: program_of(place, name) for name in (BONSAI, ASK, ALL)}
    return Checkout(place, called or commit_of(place) or place.name, programs)


def program_of(folder: Path, name: str) -> Path:
    """The program of a name: the one that the environment names, or the one that a build left in the checkout."""
    given, crate = os.environ.get(variable_of(name)), name.replace("-", "_")
    place = Path(given) if given else folder / "crates" / crate / "out" / crate
    if not place.is_file():
        raise Refused(f"{place}: no program {name}: ./build makes it, and {variable_of(name)} can name another")
    return program_at(place)


def commit_of(folder: Path) -> str:
    """The commit of a checkout, as Git says it, or nothing where Git does not know."""
    if not (folder / ".git").exists():
        return ""
    words = ["git", "-C", str(folder), "describe", "--always", "--dirty", "--abbrev=8", "--exclude", "*"]
    try:
        return subprocess.run(words, capture_output=True, text=True, check=False).stdout.strip()
    except OSError:
        return ""


def checkout_around(program: Path) -> Path | None:
    """The checkout that has a program where a build leaves it, FOLDER/crates/CRATE/out/CRATE. None where it is elsewhere."""
    above = program.resolve().parents
    is_built = len(above) > 3 and above[0].name == "out" and above[2].name == "crates"
    return above[3] if is_built and (above[3] / "tools").is_dir() else None


def told_of(checkouts: Mapping[str, Checkout]) -> str:
    """Which states were measured, with which programs, on which machine."""
    told = (f"{state}: {one.called}, with {programs_told(one.programs)}" for state, one in checkouts.items())
    return in_ascii("; ".join([*told, machine()]))
