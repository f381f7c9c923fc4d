"""Which programs are measured, and on which machine: what the first line of a kept file says."""
from __future__ import annotations

import argparse
import hashlib
import os
import re
from collections.abc import Mapping
from pathlib import Path

from bonsainet.repo import packing
from bonsainet.cli.command_line import Refused, one_line


def program_at(program: Path) -> Path:
    """The program's file, which must be one."""
    if not os.access(program, os.X_OK) or not program.is_file():
        raise Refused(f"{program}: no program")
    return program.resolve()


def kind(program: Path) -> str:
    """Whether it is a proved program, which `./build` says in a file beside it. An unproved build has the checks of
    AddressSanitizer, or says in such a file how it was made."""
    data = program.read_bytes()
    told = program.with_name(f"{program.name}.made")
    if told.is_file():
        first, made = [*told.read_text("utf-8", "backslashreplace").splitlines(), "", ""][:2]
        if first and made == packing.sum_of(program):
            return "proved by ./build" if re.fullmatch("[0-9a-f]{64}", first) else first
    return "an unproved build" if b"__asan_" in data else "of an unknown make"


def add_named(made: argparse.ArgumentParser) -> None:
    """The option that names the two states."""
    made.add_argument(
        "--named",
        metavar="BEFORE,AFTER",
        help="what the two states are called on the page, as commits (default: the names of the files)",
    )


def names_of(named: str | None, programs: list[Path]) -> list[str]:
    """The names of two states."""
    names = named.split(",") if named else [program.name for program in programs]
    if len(names) != 2 or len(programs) != 2:
        raise Refused("two programs are kept, and have two names")
    return names


def told_of(programs: list[Path], names: list[str]) -> str:
    """Two states, and the machine."""
    before, after = (program_told(name, program) for name, program in zip(names, programs, strict=True))
    return in_ascii(f"before: {before}; after: {after}; {machine()}")


def programs_told(programs: Mapping[str, Path]) -> str:
    """Programs of one state by their names."""
    return ", ".join(program_told(name, program) for name, program in programs.items())


def program_told(name: str, program: Path) -> str:
    """A program by a name: how it was made, and its checksum."""
    return f"{name} ({kind(program)}, SHA-256 {hashlib.sha256(program.read_bytes()).hexdigest()[:12]})"


def in_ascii(told: str) -> str:
    """A first line as a kept file can have it: other letters, as names have them, are written by their numbers."""
    return one_line(told).encode("ascii", "backslashreplace").decode("ascii")


def machine() -> str:
    """The machine, in a few words."""
    found = re.search(r"^model name\s*: (.+)$", Path("/proc/cpuinfo").read_text("utf-8", "backslashreplace"), re.M)
    return in_ascii(f"{os.cpu_count()} processors, {found[1] if found else 'of no name'}")


def with_compiled() -> dict[str, str]:
    """The environment for a tool that is measured: Python keeps what it compiled, as it does for who runs a tool again."""
    return {name: value for name, value in os.environ.items() if name != "PYTHONDONTWRITEBYTECODE"}
