"""Which program answers, as the launcher says: its file, whether it is proved, and by which kit it was made."""
from __future__ import annotations

import dataclasses
import io
import os
import re
import subprocess
import sys
from collections.abc import Mapping
from pathlib import Path

ELF = b"\x7fELF"
NOTICE = re.compile(rb"bonsai[a-z-]*: (?:this answer is from |unproved build: )")
NAMED = re.compile(r"(.+?)\nprogram: (.*)\nkit: (.*)\n", re.S)


class NoProgram(Exception):
    """There is no program to ask. The launcher has said why."""


@dataclasses.dataclass(frozen=True)
class Identity:
    """Which program answers: the checksum of its file, whether it is proved from the sources as they stand, and its kit where that is known."""

    sha256: str
    is_proved: bool
    kit: str | None

    @property
    def plain(self) -> dict[str, object]:
        """The same as plain data."""
        return {"sha256": self.sha256, "proved": self.is_proved, "kit": self.kit}

    @property
    def told(self) -> str:
        """The same in words."""
        kind = "the proved program" if self.is_proved else "a program that is not proved"
        return f"{kind}, SHA-256 {self.sha256[:16]}, {f'made with {self.kit}' if self.kit else 'of a kit that is not known'}"


def judged_by(program: Identity) -> str:
    """The line that a report for a person has of the program that answered."""
    return f"Judged by {program.told}"


def judged_by_each(programs: Mapping[str, Identity]) -> list[str]:
    """The lines that a report for a person has of the programs that answered, by their names: the first is `bonsai`."""
    first, *others = programs.items()
    return [judged_by(first[1]), *(f"Judged by {name}, {program.told}" for name, program in others)]


def is_file_of_one(path: str | Path) -> bool:
    """Whether a file is a program that runs alone, and no script."""
    try:
        with open(path, "rb") as file:
            return file.read(len(ELF)) == ELF
    except OSError:
        return False


def sum_of(path: str | Path) -> str:
    """The checksum of a file."""
    # (who asks for no identity does not wait for it to load)
    import hashlib

    return hashlib.sha256(Path(path).read_bytes()).hexdigest()


@dataclasses.dataclass(frozen=True)
class Named:
    """What a launcher names: the file of the program that answers, what that is, and by which kit it was made."""

    path: str
    program: str = ""
    kit: str = "unknown"


def identity_of(named: Named) -> Identity:
    """Which program answers."""
    is_proved = named.program.startswith("proved, ")
    return Identity(sum_of(named.path), is_proved, None if named.kit == "unknown" else named.kit)


def without_notices(told: bytes) -> bytes:
    """What was written to standard error, without what launchers say of a program that is not proved."""
    return b"".join(line for line in told.splitlines(keepends=True) if not NOTICE.match(line))


def named_by(launcher: str) -> Named:
    """What a launcher names. What it says of a program that is not proved goes on to standard error, as it comes."""
    words = [launcher, "--where", "--version"]
    with subprocess.Popen(words, stdin=subprocess.DEVNULL, stdout=subprocess.PIPE, stderr=subprocess.PIPE) as asked:
        assert asked.stdout and asked.stderr
        failure = ""
        for line in asked.stderr:
            text = line.decode("utf-8", "backslashreplace")
            if NOTICE.match(line):
                _note(text)
            else:
                failure += text
        found = NAMED.fullmatch(os.fsdecode(asked.stdout.read()))
    if asked.returncode or not found:
        raise NoProgram(failure.strip() or f"{launcher}: names no program")
    return Named(*found.groups())


def _note(text: str) -> None:
    """Writes a notice to standard error. Where that does not take it, the answer is as good."""
    if sys.stderr is None:
        return
    try:
        os.write(sys.stderr.fileno(), text.encode("utf-8", "surrogateescape"))
    except io.UnsupportedOperation:
        sys.stderr.write(text)
    except OSError:
        pass
