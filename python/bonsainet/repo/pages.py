"""The command lines of the pages, run as they stand there.

In a code block a line `$ COMMAND` is a command, and the lines up to the next one are what it writes to standard output and
standard error; a line `...` stands for any lines. The commands of a page are run in order, each in the folder where the one
before it ended. The first folder has the repository's `bonsai`, `examples`, `tools` and `docs`, and these programs are on the
path. Those of SET_UP are run by the gate itself.

A code block that opens with a language and a file, as "rust crates/library_uses/src/values.rt", quotes lines of that file.
"""
from __future__ import annotations

import dataclasses
import os
import re
import subprocess
from pathlib import Path

from bonsainet.ask.program import TOP
from bonsainet.ask.where import without_notices

SET_UP = (
    "./build",
    "./test",
    ".ci/run",
    "rt ",
    "tools/setup",
    "dev/gate-times",
    "git clone",
    "apt-get",
    "sudo ",
    "export PATH=",
    "cp -r /usr/share/",
    "examples/check",
)
LENT = (
    "bonsai",
    "bonsai-ask",
    "bonsai-all",
    "examples",
    "tools",
    "dev",
    "docs",
    "python",
    "README.md",
    "crates",
    "crates.txt",
)
ANY_LINES = "..."
SECONDS = 60


@dataclasses.dataclass
class Shown:
    """A command line of a page: where it stands, and the output that the page shows below it, or none."""

    page: str
    line: int
    command: str
    output: list[str]

    @property
    def is_set_up(self) -> bool:
        """Whether the gate runs it itself."""
        return self.command.startswith(SET_UP)


def shown_in(page: str, text: str) -> list[Shown]:
    """The command lines of a page, in order."""
    found: list[Shown] = []
    is_code = is_output = False
    for number, line in enumerate(text.splitlines(), 1):
        if line.startswith("```"):
            is_code, is_output = not is_code, False
        elif is_code and is_output and found[-1].command.endswith("\\"):
            found[-1].command += "\n" + line
        elif is_code and line.startswith("$ "):
            found.append(Shown(page, number, line[2:].strip(), []))
            is_output = True
        elif is_code and is_output and (found[-1].output or line.strip()):
            found[-1].output.append(line.rstrip())
    for shown in found:
        while shown.output and not shown.output[-1]:
            shown.output.pop()
    return found


@dataclasses.dataclass(frozen=True)
class Quoted:
    """Lines of a file that a page quotes: where the quotation stands, the file, and the lines."""

    page: str
    line: int
    file: str
    code: str

    def fault(self, top: Path) -> str:
        """Why the file has no such lines one after the other, or nothing."""
        file = top / self.file
        if not file.is_file():
            return f"line {self.line}: there is no file {self.file}"
        is_there = self.code and f"\n{self.code}" in "\n" + file.read_text("utf-8")
        return "" if is_there else f"line {self.line}: {self.file} has other lines"


def quoted_in(page: str, text: str) -> list[Quoted]:
    """The quotations of a page, in order."""
    blocks = re.finditer(r"^```\w+ (\S+)\n(.*?)^```$", text, re.M | re.S)
    return [Quoted(page, text.count("\n", 0, block.start()) + 1, block[1], block[2]) for block in blocks]


def pages() -> list[str]:
    """The pages of the repository."""
    return [
        "README.md",
        "CONTRIBUTING.md",
        *sorted(str(path.relative_to(TOP)) for path in (TOP / "docs").glob("*/*.md")),
    ]


def fits(wanted: list[str], found: list[str]) -> bool:
    """Whether the output is what the page shows."""
    if not wanted:
        return not found
    if wanted[0] == ANY_LINES:
        return any(fits(wanted[1:], found[at:]) for at in range(len(found) + 1))
    return bool(found) and found[0] == wanted[0] and fits(wanted[1:], found[1:])


def lend(room: Path) -> None:
    """Gives a folder the parts of the repository that commands name."""
    for name in LENT:
        if (TOP / name).exists():
            (room / name).symlink_to(TOP / name)


@dataclasses.dataclass
class Room:
    """Where the commands of a page run: the folder that has the parts of the repository, and the one of the next command."""

    top: Path
    now: Path

    @staticmethod
    def of(top: Path) -> Room:
        """A folder with the parts of the repository, and a home that is empty."""
        lend(top)
        (top / "home").mkdir()
        return Room(top, top)

    def surroundings(self, program: str) -> dict[str, str]:
        """The environment of a command."""
        cache = os.environ.get("XDG_CACHE_HOME") or os.path.expanduser("~/.cache")
        path = f"{self.top}:{self.top / 'tools'}:{os.environ['PATH']}"
        own = {"HOME": str(self.top / "home"), "XDG_CACHE_HOME": cache, "PATH": path}
        return {**os.environ, **own, "BONSAI_PROGRAM": program, "LC_ALL": "C.UTF-8"}


def run_shown(shown: Shown, room: Room, program: str) -> tuple[str, list[str]]:
    """Runs a command line. Returns `ok`, `left out` or `not as shown`, and what there is to say."""
    if shown.is_set_up:
        return "left out", ["it is part of the set-up"]
    end = room.top / "folder"
    try:
        ran = subprocess.run(
            ["bash", "-c", f"trap 'pwd >{end}' EXIT\n{shown.command}"],
            cwd=room.now,
            env=room.surroundings(program),
            stdin=subprocess.DEVNULL,
            stdout=subprocess.PIPE,
            stderr=subprocess.STDOUT,
            timeout=SECONDS,
            check=False,
        )
        room.now = Path(end.read_text("utf-8").strip())
    except subprocess.TimeoutExpired:
        return "not as shown", [f"it had not ended after {SECONDS} seconds"]
    found = [line.rstrip() for line in without_notices(ran.stdout).decode("utf-8", "replace").splitlines()]
    lacking = re.search(r"^bash: line \d+: ([\w.+-]+): command not found$", "\n".join(found), re.M)
    if ran.returncode == 127 and lacking:
        return "left out", [f"no {lacking[1]} here"]
    while found and not found[-1]:
        found.pop()
    if fits(shown.output, found):
        return "ok", []
    return "not as shown", [f"shown: {shown.output[:20]}", f"found: {found[:20]}", f"status: {ran.returncode}"]
