"""What runs of `rt ci` do: the crates of the repository, the lines that a run writes, and the processes that it has at work."""
from __future__ import annotations

import dataclasses
import os
import re
from collections.abc import Iterable
from pathlib import Path

TICK = os.sysconf("SC_CLK_TCK")


def uses_of(crates_txt: str) -> dict[str, list[str]]:
    """The crates of the repository, each with the crates that its line names. Libraries of the kit are left out."""
    lines = (line.partition("#")[0].partition(":") for line in crates_txt.splitlines())
    named = {head.split()[0]: below.split() for head, _, below in lines if head.split()}
    return {name: [it for it in below if it in named] for name, below in named.items()}


def closure(uses: dict[str, list[str]], name: str) -> list[str]:
    """A crate and all crates below it, lowest first."""
    found: list[str] = []

    def add(crate: str) -> None:
        if crate not in found:
            for below in uses[crate]:
                add(below)
            found.append(crate)

    add(name)
    return found


@dataclasses.dataclass
class Told:
    """What a run has reported so far: crates that are proved, and what failed, each in its order; and of each crate how
    many edits were tried."""

    proved: list[str] = dataclasses.field(default_factory=list)
    failed: list[str] = dataclasses.field(default_factory=list)
    edits: dict[str, int] = dataclasses.field(default_factory=dict)

    def read(self, line: str) -> None:
        """Takes one line of the run's output into account."""
        if found := re.match(r"rt: (\w+) (?:proved$|is kept: an earlier run on this machine proved )", line):
            self.proved.append(found[1])
        elif found := re.match(r"rt: (\w+)(: its tests)?(?: are)? (?:NOT PROVED|FAILED)", line):
            self.failed.append(found[1] + (found[2] or ""))
        elif found := re.match(r"rt: must-fail ((\w+)/\S+): (refused)?", line):
            self.edits[found[2]] = self.edits.get(found[2], 0) + 1
            if not found[3]:
                self.failed.append(found[1])


def lines_of_failure(output: Iterable[str], name: str, most: int = 20) -> list[str]:
    """Of a run's output, the first lines that say why a crate or `CRATE: its tests` is not proved, or why an edit
    failed; else the last lines."""
    told = [line.rstrip() for line in output]
    kept = [line for line in told if line.startswith(f"rt: must-fail {name}: ")]
    is_inside = False
    for line in told:
        if line.startswith(("== ", f"rt: {name} ")):
            is_inside = line == f"== {name}"
        elif is_inside and not re.search(r": proved$|^(statements |logic|empty contracts|note: |rt: note)", line):
            kept.append(line)
    return kept[:most] or told[-most:]


@dataclasses.dataclass(frozen=True)
class Work:
    """A check that is at work: its process, its crate, what of it is checked (proof, tests or edits), and the processor
    seconds so far."""

    process: tuple[int, int]
    crate: str
    part: str
    seconds: float


def processes() -> dict[int, tuple[int, int, float]]:
    """All processes: of each its parent, the time of its start, and its own processor seconds."""
    found = {}
    for name in os.listdir("/proc"):
        if name.isdigit():
            try:
                fields = Path("/proc", name, "stat").read_text("utf-8", "replace").rpartition(")")[2].split()
            except OSError:
                continue
            found[int(name)] = int(fields[1]), int(fields[19]), sum(map(int, fields[11:13])) / TICK
    return found


def part_of(words: list[str], folder: str) -> str:
    """What a check is for, by its words and the folder that it is run in."""
    if os.path.basename(folder).startswith("rt-edit"):
        return "edits"
    return "tests" if "--test" in words else "proof"


def at_work(root: int) -> list[Work]:
    """The checks that the process `root` and its children have at work."""
    every = processes()
    ours = {root}
    grown = True
    while grown:
        more = {pid for pid, (parent, _, _) in every.items() if parent in ours} - ours
        ours |= more
        grown = bool(more)
    found = []
    for pid in sorted(ours & every.keys()):
        try:
            words = Path(f"/proc/{pid}/cmdline").read_bytes().decode("utf-8", "replace").split("\0")
            folder = os.readlink(f"/proc/{pid}/cwd")
        except OSError:
            continue
        if "--crate-name" in words and os.path.basename(words[0]) == "rattle":
            crate = words[words.index("--crate-name") + 1]
            found.append(Work((pid, every[pid][1]), crate, part_of(words, folder), every[pid][2]))
    return found
