"""One run of `rt ci`: its lines, passed on as they come, a line of progress, and the processor seconds of each check.

Checks are looked at twice a second, so of each at most its last half second is missed.
"""
from __future__ import annotations

import dataclasses
import resource
import shutil
import subprocess
import sys
import threading
import time
from collections.abc import Callable
from pathlib import Path

from bonsainet.cli.streams import ending_with_this
from bonsainet.repo.proving import Told, Work, at_work

PARTS = ("proof", "tests", "edits")
LOOKS_EVERY = 0.5


class Sampler:
    """Looks at the checks below a process until it is stopped. Keeps those of the last look, and the most that
    each took."""

    def __init__(self, process: int) -> None:
        self.process = process
        self.now: list[Work] = []
        self.seen: dict[tuple[int, int], Work] = {}
        self.ended = threading.Event()
        self.thread = threading.Thread(target=self.follow, daemon=True)
        self.thread.start()

    def follow(self) -> None:
        """Looks again and again."""
        while not self.ended.wait(LOOKS_EVERY):
            self.now = at_work(self.process)
            self.seen.update({work.process: work for work in self.now})

    def stop(self) -> dict[str, dict[str, float]]:
        """Ends, and returns the seconds of each crate's parts."""
        self.ended.set()
        self.thread.join()
        found: dict[str, dict[str, float]] = {}
        for work in self.seen.values():
            parts = found.setdefault(work.crate, dict.fromkeys(PARTS, 0.0))
            parts[work.part] += work.seconds
        return found


class Progress:
    """One line on standard error that says how far the proofs are: on a terminal it is written anew, elsewhere it is
    written once a minute."""

    def __init__(self, total: int, told: Told, sampler: Sampler, is_alone: bool) -> None:
        self.total, self.told, self.sampler = total, told, sampler
        self.start = time.monotonic()
        self.is_terminal = is_alone and sys.stderr.isatty()
        self.ended = threading.Event()
        self.thread = threading.Thread(target=self.follow, daemon=True)

    def line(self) -> str:
        """The line as it stands."""
        names = sorted({work.crate + ("" if work.part == "proof" else f"'s {work.part}") for work in self.sampler.now})
        minutes = int(time.monotonic() - self.start) // 60
        return f"build: {len(self.told.proved)} of {self.total} crates proved, {minutes} minutes; at work: {' '.join(names) or 'none'}"

    def follow(self) -> None:
        """Writes the line until the run ends."""
        while not self.ended.wait(2 if self.is_terminal else 60):
            width = shutil.get_terminal_size().columns
            text = f"\r\x1b[K{self.line()[: width - 1]}" if self.is_terminal else self.line() + "\n"
            print(text, end="", file=sys.stderr, flush=True)

    def __enter__(self) -> Progress:
        self.thread.start()
        return self

    def __exit__(self, *_: object) -> None:
        self.ended.set()
        self.thread.join()
        if self.is_terminal:
            print("\r\x1b[K", end="", file=sys.stderr, flush=True)


@dataclasses.dataclass
class Ran:
    """What a run came to: its status, what it told, and what it took."""

    status: int
    told: Told
    minutes: float
    processor_seconds: float
    crates: dict[str, dict[str, float]]

    def figures(self) -> dict[str, object]:
        """The figures, as they are kept for the table."""
        return {
            "words": ["ci"],
            "status": self.status,
            "minutes": self.minutes,
            "processor_seconds": self.processor_seconds,
            "crates": self.crates,
            "edits": self.told.edits,
        }


def run_ci(folder: Path, total: int, take: Callable[[str], None], is_whole: bool) -> Ran:
    """Runs `rt ci` in a folder of so many crates, and hands each of its lines on. A run that is not whole ends at the
    first failure."""
    start, told = time.monotonic(), Told()
    words = [*ending_with_this(), "rt", "ci"]
    ran = subprocess.Popen(
        words,
        cwd=folder,
        stdin=subprocess.DEVNULL,
        stdout=subprocess.PIPE,
        stderr=subprocess.STDOUT,
        text=True,
        errors="replace",
    )
    sampler = Sampler(ran.pid)
    try:
        with Progress(total, told, sampler, is_alone=not is_whole):
            for line in ran.stdout or ():
                told.read(line)
                take(line)
                if told.failed and not is_whole:
                    ran.terminate()
                    break
        status = ran.wait()
    finally:
        ran.terminate()
        ran.wait()
        crates = sampler.stop()
    used = resource.getrusage(resource.RUSAGE_CHILDREN)
    return Ran(status, told, (time.monotonic() - start) / 60, used.ru_utime + used.ru_stime, crates)
