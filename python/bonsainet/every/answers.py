"""The answers of a folder: each stands under its name only when it is whole, with its length and checksum in a file beside it.

A job writes frames, as bonsai-all does: each says how long it is, so what is there of one that was cut is no answer.
"""
from __future__ import annotations

import hashlib
import os
import threading
from collections.abc import Callable
from pathlib import Path
from typing import IO

from bonsainet.ask.frames import Frame, frames_in
from bonsainet.ask.program import Status
from bonsainet.ask.where import sum_of
from bonsainet.cli.command_line import writing
from bonsainet.every.plan import ANSWERS, Plan, put

ENDS = {"compress": "cfg", "canon": "cfg", "json": "json"}
HEAD = "class\tbytes\tsha256\n"
# (what jobs leave that were killed: frames of a range, of which nothing says whether they are whole, and answers on their way through `--then`)
LEFT = ("class-*.part", "class-*.part.*", "class-*.small", "class-*.made", "class-*.made.err")


class Answers:
    """The answers of a plan in a folder."""

    def __init__(self, folder: Path, made: Plan) -> None:
        self.folder, self.made = folder, made
        self.lock = threading.Lock()
        self.done = _kept(self)
        self.failed: set[int] = set()

    @property
    def left(self) -> list[int]:
        """The classes that have neither an answer nor failed."""
        return [each for each in range(1, self.made.classes + 1) if each not in self.done and each not in self.failed]

    def place(self, number: int) -> Path:
        """The file with the answer for a class."""
        end = "out" if self.made.then else ENDS.get(self.made.command, "txt")
        return self.folder / f"class-{number}.{end}"

    def take(self, frame: Frame) -> None:
        """Puts an answer in its place and notes it, or keeps what a class that failed wrote to standard error."""
        if frame.status != Status.DONE:
            self.fail(frame.number, frame.written)
            return
        place = self.place(frame.number)
        put(place, frame.written)
        self._note(frame.number, f"{len(frame.written)}\t{hashlib.sha256(frame.written).hexdigest()}")
        Path(f"{place}.err").unlink(missing_ok=True)
        with self.lock:
            self.done.add(frame.number)

    def fail(self, number: int, told: bytes) -> None:
        """Keeps why a class has no answer."""
        place = self.place(number)
        place.unlink(missing_ok=True)
        if told:
            put(Path(f"{place}.err"), told)
        with self.lock:
            self.failed.add(number)

    def take_all(self, stream: IO[bytes], first: int, last: int, advance: Callable[[int], None]) -> str:
        """Takes the frames of a job that asks for a range of classes. Says why a stream is no such frames, or nothing."""
        try:
            for frame in frames_in(stream):
                if not first <= frame.number <= last:
                    return f"bonsai-all answered for class {frame.number}, and was asked for {first} to {last}"
                self.take(frame)
                advance(1)
        except ValueError as fault:
            return str(fault)
        return ""

    def end(self, first: int, last: int, told: bytes) -> None:
        """A job has ended. Where it left out classes, the first of them has failed, and this is why."""
        left = [number for number in self.left if first <= number <= last]
        if left:
            self.fail(left[0], told)

    def _note(self, number: int, line: str) -> None:
        """Notes the length and the checksum of an answer."""
        place = self.folder / ANSWERS
        with self.lock, writing(place), open(place, "a+b") as file:
            size = file.seek(0, os.SEEK_END)
            file.seek(max(0, size - 1))
            is_cut = size > 0 and file.read(1) != b"\n"
            head = "\n" if is_cut else "" if size else HEAD
            file.write(f"{head}{number}\t{line}\n".encode("ascii"))


def tidy(folder: Path, *patterns: str) -> None:
    """Removes what jobs left that were killed."""
    for pattern in patterns or LEFT:
        for path in folder.glob(pattern):
            path.unlink(missing_ok=True)


def _kept(answers: Answers) -> set[int]:
    """The classes whose answer is there as it was when it was whole."""
    place = answers.folder / ANSWERS
    lines = place.read_text("ascii", "replace").splitlines() if place.is_file() else []
    # (a line that was cut says nothing, and of several the last counts)
    told = {number: rest for number, _, rest in (line.partition("\t") for line in lines)}
    found = set()
    for number in range(1, answers.made.classes + 1):
        answer, rest = answers.place(number), told.get(str(number))
        if rest and answer.is_file():
            if rest == f"{answer.stat().st_size}\t{sum_of(answer)}":
                found.add(number)
    return found
