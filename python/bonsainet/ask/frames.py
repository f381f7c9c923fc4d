"""What `bonsai-all` writes: for each class a line `class N STATUS LENGTH`, and then what `bonsai` writes of that class."""
from __future__ import annotations

import dataclasses
import io
import re
from collections.abc import Iterator, Sequence
from typing import IO

from bonsainet.ask.program import ALL, IS_DONE, Answer, NotAnswered, Status, named
from bonsainet.ask.shares import processors, ranges, side_by_side

HEAD = re.compile(rb"class (\d{1,9}) (\d{1,3}) (\d{1,18})\n")
LONGEST_HEAD = 64
# (beyond so many ranges for each processor, what lies between classes is asked too)
RANGES_EACH = 4


@dataclasses.dataclass(frozen=True)
class Frame:
    """What `bonsai` writes of a class: the number of the class, the exit status, and the bytes, to standard output where
    the status is 0 and to standard error otherwise."""

    number: int
    status: int
    written: bytes

    @property
    def text(self) -> str:
        """What was written, as text."""
        return self.written.decode("ascii", "replace")

    @property
    def refusal(self) -> str | None:
        """The kind of the refusal, or none where the class was answered."""
        return None if self.status == Status.DONE else self.text.strip().removeprefix("refused: ")


def frames_in(stream: IO[bytes]) -> Iterator[Frame]:
    """The frames of a stream that are whole: the last one is left out if it is cut. ValueError for a line that is none of
    a frame."""
    while line := stream.readline(LONGEST_HEAD):
        head = HEAD.fullmatch(line)
        if not head:
            if not line.endswith(b"\n") and len(line) < LONGEST_HEAD:
                return
            raise ValueError(f"bonsai-all wrote a line of no known form: {line!r}")
        number, status, length = map(int, head.groups())
        written = stream.read(length)
        if len(written) < length:
            return
        yield Frame(number, status, written)


def _frames_of_all(answer: Answer, numbers: range) -> list[Frame] | None:
    """The frames of an output, none where it does not have one for each of these classes."""
    try:
        found = list(frames_in(io.BytesIO(answer.out)))
    except ValueError:
        return None
    return found if [frame.number for frame in found] == list(numbers) else None


def frames_of(
    text: str | bytes,
    commands: Sequence[str],
    numbers: Sequence[int],
    shares: Sequence[tuple[int, int]] | None = None,
) -> Iterator[tuple[Frame, ...]]:
    """For each of these classes, ascending, a frame of each command. Processes share the classes, each by a range: by those
    that are given, if any are. NotAnswered where the program ends otherwise than by its work."""
    program = named(ALL)

    def asked(part: tuple[int, int]) -> list[tuple[Frame, ...]]:
        first, last = part
        made = []
        for command in commands:
            answer: Answer = program.ask("F", command, str(first), str(last), texts={"F": text})
            whole = _frames_of_all(answer, range(first, last + 1)) if answer.status in IS_DONE else None
            if whole is None:
                raise NotAnswered(answer, f"{command} of classes {first} to {last}", ALL)
            made.append(whole)
        return list(zip(*made, strict=True))

    jobs = processors()
    wanted = set(numbers)
    parts = shares or ranges(numbers, jobs)
    if not shares and len(parts) > RANGES_EACH * jobs:
        parts = ranges(range(min(numbers), max(numbers) + 1), jobs)
    for found in side_by_side(asked, parts, jobs):
        yield from (one for one in found if one[0].number in wanted)
