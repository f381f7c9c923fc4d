"""What `bonsai-ask` writes for `solutions` and `forwards`, class by class and as it stands: most of it is the same on both
sides of a comparison, and is never read."""
from __future__ import annotations

import dataclasses
import re
from collections.abc import Iterator, Sequence
from typing import IO

MOST_SOLUTIONS = 64
# (further ones of a class are passed over up to so many: behind more the program is started anew, and reads the text again)
MOST_PASSED = 256
BLOCK = 1 << 20
CLASS = b"\nclass "
HEAD = re.compile(rb"(\d+) solution (\d+)(?:\n|\Z)")


@dataclasses.dataclass(frozen=True)
class Written:
    """What is written of the solutions of a class, of each a line for each router: as it stands where there is one solution,
    line by line where there are several. Of more than 64 solutions the first 64 are kept."""

    solutions: tuple[bytes | tuple[bytes, ...], ...] = ()
    is_whole: bool = True

    def lines(self) -> list[Sequence[bytes]]:
        """The lines of each solution."""
        return [found.split(b"\n") if isinstance(found, bytes) else found for found in self.solutions]

    @property
    def lengths(self) -> list[int]:
        """How many lines each of several solutions has. Those of one solution are counted where it is compared."""
        return [len(found) for found in self.solutions if not isinstance(found, bytes)]

    @property
    def only(self) -> bytes | None:
        """What is written of the one solution, none where there are several, or none."""
        (found,) = self.solutions if len(self.solutions) == 1 else (None,)
        return found if isinstance(found, bytes) and self.is_whole else None


def read(stream: IO[bytes]) -> tuple[dict[int, Written], bool]:
    """The classes in a stream by their numbers, and whether it was read to its end: it is not where the last of them has too
    many solutions to pass over. ValueError where what is written is of no known form."""
    found: dict[int, _Kept] = {}
    last, is_whole = 0, True
    for number, place, lines in _solutions(stream):
        kept = found.setdefault(number, _Kept())
        if number < last or place != kept.count + 1:
            raise ValueError(f"class {number} solution {place} is not in its place")
        last = number
        kept.add(lines)
        if kept.count > MOST_PASSED:
            is_whole = False
            break
    return {number: kept.written for number, kept in found.items()}, is_whole


class _Kept:
    """The solutions of a class. Of several each line is kept once, since routers hold few routes in many solutions."""

    def __init__(self) -> None:
        self.count = 0
        self.solutions: list[bytes | tuple[bytes, ...]] = []
        self.lines: dict[bytes, bytes] = {}

    @property
    def written(self) -> Written:
        """What is kept of the class."""
        return Written(tuple(self.solutions), self.count <= MOST_SOLUTIONS)

    def add(self, lines: bytes) -> None:
        """Adds one."""
        self.count += 1
        if self.count > MOST_SOLUTIONS:
            return
        if self.count == 2:
            (first,) = self.solutions
            assert isinstance(first, bytes)
            self.solutions = [self._cut(first)]
        self.solutions.append(self._cut(lines) if self.solutions else lines)

    def _cut(self, lines: bytes) -> tuple[bytes, ...]:
        return tuple(self.lines.setdefault(line, line) for line in lines.split(b"\n"))


def _solutions(stream: IO[bytes]) -> Iterator[tuple[int, int, bytes]]:
    """For each solution the number of its class, its place, and its lines."""
    left = b"\n"
    while more := stream.read(BLOCK):
        left += more
        if CLASS in left:
            # (the last one is not whole yet, and may have no whole head)
            *whole, last = _cut(left)
            yield from map(_solution, whole)
            left = CLASS + last
    if left != b"\n":
        if CLASS not in left or not left.endswith(b"\n"):
            raise ValueError(f"no solution: {left[:40]!r}")
        yield from map(_solution, _cut(left))


def _cut(text: bytes) -> list[bytes]:
    """A text at the heads of solutions. A router may be called `class`, so that its lines begin as heads do."""
    first, *others = text.split(CLASS)[1:]
    found = [[first]]
    for piece in others:
        if HEAD.match(piece):
            found.append([piece])
        else:
            found[-1].append(piece)
    return [CLASS.join(pieces) for pieces in found]


def _solution(text: bytes) -> tuple[int, int, bytes]:
    head = HEAD.match(text)
    if not head:
        raise ValueError(f"no head of a solution: {text[:40]!r}")
    return int(head[1]), int(head[2]), text[head.end() :].removesuffix(b"\n")
