"""AS numbers that `bonsai-import --own-as` gave: whether a path at rest passes two routers of one original number.

Where none does, the labels with the original numbers put back are stable in the original network too, since its
stricter check of loops takes away only candidates that nobody holds (RFC 4271 section 9.1.2).
"""
from __future__ import annotations

import re
from collections.abc import Iterator, Sequence

from bonsainet.ask.labels import BgpLabel, Label, read_solution
from bonsainet.asking.reports import Count, Solution
from bonsainet.asking.shares import parts_of
from bonsainet.configs.compressed import Asked
from bonsainet.doubts.finding import Doubt, doubt
from bonsainet.doubts.untied import SECONDS

MOST_SOLUTIONS = 64
NOTE = re.compile(r"^! assumed: AS number (\d+) for (\d+) \(--own-as\)\s*$", re.MULTILINE)


def doubts_of_numbers(asked: Asked, numbers: Sequence[int]) -> Iterator[Doubt]:
    """A doubt for each class in which a path passes two such routers, or of which that was not asked; and how many classes
    have none."""
    originals = {int(own): int(old) for own, old in NOTE.findall(asked.text)}
    if not originals:
        return
    found = list(_solved(asked, originals, sorted(numbers)))
    yield from (one for one in found if one)
    sure = sum(one is None for one in found)
    told = f"in {sure} of {len(found)} classes no path at rest passes two routers of one original number: these labels, with the original numbers, are stable there too (docs/use/IMPORT.md says what that shows)"
    yield Doubt("own-number", "", None, "", told)


def _solved(asked: Asked, originals: dict[int, int], numbers: Sequence[int]) -> Iterator[Doubt | None]:
    """For each class a doubt, or none, by all of its stable solutions."""
    counts = {
        part.number: part.solutions
        for _, parts in parts_of(asked.text, ("count",), numbers, SECONDS)
        for part in parts or ()
        if isinstance(part, Count)
    }
    few = [number for number in numbers if 0 < counts.get(number, 0) <= MOST_SOLUTIONS]
    others = sorted(set(numbers).difference(few))
    yield from (_not_asked(number, counts.get(number)) for number in others)
    for (first, last), parts in parts_of(asked.text, ("solutions",), few, SECONDS) if few else ():
        for number in range(first, last + 1):
            those = [part for part in parts or () if isinstance(part, Solution) and part.number == number]
            if parts is None:
                yield _not_asked(number, None)
            else:
                yield next(filter(None, (_of_solution(asked, originals, number, part) for part in those)), None)


def _not_asked(number: int, solutions: int | None) -> Doubt:
    """Why nothing is said of a class: it has no stable solution, too many, or was not answered."""
    why = {
        None: f"bonsai-ask was ended, since it took more than {SECONDS:g} seconds",
        0: "it has no stable solution, so it does not rest",
    }.get(solutions, f"it has {solutions} stable solutions, more than {MOST_SOLUTIONS}")
    return Doubt("own-number", "", None, "", f"class {number}: {why}: nothing is said of its paths")


def _of_solution(asked: Asked, originals: dict[int, int], number: int, solution: Solution) -> Doubt | None:
    for name, label in read_solution("\n".join(solution.lines)).items():
        process = asked.network.by_name[name].bgp
        twice = _twice(originals, process.number, label) if process else None
        if process and isinstance(label, BgpLabel) and twice:
            told = f"class {number}: its path `{label.text}` passes two routers of AS {twice}, the holder counted: the original network drops it"
            return doubt("own-number", name, process.line, told)
    return None


def _twice(originals: dict[int, int], own: int, label: Label) -> int | None:
    """An original number of two of the routers on a path, the holder counted, or none."""
    if not isinstance(label, BgpLabel):
        return None
    seen: set[int] = set()
    for number in dict.fromkeys([own, *label.path]):
        original = originals.get(number)
        if original in seen:
            return original
        if original is not None:
            seen.add(original)
    return None
