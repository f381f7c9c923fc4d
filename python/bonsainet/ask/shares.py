"""Work shared out to processors: of many classes, each process answers for a range."""
from __future__ import annotations

import concurrent.futures
import contextlib
import os
from collections import deque
from collections.abc import Callable, Iterable, Iterator, Sequence
from itertools import islice
from typing import TypeVar

from bonsainet.ask.running import Running, of_this_thread

Item = TypeVar("Item")
Made = TypeVar("Made")
# (so many answers of each process are in memory, where they are taken when it ends)
LONGEST_RANGE = 64
AHEAD = 2


def processors() -> int:
    """How many processors this process may use."""
    return len(os.sched_getaffinity(0))


def ranges(numbers: Sequence[int], parts: int, longest: int = LONGEST_RANGE) -> list[tuple[int, int]]:
    """Ascending numbers as ranges, from the first to the last of each: about so many of equal length where the numbers
    follow one another, and none of more numbers than `longest`."""
    size = min(longest, max(1, -(-len(numbers) // parts)))
    found: list[tuple[int, int]] = []
    for number in numbers:
        first, last = found[-1] if found else (number, number)
        if found and number == last + 1 and number - first < size:
            found[-1] = first, number
        else:
            found.append((number, number))
    return found


def side_by_side(work: Callable[[Item], Made], items: Iterable[Item], jobs: int | None = None) -> Iterator[Made]:
    """What some work makes of each item, in order, by so many threads: one for each processor where no number is given.
    Little is made ahead of what is taken. A fault or an interrupt leaves out what has not begun, and ends the programs
    that are asked."""
    count = jobs or processors()
    running = Running()
    pool = concurrent.futures.ThreadPoolExecutor(count, initializer=running.join)
    left, begun = iter(items), deque[concurrent.futures.Future[Made]]()
    # (works within a work end with it)
    with of_this_thread().holding(running.end):
        try:
            begun.extend(pool.submit(work, item) for item in islice(left, AHEAD * count))
            while begun:
                made = begun.popleft().result()
                begun.extend(pool.submit(work, item) for item in islice(left, 1))
                yield made
        finally:
            running.end()
            pool.shutdown(cancel_futures=True)


@contextlib.contextmanager
def meanwhile(*works: Callable[[], object]) -> Iterator[None]:
    """Some works, each done by a thread in the time of the context, and done at its end. A fault or an interrupt ends the
    programs that are asked."""
    running = Running()
    with concurrent.futures.ThreadPoolExecutor(max(1, len(works)), initializer=running.join) as pool:
        with of_this_thread().holding(running.end):
            try:
                begun = [pool.submit(work) for work in works]
                yield
                for one in begun:
                    one.result()
            except BaseException:
                running.end()
                raise
