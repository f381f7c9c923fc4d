"""Jobs that work in slices of time, each a call in a process of a pool, so that what they find is seen as it comes."""
from __future__ import annotations

import concurrent.futures
import contextlib
import signal
import time
from collections.abc import Callable, Iterator
from typing import TypeVar

Found = TypeVar("Found")
Slice = concurrent.futures.Future[tuple[Found, int]]
SECONDS = 5.0
SIGNALS = (signal.SIGINT, signal.SIGTERM)


def in_slices(start: Callable[[int, int], Slice[Found]], jobs: int, goes_on: Callable[[], bool]) -> Iterator[Found]:
    """What each slice found, as slices end.

    `start` begins a slice of the job of a number after so many turns of the job, and gives what it finds with the turns
    that are then done. A job has its next slice where `goes_on` holds once what it found was taken.
    """
    waiting = {start(number, 0): number for number in range(jobs)}
    while waiting:
        done, _ = concurrent.futures.wait(waiting, return_when=concurrent.futures.FIRST_COMPLETED)
        for one in done:
            number = waiting.pop(one)
            found, turns = one.result()
            yield found
            if goes_on():
                waiting[start(number, turns)] = number


@contextlib.contextmanager
def ended_by_signal() -> Iterator[list[int]]:
    """A list that is empty until the process is to end: what was found so far is then kept."""
    told: list[int] = []
    before = {number: signal.signal(number, lambda given, _: told.append(given)) for number in SIGNALS}
    try:
        yield told
    finally:
        for number, handler in before.items():
            signal.signal(number, handler)


def leave_signals() -> None:
    """In a process of the work: the one that started it is told, and ends it."""
    signal.signal(signal.SIGINT, signal.SIG_IGN)
    signal.signal(signal.SIGTERM, signal.SIG_DFL)


def work(
    part: Callable[[int, int, float], tuple[Found, int]],
    jobs: int,
    seconds: float,
    is_enough: Callable[[Found], bool],
) -> None:
    """Calls `part` with the number of a job, its turn and the seconds of a slice, which gives what it found and the job's next
    turn. `is_enough` takes what was found, and says whether the work is to end; so do its seconds, and a signal."""
    begun, ends = time.monotonic(), False
    with ended_by_signal() as told, concurrent.futures.ProcessPoolExecutor(jobs) as pool:

        def start(number: int, turn: int) -> Slice[Found]:
            left = max(0.0, seconds - (time.monotonic() - begun))
            return pool.submit(part, number, turn, min(SECONDS, left))

        def goes_on() -> bool:
            return not ends and not told and time.monotonic() - begun < seconds

        for found in in_slices(start, jobs, goes_on):
            ends = is_enough(found) or ends
