"""Work side by side comes in order, and ends with the programs that it asks."""
from __future__ import annotations

import threading
import time
from pathlib import Path

import pytest

from bonsainet.ask.program import Program
from bonsainet.ask.running import Running
from bonsainet.ask.shares import side_by_side


def test_the_order_is_that_of_the_items() -> None:
    def work(item: int) -> int:
        time.sleep(0.02 * (3 - item))
        return item

    assert list(side_by_side(work, range(3), 3)) == [0, 1, 2]


def test_little_is_made_ahead() -> None:
    begun: list[int] = []

    def work(item: int) -> int:
        begun.append(item)
        return item

    assert next(iter(side_by_side(work, range(100), 2))) == 0
    assert len(begun) <= 6


@pytest.fixture
def slow(tmp_path: Path) -> Path:
    """A program that runs for a minute."""
    made = tmp_path / "slow"
    made.write_text("#!/bin/sh\nexec sleep 60\n")
    made.chmod(0o755)
    return made


def test_a_fault_ends_the_programs_that_are_asked(slow: Path) -> None:
    """A program would run for a minute when another work fails."""
    is_asked = threading.Event()

    def work(item: str) -> int:
        if item == "fails":
            is_asked.wait(60)
            raise ValueError(item)
        is_asked.set()
        return Program(str(slow)).ask().status

    begun = time.monotonic()
    with pytest.raises(ValueError, match="fails"):
        list(side_by_side(work, ["fails", "asks"], 2))
    assert time.monotonic() - begun < 50


def test_works_within_a_work_end_with_it(slow: Path) -> None:
    """The inner works ask programs that would run for a minute when the outer one fails."""
    is_asked = threading.Event()

    def inner(_item: int) -> int:
        is_asked.set()
        return Program(str(slow)).ask().status

    def work(item: str) -> list[int]:
        if item == "fails":
            is_asked.wait(60)
            raise ValueError(item)
        return list(side_by_side(inner, range(2), 2))

    begun = time.monotonic()
    with pytest.raises(ValueError, match="fails"):
        list(side_by_side(work, ["fails", "asks"], 2))
    assert time.monotonic() - begun < 50


def test_what_is_started_behind_the_end_is_ended() -> None:
    ended: list[str] = []
    running = Running()
    with running.holding(lambda: ended.append("held")):
        running.end()
    running.end()
    with running.holding(lambda: ended.append("late")):
        pass
    assert ended == ["held", "late"]
