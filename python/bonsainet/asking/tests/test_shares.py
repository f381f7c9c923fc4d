"""Ranges of classes: few readings of a text, and pieces of a range that lasts."""
from __future__ import annotations

import subprocess

import pytest

from bonsainet.ask.program import Answer
from bonsainet.asking import shares
from bonsainet.asking.reports import ClassAnswer


class Slow:
    """A program that does not end where it is asked about class 3."""

    def __init__(self) -> None:
        self.asked: dict[str, float | None] = {}

    def ask(self, _text: str, part: str, *_task: str, texts: dict[str, str], seconds: float | None) -> Answer:
        """An answer for each class."""
        self.asked[part] = seconds
        first, last = map(int, part.split("-"))
        if first <= 3 <= last:
            raise subprocess.TimeoutExpired(texts["F"], seconds or 0)
        return Answer(0, "".join(f"class {number} yes\n" for number in range(first, last + 1)).encode(), b"")


@pytest.fixture(name="slow")
def slow_fixture(monkeypatch: pytest.MonkeyPatch) -> Slow:
    """The program, asked by two processors."""
    made = Slow()
    monkeypatch.setattr(shares, "named", lambda _name: made)
    monkeypatch.setattr(shares, "processors", lambda: 2)
    return made


def test_a_range_that_lasts_is_asked_in_pieces(slow: Slow) -> None:
    found = list(shares.parts_of("text", ("route", "*"), range(1, 21)))
    assert [part for part, _ in found] == [(1, 3), (4, 6), (7, 9), (10, 10), (11, 20)]
    assert [part for part, parts in found if parts is None] == [(1, 3)]
    answered = [one for _, parts in found for one in parts or ()]
    assert [one.number for one in answered if isinstance(one, ClassAnswer)] == list(range(4, 21))
    soon = slow.asked["1-10"]
    assert soon is not None and soon < 6 and slow.asked["1-3"] is None and len(slow.asked) == 6


def test_no_more_time_than_is_given(slow: Slow) -> None:
    assert list(shares.parts_of("text", ("route", "*"), [3], 2.0)) == [((3, 3), None)]
    given = slow.asked["3-3"]
    assert given is not None and given <= 2 and list(shares.parts_of("text", ("count",), [4], 0.0)) == [((4, 4), None)]


def test_many_classes_are_no_longer_ranges_than_before(slow: Slow) -> None:
    numbers = range(11, 11 + 64 * 8)
    assert len(list(shares.parts_of("text", ("route", "*"), numbers))) == 8 and set(slow.asked.values()) == {None}
