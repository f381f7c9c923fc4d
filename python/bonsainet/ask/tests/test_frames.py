"""Frames of bonsai-all are read whole, however their bytes are cut, and are what bonsai writes of each class."""
from __future__ import annotations

import io

import pytest

from bonsainet.ask import frames, shares
from bonsainet.ask.frames import Frame, frames_in, frames_of
from bonsainet.ask.program import NotAnswered, Program, report_of
from bonsainet.tests.asking import bytes_of

TWO = b"class 1 0 11\nclass 9 0 1class 2 1 17\nrefused: TooLong\n"
READ = [Frame(1, 0, b"class 9 0 1"), Frame(2, 1, b"refused: TooLong\n")]


def test_what_is_cut_is_no_frame() -> None:
    ends = [24, len(TWO)]
    for cut in range(len(TWO) + 1):
        assert list(frames_in(io.BytesIO(TWO[:cut]))) == READ[: sum(end <= cut for end in ends)]


@pytest.mark.parametrize("raw", [b"bogus\n", b"class 1 0\n", b"class 1 0 -1\n", b"class 1 0 1 \nx", b"x" * 100])
def test_a_line_that_is_no_head(raw: bytes) -> None:
    with pytest.raises(ValueError, match="a line of no known form"):
        list(frames_in(io.BytesIO(raw)))


def test_refusals() -> None:
    assert [frame.refusal for frame in READ] == [None, "TooLong"]


@pytest.mark.parametrize("numbers", [[1, 2, 3], [5], [2, 4, 6, 8, 10, 12, 14, 16]])
def test_frames_are_what_the_program_writes(numbers: list[int], monkeypatch: pytest.MonkeyPatch) -> None:
    """Of classes with others between them these others are asked too, where each would be a process."""
    monkeypatch.setattr(frames, "RANGES_EACH", 1)
    monkeypatch.setattr(frames, "processors", lambda: 2)
    raw, program = bytes_of("campus.cfg"), Program()
    found = list(frames_of(raw, ("report", "compress"), numbers))
    assert [one.number for one, _ in found] == numbers
    for report, small in found[:2]:
        assert small.text == program.compress(raw, small.number)
        assert report_of(report.text) == (program.size(raw, small.number), program.groups(raw, small.number))


def test_a_text_that_is_refused() -> None:
    with pytest.raises(NotAnswered, match="bonsai-all groups of classes 1 to 1: refused: line 1: UnknownLine"):
        list(frames_of(b"bogus\n", ["groups"], [1]))


@pytest.mark.parametrize("count", [0, 1, 7, 64, 200, 1000])
@pytest.mark.parametrize("parts", [1, 3, 4, 16])
def test_ranges(count: int, parts: int) -> None:
    found = shares.ranges(range(1, count + 1), parts)
    assert [number for first, last in found for number in range(first, last + 1)] == list(range(1, count + 1))
    assert len(found) <= max(parts, -(-count // shares.LONGEST_RANGE))
    assert all(last - first < shares.LONGEST_RANGE for first, last in found)


def test_ranges_as_long_as_is_allowed() -> None:
    assert shares.ranges(range(1, 801), 4, 800) == [(1, 200), (201, 400), (401, 600), (601, 800)]


def test_ranges_of_numbers_with_others_between_them() -> None:
    assert shares.ranges([1, 2, 3, 7, 9, 10], 2) == [(1, 3), (7, 7), (9, 10)]
