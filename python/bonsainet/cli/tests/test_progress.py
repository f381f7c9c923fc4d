"""A bar comes on a terminal where a work lasts, and nowhere else."""
from __future__ import annotations

import io
import sys

import pytest

from bonsainet.cli import progress as of_progress
from bonsainet.cli.progress import counted_off, progress
from bonsainet.tests.asking import wait_for


@pytest.fixture(autouse=True)
def _of_a_tool(monkeypatch: pytest.MonkeyPatch) -> None:
    monkeypatch.setattr(of_progress._Bar, "is_wanted", True)


class Terminal(io.StringIO):
    """A terminal that keeps what is shown."""

    def isatty(self) -> bool:
        return True


def shown(monkeypatch: pytest.MonkeyPatch, seconds: float, stream: io.StringIO, is_long: bool) -> str:
    monkeypatch.setattr(of_progress, "SECONDS", seconds)
    monkeypatch.setattr(sys, "stderr", stream)
    monkeypatch.setenv("TERM", "xterm")
    for _ in counted_off("classes", 2, iter(range(2))):
        if is_long:
            wait_for(lambda: "/2" in stream.getvalue())
    return stream.getvalue()


def test_a_long_work_is_shown(monkeypatch: pytest.MonkeyPatch) -> None:
    pytest.importorskip("rich", reason="the package python3-rich is not there: no bar is shown")
    assert "classes" in shown(monkeypatch, 0.01, Terminal(), True)


def test_a_short_work_is_not(monkeypatch: pytest.MonkeyPatch) -> None:
    assert shown(monkeypatch, 60, Terminal(), False) == ""


def test_nothing_is_shown_to_who_uses_the_library(monkeypatch: pytest.MonkeyPatch) -> None:
    monkeypatch.setattr(of_progress._Bar, "is_wanted", False)
    monkeypatch.setattr(of_progress._Bar, "show", lambda bar: pytest.fail("it is shown"))
    assert shown(monkeypatch, 0, Terminal(), False) == ""


def test_nothing_is_shown_without_a_terminal(monkeypatch: pytest.MonkeyPatch) -> None:
    assert shown(monkeypatch, 0.01, io.StringIO(), False) == ""


def test_a_work_within_a_work_has_no_bar_of_its_own(monkeypatch: pytest.MonkeyPatch) -> None:
    monkeypatch.setattr(of_progress, "SECONDS", 60)
    monkeypatch.setattr(sys, "stderr", Terminal())
    with progress("one"), progress("other") as advance:
        advance(1)
    with progress("again"):
        assert of_progress._Bar.is_in_use
    assert not of_progress._Bar.is_in_use
