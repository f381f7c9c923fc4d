"""`./test` and `.ci/run`: their words, and that the second runs the first."""
from __future__ import annotations

import subprocess

import pytest

from bonsainet.ask.program import TOP


def asked(*words: str) -> subprocess.CompletedProcess[str]:
    """Runs `./test` by these words."""
    return subprocess.run([TOP / "test", *words], capture_output=True, text=True, check=False, timeout=60)


@pytest.mark.parametrize(
    "words", [("fast",), ("--hostile",), ("--hostile", "3"), ("--hostile", "x"), ("--hostile", "60", "y")]
)
def test_words_of_no_form_are_refused_in_one_line(words: tuple[str, ...]) -> None:
    ended = asked(*words)
    assert ended.returncode == 2 and ended.stdout == "" and len(ended.stderr.splitlines()) == 1


def test_the_help_lists_each_status() -> None:
    ended = asked("--help")
    assert ended.returncode == 0 and "Exit status: 0 everything passed;" in ended.stdout


def test_the_whole_test_is_the_gate_the_build_and_this_test() -> None:
    lines = (TOP / ".ci" / "run").read_text("utf-8").splitlines()
    assert [line.split()[:1] for line in lines[-3:]] == [["./build"], ["./build"], ["exec"]]
    assert lines[-1].startswith("exec ./test")
