"""The examples of the page of the library run as they stand."""
from __future__ import annotations

import doctest
import shutil
from pathlib import Path

import pytest

import bonsainet
from bonsainet.ask.program import TOP


def test_the_page(tmp_path: Path, monkeypatch: pytest.MonkeyPatch) -> None:
    (tmp_path / "examples").symlink_to(TOP / "examples")
    page = shutil.copy(TOP / "docs" / "use" / "PYTHON.md", tmp_path)
    monkeypatch.chdir(tmp_path)
    failed, tried = doctest.testfile(str(page), module_relative=False)
    assert tried > 30 and failed == 0


def test_the_example_of_the_package(monkeypatch: pytest.MonkeyPatch) -> None:
    monkeypatch.chdir(TOP)
    failed, tried = doctest.testmod(bonsainet)
    assert tried > 4 and failed == 0
