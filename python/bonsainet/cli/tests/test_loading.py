"""A tool's module that does not load ends with one line and a status."""
from __future__ import annotations

import importlib

import pytest

from bonsainet.cli.start import start


@pytest.mark.parametrize(
    "fault, status, told",
    [
        (KeyboardInterrupt(), 130, "x: interrupted\n"),
        (
            ModuleNotFoundError(name="jinja2"),
            1,
            "x: the Python module jinja2 is not there: install the package python3-jinja2\n",
        ),
    ],
)
def test_a_module_that_does_not_load(
    fault: BaseException, status: int, told: str, monkeypatch: pytest.MonkeyPatch, capsys: pytest.CaptureFixture[str]
) -> None:
    def fails(_module: str) -> None:
        raise fault

    monkeypatch.setattr(importlib, "import_module", fails)
    assert start("x", "bonsainet.none:main") == status
    assert capsys.readouterr().err == told
