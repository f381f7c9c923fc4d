"""A test that is skipped for no reason that is known is told."""
from __future__ import annotations

import ast
from pathlib import Path

import pytest

from bonsainet.ask.program import TOP
from bonsainet.repo.skips import has_package, known, unknown
from bonsainet.tests.asking import tool

HEAD = "SKIPPED [1] python/x/test_x.py:3: "


@pytest.mark.parametrize(
    ("reason", "is_known"),
    [
        ("run by hand, as root", True),
        ("an unproved build reserves address space for its checks", True),
        ("the package lacking is not there: no picture is laid out", True),
        ("the package there is not there: no picture is laid out", False),
        ("bonsai-page: the Python module lacking is not there: install the package lacking", True),
        ("bonsai-page: Traceback (most recent call last)", False),
        ("something else", False),
    ],
)
def test_reasons(reason: str, is_known: bool) -> None:
    told = ["5 passed", HEAD + reason]
    assert list(unknown(told, known(), lambda name: name == "there")) == ([] if is_known else told[1:])


def test_packages_of_the_system() -> None:
    assert has_package("dpkg") and not has_package("no-such-package")


def test_the_command(tmp_path: Path) -> None:
    (tmp_path / "log").write_text(f"{HEAD}run by hand, as root\n")
    assert tool("skips", tmp_path / "log").returncode == 0
    (tmp_path / "log").write_text(f"{HEAD}it is Sunday\n")
    ran = tool("skips", tmp_path / "log")
    assert ran.returncode == 1 and ran.stderr.decode().endswith(f"\n{HEAD}it is Sunday\n")


def test_each_reason_of_the_tests_is_known() -> None:
    """Of the reasons that stand as they are in `skip`, `skipif` and `importorskip`."""
    found = []
    for file in [*TOP.glob("python/**/test_*.py"), *TOP.glob("hostile/tests/*.py")]:
        for node in ast.walk(ast.parse(file.read_text("utf-8"))):
            if isinstance(node, ast.Call) and getattr(node.func, "attr", "") in ("skip", "skipif", "importorskip"):
                given = [word.value for word in node.keywords if word.arg == "reason"] or node.args[:1]
                found += [each.value for each in given if isinstance(each, ast.Constant) and " " in str(each.value)]
    assert len(found) > 20
    assert list(unknown([f"{HEAD}{reason}" for reason in found], known(), lambda name: False)) == []
