"""Each version is typed in one place, and what shows it elsewhere says the same."""
from __future__ import annotations

import re
import shutil
from pathlib import Path

from bonsainet.ask.program import TOP
from bonsainet.exporting.frr import FRR
from bonsainet.repo.pages import pages

# Three numbers with points between them, which are no part of an address and no section of a document.
VERSION = re.compile(r"(?<![\d.])(?<!section )(\d+\.\d+\.\d+)(?![\d./])")


def test_the_version_of_bonsai() -> None:
    number = (TOP / "VERSION").read_text("utf-8").strip()
    assert VERSION.fullmatch(number)
    assert re.search(r"^## (\S+?),? ", (TOP / "CHANGELOG.md").read_text("utf-8"), re.M)[1] == number  # type: ignore[index]
    assert f"\nversion: {number}\n" in (TOP / "CITATION.cff").read_text("utf-8")


def test_the_version_of_frr() -> None:
    for name in pages():
        for line in (TOP / name).read_text("utf-8").splitlines():
            if "FRR" in line:
                assert set(VERSION.findall(line)) <= {FRR}, (name, line)


def test_the_kit_that_proved_is_the_one_on_the_path() -> None:
    named = re.search(r"^Proved with `([^`]+)`", (TOP / "docs/inside/PROVED.md").read_text("utf-8"), re.M)
    assert named
    rt = shutil.which("rt")
    if rt:
        assert (Path(rt).resolve().parent.parent / "KIT-ID").read_text("utf-8").strip() == named[1]
