"""The tests of FRR are there whole, or not at all, wherever an earlier run was ended. Nothing is fetched."""
from __future__ import annotations

import subprocess
from pathlib import Path

import pytest

from bonsainet.cli.command_line import Refused
from bonsainet.corpus import fetch

WANTED = {"one/frr.conf": "one\n", "two/frr.conf": "two\n"}


@pytest.fixture(name="folder")
def folder_fixture(tmp_path: Path, monkeypatch: pytest.MonkeyPatch) -> Path:
    """A folder with the archive that apt-get would have fetched, and what a run that was ended has left."""
    for name, text in WANTED.items():
        place = tmp_path / "source/frr-1" / fetch.TESTS / name
        place.parent.mkdir(parents=True)
        place.write_text(text)
    folder = tmp_path / "folder"
    half = folder / "part" / fetch.TESTS / "one/frr.conf"
    half.parent.mkdir(parents=True)
    half.write_text("o")
    archive = folder / "frr_1.orig.tar.gz"
    subprocess.run(["tar", "-C", tmp_path / "source", "-czf", archive, "frr-1"], check=True)
    monkeypatch.setattr(fetch, "_apt", lambda *_: None)
    monkeypatch.setattr(fetch, "source_index", lambda: "")
    return folder


def test_what_a_run_that_was_ended_has_left_is_not_taken(folder: Path) -> None:
    tests = fetch.fetch(folder)
    assert {str(path.relative_to(tests)): path.read_text() for path in tests.rglob("*.conf")} == WANTED
    assert not (folder / "part").exists()


def test_an_archive_that_was_cut(folder: Path) -> None:
    archive = folder / "frr_1.orig.tar.gz"
    archive.write_bytes(archive.read_bytes()[:-20])
    with pytest.raises(Refused, match="^tar: "):
        fetch.fetch(folder)
    assert not (folder / fetch.TESTS).exists()
