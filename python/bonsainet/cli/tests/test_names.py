"""Names of files that have what a terminal obeys are shown by its number, as lines of texts are."""
from __future__ import annotations

from pathlib import Path

import pytest

from bonsainet.tests.asking import needs, place_of, tool

NAME = "\x1b[31mx.cfg"
TOOLS = {
    "bonsai-doubts": [NAME],
    "bonsai-refusals": [NAME],
    "bonsai-export": ["--to", "frr", NAME, "made"],
    "bonsai-diff": [NAME, NAME],
}


@pytest.mark.parametrize("name", TOOLS)
def test_a_text(name: str, tmp_path: Path) -> None:
    needs(name)
    (tmp_path / NAME).write_bytes(place_of("two-routers.cfg").read_bytes())
    ran = tool(name, *TOOLS[name], cwd=tmp_path)
    told = ran.stdout + ran.stderr
    assert ran.returncode == 0 and b"\x1b" not in told and (b"31mx.cfg" in told or name == "bonsai-diff")


@pytest.mark.parametrize("words", [[], ["--raw"]])
def test_a_file_of_a_folder_with_a_refused_line(words: list[str], tmp_path: Path) -> None:
    (tmp_path / NAME).write_text("hostname a\nno such line\nend\n")
    ran = tool("bonsai-refusals", *words, tmp_path)
    assert ran.returncode == 1 and b"31mx.cfg:2: " in ran.stdout and b"\x1b" not in ran.stdout + ran.stderr
