"""dev/gate-times: the table, by figures and a run made for the test."""
from __future__ import annotations

import json
import subprocess
from pathlib import Path

import pytest

from bonsainet.repo.gate_times import table
from bonsainet.ask.program import TOP
from bonsainet.repo.proof_run import run_ci

FIGURES = {
    "words": ["ci"],
    "status": 0,
    "minutes": 3.0,
    "processor_seconds": 600.0,
    "crates": {
        "low": {"proof": 60.0, "tests": 0.0, "edits": 30.0},
        "high": {"proof": 240.0, "tests": 60.0, "edits": 120.0},
    },
    "edits": {"low": 1, "high": 3},
}

# What stands for the kit's rt: it starts a check of its own that takes some seconds of a processor, and fails.
RT = """#!/bin/sh
echo "words: $*"
cp /bin/sh "$ROOM/rattle"
"$ROOM/rattle" -c 'end=$(($(date +%s) + 3)); while [ "$(date +%s)" -lt $end ]; do :; done' --crate-name low
echo "rt: low proved"
echo "rt: must-fail low/one.edit: refused, as it must be"
exit 1
"""


def test_the_table() -> None:
    lines = table(FIGURES).splitlines()
    assert [line.split() for line in lines[1:4]] == [
        ["high", "4.0", "1.0", "2.0", "3", "7.0"],
        ["low", "1.0", "0.0", "0.5", "1", "1.5"],
        ["all", "crates", "5.0", "1.0", "2.5", "4", "8.5"],
    ]
    assert lines[4].split()[-1] == "1.5" and lines[5].split()[-1] == "10.0"


def test_a_run_is_measured(tmp_path: Path, monkeypatch: pytest.MonkeyPatch) -> None:
    (tmp_path / "rt").write_text(RT, "utf-8")
    (tmp_path / "rt").chmod(0o755)
    monkeypatch.setenv("PATH", f"{tmp_path}:/usr/bin:/bin")
    monkeypatch.setenv("ROOM", str(tmp_path))
    lines: list[str] = []
    ran = run_ci(tmp_path, 1, lines.append, is_whole=True)
    found = json.loads(json.dumps(ran.figures()))
    assert (ran.status, lines[0]) == (1, "words: ci\n")
    assert found["edits"] == {"low": 1} and 0 < found["crates"]["low"]["proof"] <= found["processor_seconds"]
    assert table(found).splitlines()[1].split()[0] == "low"


def test_what_are_no_figures() -> None:
    ran = subprocess.run(
        [TOP / "dev/gate-times", "table", TOP / "README.md"], capture_output=True, text=True, check=False
    )
    assert (ran.returncode, ran.stderr.count("\n")) == (1, 1)
