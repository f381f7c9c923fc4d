"""The attack on the tools: a short run fails nowhere, and what it looks for is seen."""
from __future__ import annotations

import json
import random
import subprocess
from pathlib import Path

import pytest

from bonsainet.ask.program import TOP, Program
from bonsainet.importing.read import read_folder
from bonsainet.importing.tool import imported
from hostile.tooling import command, folders, processes

ROUTER = (
    "hostname a\ninterface Vlan1\n ip address 10.0.0.1 255.255.255.0\n description one\n"
    "router ospf 1\n network 0.0.0.0 255.255.255.255 area 0\nend\n"
)


def test_a_short_run_finds_no_failure(tmp_path: Path) -> None:
    words = ["--seconds", "60", "--jobs", "2", "--cases", "60", "--seed", "5", "--log", str(tmp_path / "log")]
    ran = subprocess.run([str(TOP / "hostile/tools"), *words], capture_output=True, text=True, check=False)
    assert ran.returncode == 0, ran.stdout + ran.stderr
    first, *_, last = map(json.loads, (tmp_path / "log").read_text().splitlines())
    assert first["seed"] == 5 and last["failures"] == [] and sum(last["cases"].values()) > 0


@pytest.mark.parametrize("name", [name for name in command.ATTACKS if name not in ("folder", "text")])
def test_each_attack_that_starts_processes(name: str) -> None:
    assert command.case(12, name) == (name, [])


def test_too_few_cases_fail() -> None:
    words = ["--seconds", "0", "--jobs", "1", "--seed", "1"]
    ran = subprocess.run([str(TOP / "hostile/tools"), *words], capture_output=True, text=True, check=False)
    assert ran.returncode == 1 and "0 cases were tried, and 1 are wanted" in ran.stderr


def test_cases_are_the_same_for_a_number(tmp_path: Path) -> None:
    made = []
    for number in range(2):
        room = tmp_path / str(number)
        room.mkdir()
        folders._write(random.Random(7), folders.FOLDERS[0], room / "configs")
        made.append(processes.content(room))
    assert made[0] == made[1] and command.attack_of(7) == command.attack_of(7)


def test_a_line_that_is_lost_is_seen(tmp_path: Path, monkeypatch: pytest.MonkeyPatch) -> None:
    (tmp_path / "a.cfg").write_text(ROUTER)
    program = Program()
    report = imported(read_folder(str(tmp_path)), program)
    assert list(folders.faults_of_text(report, program)) == []
    whole = folders.text_of
    monkeypatch.setattr(folders, "text_of", lambda routers: whole(routers).replace(" description one\n", ""))
    assert list(folders.faults_of_text(report, program)) == ["lost without a word, 1 times: description one"]


def test_a_text_that_the_program_refuses_is_seen(tmp_path: Path, monkeypatch: pytest.MonkeyPatch) -> None:
    (tmp_path / "a.cfg").write_text(ROUTER)
    program = Program()
    report = imported(read_folder(str(tmp_path)), program)
    monkeypatch.setattr(folders, "text_of", lambda routers: "bogus\n" + ROUTER)
    assert any(fault.startswith("the text is refused") for fault in folders.faults_of_text(report, program))
