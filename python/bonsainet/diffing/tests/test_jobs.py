"""The jobs of the page DIFF, run as they stand there over a backup repository of two days."""
from __future__ import annotations

import datetime
import os
import re
import subprocess
import sys
from pathlib import Path

import pytest

from bonsainet.ask.program import TOP
from bonsainet.diffing.shown import show
from bonsainet.diffing.tests.mutations import CAMPUS, below, folder_of
from bonsainet.tests.asking import needs

PAGE = (TOP / "docs" / "use" / "DIFF.md").read_text()


def job(title: str) -> str:
    """The first code block without an answer below a title of the page."""
    part = PAGE[PAGE.index(f"## {title}\n") :]
    found = re.search(r"^```\n(?!\$)(.*?)^```$", part, re.M | re.S)
    assert found
    return found[1]


def run(place: Path, script: str) -> subprocess.CompletedProcess[str]:
    """Runs a job in a folder, with the tools on the path."""
    path = f"{TOP / 'tools'}:{TOP}:{os.environ['PATH']}"
    who = {f"GIT_{one}_{what}": "a@example.org" for one in ("AUTHOR", "COMMITTER") for what in ("NAME", "EMAIL")}
    env = {**os.environ, **who, "PATH": path}
    return subprocess.run(["bash", "-c", script], cwd=place, env=env, capture_output=True, text=True, check=False)


def committed(place: Path, days: int, message: str) -> None:
    """Commits what is there so many days ago."""
    date = (datetime.datetime.now(datetime.timezone.utc) - datetime.timedelta(days=days)).isoformat()
    script = f"git add -A && GIT_AUTHOR_DATE={date} GIT_COMMITTER_DATE={date} git commit -qm {message}"
    assert run(place, script).returncode == 0


def write(place: Path, folder: dict[str, str]) -> None:
    """Writes the configurations."""
    (place / "configs").mkdir(parents=True, exist_ok=True)
    for name, text in folder.items():
        (place / "configs" / f"{name}.cfg").write_text(text)
    (place / "decisions").write_text("# no decision is needed\n")


@pytest.fixture(name="backup")
def fixture_backup(tmp_path: Path) -> Path:
    """A backup repository: three days ago, and today with a cost that is another."""
    needs("bonsai-diff")
    place = tmp_path / "backup"
    folder = folder_of(CAMPUS)
    write(place, folder)
    assert run(place, "git init -q -b main").returncode == 0
    committed(place, 3, "before")
    below("dist1", " ip address 10.0.1.1 255.255.255.252", " ip ospf cost 3")(folder)
    write(place, folder)
    committed(place, 0, "today")
    return place


def test_yesterday_and_today_in_three_commands(backup: Path) -> None:
    script = job("Out of a Git repository")
    assert len(script.splitlines()) == 3
    ran = run(backup.parent, script)
    assert ran.returncode == 8, ran.stderr
    assert ran.stdout.startswith("10.0.1.0/30\n  changed access2, core1, core2: cost 2 -> 4\n")


def test_every_night(backup: Path) -> None:
    script = job("Every night").replace("/srv/backup", str(backup))
    assert "5 prefixes change, 14 stay as they are" in run(backup.parent, script).stdout
    committed_again = "echo more > notes.txt && git add -A && git commit -qm more --date=now"
    assert run(backup, committed_again).returncode == 0
    quiet = script.replace("--before=yesterday", "--skip=1")
    assert run(backup.parent, quiet).stdout == ""


def test_for_a_pull_request(backup: Path) -> None:
    script = job("For a pull request")
    started = "git clone -q backup clone && cd clone && git switch -qc change"
    assert run(backup.parent, started).returncode == 0
    clone = backup.parent / "clone"
    (clone / "expected-difference").write_text("[]\n")
    committed(clone, 0, "nothing")
    assert run(clone, script).returncode == 0
    file = clone / "configs" / "core1.cfg"
    file.write_text(file.read_text().replace(" ip address 10.255.0.1 ", " ip address 10.255.0.9 "))
    committed(clone, 0, "change")
    ran = run(clone, script)
    assert ran.returncode == 1 and '"10.255.0.9/32"' in ran.stdout


def test_colours_on_a_terminal(monkeypatch: pytest.MonkeyPatch, capsys: pytest.CaptureFixture[str]) -> None:
    lines = ["10.0.0.0/24", "  gained x: cost 1", "  lost y: cost 1", "    + a.cfg:1: word"]
    show(lines)
    assert capsys.readouterr().out == "".join(f"{line}\n" for line in lines)
    monkeypatch.setattr(sys.stdout, "isatty", lambda: True)
    monkeypatch.setenv("TERM", "xterm-256color")
    monkeypatch.delenv("NO_COLOR", raising=False)
    show(lines)
    shown = capsys.readouterr().out
    assert "\x1b[32m  gained x: cost 1\x1b[0m\n" in shown and "\x1b[31m  lost y: cost 1\x1b[0m\n" in shown
