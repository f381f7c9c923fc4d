"""tools/setup waits for apt's lock, and says apt's reason where a package is not installed."""
from __future__ import annotations

import os
import subprocess
from pathlib import Path

from bonsainet.ask.program import TOP

REASON = "E: Could not get lock /var/lib/dpkg/lock-frontend. It is held by process 7 (apt)"


def run_setup(room: Path, query: str, apt: str) -> tuple[subprocess.CompletedProcess[str], list[str]]:
    """Runs tools/setup with scripts for dpkg-query and apt-get, and gives the words of each call of apt-get. It does not pause."""
    words = room / "words"
    scripts = {"dpkg-query": query, "apt-get": f'echo "$@" >>{words}; {apt}', "sudo": 'exec "$@"', "sleep": ":"}
    for name, script in scripts.items():
        (room / name).write_text(f"#!/bin/sh\n{script}\n")
        (room / name).chmod(0o755)
    env = {**os.environ, "PATH": f"{room}:{os.environ['PATH']}"}
    ran = subprocess.run([TOP / "tools" / "setup"], env=env, capture_output=True, text=True, check=False)
    return ran, words.read_text().splitlines()


def test_apt_s_reason_is_told(tmp_path: Path) -> None:
    ran, calls = run_setup(tmp_path, "exit 1", f'echo "Reading"; echo "{REASON}"; echo "E: second"; exit 100')
    assert ran.returncode == 1
    assert ran.stderr.splitlines()[-1].endswith(f"; apt: {REASON}")
    assert all(line.startswith("-o DPkg::Lock::Timeout=300 ") for line in calls)
    assert sum(line.endswith(" update") for line in calls) == 3


def test_what_fails_once_is_tried_again(tmp_path: Path) -> None:
    """Nothing is installed at the first time, all at the second."""
    times = f'[ "$(grep -c update {tmp_path}/words)" -gt 1 ]'
    ran, calls = run_setup(tmp_path, f"{times} && echo 'ii '", times)
    assert (ran.returncode, ran.stdout) == (0, "") and sum(line.endswith(" update") for line in calls) == 2
