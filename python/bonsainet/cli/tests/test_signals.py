"""Signals that end a tool end what it has started, and leave nothing."""
from __future__ import annotations

import os
import signal
import subprocess
from pathlib import Path

import pytest

from bonsainet.ask.program import TOP, Program
from bonsainet.tests.asking import LATEST, slow_program, wait_for


def workers_of(process: int) -> list[int]:
    """The processes that a process has started, and those that these have."""
    found = []
    for place in Path("/proc").glob("[0-9]*/stat"):
        try:
            fields = place.read_text("utf-8", "replace").rpartition(")")[2].split()
        except OSError:
            continue
        if int(fields[1]) == process:
            found += [int(place.parent.name), *workers_of(int(place.parent.name))]
    return found


def is_alive(process: int) -> bool:
    """Whether a process runs, and is no zombie."""
    try:
        return Path(f"/proc/{process}/stat").read_text("utf-8", "replace").rpartition(")")[2].split()[0] != "Z"
    except OSError:
        return False


@pytest.mark.parametrize("number", [signal.SIGTERM, signal.SIGHUP, signal.SIGKILL])
@pytest.mark.parametrize("tool", ["tools/bonsai-refusals", "hostile/run"])
def test_workers_end_with_their_tool(tool: str, number: signal.Signals, tmp_path: Path, program: Program) -> None:
    slow_program(program, tmp_path, "0.5")
    text = tmp_path / "text.cfg"
    text.write_text("".join(f"hostname r{at}\nno such line\nend\n" for at in range(200)))
    words = [str(text)] if tool.endswith("refusals") else ["--seconds", "60", "--jobs", "3"]
    env = {**os.environ, "BONSAI_PROGRAM": str(tmp_path / "slow")}
    started = subprocess.Popen(
        [TOP / tool, *words], stdout=subprocess.DEVNULL, stderr=subprocess.DEVNULL, env=env, cwd=tmp_path
    )
    # (on one processor a worker asks through a shell that sleeps)
    wait_for(lambda: len(workers_of(started.pid)) >= 3)
    below = workers_of(started.pid)
    started.send_signal(number)
    assert started.wait(LATEST) == (-number if number == signal.SIGKILL else 128 + number)
    wait_for(lambda: not [process for process in below if is_alive(process)])
