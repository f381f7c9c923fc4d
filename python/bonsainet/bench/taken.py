"""What one run of a tool takes: seconds of the clock, seconds of processors, and memory."""
from __future__ import annotations

import dataclasses
import os
import subprocess
import tempfile
import time
from collections.abc import Mapping

from bonsainet.cli.command_line import Refused

LAST_LINES = 5


@dataclasses.dataclass(frozen=True)
class Taken:
    """What a run took. `wall` is in seconds of the clock. `processors` is in seconds of user and system together, of the
    tool and of all processes that it started. `memory` is the most that was resident in one of them, in MiB."""

    wall: float
    processors: float
    memory: float


def taken(asked: list[str], environment: Mapping[str, str]) -> Taken:
    """Runs a tool whose output nobody reads. Refused where it ends with another status than 0, with its last lines."""
    with tempfile.TemporaryFile() as told:
        started = time.monotonic()
        with subprocess.Popen(
            asked, stdin=subprocess.DEVNULL, stdout=subprocess.DEVNULL, stderr=told, env=environment
        ) as process:
            _, status, used = os.wait4(process.pid, 0)
            wall = time.monotonic() - started
            process.returncode = os.waitstatus_to_exitcode(status)
        if process.returncode:
            told.seek(0)
            lines = told.read().decode("utf-8", "backslashreplace").splitlines()
            raise Refused(f"{' '.join(asked)}: status {process.returncode}", lines[-LAST_LINES:])
    return Taken(wall, used.ru_utime + used.ru_stime, used.ru_maxrss / 1024)
