"""The enclosure of a lab: process, mount and network namespaces of its own, which the kernel takes down when the lab
ends.

`setpriv` has the kernel kill `unshare` when this process ends, and `unshare` the first process of the enclosure. When
that one ends, so does each process in it, and with them the namespaces of routers, the wires and the files, which are
in memory.
"""
from __future__ import annotations

import contextlib
import json
import os
import re
import shutil
import subprocess
from collections.abc import Iterator
from pathlib import Path

from bonsainet.cli.command_line import Refused
from bonsainet.lab.plan import Plan
from bonsainet.ask.program import TOP
from bonsainet.cli.words import counted

PYTHON = "/usr/bin/python3"
ENCLOSE = (
    "setpriv",
    "--pdeathsig",
    "KILL",
    "unshare",
    "--pid",
    "--fork",
    "--kill-child",
    "--mount-proc",
    "--mount",
    "--net",
)
NEEDED = {"setpriv": "util-linux", "unshare": "util-linux", "nsenter": "util-linux", "ip": "iproute2", "mount": "mount"}

MEBI = 1 << 20
MEMORY_OF_A_ROUTER = 33 * MEBI
MOST_OF_MEMORY = 0.5


def free_memory() -> int:
    """The memory in bytes that the system can give."""
    told = re.search(r"^MemAvailable:\s+(\d+) kB$", Path("/proc/meminfo").read_text(), re.MULTILINE)
    return int(told[1]) * 1024 if told else 0


def refuse_unless_small(routers: int) -> None:
    """Refuses a lab that could take more than half of the memory that is free, so that other work on the machine goes
    on."""
    need, free = routers * MEMORY_OF_A_ROUTER, free_memory()
    if need > MOST_OF_MEMORY * free:
        raise Refused(
            f"a lab of {counted(routers, 'router')} takes up to {need // MEBI} MiB, more than half of the {free // MEBI} MiB that are free"
        )


def refuse_unless_able() -> None:
    """Refuses where the lab cannot be: without root, or without a program that it needs."""
    if os.geteuid() != 0:
        raise Refused("a lab needs root, for network namespaces")
    for name, package in NEEDED.items():
        if not shutil.which(name):
            raise Refused(f"no program {name}: install the package {package}")
    if not Path("/usr/lib/frr/bgpd").exists():
        raise Refused("no FRRouting: install the package frr")


@contextlib.contextmanager
def enclosed() -> Iterator[subprocess.Popen[str]]:
    """A lab's process in its enclosure, which is gone at the end of the context."""
    process = subprocess.Popen(
        [*ENCLOSE, PYTHON, "-m", "bonsainet.lab.inside"],
        stdin=subprocess.PIPE,
        stdout=subprocess.PIPE,
        stderr=subprocess.PIPE,
        text=True,
        cwd=TOP / "python",
    )
    try:
        yield process
    finally:
        process.kill()
        process.wait()


def run_plan(plan: Plan, seconds: float, quiet: float, before: float | None = None) -> dict:
    """Runs a plan in an enclosure: the record that the lab wrote. `before` is how long routers may take to rest before and
    between losses, `seconds` where it is not given. Refused where it could not, with the reason."""
    refuse_unless_small(len(plan.routers))
    request = {"plan": plan.text(), "seconds": seconds, "quiet": quiet, "before": seconds if before is None else before}
    with enclosed() as process:
        assert process.stdin and process.stdout and process.stderr
        try:
            process.stdin.write(json.dumps(request) + "\n")
            process.stdin.flush()
        except BrokenPipeError:
            pass
        answer = process.stdout.read()
        if not answer.strip():
            words = process.stderr.read().strip().splitlines()
            raise Refused(f"the lab ended without an answer: {words[-1] if words else 'no word'}")
    record = json.loads(answer)
    if "fault" in record:
        raise Refused(f"the lab: {record['fault']}")
    return record
