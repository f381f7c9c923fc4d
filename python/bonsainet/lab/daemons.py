"""The daemons of a lab's routers: started in their namespaces, connected to, and measured."""
from __future__ import annotations

import os
import shutil
import subprocess
import time
from pathlib import Path

from bonsainet.lab.namespaces import RUN, LabFault
from bonsainet.lab.plan import RouterPlan
from bonsainet.lab.vty import Vty

DAEMONS = Path("/usr/lib/frr")
ROOM = RUN / "bonsai-lab"


def start(router: RouterPlan, daemon: str) -> subprocess.Popen[bytes]:
    """Starts a daemon of a router in its namespace."""
    room = ROOM / router.space
    config = room / f"{daemon}.conf"
    config.write_text(router.files[daemon])
    shutil.chown(config, "frr", "frr")
    words = [
        *("nsenter", f"--net={RUN}/netns/{router.space}", "--", str(DAEMONS / daemon)),
        *(
            "-f",
            str(config),
            "-i",
            str(room / f"{daemon}.pid"),
            "-z",
            str(room / "zserv.api"),
            "--vty_socket",
            str(room),
            "-P",
            "0",
        ),
        *("--log", f"file:{room}/{daemon}.log", "--log-level", "warnings"),
    ]
    output = (room / f"{daemon}.out").open("wb")
    return subprocess.Popen(words, stdin=subprocess.DEVNULL, stdout=output, stderr=output)


def connect(router: RouterPlan, daemon: str, process: subprocess.Popen[bytes], until: float) -> Vty:
    """The connection to a daemon once it answers."""
    path = ROOM / router.space / f"{daemon}.vty"
    while True:
        try:
            return Vty(path)
        except OSError:
            if process.poll() is not None or time.monotonic() > until:
                told = (ROOM / router.space / f"{daemon}.out").read_text(errors="replace").strip()
                raise LabFault(
                    f"{router.name}: {daemon} does not answer: {told.splitlines()[-1] if told else 'no word'}"
                ) from None
            time.sleep(0.02)


def refused_lines(router: RouterPlan, daemon: str) -> list[str]:
    """What a daemon told of lines that it refused at its start."""
    found = []
    for end in ("out", "log"):
        path = ROOM / router.space / f"{daemon}.{end}"
        told = path.read_text(errors="replace").splitlines() if path.exists() else []
        found += [
            line.strip() for line in told if "nknown command" in line or "config line" in line or "failed on" in line
        ]
    return found


def memory_of(processes: list[subprocess.Popen[bytes]]) -> int:
    """The memory of the daemons in bytes: of a page that several share, each has its part."""
    total = 0
    for process in processes:
        for line in Path(f"/proc/{process.pid}/smaps_rollup").read_text().splitlines():
            if line.startswith("Pss:"):
                total += int(line.split()[1]) * 1024
    return total


def work_of(processes: list[subprocess.Popen[bytes]]) -> float:
    """The processor seconds that the daemons took, those of looks at their tables among them."""
    ticks = 0
    for process in processes:
        fields = Path(f"/proc/{process.pid}/stat").read_text().rpartition(")")[2].split()
        ticks += int(fields[11]) + int(fields[12])
    return ticks / os.sysconf("SC_CLK_TCK")
