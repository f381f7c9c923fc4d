"""The lab itself, run as the first process of its own process, mount and network namespaces.

All that it makes lives in these: namespaces of routers under a /run of its own in memory, daemons, wires. When this
process ends, in whatever way, the kernel ends the daemons and takes down the namespaces, so nothing is left. It reads a
plan on standard input, which its parent keeps open: when that closes, this process ends. It writes one JSON record on
standard output: what the routers rested in, and what they rest in after each loss of the plan.
"""
from __future__ import annotations

import json
import os
import subprocess
import sys
import threading
import time
from pathlib import Path

from bonsainet.lab.daemons import memory_of, work_of
from bonsainet.lab.losing import after_losses
from bonsainet.lab.namespaces import LabFault, set_up
from bonsainet.lab.plan import Plan
from bonsainet.lab.rest import NoRest, StillChanges, Watch
from bonsainet.lab.running import Running

# Where memory runs out, the system ends a lab and no other work.
FIRST_TO_GO = "1000"


def run(plan: Plan, seconds: float, quiet: float, before: float) -> dict:
    """Sets a lab up, waits until it rests, and tells what its routers hold, then and after each loss. `before` is how long
    it may take to rest between losses."""
    began = time.monotonic()
    set_up(plan)
    started = time.monotonic()
    running = Running(plan)
    running.start(plan.routers)
    running.refuse_lines()
    watch = Watch(plan, running.speakers)
    rested, held = None, {}
    try:
        rested = watch.wait(started + (before if plan.losses else seconds), quiet, running.processes)
        held = watch.held()
    except StillChanges:
        if not plan.losses:
            raise
    return {
        "setup": started - began,
        "rest": None if rested is None else rested - started,
        "processes": len(running.processes),
        "memory": memory_of(running.processes),
        "work": work_of(running.processes),
        "held": held,
        "losses": after_losses(plan, running, seconds, quiet, before),
    }


def main() -> int:
    """Reads the plan and writes the record, or a record with the fault."""
    Path("/proc/self/oom_score_adj").write_text(FIRST_TO_GO)
    source = sys.stdin
    told = json.loads(source.readline())
    threading.Thread(target=lambda: (source.read(), os._exit(1)), daemon=True).start()
    try:
        record = run(Plan.of_text(told["plan"]), told["seconds"], told["quiet"], told["before"])
    except (LabFault, NoRest) as fault:
        record = {"fault": str(fault)}
    except (OSError, subprocess.SubprocessError) as fault:
        record = {"fault": f"{type(fault).__name__}: {fault}"}
    print(json.dumps(record), flush=True)
    os._exit(0)


if __name__ == "__main__":
    main()
