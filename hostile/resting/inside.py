"""A lab whose BGP daemons are started again and again, each time in another order with other delays.

It runs as the first process of an enclosure, as `bonsainet.lab.inside` does: it reads a plan on standard input and
writes one JSON record on standard output."""

from __future__ import annotations

import json
import os
import random
import shutil
import subprocess
import sys
import threading
import time
from pathlib import Path

from bonsainet.lab.daemons import ROOM, connect, start
from bonsainet.lab.inside import FIRST_TO_GO
from bonsainet.lab.namespaces import LabFault, set_up
from bonsainet.lab.plan import Plan
from bonsainet.lab.rest import NoRest, Watch

MOST_DELAY = 2.0
START_SECONDS = 120.0
Record = dict[str, object]


def once(plan: Plan, chance: random.Random, seconds: float, quiet: float) -> Record:
    """Starts the daemons of all routers in a random order, waits for rest, and ends them."""
    order = [router for router in plan.routers if router.speaks]
    chance.shuffle(order)
    delays = [chance.uniform(0, MOST_DELAY) for _ in order]
    began = time.monotonic()
    daemons: list[subprocess.Popen[bytes]] = []
    speakers = {}
    record: Record = {"order": [router.name for router in order], "delays": [round(delay, 2) for delay in delays]}
    try:
        for router, delay in zip(order, delays):
            (ROOM / router.space / "bgpd.vty").unlink(missing_ok=True)
            time.sleep(delay)
            daemons.append(start(router, "bgpd"))
        for router, daemon in zip(order, daemons):
            speakers[router.name] = connect(router, "bgpd", daemon, began + START_SECONDS)
        watch = Watch(plan, speakers)
        record["rest"] = round(watch.wait(time.monotonic() + seconds, quiet, daemons) - began, 1)
        record["held"] = watch.held()
    except NoRest as why:
        record["fault"] = str(why)
    finally:
        for speaker in speakers.values():
            speaker.close()
        for daemon in daemons:
            daemon.kill()
        for daemon in daemons:
            daemon.wait()
    return record


def run(told: dict[str, object]) -> list[Record]:
    """All starts of a plan."""
    plan = Plan.of_text(str(told["plan"]))
    chance = random.Random(str(told["seed"]))
    set_up(plan)
    ROOM.mkdir()
    for router in plan.routers:
        (ROOM / router.space).mkdir()
        shutil.chown(ROOM / router.space, "frr", "frr")
    zebras = [start(router, "zebra") for router in plan.routers]
    until = time.monotonic() + START_SECONDS
    for router, zebra in zip(plan.routers, zebras):
        connect(router, "zebra", zebra, until).close()
    times, seconds, quiet = int(str(told["times"])), float(str(told["seconds"])), float(str(told["quiet"]))
    return [once(plan, chance, seconds, quiet) for _ in range(times)]


def main() -> None:
    """Reads the plan and writes the records, or the fault."""
    Path("/proc/self/oom_score_adj").write_text(FIRST_TO_GO)
    source = sys.stdin
    told = json.loads(source.readline())
    threading.Thread(target=lambda: (source.read(), os._exit(1)), daemon=True).start()
    answer: dict[str, object] = {}
    try:
        answer["records"] = run(told)
    except (LabFault, OSError, subprocess.SubprocessError) as fault:
        answer["fault"] = f"{type(fault).__name__}: {fault}"
    print(json.dumps(answer), flush=True)
    os._exit(0)


if __name__ == "__main__":
    main()
