"""Losses in a running lab: routers and ports taken down, what is left at rest, and all brought back."""
from __future__ import annotations

import time

from bonsainet.lab.namespaces import set_ports
from bonsainet.lab.plan import Loss, Plan
from bonsainet.lab.rest import NoRest, StillChanges, Watch
from bonsainet.lab.running import Running


def after_losses(plan: Plan, running: Running, seconds: float, quiet: float, before: float) -> list[dict]:
    """What the routers that are left hold after each loss, and how long they took to rest; or why they did not. Before the
    next loss all is brought back and rests again, or `before` seconds have gone by in which all sessions stand."""
    records = []
    for number, loss in enumerate(plan.losses):
        records.append(_after(plan, running, loss, seconds, quiet))
        if number + 1 < len(plan.losses):
            _bring_back(plan, running, loss, before, quiet)
    return records


def _after(plan: Plan, running: Running, loss: Loss, seconds: float, quiet: float) -> dict:
    for name in loss.routers:
        running.end(name)
    set_ports(plan, loss.ports, are_up=False)
    began = time.monotonic()
    watch = Watch(plan.after(loss), running.speakers, may_linger=True)
    try:
        rested = watch.wait(began + seconds, quiet, running.processes)
    except NoRest as why:
        return {"fault": str(why), "still_changes": isinstance(why, StillChanges)}
    return {"rest": max(0.0, rested - began), "held": watch.held()}


def _bring_back(plan: Plan, running: Running, loss: Loss, before: float, quiet: float) -> None:
    set_ports(plan, loss.ports, are_up=True)
    running.start([router for router in plan.routers if router.name in loss.routers])
    try:
        Watch(plan, running.speakers, may_linger=True).wait(time.monotonic() + before, quiet, running.processes)
    except StillChanges:
        pass
