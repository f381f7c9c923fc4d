"""A lab's routers as they run: their daemons, the connections to them, and starts and ends of single routers."""
from __future__ import annotations

import shutil
import subprocess
import time
from collections.abc import Sequence

from bonsainet.lab.daemons import ROOM, connect, refused_lines, start
from bonsainet.lab.namespaces import LabFault
from bonsainet.lab.plan import Plan, RouterPlan
from bonsainet.lab.vty import Vty

START_SECONDS = 60.0
SECONDS_A_ROUTER = 2.0


class Running:
    """The daemons of the routers of a plan that run now. `speakers` has the connections to those of the protocol."""

    def __init__(self, plan: Plan) -> None:
        self.plan = plan
        self.own = "bgpd" if plan.protocol == "bgp" else "ospfd"
        self.zebras: dict[str, subprocess.Popen[bytes]] = {}
        self.daemons: dict[str, subprocess.Popen[bytes]] = {}
        self.speakers: dict[str, Vty] = {}
        ROOM.mkdir()
        for router in plan.routers:
            (ROOM / router.space).mkdir()
            shutil.chown(ROOM / router.space, "frr", "frr")

    @property
    def processes(self) -> list[subprocess.Popen[bytes]]:
        """All daemons that run."""
        return [*self.zebras.values(), *self.daemons.values()]

    def start(self, routers: Sequence[RouterPlan]) -> None:
        """Starts the daemons of routers, and waits until they answer. LabFault where one does not."""
        until = time.monotonic() + START_SECONDS + SECONDS_A_ROUTER * len(routers)
        for router in routers:
            for daemon in router.daemons:
                (ROOM / router.space / f"{daemon}.vty").unlink(missing_ok=True)
        self.zebras |= {router.name: start(router, "zebra") for router in routers}
        for router in routers:
            connect(router, "zebra", self.zebras[router.name], until).close()
        speaking = [router for router in routers if router.speaks]
        self.daemons |= {router.name: start(router, self.own) for router in speaking}
        for router in speaking:
            self.speakers[router.name] = connect(router, self.own, self.daemons[router.name], until)

    def end(self, name: str) -> None:
        """Ends the daemons of a router, as a loss of power does."""
        if name in self.speakers:
            self.speakers.pop(name).close()
        for daemons in (self.daemons, self.zebras):
            if name in daemons:
                ended = daemons.pop(name)
                ended.kill()
                ended.wait()

    def refuse_lines(self) -> None:
        """LabFault where a daemon refused a line of its configuration."""
        for router in self.plan.routers:
            for daemon in router.daemons:
                for line in refused_lines(router, daemon):
                    raise LabFault(f"FRR refused a line: {router.name}: {line}")
