"""When routers are at rest: exactly the expected sessions or adjacencies stand, no message waits, and no table changes
for a while."""
from __future__ import annotations

import subprocess
import time
from collections import Counter
from itertools import chain
from typing import TYPE_CHECKING

from bonsainet.lab.plan import Plan, RouterPlan

if TYPE_CHECKING:
    from bonsainet.lab.vty import Vty

BETWEEN_LOOKS = 0.25


class NoRest(Exception):
    """The routers did not come to rest in time, with what was missing, or have a session that the network does not
    have."""


class StillChanges(NoRest):
    """All sessions stand, and tables still change at the end of the time."""


class SessionTooMany(NoRest):
    """A router has a session that the network does not have."""


class Watch:
    """Looks at all routers again and again. `may_linger`: sessions of what was just lost may stand for a while."""

    def __init__(self, plan: Plan, speakers: dict[str, Vty], may_linger: bool = False) -> None:
        self.plan = plan
        self.speakers = speakers
        self.may_linger = may_linger
        self._look = look_bgp if plan.protocol == "bgp" else look_ospf

    def look(self, router: RouterPlan, vty: Vty) -> tuple[str | None, object]:
        """What is missing at a router, or none, and the state of its tables."""
        try:
            return self._look(router, vty)
        except SessionTooMany as why:
            if not self.may_linger:
                raise
            return str(why), None

    def wait(self, until: float, quiet: float, processes: list[subprocess.Popen[bytes]]) -> float:
        """The time of the last change before all was quiet. NoRest where that does not come, and at once where there is
        a session too many."""
        before: list[object] = []
        changed = time.monotonic()
        while True:
            looked = time.monotonic()
            looks = [
                self.look(router, self.speakers[router.name])
                for router in self.plan.routers
                if router.name in self.speakers
            ]
            states = [state for _, state in looks]
            missing = next((want for want, _ in looks if want), None)
            if missing or states != before:
                changed, before = looked, states
            elif looked - changed >= quiet:
                return changed
            if looked > until:
                raise NoRest(missing) if missing else StillChanges("tables still change")
            ended = next((process for process in processes if process.poll() is not None), None)
            if ended:
                raise NoRest(f"a daemon ended with status {ended.returncode}")
            time.sleep(max(BETWEEN_LOOKS, time.monotonic() - looked))

    def held(self) -> dict[str, dict[str, object]]:
        """What each router holds for each prefix: in BGP all accepted routes, in OSPF the cost."""
        ask = held_bgp if self.plan.protocol == "bgp" else held_ospf
        return {name: ask(vty, self.plan.prefixes) for name, vty in self.speakers.items()}


def look_bgp(router: RouterPlan, vty: Vty) -> tuple[str | None, object]:
    """What is missing at a BGP router, or none, and the state of its tables."""
    told = vty.json("show bgp ipv4 unicast summary")
    told = told.get("ipv4Unicast", told)
    peers = told.get("peers", {})
    standing = {address for address, peer in peers.items() if peer["state"] == "Established"}
    missing = None
    if standing != set(router.peers):
        missing = _difference(router, Counter(router.peers), Counter(standing))
    elif any(peer["inq"] or peer["outq"] for peer in peers.values()):
        # (messages wait: a state that no other one equals)
        return None, object()
    counts = [(address, peer.get("pfxRcd"), peer.get("pfxSnt")) for address, peer in sorted(peers.items())]
    return missing, (told.get("tableVersion"), counts)


def look_ospf(router: RouterPlan, vty: Vty) -> tuple[str | None, object]:
    """What is missing at an OSPF router, or none, and the state of its tables."""
    told = vty.json("show ip ospf neighbor").get("neighbors", {})
    missing = adjacencies_missing(
        router,
        [(neighbor["ifaceName"], neighbor["ifaceAddress"], neighbor["nbrState"]) for neighbor in chain(*told.values())],
    )
    areas = vty.json("show ip ospf").get("areas", {})
    sums = [
        (name, sorted((key, value) for key, value in area.items() if key.startswith("lsa")))
        for name, area in sorted(areas.items())
    ]
    return missing, (sums, vty.json("show ip ospf route"))


def adjacencies_missing(router: RouterPlan, neighbors: list[tuple[str, str, str]]) -> str | None:
    """What is missing of the neighbours of an OSPF router, each an interface, an address and a state.

    On a wire of several ends two routers that are not designated stay in two-way; the designated one is full with each
    (RFC 2328, section 10.4).
    """
    standing = Counter(address for _, address, state in neighbors if state.startswith(("Full", "2-Way")))
    if standing != Counter(router.peers):
        return _difference(router, Counter(router.peers), standing)
    full = {port for port, _, state in neighbors if state.startswith("Full")}
    waiting = next((port for port, _, _ in neighbors if port not in full), None)
    return f"{router.name}: no designated router at {waiting}" if waiting else None


def held_bgp(vty: Vty, prefixes: list[str]) -> dict[str, object]:
    """The accepted routes of a router for each prefix, as FRR tells them."""
    return {prefix: vty.json(f"show bgp ipv4 unicast {prefix}").get("paths", []) for prefix in prefixes}


def held_ospf(vty: Vty, prefixes: list[str]) -> dict[str, object]:
    """The cost of a router's route to each prefix, or none."""
    routes = vty.json("show ip ospf route")
    return {prefix: routes.get(prefix, {}).get("cost") for prefix in prefixes}


def _difference(router: RouterPlan, wanted: Counter[str], standing: Counter[str]) -> str:
    """The sessions that are lacking. SessionTooMany where there is one too many: while nothing is taken down it does not
    go away, as configurations stay as they are."""
    lacking, more = wanted - standing, standing - wanted
    if more:
        raise SessionTooMany(f"{router.name}: a session with {next(iter(more))} that the network does not have")
    return f"{router.name}: no session with {next(iter(lacking))} ({sum(lacking.values())} lacking)"
