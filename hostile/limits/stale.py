"""A network and a schedule behind which the printed labels are longer than what is read as a solution.

The routers but the first stand in a ring, and each prefers what comes from the router before it to what the first one
offers. A route that starts somewhere in the ring is carried round by activating one router behind the other. Where
several routes go round, none of them over a router that another one has not left yet, nearly all labels have paths over
nearly all routers. They are stale: each was right when it was taken."""
from __future__ import annotations

import dataclasses
import subprocess
import tempfile
from pathlib import Path

from hostile.limits.texts import address, joined
from bonsainet.ask.program import Program

SOLUTION_LIMIT = 268_435_456
PREPENDED, COMMUNITIES, ON_LINE = 10, 1024, 32


def number(router: int) -> int:
    """The AS number of a router, of ten digits."""
    return 4_200_000_000 + router


def shared(router: int) -> str:
    """The address of a router in the subnet of all."""
    return address((100 << 24) + (64 << 16) + 1 + router)


def out_map(router: int) -> list[str]:
    """What a router does to the routes that it sends: its number ten times more, and some of the communities."""
    first = router % (COMMUNITIES // ON_LINE) * ON_LINE
    communities = " ".join(f"60000:{10_000 + first + place}" for place in range(ON_LINE))
    return [
        "route-map OUT permit 10",
        f" set community {communities} additive",
        f" set as-path prepend {' '.join([str(number(router))] * PREPENDED)}",
    ]


def session(router: int, accepts: str | None) -> list[str]:
    """The lines for a neighbour, with the map for what it sends."""
    head = f" neighbor {shared(router)}"
    lines = [f"{head} remote-as {number(router)}", f"{head} send-community", f"{head} route-map OUT out"]
    return [*lines, f"{head} route-map {accepts} in"] if accepts else lines


@dataclasses.dataclass(frozen=True)
class Ring:
    """The parts of a ring, and how many routers are in each. Router 0 stands outside."""

    parts: int = 15
    part: int = 273

    @property
    def size(self) -> int:
        """How many routers are in the ring."""
        return self.parts * self.part

    def network(self) -> bytes:
        """Router 0 originates the class, and has a session with each of the ring."""
        lines = [
            "hostname r0",
            "interface Ethernet1",
            f" ip address {shared(0)} 255.192.0.0",
            "interface Vlan1",
            " ip address 10.0.0.1 255.255.255.0",
        ]
        lines += [f"router bgp {number(0)}", " network 10.0.0.0 mask 255.255.255.0"]
        lines += [line for router in range(1, self.size + 1) for line in session(router, None)]
        lines += [*out_map(0), "end"]
        for router in range(1, self.size + 1):
            before, behind = (router - 2) % self.size + 1, router % self.size + 1
            lines += [
                f"hostname r{router}",
                "interface Ethernet1",
                f" ip address {shared(router)} 255.192.0.0",
                f"router bgp {number(router)}",
            ]
            lines += [*session(0, None), *session(before, "BEFORE"), *session(behind, "BEHIND")]
            lines += [
                "route-map BEFORE permit 10",
                " set local-preference 4294967295",
                "route-map BEHIND deny 10",
                *out_map(router),
                "end",
            ]
        return joined(lines)

    def activations(self) -> list[int]:
        """Behind router 0, a route starts in each part but the last, and each goes on into the part that is free, until
        it has gone round."""
        starts = [part * self.part + 1 for part in range(self.parts - 1)]
        order = [0, *starts] + [start + place for start in starts for place in range(1, self.part)]
        free = self.parts - 1
        for _ in range((self.parts - 1) * (self.parts - 1)):
            order += [free * self.part + 1 + place for place in range(self.part)]
            free = (free - 1) % self.parts
        return order

    def schedule(self) -> bytes:
        """The activations as a text."""
        return joined([f"r{router}" for router in self.activations()])


def ran(ring: Ring, folder: Path) -> str:
    """Runs the schedule over the network, F and S in the folder. The labels are left in T there, and the first line is
    told."""
    (folder / "F").write_bytes(ring.network())
    (folder / "S").write_bytes(ring.schedule())
    with (folder / "ran").open("wb") as out:
        subprocess.run([Program().path, "run", str(folder / "F"), "1", str(folder / "S")], stdout=out, check=True)
    with (folder / "ran").open("rb") as whole, (folder / "T").open("wb") as labels:
        first = whole.readline().decode().strip()
        while piece := whole.read(1 << 20):
            labels.write(piece)
    (folder / "ran").unlink()
    return first


def main() -> int:
    """`hostile/limits/stale`: runs the schedule, and asks `check` about the labels; status 1 where they can be read."""
    ring = Ring()
    with tempfile.TemporaryDirectory() as name:
        folder = Path(name)
        first = ran(ring, folder)
        size = (folder / "T").stat().st_size
        print(
            f"{(folder / 'F').stat().st_size} bytes of text, {len(ring.activations())} activations, {first}: {size} bytes of labels",
            flush=True,
        )
        told = subprocess.run(
            [Program().path, "check", str(folder / "F"), "1", str(folder / "T")],
            capture_output=True,
            text=True,
            check=False,
        )
        print(f"check: {(told.stderr or told.stdout).strip()}")
    return 0 if size > SOLUTION_LIMIT and told.stderr == "refused: solution FileTooLong\n" else 1
