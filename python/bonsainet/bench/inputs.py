"""The files that a command reads beside the text: a schedule, a certificate, labels of rest, and those of the network
of the groups.

One program writes them for all programs that are measured.
"""
from __future__ import annotations

import subprocess
from collections.abc import Iterable
from pathlib import Path

from bonsainet.bench.shapes import Graph
from bonsainet.cli.command_line import Refused
from bonsainet.ask.program import classes_of

ROUNDS = 64
READ_BY = {
    "check": "labels",
    "fold": "labels",
    "reach": "labels",
    "lift": "small",
    "run": "schedule",
    "verify": "certificate",
}


def output(program: Path, asked: list[str]) -> bytes:
    """What the program writes. Refused where its status is not 0."""
    ran = subprocess.run([program, *asked], stdin=subprocess.DEVNULL, capture_output=True, check=False)
    if ran.returncode:
        raise Refused(
            f"{program} {' '.join(asked)}: status {ran.returncode}", ran.stderr.decode("utf-8", "replace").splitlines()
        )
    return ran.stdout


def outward(graph: Graph, origin: str) -> list[str]:
    """The routers by their distance from one of them. In this order one activation each gives them labels, also at the
    end of a path longer than all rounds."""
    names, links = graph
    ends: dict[str, list[str]] = {name: [] for name in names}
    for low, high in links:
        ends[low].append(high)
        ends[high].append(low)
    found = dict.fromkeys([origin])
    edge = [origin]
    while edge:
        edge = list(dict.fromkeys(far for name in edge for far in ends[name] if far not in found))
        found.update(dict.fromkeys(edge))
    return list(found)


def second_files(program: Path, room: Path, file: Path, graph: Graph, commands: Iterable[str]) -> dict[str, Path]:
    """The second file of each command that reads one, as far as it can be made: labels are those in which routers rest,
    and not all networks come to rest."""
    wanted = {READ_BY[command] for command in commands if command in READ_BY}
    made: dict[str, Path] = {}

    def keep(name: str, data: bytes) -> Path:
        made[name] = room / name
        made[name].write_bytes(data)
        return made[name]

    if "schedule" in wanted:
        keep("schedule", b"*\n" * ROUNDS)
    if "certificate" in wanted:
        keep("certificate", output(program, ["certify", str(file), "1"]))
    if {"labels", "small"} & wanted:
        origin = classes_of(output(program, ["classes", str(file)]).decode("ascii"))[0].origins[0][0]
        order = keep("order", "".join(f"{name}\n" for name in [*outward(graph, origin), *"*" * ROUNDS]).encode("ascii"))
        first, _, rest = output(program, ["run", str(file), "1", str(order)]).partition(b"\n")
        if first == b"rest":
            labels = keep("labels", rest)
            if "small" in wanted:
                keep("small", output(program, ["fold", str(file), "1", str(labels)]))
    return made
