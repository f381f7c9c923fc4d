"""From folder to answer in two rounds: what the first import refuses, its skeleton of decisions names, and with these the second
is accepted. Four folders are examples, three have the traps of an edge of a provider, a fabric of shared numbers and a campus of three areas.
Three are of a hostile walk: a data centre with `continue`, offices with links that devices would not form, and eight networks of an internet."""
from __future__ import annotations

from pathlib import Path

import pytest

from bonsainet.ask.program import TOP, Program
from bonsainet.configs.text import text_of
from bonsainet.importing.decisions import read_decisions
from bonsainet.importing.report import Report
from bonsainet.importing.rules.options import Options
from bonsainet.importing.suggest import OTHER_AREA, skeleton
from bonsainet.importing.tests.test_suggest import completed
from bonsainet.importing.tool import import_folder

EXAMPLES = TOP / "examples" / "folders"
OWN = Path(__file__).parent / "folders"


def second_round(folder: Path, program: Program) -> tuple[Report, int]:
    """The import that is accepted, and how many rounds it took. A skeleton is taken as it stands, with reasons."""
    first = import_folder(str(folder), program)
    if not first.refused:
        return first, 1
    told = skeleton(first.folder, first.refused)
    area = 0 if any(found.kind == OTHER_AREA for found in first.refused) else None
    decisions = read_decisions(completed(told), "skeleton")
    return import_folder(str(folder), program, decisions, Options("--own-as" in told, area=area)), 2


@pytest.mark.parametrize(
    "folder, rounds",
    [
        (EXAMPLES / "campus", 2),
        (EXAMPLES / "isp-edge", 1),
        (EXAMPLES / "leaf-spine", 2),
        (EXAMPLES / "ospf-loopbacks", 1),
        (OWN / "edge", 1),
        (OWN / "fabric", 2),
        (OWN / "areas", 2),
        (OWN / "clos", 2),
        (OWN / "offices", 2),
        (OWN / "transit", 2),
    ],
    ids=lambda one: one.name if isinstance(one, Path) else None,
)
def test_two_rounds(folder: Path, rounds: int, program: Program) -> None:
    found, taken = second_round(folder, program)
    assert (found.refused, taken) == ([], rounds), found.text


@pytest.mark.parametrize(
    "folder, prefix, labels",
    [
        # (FRR 8.4.4 rests in these, where the same routers are written for it)
        ("edge", "10.1.0.0/24", "edge2 bgp 100 path 65001 comms 65001:100\nisp1 bgp 80 path 65001 comms 65001:100"),
        (
            "edge",
            "10.2.0.0/24",
            "isp1 bgp 100 path 65200 65002*3 comms 65002:2\nisp2 bgp 101 path 65002*3 comms 65002:2",
        ),
        ("areas", "10.0.1.0/24", "r1 cost 10\nr2 cost 13\nr3 cost 15"),
        ("areas", "10.0.3.0/24", "r1 cost 7\nr2 cost 10\nr3 cost 2"),
        ("fabric", "10.1.0.0/24", "leaf1 bgp 100 path comms"),
        ("fabric", "10.1.0.0/24", "border1 bgp 200 path 4200000000 65101 comms 65000:1 65000:100"),
        ("fabric", "10.255.1.1/32", "border1 none"),
        # (worked out by hand: spine1 and spine2 prefer what carries GOLD, and border1 what spine2 sends)
        (
            "clos",
            "10.3.10.0/24",
            "leaf3 bgp 100 path 4200000000 65101 comms 65000:101\nborder1 bgp 101 path 4200000001 65101 comms 65000:101",
        ),
        # (no-export from its start: it stays where it is)
        ("clos", "10.3.30.0/24", "leaf3 bgp 100 path comms\nspine1 none\nborder1 none"),
        # (a secondary subnet, over the link of edge2 whose bandwidth is given at its other end alone)
        ("offices", "10.0.21.0/24", "core1 cost 20\nedge1 cost 30\nedge2 cost 20"),
        ("offices", "10.0.40.0/24", "abr1 cost 50\ncore2 cost 50\nedge1 cost 20"),
        # (as4 prefers the longer path by its community, and as5 what as7 sends: the peer group's maps give the others less)
        (
            "transit",
            "198.51.1.0/24",
            "as4 bgp 200 path 64503 64501*3 comms 64501:30\nas5 bgp 100 path 64507 64506 64504 64503 64501*3 comms 64501:30",
        ),
        ("transit", "198.51.8.0/24", "as5 bgp 100 path 64507 64508 comms\nas4 bgp 100 path 64506 64508 comms"),
    ],
)
def test_labels(folder: str, prefix: str, labels: str, program: Program) -> None:
    found, _ = second_round(OWN / folder, program)
    text = text_of(found.folder.routers)
    number = next(one.number for one in program.classes(text) if prefix in one.prefixes)
    told = program.done("run", "F", str(number), "S", texts={"F": text, "S": "*\n" * 12}).splitlines()
    assert told[0] == "rest" and set(labels.splitlines()) <= set(told)
