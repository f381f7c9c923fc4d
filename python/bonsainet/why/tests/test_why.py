"""Why two routers are not in one group: for each two groups of the examples, and as words for people."""
from __future__ import annotations

import json
from itertools import combinations
from pathlib import Path

import jsonschema
import pytest

import bonsainet
from bonsainet.ask.program import TOP
from bonsainet.nets.random_networks import random_text
from bonsainet.tests.asking import tool
from bonsainet.library.calls import BONSAI, program
from bonsainet.why.certificate import Reading
from bonsainet.why.documents import document
from bonsainet.why.explain import Cause, why
from bonsainet.why.tool import lines

INPUTS = TOP / "examples" / "inputs"
SCHEMA = json.loads((TOP / "docs" / "data" / "bonsai-why.schema.json").read_text())


def said(name: str, number: int | str, one: str, other: str) -> list[str]:
    """The lines of an answer for an example."""
    reading = Reading.of_class(bonsainet.Network.from_text((INPUTS / name).read_text(), "F").class_of(number))
    return list(lines(reading, one, other, why(reading, one, other)))


def test_a_cost() -> None:
    assert said("campus.cfg", "10.10.0.7", "dist1", "dist2") == [
        "dist1 and dist2 are in two groups for 10.10.0.0/24 10.20.0.0/24 10.255.0.5/32",
        "  dist1 takes routes from access1 so, and dist2 does not: cost 1",
        "  (split 1 of the certificate: split 1 2 dist1 5)",
        "    dist1 from access1 over GigabitEthernet2/1: cost 1",
        "      F:59: interface GigabitEthernet2/1",
        "  what dist2 takes from there",
        "    dist2 from access1 over GigabitEthernet2/1: cost 5",
        "      F:79: interface GigabitEthernet2/1",
        "      F:82: ip ospf cost 5",
    ]


def test_a_route_map() -> None:
    found = said("fabric.cfg", "10.1.0.0/24", "spine1", "leaf2")
    assert found[1] == "  spine1 takes routes from leaf1 so, and leaf2 does not: adds 65000:1"
    assert "      F:69: set community 65000:1 additive" in found
    assert found[-1] == "  leaf2 takes nothing from there"


def test_an_origin() -> None:
    assert said("campus.cfg", "10.0.0.0/30", "core1", "dist2") == [
        "core1 and dist2 are in two groups for 10.0.0.0/30",
        "  they do not originate the prefix alike",
        "    core1 originates 10.0.0.0/30 with cost 1",
        "      F:11: ip address 10.0.0.1 255.255.255.252",
        "    dist2 does not originate 10.0.0.0/30",
    ]


def test_a_lone_router() -> None:
    found = said("asking/disagree.cfg", 1, "y", "x")
    assert found[1] == "  y is lone: several preferences can apply there, so it is in a group by itself"
    assert "    y from x over GigabitEthernet0/1: preference 200" in found
    assert "      F:41: set local-preference 200" in found


def test_a_default_preference() -> None:
    plain = (INPUTS / "asking/disagree.cfg").read_text().replace(" route-map P in", " send-community")
    text = plain.replace("router bgp 65003\n", "router bgp 65003\n bgp default local-preference 500\n")
    reading = Reading.of_class(bonsainet.Network.from_text(text, "F").class_of(1))
    found = list(lines(reading, "x", "y", why(reading, "x", "y")))
    assert [line.split(":", 2)[2] for line in found if "local-preference 500" in line] == [
        " bgp default local-preference 500"
    ]


def test_one_group() -> None:
    assert said("campus.cfg", "10.0.0.0/30", "access1", "access2") == [
        "access1 and access2 are in one group for 10.0.0.0/30: access1 access2"
    ]


def test_routers_behind_others() -> None:
    """Where two routers take routes alike from routers that are apart, it says below what separates those."""
    found = said("fat-tree-4.cfg", 1, "agg0-0", "agg1-0")
    at = found.index("  agg1-0 takes routes so from another router")
    assert found[at + 1 :][0] == "    agg1-0 from core0 over GigabitEthernet0/0: as it is"
    assert "  edge0-0 and core0 are in two groups" in found[at:]
    assert found[-1] == "      core0 does not originate 10.0.0.0/24"


@pytest.mark.parametrize("name", ["campus.cfg", "fabric.cfg", "four-marks.cfg", "asking/two-disagreements.cfg"])
def test_each_two_groups_of_an_example(name: str) -> None:
    """The program verifies the blocks behind each split, and the first that separates two routers has one of them."""
    _each_two_groups((INPUTS / name).read_text())


@pytest.mark.parametrize("seed", range(12))
def test_each_two_groups_of_a_random_network(seed: int) -> None:
    _each_two_groups(random_text(seed))


def _each_two_groups(text: str) -> None:
    network = bonsainet.Network.from_text(text)
    for found in network.classes[:3]:
        try:
            reading = Reading.of_class(found)
        except bonsainet.TextRefused:
            continue
        for one, other in combinations([group.members[-1] for group in reading.groups][:6], 2):
            reason = why(reading, one, other)
            jsonschema.validate(document(reading, one, other, reason, program(BONSAI).identity), SCHEMA)
            assert reason and {reason.first, reason.second} == {one, other}
            if reason.cause is Cause.EDGE:
                assert reason.step and reason.first in reason.step.taken and reason.second in reason.step.left
                assert reason.edges and not any(
                    reason.step.act in edge.acts for edge in reason.others if len(edge.acts) == 1
                )


def test_a_document() -> None:
    reading = Reading.of_class(bonsainet.Network.from_text((INPUTS / "fat-tree-4.cfg").read_text(), "F").class_of(1))
    made = document(reading, "agg0-0", "agg1-0", why(reading, "agg0-0", "agg1-0"), program(BONSAI).identity)
    jsonschema.validate(made, SCHEMA)
    assert (made["form"], made["class"], made["group"]) == (1, 1, None)
    reason = made["why"]
    assert (reason["cause"], reason["first"], reason["second"]) == ("edge", "agg0-0", "agg1-0")
    assert "agg0-0" in reason["split"]["taken"] and "agg1-0" in reason["split"]["left"]
    assert reason["split"]["into"] == ["edge0-0"] and reason["edges"][0]["exporter"] == "edge0-0"
    assert reason["others"] == [] and reason["elsewhere"][0]["exporter"] == "core0"
    because = reason["because"]
    assert (because["cause"], because["first"], because["second"]) == ("origin", "edge0-0", "core0")
    assert because["parts"][1] == {"router": "core0", "words": "does not originate 10.0.0.0/24", "lines": []}
    assert because["parts"][0]["lines"][0] == {"file": "F", "line": 117, "text": " ip address 10.0.0.1 255.255.255.0"}


def test_a_document_of_one_group(tmp_path: Path) -> None:
    made = json.loads(tool("bonsai-why", "--json", INPUTS / "campus.cfg", "10.0.0.0/30", "access1", "access2").stdout)
    jsonschema.validate(made, SCHEMA)
    assert (made["group"], made["why"]) == (["access1", "access2"], None)
    assert made["prefixes"] == ["10.0.0.0/30"] and made["routers"] == ["access1", "access2"]


def test_the_tool(tmp_path: Path) -> None:
    ran = tool("bonsai-why", INPUTS / "campus.cfg", "10.10.0.7", "dist1", "dist2")
    assert ran.returncode == 0 and ran.stdout.startswith(b"dist1 and dist2 are in two groups for 10.10.0.0/24 ")
    folder = TOP / "examples" / "folders" / "campus"
    ran = tool("bonsai-why", "--decisions", folder / "decisions", folder / "configs", 1, "core1", "acc1")
    assert ran.returncode == 0 and b"core1.cfg:" in ran.stdout
    for words, reason in (
        ((INPUTS / "campus.cfg", 1, "core1", "none"), b"no router none"),
        ((INPUTS / "campus.cfg", 99, "core1", "core2"), b"the classes are 1 to 16"),
        ((INPUTS / "none.cfg", 1, "core1", "core2"), b"No such file"),
    ):
        ran = tool("bonsai-why", *words)
        assert ran.returncode in (1, 3) and reason in ran.stderr and b"Traceback" not in ran.stderr
