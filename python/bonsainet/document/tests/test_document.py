"""The document says what the program says, and fits its schema."""
import json
import os
from pathlib import Path

import pytest
from hypothesis import given, settings
from hypothesis import strategies as st

from bonsainet.configs import compressed as compressed_classes
from bonsainet.configs.compressed import asked
from bonsainet.document import tool as document_tool
from bonsainet.document.build import document
from bonsainet.document.tool import check
from bonsainet.doubts.tests.test_ties import SETS, text_of
from bonsainet.drawing.graph import large, large_by_groups, small
from bonsainet.ask.program import ALL, BONSAI, Program, identities, named
from bonsainet.ask.where import Identity
from bonsainet.nets.campus import campus_text
from bonsainet.nets.random_networks import random_text
from bonsainet.tests.asking import bytes_of, compressed, example, place_of, tool

PROGRAMS = {BONSAI: Identity("0" * 64, False, None)}
NAMES = [
    "campus.cfg",
    "fabric.cfg",
    "edge-and-provider.cfg",
    "two-lone-routers.cfg",
    "two-routers.cfg",
    "fat-tree-4.cfg",
    "many-communities.cfg",
]


def made(name: str) -> dict:
    text = example(name)
    return document(text, [compressed(name, found.number) for found in text.classes], PROGRAMS)


def members(whole: dict, group: dict) -> list[str]:
    """The names of the routers of a group."""
    return [whole["routers"][number - 1]["name"] for number in group["members"]]


@pytest.mark.parametrize("name", NAMES)
def test_each_example_fits_the_schema(name: str) -> None:
    pytest.importorskip(
        "jsonschema", reason="the package python3-jsonschema is not there: no document is checked by the schema"
    )
    check(made(name))


@pytest.mark.parametrize("name", ["fabric.cfg", "two-lone-routers.cfg", "edge-and-provider.cfg"])
def test_it_says_what_json_says(name: str) -> None:
    whole = made(name)
    told = json.loads(Program().done("json", "F", "1", texts={"F": bytes_of(name)}))
    found = whole["classes"][0]
    assert (found["routers"], found["links"]) == (told["routers"], told["links"])
    assert [
        {
            "lone": group["lone"],
            "members": members(whole, group),
            "name": members(whole, group)[0],
            "origin": group["origin"],
        }
        for group in found["groups"]
    ] == told["groups"]
    names = [router["name"] for router in whole["routers"]]
    unmatched = [{"address": each["address"], "router": names[each["router"] - 1]} for each in whole["unmatched"]]
    assert unmatched == told["unmatched"]


@given(st.integers(0, 10_000))
@settings(max_examples=12, deadline=None)
def test_random_networks(seed: int) -> None:
    """The document says of every class what the program's own JSON says, and its pictures have its links."""
    raw = random_text(seed).encode()
    text = asked(Program(), raw, "F")
    for number in range(1, min(3, len(text.classes)) + 1):
        each = text.compress(Program(), number)
        whole = document(text, [each], PROGRAMS)
        found = whole["classes"][0]
        told = json.loads(Program().done("json", "F", str(number), texts={"F": raw}))
        assert (found["routers"], found["links"]) == (told["routers"], told["links"])
        assert [members(whole, group) for group in found["groups"]] == [group["members"] for group in told["groups"]]
        assert len(found["edges"]) == found["links"]["after"] == sum(edge.count for edge in small(each).edges)
        assert sum(edge.count for edge in large(text.network, each).edges) == sum(
            edge.count for edge in large_by_groups(text.network, each).edges
        )


def test_edges_and_policies_are_those_of_the_compressed_text() -> None:
    whole = made("two-lone-routers.cfg")
    found = whole["classes"][0]
    assert len(found["edges"]) == found["links"]["after"]
    named = {(end["group"], end["in"]) for edge in found["edges"] for end in (edge["low"], edge["high"]) if end["in"]}
    assert all(policy in found["policies"][str(group)] for group, policy in named)
    x = next(group["group"] for group in found["groups"] if members(whole, group)[0] == "x")
    assert ["route-map POLICY-1 permit 10", " set local-preference 200"] in [*found["policies"][str(x)].values()]


def test_costs_in_ospf() -> None:
    whole = made("campus.cfg")
    edge = whole["classes"][0]["edges"][-1]
    assert (edge["low"]["cost"], edge["high"]["cost"]) == (5, 5)
    assert members(whole, whole["classes"][0]["groups"][edge["low"]["group"] - 1]) == ["dist2"]


def test_names_stand_once_however_many_the_classes_are() -> None:
    """What a class adds for a router is a number, so of twice the routers a class is twice as long, and no more."""
    lengths = []
    for access in (8, 16, 32):
        text = asked(Program(), campus_text(4, access).encode(), "F")
        told = json.dumps(document(text, list(text.compress_each([1, 2])), PROGRAMS))
        assert all(told.count(f'"{name}"') == 1 for name in text.network.by_name)
        one = json.dumps(json.loads(told)["classes"][1]["groups"])
        lengths.append(len(one) / len(text.network.by_name))
    assert max(lengths) < 60 and lengths[2] < lengths[0]


def test_one_class_on_one_line() -> None:
    ran = tool("bonsai-json", place_of("campus.cfg"), "--class", 10, "--compact", "--check")
    assert ran.returncode == 0 and ran.stdout.count(b"\n") == 1
    assert [found["class"] for found in json.loads(ran.stdout)["classes"]] == [10]


def test_a_class_that_compress_refuses_keeps_its_groups() -> None:
    text = b"hostname a\ninterface Vlan1\n ip address 100.64.0.1 255.255.255.0\nrouter bgp 1\n network 100.64.0.0 mask 255.255.255.0\nend\n"
    ran = tool("bonsai-json", "-", "--check", raw=text)
    found = json.loads(ran.stdout)["classes"][0]
    assert (found["refused"], found["groups"][0]["members"]) == ("line 3: PoolOverlap", [1])
    assert "edges" not in found


def test_a_network_without_classes() -> None:
    ran = tool("bonsai-json", "-", "--check", raw=b"hostname a\nend\n")
    assert ran.returncode == 0
    assert json.loads(ran.stdout)["classes"] == []


def test_ties_stand_before_groups() -> None:
    """u holds the route without communities, by m1 or m2, and the one with a community ties with it."""
    raw = text_of({"m1 u": "route-map OUT out"}, {"m1": SETS}).encode()
    ran = tool("bonsai-json", "-", "--check", raw=raw)
    assert ran.returncode == 0, ran.stderr
    whole = json.loads(ran.stdout)
    found = whole["classes"][0]
    number_of = {" ".join(members(whole, group)): group["group"] for group in found["groups"]}
    over = [number_of["m1 m2"], number_of["o"]]
    assert found["ties"] == [
        {
            "group": number_of["u"],
            "decided": ["communities"],
            "held": {"over": over, "communities": []},
            "others": [{"over": over, "communities": ["1:1"]}],
        }
    ]
    assert list(found).index("ties") < list(found).index("groups")
    assert "ties" not in json.loads(tool("bonsai-json", "-", "--no-ties", raw=raw).stdout)["classes"][0]


def test_ties_are_no_matter_of_ospf() -> None:
    ran = tool("bonsai-json", place_of("campus.cfg"), "--class", 10)
    assert "ties" not in json.loads(ran.stdout)["classes"][0]


@pytest.mark.parametrize("name", ["campus.cfg", "two-routers.cfg", "full-mesh.cfg"])
@pytest.mark.parametrize("indent", [None, 1])
def test_pieces_are_the_whole(name: str, indent: int | None, monkeypatch: pytest.MonkeyPatch) -> None:
    monkeypatch.setattr(compressed_classes, "AT_A_TIME", 3)
    text = example(name)
    numbers = [found.number for found in text.classes]
    for chosen in (numbers, numbers[:1], numbers[:0]):
        found = list(text.compress_each(chosen))
        programs = identities(BONSAI, *([ALL] if chosen else []))
        whole = json.dumps(document(text, found, programs), indent=indent)
        assert "".join(document_tool.pieces(text, chosen, indent, False, False)) == whole


def test_nothing_is_written_where_a_class_fails(tmp_path: Path) -> None:
    failing = tmp_path / "failing"
    failing.write_text(
        f'#!/bin/sh\n[ "$2 $3" = "compress 9" ] && {{ echo "out of memory" >&2; exit 5; }}\nexec {named(ALL).path} "$@"\n'
    )
    failing.chmod(0o755)
    ran = tool("bonsai-json", place_of("campus.cfg"), env={**os.environ, "BONSAI_ALL_PROGRAM": str(failing)})
    assert (ran.returncode, ran.stdout) == (1, b"") and b"out of memory" in ran.stderr
