"""A picture shows the routers, groups, links and marks that the program tells, and says what it leaves out."""
import html
import os
import re
import shlex
import shutil

import pytest

pytest.importorskip("graphviz", reason="the package python3-graphviz is not there: pictures are not tried")

from bonsainet.drawing.graph import Edge, large, large_by_groups, small
from bonsainet.drawing.layout import CLOSED, _cost, color_of, key, laid_out, picture
from bonsainet.drawing.tool import graphs
from bonsainet.ask.program import Group, Program
from bonsainet.tests.asking import bytes_of, compressed, example, place_of, tool

CASES = [
    ("campus.cfg", 1),
    ("campus.cfg", 10),
    ("fabric.cfg", 1),
    ("edge-and-provider.cfg", 1),
    ("two-lone-routers.cfg", 1),
    ("ospf-star.cfg", 1),
]
needs_dot = pytest.mark.skipif(
    not shutil.which("dot"), reason="the package graphviz is not there: no picture is laid out"
)


@pytest.mark.parametrize("name, number", CASES)
def test_both_sides_have_the_counts_of_the_program(name: str, number: int) -> None:
    found = compressed(name, number)
    before, after = large(example(name).network, found), small(found)
    assert (len(before.nodes), sum(edge.count for edge in before.edges)) == (found.size.routers, found.size.links)
    assert (len(after.nodes), sum(edge.count for edge in after.edges)) == (found.size.groups, found.size.links_after)


def test_a_large_network_is_drawn_by_groups_and_every_link_counts() -> None:
    found = compressed("full-mesh.cfg", 1)
    before = graphs(example("full-mesh.cfg"), found)[0]
    assert "drawn by groups" in before.title
    assert sorted(edge.count for edge in before.edges) == [49, 1176]


def test_layers_are_links_from_the_nearest_originator() -> None:
    found = compressed("campus.cfg", 10)
    assert large(example("campus.cfg").network, found).layers() == {
        "core1": 2,
        "core2": 2,
        "dist1": 1,
        "dist2": 1,
        "access1": 0,
        "access2": 2,
    }


def test_costs_stand_at_the_router_that_adds_them() -> None:
    edges = {(edge.low, edge.high): (edge.at_low, edge.at_high) for edge in small(compressed("campus.cfg", 1)).edges}
    assert edges["dist2", "access1"] == (5, 5)
    edges = {
        (edge.low, edge.high): (edge.at_low, edge.at_high)
        for edge in large(example("two-routers.cfg").network, compressed("two-routers.cfg", 1)).edges
    }
    network = example("two-routers.cfg").network
    assert list(edges.values()) == [(network.links[0].low.cost, network.links[0].high.cost)]


def test_a_direction_that_policies_close_has_no_arrow() -> None:
    edges = {
        (edge.low, edge.high): (edge.to_low, edge.to_high, edge.policies)
        for edge in small(compressed("two-lone-routers.cfg", 1)).edges
    }
    assert edges["d", "x"] == (False, True, ())
    assert ("x: preference 200",) in {policies for _, _, policies in edges.values()}


def test_arrows_of_the_small_network_are_told_apart_from_policies_of_the_large_one() -> None:
    sides = graphs(example("two-lone-routers.cfg"), compressed("two-lone-routers.cfg", 1))
    assert CLOSED in key(sides) and CLOSED not in key(sides[:1])
    assert CLOSED not in key(graphs(example("campus.cfg"), compressed("campus.cfg", 1)))


def test_colours_are_for_groups_of_several() -> None:
    groups = [Group(number, False, False, tuple("ab"[: 1 + number % 2])) for number in range(1, 80)]
    colors = color_of(groups)
    assert {colors[number] for number in range(2, 80, 2)} == {"#ffffff"}
    assert len({colors[number] for number in range(1, 80, 2)}) == 40


def test_what_is_left_out_is_said() -> None:
    text, found = example("many-communities.cfg"), compressed("many-communities.cfg", 1)
    assert "drawn by groups" not in graphs(text, found)[0].title
    star = compressed("full-mesh.cfg", 1)
    graph = large(example("full-mesh.cfg").network, star)
    assert len(graph.edges) == 1225
    by_groups = large_by_groups(example("full-mesh.cfg").network, star)
    assert len(by_groups.edges) == 2


def plain(name: str, number: int) -> list[list[str]]:
    """The lines of a picture as Graphviz lays it out."""
    found = compressed(name, number)
    drawn = picture(graphs(example(name), found), "a title", found.groups)
    return list(map(shlex.split, laid_out(drawn, "plain").decode().replace("\\\n", "").splitlines()))


def places_of(lines: list[list[str]]) -> dict[str, tuple[float, float]]:
    """Where each node stands."""
    return {words[1]: (float(words[2]), float(words[3])) for words in lines if words[:1] == ["node"]}


@needs_dot
@pytest.mark.parametrize("number", [1, 10])
def test_a_cost_lies_on_its_own_link(number: int) -> None:
    lines = plain("campus.cfg", number)
    places = places_of(lines)
    for at, edge in enumerate(large(example("campus.cfg").network, compressed("campus.cfg", number)).edges):
        cost, low, high = f"0_cost {at}", f"0_{edge.low}", f"0_{edge.high}"
        joined = {end for words in lines if words[0] == "edge" and cost in words[1:3] for end in words[1:3]}
        assert joined == {cost, low, high}
        assert (
            min(places[low][1], places[high][1]) - 0.01
            <= places[cost][1]
            <= max(places[low][1], places[high][1]) + 0.01
        )


def test_costs_are_written_once_or_at_their_ends() -> None:
    found = compressed("campus.cfg", 1)
    told = picture([large(example("campus.cfg").network, found)], "a title", found.groups).source
    assert 'bgcolor="white"><tr><td>5</td></tr></table>' in told
    ends = Edge("a", "b", 5, 7)
    assert [
        re.findall(r"<td>(.*?)</td>", _cost(ends, *how)) for how in ((True, False), (False, False), (True, True))
    ] == [
        ["5", "7"],
        ["7", "5"],
        ["a: 5", "b: 7"],
    ]


@needs_dot
@pytest.mark.parametrize("name, number", [("campus.cfg", 1), ("campus.cfg", 10), ("fabric.cfg", 1)])
def test_before_and_after_keep_their_places(name: str, number: int) -> None:
    places, found = places_of(plain(name, number)), compressed(name, number)
    before = {group.members[0]: [places[f"0_{member}"] for member in group.members] for group in found.groups}
    mean = {name: sum(x for x, _ in those) / len(those) for name, those in before.items()}
    height = {name: those[0][1] for name, those in before.items()}
    for name in mean:
        assert all(abs(y - height[name]) < 0.1 for _, y in before[name])
        assert abs(places[f"1_{name}"][1] - height[name]) < 0.3
        for other in mean:
            if height[other] == height[name] and mean[name] + 0.01 < mean[other]:
                assert places[f"1_{name}"][0] < places[f"1_{other}"][0]


@needs_dot
@pytest.mark.parametrize("name, number", CASES)
def test_each_example_is_laid_out(name: str, number: int) -> None:
    text, found = example(name), compressed(name, number)
    drawn = picture(graphs(text, found), name, found.groups).pipe(format="svg").decode()
    names = set(re.findall(r"<title>0_([^<]+)</title>", drawn))
    assert names >= {device.name for device in text.network.devices}


@needs_dot
def test_names_of_lists_are_no_markup() -> None:
    name = '<b>"\\l&x>'
    text = bytes_of("edge-and-provider.cfg").replace(b"FROM-PROVIDER", name.encode())
    drawn = tool("bonsai-draw", "-", 1, raw=text)
    assert drawn.returncode == 0
    assert f"border: {name}" in [
        html.unescape(found).strip() for found in re.findall(r">([^<]*)</text>", drawn.stdout.decode())
    ]


@needs_dot
def test_formats_and_streams(tmp_path) -> None:
    place = place_of("campus.cfg")
    assert tool("bonsai-draw", place, 1, "-f", "dot").stdout.startswith(b"graph {")
    assert b"<svg" in tool("bonsai-draw", "-", 1, raw=bytes_of("campus.cfg")).stdout
    assert tool("bonsai-draw", place, 1, "-o", tmp_path / "a.png").returncode == 0
    assert (tmp_path / "a.png").read_bytes().startswith(b"\x89PNG")


@pytest.mark.parametrize(
    "words, status, told",
    [
        (["no-such-file", "1"], 3, b"bonsai-draw: no-such-file: No such file or directory\n"),
        (["campus.cfg", "17"], 1, b"no class 17: the classes are 1 to 16\n"),
        (
            ["campus-with-static-route.cfg", "1"],
            1,
            b"campus-with-static-route.cfg: refused: line 28: Unsupported; tools/bonsai-refusals lists all refusals\n",
        ),
    ],
)
def test_refusals(words: list[str], status: int, told: bytes) -> None:
    name, number = words
    ran = tool("bonsai-draw", name if name == "no-such-file" else place_of(name), number)
    assert (ran.returncode, ran.stdout) == (status, b"")
    assert ran.stderr.endswith(told) and ran.stderr.count(b"\n") == 1


def test_an_end_that_tells_no_format(tmp_path) -> None:
    ran = tool("bonsai-draw", place_of("campus.cfg"), 1, "-o", tmp_path / "a.foo")
    assert (ran.returncode, ran.stdout) == (2, b"") and ran.stderr.startswith(b"usage: bonsai-draw ")
    assert ran.stderr.endswith(
        b"a.foo: no format has the end .foo: .dot, .gv, .svg and .png have one, and --format gives it for any name\n"
    )
    assert tool("bonsai-draw", place_of("campus.cfg"), 1, "-o", tmp_path / "a.foo", "--format", "dot").returncode == 0


def test_an_output_that_cannot_be_written() -> None:
    ran = tool("bonsai-draw", place_of("campus.cfg"), 1, "-f", "dot", "-o", "/no-such-folder/a.dot")
    assert (ran.returncode, ran.stderr) == (
        4,
        b"bonsai-draw: write fault: /no-such-folder/a.dot: No such file or directory\n",
    )


@pytest.mark.parametrize(
    "script, told",
    [
        (None, "the program dot is not there: install the package graphviz"),
        ("echo broken >&2; exit 1", "the program dot failed: broken"),
    ],
)
def test_graphviz_that_is_not_there_or_fails(script: str | None, told: str, tmp_path, program: Program) -> None:
    if script:
        (tmp_path / "dot").write_text(f"#!/bin/sh\n{script}\n")
        (tmp_path / "dot").chmod(0o755)
    ran = tool(
        "bonsai-draw",
        place_of("fabric.cfg"),
        1,
        env=os.environ | {"PATH": str(tmp_path), "BONSAI_PROGRAM": program.path},
    )
    assert (ran.returncode, ran.stderr.decode()) == (1, f"bonsai-draw: {told}\n")
