"""Worked uses: a graph of groups for networkx, and tables of pandas."""
from __future__ import annotations

from pathlib import Path

import pytest

import bonsainet
from bonsainet.ask.program import TOP

INPUTS = TOP / "examples" / "inputs"


@pytest.fixture(name="campus", scope="module")
def campus_fixture() -> bonsainet.Network:
    return bonsainet.Network.from_file(INPUTS / "campus.cfg")


def test_a_graph_of_groups(campus: bonsainet.Network) -> None:
    """Which groups are points through which all traffic to a prefix goes: the dominators of the graph of next hops."""
    networkx = pytest.importorskip("networkx", reason="the package python3-networkx is not there: no graph is made")
    access = campus.class_of("10.10.0.0/24")
    of = {name: group.number for group in access.groups() for name in group.members}
    graph = networkx.DiGraph()
    graph.add_nodes_from(of.values())
    for nexts in access.forwards():
        graph.add_edges_from((of[name], of[further]) for name in nexts for further in nexts[name] or ())
    assert networkx.is_directed_acyclic_graph(graph)
    origin = of[access.origins[0]]
    through = networkx.immediate_dominators(graph.reverse(), origin)
    point = through[of["access2"]]
    (members,) = (group.members for group in access.groups() if group.number == point)
    assert access.ask.through(members, "access2")


def test_a_table_of_classes(campus: bonsainet.Network) -> None:
    """By how much each class gets smaller, the smallest first."""
    pytest.importorskip("pandas", reason="the package python3-pandas is not there: no table is made")
    frame = campus.frame("classes")
    ratio = (frame["routers"] / frame["groups"]).sort_values(ascending=False)
    assert ratio.iloc[0] == 3 and list(frame.index) == list(range(1, 17))
    assert ratio[10] == campus.class_of(10).size().routers / campus.class_of(10).size().groups


def test_a_table_of_groups(campus: bonsainet.Network) -> None:
    """Which routers are in one group in most classes."""
    pytest.importorskip("pandas", reason="the package python3-pandas is not there: no table is made")
    frame = campus.frame("groups")
    pairs = frame.merge(frame, on=["class", "group"]).query("router_x < router_y")
    often = pairs.groupby(["router_x", "router_y"]).size().sort_values(ascending=False)
    alike = [
        one.number for one, groups in campus.groups() if any({"core1", "core2"} <= set(each.members) for each in groups)
    ]
    assert often[("core1", "core2")] == len(alike) > 0


def test_answers_of_all_classes_as_a_table(campus: bonsainet.Network) -> None:
    """Whom the loss of one link cuts off from which prefixes."""
    pandas = pytest.importorskip("pandas", reason="the package python3-pandas is not there: no table is made")
    rows = [
        {"class": answer.number, "loss": ":".join(loss.routers), "verdict": loss.verdict}
        for answer in campus.failing("links").route("*")
        for loss in answer.losses
    ]
    frame = pandas.DataFrame(rows, columns=["class", "loss", "verdict"])
    for number, those in frame.groupby("class"):
        losses = campus.class_of(int(str(number))).failing("links").route("*").losses
        assert [":".join(loss.routers) for loss in losses] == list(those["loss"])


def test_all_classes_at_once(campus: bonsainet.Network) -> None:
    """What is asked of all classes is what is asked of each."""
    assert [one.number for one, _ in campus.groups()] == list(range(1, 17))
    for found, small in campus.compressed():
        if found.number in (1, 10):
            assert small is not None and small.text == found.compress().text
    assert dict((one.number, groups) for one, groups in campus.groups())[10] == campus.class_of(10).groups()
    assert campus.ask.count() == (1,) * 16
    answers = campus.without("core1").route("dist1")
    assert [bool(answer) for answer in answers] == [bool(one.without("core1").route("dist1")) for one in campus.classes]


def test_a_network_without_classes(tmp_path: Path) -> None:
    (tmp_path / "none.cfg").write_text("hostname a\nend\n")
    none = bonsainet.Network.from_file(tmp_path / "none.cfg")
    assert none.classes == () and none.ask.route("*") == () == none.ask.count() and not list(none.groups())
    with pytest.raises(bonsainet.WordsRefused):
        none.ask.route("nobody")
    with pytest.raises(bonsainet.ClassNotFound):
        none.class_of(1)
    assert none.frame().empty and none.frame("groups").empty


def test_what_is_refused_of_all_classes(campus: bonsainet.Network) -> None:
    with pytest.raises(bonsainet.WordsRefused, match="UnknownRouter nobody"):
        campus.ask.route("nobody")
    with pytest.raises(bonsainet.WordsRefused, match="questions line 1: UnknownRouter"):
        campus.replies("1 route nobody\n")
    with pytest.raises(bonsainet.WordsRefused, match="UnknownRouter nobody"):
        campus.class_of(1).ask.ways("nobody")
