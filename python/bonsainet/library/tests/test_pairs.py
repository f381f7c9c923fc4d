"""Two networks that are compared: what is the same on both sides is read once, and means what it means alone."""
from __future__ import annotations

import pytest

from bonsainet.ask.program import ASK, IS_DONE, TOP
from bonsainet.asking.reports import ClassAnswer, reports_of
from bonsainet.asking.shares import ALWAYS_TRUE
from bonsainet.configs.network import Network as Parsed
from bonsainet.configs.text import lines_of, router_texts
from bonsainet.library import Network
from bonsainet.library.calls import call
from bonsainet.library.pairs import Pair
from bonsainet.library.states import always_true, may_tie

INPUTS = TOP / "examples" / "inputs"
CAMPUS = (INPUTS / "campus.cfg").read_text()
TIED = (INPUTS / "asking" / "tags-tied.cfg").read_text()


def shape(network: Parsed) -> list[tuple[str, str, str, str, int | None]]:
    """The links, end by end."""
    return [
        (one.device.name, one.interface.name, other.device.name, str(link.subnet), one.cost)
        for link in network.links
        for one, other in ((link.low, link.high), (link.high, link.low))
    ]


def test_a_router_of_the_same_lines_is_read_once() -> None:
    old, new = Network.from_text(CAMPUS), Network.from_text(
        CAMPUS.replace(" ip ospf cost 5\n", " ip ospf cost 5\n shutdown\n", 1)
    )
    both = Pair(old, new)
    assert both.shared == frozenset(old.routers) - {"dist2"}
    assert shape(both.parsed[1]) == shape(new.parsed) != shape(old.parsed)
    assert [str(one.line.place) for one in new.parsed.devices] != [str(one.line.place) for one in old.parsed.devices]


def test_a_folder_beside_a_text() -> None:
    folder = TOP / "examples" / "folders" / "campus"
    old = Network.from_folder(folder / "configs", folder / "decisions")
    both = Pair(old, Network.from_text(old.text))
    assert both.shared == frozenset(old.routers) and both.parsed[1].devices == both.parsed[0].devices
    assert Pair(both.new, old).shared == frozenset(old.routers)


@pytest.mark.parametrize(
    "text",
    [
        CAMPUS,
        CAMPUS.replace("\n", "\r\n"),
        CAMPUS.removesuffix("\n"),
        CAMPUS.removesuffix("end\n"),
        CAMPUS.replace("\nend\n", "\nend \t\n!\n\n"),
        CAMPUS.replace("\nend\n", "\n end\nend\n"),
        "end\nend\n\n",
        "",
    ],
)
def test_the_texts_of_routers_have_all_lines(text: str) -> None:
    pieces = list(router_texts(text))
    assert "".join(piece for _, piece in pieces) == text
    found = [line for number, piece in pieces for line in lines_of(piece, "F", number)]
    assert found == (lines_of(text, "F") if text else [])


@pytest.mark.parametrize("name", ["asking/tags-tied", "asking/two-disagreements", "asking/bad-gadget", "fabric"])
def test_what_lacks_a_community_is_tied_as_what_is_true_of_hops(name: str) -> None:
    network = Network.from_file(INPUTS / f"{name}.cfg")
    assert always_true(network)[0] == "lacks"
    said = [
        call(ASK, ["F", "*", *question], network.text, network.name, done=IS_DONE).text
        for question in (ALWAYS_TRUE, always_true(network))
    ]
    assert said[0] == said[1]
    (report,) = reports_of(said[0])
    assert all(isinstance(part, ClassAnswer) and part.verdict != "no" for part in report.parts)


@pytest.mark.parametrize(
    "name", ["fat-tree-4", "full-mesh", "asking/avoids-no", "asking/by-address", "asking/through-no"]
)
def test_without_route_maps_nothing_ties(name: str) -> None:
    network = Network.from_file(INPUTS / f"{name}.cfg")
    assert network.is_bgp and not may_tie(network)
    (report,) = reports_of(call(ASK, ["F", "*", *ALWAYS_TRUE], network.text, network.name, done=IS_DONE).text)
    assert [part.tie for part in report.parts if isinstance(part, ClassAnswer)] == [None] * len(network.classes)


def test_a_community_that_no_line_has() -> None:
    lines = "".join(f"ip community-list standard L permit 1:{number}\n" for number in range(1, 40))
    network = Network.from_text(TIED.replace("end\n", f"{lines}end\n", 1))
    community = always_true(network)[1]
    assert community.startswith("0:") and int(community[2:]) >= 40
