"""For each rule: a random text of the profile, written as devices do, is imported as a network that answers alike."""
from __future__ import annotations

import re
import tempfile
from collections.abc import Callable
from pathlib import Path

import pytest
from hypothesis import HealthCheck, given, settings
from hypothesis import strategies as st

from bonsainet.importing.rules.options import Options
from bonsainet.importing.tests import unwrite, unwrite_more
from bonsainet.importing.tests.networks import bgp_texts, ospf_texts
from bonsainet.importing.tests.unwrite import Unwrite, one_list, text_with
from bonsainet.importing.tool import import_folder
from bonsainet.ask.program import Program
from bonsainet.configs.text import Router, text_of

Unwriting = Callable[[Router], None]
ROUNDS = "*\n" * 6
FEW = settings(max_examples=12, deadline=None, suppress_health_check=list(HealthCheck), derandomize=True)
OF_BGP: tuple[Unwriting, ...] = (
    unwrite.families,
    unwrite.groups,
    unwrite.templates,
    unwrite.redistributed,
    unwrite.null_routes,
    unwrite.access_lists,
    unwrite.numberless,
    unwrite.sessions,
)
OF_BGP += (
    unwrite.numbers_with_points,
    unwrite.apart,
    unwrite.metrics,
    unwrite.secondaries,
    unwrite_more.mapped,
    unwrite_more.shut,
    unwrite_more.words,
    unwrite_more.nameless,
    unwrite_more.static_routes,
    unwrite_more.idle_addresses,
)
OF_OSPF: tuple[Unwriting, ...] = (
    unwrite.interface_areas,
    unwrite.point_to_point,
    unwrite.by_bandwidth,
    unwrite.loopbacks,
    unwrite.secondaries,
    unwrite.ospf_words,
    unwrite.apart,
    unwrite.as_frr,
)
OF_OSPF += (
    unwrite_more.frr_dummies,
    unwrite_more.frr_loopbacks,
    unwrite_more.point_to_point_words,
    unwrite_more.loopbacks_by_bandwidth,
    unwrite_more.static_routes,
    unwrite_more.router_ids,
    unwrite_more.idle_addresses,
)


def answers(program: Program, text: str) -> list[tuple[object, ...]]:
    """What the program says of a text: for each class its prefixes, originators, groups and labels after some
    rounds."""
    found: list[tuple[object, ...]] = []
    for one in program.classes(text):
        number = str(one.number)
        labels = program.done("run", "F", number, "S", texts={"F": text, "S": ROUNDS})
        found.append((one.prefixes, one.origins, program.done("groups", "F", number, texts={"F": text}), labels))
    return found


def imported(program: Program, routers: list[tuple[str, str]], options: Options | None = None) -> str:
    """The text that comes of a folder with a file for each router."""
    with tempfile.TemporaryDirectory() as room:
        for name, text in routers:
            (Path(room) / f"{name}.cfg").write_text(text)
        report = import_folder(room, program, None, options)
    assert not report.folder.log.refusals, report.text
    return text_of(report.folder.routers)


@pytest.mark.parametrize("way", OF_BGP, ids=lambda way: way.__name__)
@given(text=bgp_texts())
@FEW
def test_bgp(way: Unwrite, text: str, program: Program) -> None:
    assert answers(program, imported(program, text_with(text, way))) == answers(program, text)


@pytest.mark.parametrize("way", OF_OSPF, ids=lambda way: way.__name__)
@given(text=ospf_texts())
@FEW
def test_ospf(way: Unwrite, text: str, program: Program) -> None:
    text = _fit(way, text)
    assert answers(program, imported(program, text_with(text, way))) == answers(program, text)


def _fit(way: Unwrite, text: str) -> str:
    """The text with the costs that a dialect asks for."""
    if way not in (unwrite.as_frr, unwrite_more.frr_loopbacks, unwrite_more.frr_dummies, unwrite_more.router_ids):
        return text
    lines = text.splitlines()
    found = []
    for line, after in zip(lines, [*lines[1:], ""]):
        found.append(line)
        if line.startswith(" ip address") and not after.startswith(" ip ospf cost"):
            found.append(
                " ip ospf cost 3"
                if way is not unwrite_more.frr_loopbacks or "10.255." not in line
                else " ip ospf cost 1"
            )
    return "\n".join([*found, ""])


@pytest.mark.parametrize(
    "way", [unwrite.as_frr, unwrite_more.unchecked, unwrite_more.router_ids], ids=lambda way: way.__name__
)
@given(text=bgp_texts())
@FEW
def test_frr(way: Unwrite, text: str, program: Program) -> None:
    text = one_list(text)
    assert answers(program, imported(program, text_with(text, way))) == answers(program, text)


@given(text=bgp_texts(), way=st.sampled_from(["in", "out"]))
@FEW
def test_a_list_of_the_process(text: str, way: str, program: Program) -> None:
    lines = [line for line in text.splitlines() if not re.match(rf" neighbor \S+ prefix-list \S+ {way}$", line)]
    each = [
        part
        for line in lines
        for part in ([line, f" neighbor {line.split()[1]} prefix-list P1 {way}"] if " remote-as " in line else [line])
    ]
    whole = [
        part
        for line in lines
        for part in ([line, f" distribute-list prefix P1 {way}"] if line.startswith("router bgp") else [line])
    ]
    found = imported(program, text_with("\n".join([*whole, ""]), lambda _router: None))
    assert answers(program, found) == answers(program, "\n".join([*each, ""]))


@given(text=bgp_texts(chain=True))
@FEW
def test_own_as(text: str, program: Program) -> None:
    """r0 and r2 have one number and no link: with numbers of their own classes and groups are those of the text with
    different ones."""
    routers = [(name, re.sub(r"\b65003\b", "65001", one)) for name, one in text_with(text, lambda _router: None)]
    found = imported(program, routers, Options(own_as=True))
    assert found.count("! assumed: AS number") == 2
    assert [one[:3] for one in answers(program, found)] == [one[:3] for one in answers(program, text)]


@given(text=ospf_texts())
@FEW
def test_one_area(text: str, program: Program) -> None:
    """One area of two has the classes, groups and labels of the text that has this area alone."""
    lines = ["hostname x", "interface Vlan1", " ip address 10.201.0.1 255.255.255.0", "router ospf 1"]
    other = "\n".join([*lines, " network 0.0.0.0 255.255.255.255 area 5", "end", ""])
    found = imported(program, [*text_with(text, unwrite_more.other_areas), ("x", other)], Options(area=0))
    assert answers(program, found) == answers(program, text)


def together(*ways: Unwrite) -> Unwrite:
    """Several ways, one after the other."""

    def all_ways(router: Router) -> None:
        for way in ways:
            way(router)

    return all_ways


@given(text=bgp_texts())
@FEW
def test_bgp_together(text: str, program: Program) -> None:
    way = together(
        unwrite.metrics,
        unwrite.access_lists,
        unwrite.redistributed,
        unwrite.groups,
        unwrite.families,
        unwrite_more.shut,
        unwrite.apart,
    )
    assert answers(program, imported(program, text_with(text, way))) == answers(program, text)


@given(text=bgp_texts())
@FEW
def test_frr_together(text: str, program: Program) -> None:
    text = one_list(text)
    way = together(unwrite.redistributed, unwrite.as_frr, unwrite.families, unwrite.groups)
    assert answers(program, imported(program, text_with(text, way))) == answers(program, text)


@given(text=ospf_texts())
@FEW
def test_ospf_together(text: str, program: Program) -> None:
    way = together(
        unwrite.interface_areas,
        unwrite.point_to_point,
        unwrite.secondaries,
        unwrite_more.loopbacks_by_bandwidth,
        unwrite.apart,
    )
    assert answers(program, imported(program, text_with(text, way))) == answers(program, text)
