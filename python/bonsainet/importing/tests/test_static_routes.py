"""Static routes that touch no route go, others stay refused; a default route is told wherever it stands."""
from __future__ import annotations

from pathlib import Path

import pytest

from bonsainet.ask.program import Program
from bonsainet.cli.command_line import Refused
from bonsainet.importing.rules.options import Options
from bonsainet.importing.tests.test_refusals import A_BGP, A_OSPF, B_BGP, B_OSPF, refused, report

ROUTE = "ip route 10.8.0.0 255.255.0.0 172.16.0.2\n"


@pytest.mark.parametrize(
    "text, is_refused",
    [
        (A_BGP + ROUTE, False),
        (A_BGP + " redistribute static\n" + ROUTE, True),
        (A_BGP + " network 10.8.0.0 mask 255.255.0.0\n" + ROUTE, True),
        (A_BGP + ROUTE.replace("10.8.0.0 255.255.0.0", "10.2.0.0 255.255.255.0"), True),
    ],
    ids=["touches nothing", "redistributed", "of a network line", "to a prefix that another router announces"],
)
def test_what_takes_up_a_static_route(text: str, is_refused: bool, tmp_path: Path, program: Program) -> None:
    found = report(tmp_path, program, (text, B_BGP))
    assert bool(refused(found)) is is_refused, found.text
    assert is_refused or [one.rule for one in found.changes if "ip route" in one.before] == ["static-no-class"]


def test_a_route_inside_of_a_prefix_is_told(tmp_path: Path, program: Program) -> None:
    found = report(tmp_path, program, (A_BGP + "ip route 10.2.0.128 255.255.255.128 172.16.0.2\n", B_BGP))
    assert [told for told in found.folder.log.remarks if told.endswith("nothing of that part: r0.cfg:9")]


@pytest.mark.parametrize(
    "line, is_refused",
    [
        ("ip route 0.0.0.0 0.0.0.0 192.0.2.1\n", False),
        ("ip default-network 10.0.0.0\n", True),
        ("router ospf 1\n default-information originate always\n", True),
    ],
)
def test_a_default_route_is_told(line: str, is_refused: bool, tmp_path: Path, program: Program) -> None:
    found = report(tmp_path, program, (A_OSPF + line, B_OSPF))
    told = [
        one
        for one in found.folder.log.remarks
        if one.startswith("the folder has a default route, and Bonsai has none (r0.cfg:")
    ]
    assert len(told) == 1 and bool(refused(found)) is is_refused


def test_a_default_route_of_a_decision_is_told(tmp_path: Path, program: Program) -> None:
    lines = " neighbor 172.16.0.2 default-originate\n"
    found = report(tmp_path, program, (A_BGP + lines, B_BGP), 'drop "neighbor * default-originate" because "out"\n')
    assert not refused(found)
    assert any(told.startswith("the folder has a default route") for told in found.folder.log.remarks)


def test_without_a_default_route_nothing_is_told(tmp_path: Path, program: Program) -> None:
    assert not [one for one in report(tmp_path, program, (A_BGP, B_BGP)).folder.log.remarks if "default route" in one]


def test_a_stub_of_the_default_route(tmp_path: Path, program: Program) -> None:
    lines = " neighbor 172.16.0.9 remote-as 65009\n"
    with pytest.raises(Refused, match="Bonsai has no default route"):
        report(
            tmp_path,
            program,
            (A_BGP.replace("255.252", "255.240") + lines,),
            options=Options.of(False, ["172.16.0.9=0.0.0.0/0"]),
        )
