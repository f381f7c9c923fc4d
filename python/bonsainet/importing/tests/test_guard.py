"""A drop of a line that has a bearing is refused, or told at the end; and --own-as says what it joins."""
from __future__ import annotations

from pathlib import Path

import pytest

from bonsainet.ask.program import Program
from bonsainet.configs.text import text_of
from bonsainet.importing.rules.options import Options
from bonsainet.importing.tests.test_refusals import A_BGP, A_OSPF, B_BGP, B_OSPF, refused, report

NULL = "ip route 10.8.0.0 255.255.0.0 Null0\nrouter bgp 65001\n network 10.8.0.0 mask 255.255.0.0\n"
FAMILY = " no bgp default ipv4-unicast\n address-family ipv4\n  neighbor 172.16.0.2 activate\n exit-address-family\n"
GROUP = " neighbor G peer-group\n neighbor G send-community\n neighbor 172.16.0.2 peer-group G\n"


@pytest.mark.parametrize(
    "texts, pattern",
    [
        ((A_OSPF + " auto-cost reference-bandwidth 100000\n", B_OSPF), "auto-cost *"),
        (
            (A_BGP + " redistribute connected\n", B_BGP.replace(" network 10.2.0.0 mask 255.255.255.0\n", "")),
            "redistribute *",
        ),
        ((A_BGP + NULL, B_BGP), "ip route 10.8.*"),
        ((A_BGP + FAMILY, B_BGP), "neighbor * activate"),
        ((A_BGP + GROUP, B_BGP), "neighbor G send-community"),
        ((A_BGP + " neighbor 172.16.0.2 send-community\n", B_BGP), "neighbor 172.16.0.2 send-community"),
        ((A_BGP, B_BGP), "router bgp 65002"),
    ],
)
def test_a_drop_that_makes_another_network(
    texts: tuple[str, str], pattern: str, tmp_path: Path, program: Program
) -> None:
    assert not refused(report(tmp_path, program, texts))
    assert refused(report(tmp_path, program, texts, f'drop "{pattern}" because "it is in the way"\n')) == {"guarded"}
    found = report(tmp_path, program, texts, f'drop! "{pattern}" because "it is in the way"\n')
    assert "guarded" not in refused(found)
    last = found.text.splitlines()[-1]
    assert "is dropped by `drop!`, and without it this is another network: it is in the way" in last


@pytest.mark.parametrize(
    "texts, pattern",
    [
        ((A_BGP + " bgp dampening\n", B_BGP), "bgp dampening"),
        ((A_BGP + " default-information originate\n", B_BGP), "default-information *"),
        ((A_BGP + "snmp-server location here\n", B_BGP), "snmp-server *"),
        ((A_BGP + " neighbor 172.16.0.2 local-as 65099\n", B_BGP), "neighbor * local-as *"),
        ((A_BGP + " neighbor 10.9.9.9 remote-as 65001\n", B_BGP), "neighbor 10.9.9.9 *"),
        (
            (
                A_BGP
                + " neighbor 172.16.0.2 route-map M in\nroute-map M permit 10\n match as-path 1\nroute-map M permit 20\n",
                B_BGP,
            ),
            "route-map M permit 10",
        ),
    ],
)
def test_a_drop_of_what_is_refused_or_idle(
    texts: tuple[str, str], pattern: str, tmp_path: Path, program: Program
) -> None:
    found = report(tmp_path, program, texts, f'drop "{pattern}" because "asked so"\n')
    assert not refused(found) and not found.folder.log.warnings, found.text


def test_a_session_that_is_refused_goes_with_its_lines(tmp_path: Path, program: Program) -> None:
    lines = " neighbor 10.2.0.1 remote-as 65001\n neighbor 10.2.0.1 send-community\n"
    far = B_BGP.replace("bgp 65002", "bgp 65001").replace("remote-as 65001", "remote-as 65009")
    texts = (A_BGP + lines, far, "hostname c\nrouter bgp 65002\n")
    found = report(tmp_path, program, texts, 'drop "neighbor 10.2.0.1 *" because "no internal sessions"\n')
    assert "guarded" not in refused(found)


HUB = "hostname hub\ninterface Vlan1\n ip address 10.1.0.1 255.255.255.0\ninterface Vlan2\n ip address 10.2.0.1 255.255.255.0\nrouter bgp 65000\n neighbor 10.1.0.2 remote-as 65500\n neighbor 10.2.0.2 remote-as 65500\n"
SPOKE = "hostname s{0}\ninterface Vlan1\n ip address 10.{0}.0.2 255.255.255.0\nrouter bgp 65500\n network 10.{0}.0.0 mask 255.255.255.0\n neighbor 10.{0}.0.1 remote-as 65000\n"
SPOKES = (HUB, SPOKE.format(1), SPOKE.format(2))


def test_what_numbers_of_their_own_join(tmp_path: Path, program: Program) -> None:
    found = report(tmp_path, program, SPOKES, options=Options(own_as=True))
    told = "--own-as: s1 s2 of AS 65500 reach each other here, and the devices' loop check keeps them apart"
    assert len(found.folder.log.warnings) == 1 and found.folder.log.warnings[0].startswith(told)
    assert found.text.splitlines()[-1].startswith(told)
    note = "! assumed: routes of s2 reach this router, and the loop check of AS 65500 drops them on devices (--own-as)"
    assert note in text_of(found.folder.routers).splitlines()
    assert "; routes of s2 reach this router, and the loop check" in found.text


@pytest.mark.parametrize("names, warned", [("s1", "--own-as: s2 with s1 of AS 65500 reach"), ("s1 s2", "")])
def test_a_decision_says_for_whom_it_is_meant(names: str, warned: str, tmp_path: Path, program: Program) -> None:
    decided = f'own-as {names} because "the spokes take back their own number"\n'
    found = report(tmp_path, program, SPOKES, decided, Options(own_as=True))
    assert [told[: len(warned)] for told in found.folder.log.warnings] == ([warned] if warned else [])
    assert "which is meant so: the spokes take back their own number" in found.text
    assert found.folder.decisions and not found.folder.decisions.unused


def test_a_decision_about_a_router_that_is_joined_to_none(tmp_path: Path, program: Program) -> None:
    found = report(tmp_path, program, SPOKES, 'own-as hub because "so"\n', Options(own_as=True))
    assert found.folder.decisions and found.folder.decisions.unused
    assert (
        "line 1 of the decisions: --own-as makes hub reachable from no router of its number" in found.folder.log.remarks
    )


def test_spokes_that_nothing_joins(tmp_path: Path, program: Program) -> None:
    shut = SPOKES[0].replace(" neighbor 10.2.0.2 remote-as 65500\n", "")
    found = report(tmp_path, program, (shut, *SPOKES[1:]), options=Options(own_as=True))
    assert not found.folder.log.warnings
