"""What waits for another protocol, and applets that change the configuration: refused, never left out in silence."""
from __future__ import annotations

from pathlib import Path

import pytest

from bonsainet.ask.program import Program
from bonsainet.importing.tests.test_both_ends import A_LINK, B_LINK, frr
from bonsainet.importing.tests.test_refusals import A_BGP, A_OSPF, B_BGP, B_OSPF, refused, report

STRICT = " neighbor 172.16.0.{} fall-over bfd strict-mode\n"
SYNC = " mpls ldp sync\n"
A_LDP, B_LDP = A_OSPF.replace(A_LINK, A_LINK + " mpls ip\n"), B_OSPF.replace(B_LINK, B_LINK + " mpls ip\n")


@pytest.mark.parametrize(
    "near, far, is_refused",
    [
        (STRICT.format(2), "", True),
        (STRICT.format(2), " neighbor 172.16.0.1 fall-over\n", True),
        (STRICT.format(2), " neighbor 172.16.0.1 fall-over bfd\n", False),
        (STRICT.format(2), STRICT.format(1), False),
        (STRICT.format(2), " neighbor 172.16.0.1 shutdown\n", False),
        (" neighbor 172.16.0.2 fall-over bfd\n", "", False),
    ],
)
def test_a_session_that_waits_for_bfd(near: str, far: str, is_refused: bool, tmp_path: Path, program: Program) -> None:
    found = report(tmp_path, program, (A_BGP + near, B_BGP + far))
    assert refused(found) == ({"bfd-strict"} if is_refused else set()), found.text


@pytest.mark.parametrize(
    "near, far, is_refused",
    [
        (A_LDP + SYNC, B_OSPF, True),
        (A_LDP + SYNC, B_OSPF + SYNC, True),
        (A_OSPF + SYNC + " mpls ldp autoconfig\n", B_OSPF, True),
        (A_LDP + SYNC, B_LDP, False),
        (A_LDP + SYNC, B_OSPF + " mpls ldp autoconfig\n", False),
        (A_OSPF + SYNC, B_OSPF, False),
        (A_LDP.replace(" mpls ip\n", " mpls ip\n no mpls ldp igp sync\n") + SYNC, B_OSPF, False),
        (A_LDP + SYNC + " passive-interface GigabitEthernet0/0\n", B_OSPF, False),
        (A_LDP, B_OSPF, False),
    ],
)
def test_a_cost_that_waits_for_ldp(near: str, far: str, is_refused: bool, tmp_path: Path, program: Program) -> None:
    found = report(tmp_path, program, (near, far))
    assert refused(found) == ({"ldp-sync"} if is_refused else set()), found.text


FRR_OSPF = "router ospf\n network 172.16.0.0/30 area 0\n"
FRR_LDP = "mpls ldp\n address-family ipv4\n  interface eth0\n"


@pytest.mark.parametrize("far, is_refused", [(FRR_OSPF, True), (FRR_OSPF + FRR_LDP, False)])
def test_a_cost_that_waits_for_ldp_on_frr(far: str, is_refused: bool, tmp_path: Path, program: Program) -> None:
    found = frr(tmp_path, program, FRR_OSPF + " mpls ldp-sync\n" + FRR_LDP, far)
    assert ("ldp-sync" in refused(found)) is is_refused, found.text


APPLET = 'event manager applet GUARD\n event syslog pattern "ERR"\n action 1.0 cli command "enable"\n'


@pytest.mark.parametrize(
    "lines, is_refused",
    [
        (' action 2.0 cli command "configure terminal"\n action 3.0 cli command "interface Gi0/0"\n', True),
        (' action 2.0 cli command "conf t"\n', True),
        (' action 2.0 cli command "show ip route"\n action 3.0 syslog msg "configure it"\n', False),
    ],
)
def test_an_applet_that_configures(lines: str, is_refused: bool, tmp_path: Path, program: Program) -> None:
    found = report(tmp_path, program, (A_BGP + APPLET + lines, B_BGP))
    assert refused(found) == ({"applet"} if is_refused else set()), found.text
    assert ("left out [management]" in found.text) is not is_refused


def test_an_applet_can_be_dropped(tmp_path: Path, program: Program) -> None:
    texts = (A_BGP + APPLET + ' action 2.0 cli command "conf t"\n', B_BGP)
    found = report(tmp_path, program, texts, 'drop "event manager applet *" because "it speaks of a line only"\n')
    assert not refused(found) and not found.folder.log.warnings


def test_a_policy_of_the_event_manager_is_told(tmp_path: Path, program: Program) -> None:
    found = report(tmp_path, program, (A_BGP + "event manager policy guard.tcl type user\n", B_BGP))
    assert not refused(found) and "a policy is a script, which the folder has not" in found.text


def test_a_refused_line_is_in_no_other_part(tmp_path: Path, program: Program) -> None:
    near = A_OSPF.replace(A_LINK, A_LINK + " ip ospf network point-to-point\n")
    found = report(tmp_path, program, (near, B_OSPF))
    places = {one.place for one in found.refused}
    assert any(one.text == "ip ospf network point-to-point" for one in found.refused), found.text
    assert not places & {change.place for change in found.changes}
    assert not any(found.text.split("Refused (")[1].count(f"{place}:") > 1 for place in places)
