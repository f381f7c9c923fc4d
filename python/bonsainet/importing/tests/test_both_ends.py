"""Lines by which real routers form no link, or have another cost, though each line by itself says nothing of routes."""
from __future__ import annotations

from pathlib import Path

import pytest

from bonsainet.ask.program import Program
from bonsainet.configs.network import read_network
from bonsainet.configs.text import text_of
from bonsainet.doubts.agreement import doubts_of_agreement
from bonsainet.importing.report import Report
from bonsainet.importing.rules.options import Options
from bonsainet.importing.suggest import skeleton
from bonsainet.importing.tests.test_refusals import A_BGP, A_OSPF, B_BGP, B_OSPF, refused, report
from bonsainet.importing.tool import import_folder

LINK = " ip address 172.16.0.{0} 255.255.255.252\n"
A_LINK, B_LINK = LINK.format(1), LINK.format(2)
FRR = "frr version 8.4.4\nfrr defaults {0}\nhostname {1}\ninterface eth0\n ip address 172.16.0.{2}/30\nrouter bgp 6500{2}\n no bgp ebgp-requires-policy\n neighbor 172.16.0.{3} remote-as 6500{3}\n{4}"


def frr(tmp_path: Path, program: Program, near: str, far: str, defaults: str = "traditional") -> Report:
    """The report on two routers of FRR."""
    for name, texts in (("a", (name_at(1), near)), ("b", (name_at(2), far))):
        (tmp_path / name).mkdir()
        (tmp_path / name / "frr.conf").write_text(FRR.format(defaults, name, *texts[0], texts[1]))
    return import_folder(str(tmp_path), program)


def name_at(number: int) -> tuple[int, int]:
    """The number of a router and that of the other one."""
    return number, 3 - number


def lines_of(found: Report) -> list[str]:
    """The lines of the text, without their indentation."""
    return [line.strip() for line in text_of(found.folder.routers).splitlines()]


@pytest.mark.parametrize(
    "near, far, is_refused",
    [
        (" neighbor 172.16.0.2 timers 10 30 20\n", " neighbor 172.16.0.1 timers 3 9\n", True),
        (" neighbor 172.16.0.2 timers 10 30 20\n", " timers bgp 3 9\n", True),
        (" neighbor 172.16.0.2 timers 10 30 20\n", " neighbor 172.16.0.1 timers 0 0\n", True),
        (" timers bgp 10 30 20\n", " neighbor 172.16.0.1 timers 3 9\n", True),
        (" neighbor 172.16.0.2 timers 10 30 20\n", " timers bgp 3 9\n neighbor 172.16.0.1 timers 7 21\n", False),
        (" neighbor 172.16.0.2 timers 10 30 20\n", "", False),
        (" neighbor 172.16.0.2 timers 10 30\n", " neighbor 172.16.0.1 timers 3 9\n", False),
        (" neighbor 172.16.0.2 timers 10 30 20\n", " timers bgp 3 9\n neighbor 172.16.0.1 shutdown\n", False),
    ],
)
def test_a_least_hold_time(near: str, far: str, is_refused: bool, tmp_path: Path, program: Program) -> None:
    found = report(tmp_path, program, (A_BGP + near, B_BGP + far))
    assert refused(found) == ({"hold-time"} if is_refused else set()), found.text


@pytest.mark.parametrize(
    "near, far, defaults, is_refused",
    [
        (" bgp minimum-holdtime 30\n", " neighbor 172.16.0.1 timers 3 9\n", "traditional", True),
        (" bgp minimum-holdtime 30\n", " neighbor 172.16.0.1 timers connect 5\n", "traditional", False),
        (" bgp minimum-holdtime 30\n", "", "datacenter", True),
        (" bgp minimum-holdtime 9\n", "", "datacenter", False),
    ],
)
def test_a_least_hold_time_of_frr(
    near: str, far: str, defaults: str, is_refused: bool, tmp_path: Path, program: Program
) -> None:
    found = frr(tmp_path, program, near, far, defaults)
    assert refused(found) == ({"hold-time"} if is_refused else set()), found.text
    cut = [change.rule for change in found.changes if "minimum-holdtime" in change.before]
    assert cut == ([] if is_refused else ["hold-time"])


@pytest.mark.parametrize(
    "near, far, told",
    [
        (" area 0 authentication message-digest\n", "", "message-digest here and none"),
        (" area 0 authentication\n", "", "simple here and none"),
        (" area 0 authentication\n", " area 0.0.0.0 authentication\n", None),
        (" area 0 authentication\n", " area 0 authentication message-digest\n", "message-digest here and simple"),
    ],
)
def test_the_authentication_of_an_area(near: str, far: str, told: str | None, tmp_path: Path, program: Program) -> None:
    found = report(tmp_path, program, (A_OSPF + near, B_OSPF + far))
    assert not refused(found), found.text
    doubts = [one.told for one in doubts_of_agreement(read_network(text_of(found.folder.routers)))]
    assert [told in one for one in doubts] == [True] if told else not doubts


def test_an_interface_has_its_own_authentication(tmp_path: Path, program: Program) -> None:
    own = A_OSPF.replace(A_LINK, A_LINK + " ip ospf authentication null\n") + " area 0 authentication\n"
    found = report(tmp_path, program, (own + " passive-interface Vlan1\n", B_OSPF))
    assert not list(doubts_of_agreement(read_network(text_of(found.folder.routers))))
    assert "ip ospf authentication" not in lines_of(found)


CHECKS = " ip ospf ttl-security hops 3\n"


@pytest.mark.parametrize(
    "near, far, is_refused",
    [
        (A_OSPF.replace(A_LINK, A_LINK + CHECKS), B_OSPF, True),
        (A_OSPF + " ttl-security all-interfaces\n", B_OSPF, True),
        (A_OSPF + " ttl-security all-interfaces\n", B_OSPF.replace(B_LINK, B_LINK + CHECKS), False),
        (
            A_OSPF.replace(A_LINK, A_LINK + " ip ospf ttl-security disable\n")
            + " ttl-security all-interfaces hops 2\n",
            B_OSPF,
            False,
        ),
    ],
)
def test_the_check_of_the_ttl(near: str, far: str, is_refused: bool, tmp_path: Path, program: Program) -> None:
    found = report(tmp_path, program, (near, far))
    assert refused(found) == ({"ttl-security"} if is_refused else set()), found.text


def test_a_session_of_frr_that_waits_for_bfd(tmp_path: Path, program: Program) -> None:
    assert refused(report(tmp_path, program, (A_BGP + " neighbor 172.16.0.2 bfd strict\n", B_BGP))) == {"program"}


def test_an_adjacency_that_waits_for_bfd(tmp_path: Path, program: Program) -> None:
    near = A_OSPF.replace(A_LINK, A_LINK + " ip ospf bfd strict-mode\n")
    assert refused(report(tmp_path, program, (near, B_OSPF))) == {"program"}


@pytest.mark.parametrize("given, is_read", [("bgpd=yes\n", True), ("bgpd=no\n", False), ("zebra=yes\n", False)])
def test_a_daemon_that_is_not_started(given: str, is_read: bool, tmp_path: Path, program: Program) -> None:
    (tmp_path / "a").mkdir()
    (tmp_path / "a" / "daemons").write_text(given)
    (tmp_path / "a" / "frr.conf").write_text(FRR.format("traditional", "a", 1, 2, " network 172.16.0.0/30\n"))
    (tmp_path / "a" / "daemons").write_text(given)
    found = import_folder(str(tmp_path), program)
    assert any(line.startswith("router bgp") for line in lines_of(found)) is is_read
    assert any(change.rule == "frr-daemons" for change in found.changes) is not is_read


SWITCH = "interface GigabitEthernet0/1\n switchport mode trunk\n{0}interface GigabitEthernet0/2\n switchport mode access\n{1}"


@pytest.mark.parametrize(
    "lines, is_down",
    [
        ("vlan 1\n shutdown\n", True),
        ("vlan 1,30-40\n state suspend\n", True),
        ("vlan 2-9\n shutdown\n", False),
        ("vlan 1\n name users\n", False),
        (SWITCH.format(" switchport trunk allowed vlan 10,20\n", " switchport access vlan 10\n"), True),
        (SWITCH.format(" shutdown\n", " switchport access vlan 10\n"), True),
        (SWITCH.format(" shutdown\n", ""), False),
        (SWITCH.format(" switchport trunk allowed vlan except 1\n", " shutdown\n"), True),
        (
            SWITCH.format(" switchport trunk allowed vlan 10\n switchport trunk allowed vlan add 1,2\n", " shutdown\n"),
            False,
        ),
        (SWITCH.format("", " switchport access vlan 10\n"), False),
        (
            SWITCH.format(" shutdown\n", " switchport access vlan 10\n authentication port-control auto\n"),
            False,
        ),
        (
            SWITCH.format(" switchport trunk allowed vlan none\n service instance 1 ethernet\n", " shutdown\n"),
            False,
        ),
        (SWITCH.format(" shutdown\n", " shutdown\n") + "interface GigabitEthernet0/3\n", False),
    ],
)
def test_the_interface_of_a_vlan(lines: str, is_down: bool, tmp_path: Path, program: Program) -> None:
    found = report(tmp_path, program, (A_OSPF + lines, B_OSPF))
    assert not refused(found), found.text
    origins = [one.prefixes for one in program.classes(text_of(found.folder.routers))]
    assert (("10.1.0.0/24",) in origins) is not is_down, found.text
    assert any(change.rule == "vlan-shut" for change in found.changes) is is_down


def test_an_interface_that_does_not_follow_its_ports(tmp_path: Path, program: Program) -> None:
    always = A_OSPF.replace("10.1.0.1 255.255.255.0\n", "10.1.0.1 255.255.255.0\n no autostate\n")
    assert refused(report(tmp_path, program, (always + "vlan 1\n shutdown\n", B_OSPF))) == {"vlan-shut"}
    ports = SWITCH.format(" shutdown\n", " shutdown\n")
    assert "shutdown" not in lines_of(report(tmp_path, program, (always + ports, B_OSPF)))[:8]


def test_a_vlan_that_a_switch_does_not_have(tmp_path: Path, program: Program) -> None:
    text = A_OSPF.replace("Vlan1\n", "Vlan30\n") + "vtp mode transparent\nvlan 20\n name users\n"
    told = report(tmp_path, program, (text, B_OSPF)).folder.log.remarks
    assert [one.partition(" makes")[0] for one in told] == ["r0.cfg:4: no line `vlan 30`"]
    assert not report(tmp_path, program, (text.replace("vlan 20", "vlan 20,30"), B_OSPF)).folder.log.remarks


REFERENCE = " auto-cost reference-bandwidth 1000\n"


@pytest.mark.parametrize(
    "near, far, names",
    [
        (" speed auto 10\n", " speed 10\n", set()),
        (" speed auto 10 100\n", " speed 100\n", {"ospf-cost"}),
        (" speed 100\n", "", {"ospf-cost"}),
        (" speed 100\n", " bandwidth 100000\n", set()),
        (" speed 100\n", " ip ospf cost 10\n", set()),
        (" speed auto 1000\n", "", set()),
    ],
)
def test_the_speed_of_a_wire(near: str, far: str, names: set[str], tmp_path: Path, program: Program) -> None:
    texts = (A_OSPF.replace(A_LINK, A_LINK + near) + REFERENCE, B_OSPF.replace(B_LINK, B_LINK + far) + REFERENCE)
    assert refused(report(tmp_path, program, texts)) == names


def test_a_speed_has_its_cost(tmp_path: Path, program: Program) -> None:
    near, far = (text.replace("255.252\n", "255.252\n speed auto 10\n") + REFERENCE for text in (A_OSPF, B_OSPF))
    assert lines_of(report(tmp_path, program, (near, far))).count("ip ospf cost 100") == 2


def test_types_of_other_speed_on_a_wire(tmp_path: Path, program: Program) -> None:
    far = B_OSPF.replace("GigabitEthernet0/0", "TenGigabitEthernet0/0")
    wide = " auto-cost reference-bandwidth 10000\n"
    found = report(tmp_path, program, (A_OSPF + wide, far + wide))
    assert [one.name for one in found.folder.log.refusals] == ["ospf-cost"]
    assert (
        "takes 1000000 kbit/s at most, and at that speed the cost is 10 and not 1"
        in found.folder.log.refusals[0].reason
    )
    decided = 'bandwidth "TenGigabitEthernet0/0" 1000000 because "a module of 1 Gbit/s"\n'
    assert not refused(report(tmp_path, program, (A_OSPF + wide, far + wide), decided))
    assert not refused(report(tmp_path, program, (A_OSPF, far)))


@pytest.mark.parametrize(
    "near, far, names",
    [
        (" bgp router-id 192.0.2.1\n", " bgp router-id 192.0.2.1\n", {"router-id"}),
        (" bgp router-id 172.16.0.2\n", "", {"router-id"}),
        (" bgp router-id 192.0.2.1\n", " bgp router-id 192.0.2.2\n", set()),
        (" bgp router-id 192.0.2.1\n", " bgp router-id 192.0.2.1\n neighbor 172.16.0.1 shutdown\n", set()),
    ],
)
def test_one_identifier_at_both_ends(near: str, far: str, names: set[str], tmp_path: Path, program: Program) -> None:
    assert refused(report(tmp_path, program, (A_BGP + near, B_BGP + far))) == names


def test_frr_takes_its_own_identifier(tmp_path: Path, program: Program) -> None:
    assert not refused(frr(tmp_path, program, " bgp router-id 192.0.2.1\n", " bgp router-id 192.0.2.1\n"))


def test_an_identifier_that_no_line_gives(tmp_path: Path, program: Program) -> None:
    loopback = "interface Loopback0\n ip address 192.0.2.1 255.255.255.255\n"
    far = B_OSPF.replace("router ospf", loopback + "router ospf")
    assert refused(report(tmp_path, program, (A_OSPF + " router-id 192.0.2.1\n", far))) == {"router-id"}
    assert not refused(report(tmp_path, program, (A_OSPF + " router-id 192.0.2.9\n", far)))


def test_a_limit_on_prefixes_has_its_own_reason(tmp_path: Path, program: Program) -> None:
    found = report(tmp_path, program, (A_BGP + " neighbor 172.16.0.2 maximum-prefix 12\n", B_BGP))
    assert [change.rule for change in found.changes] == ["maximum-prefix"]
    outside = "interface Vlan2\n ip address 192.0.2.1 255.255.255.252\nrouter bgp 65001\n neighbor 192.0.2.2 remote-as 65009\n neighbor 192.0.2.2 maximum-prefix 2\n"
    stub = Options.of(False, ["192.0.2.2=198.51.100.0/24"])
    found = report(tmp_path, program, (A_BGP + outside, B_BGP), options=stub)
    assert found.changes[-1].rule.endswith("maximum-prefix-stub")


def test_what_is_suggested_names_what_is_read(tmp_path: Path, program: Program) -> None:
    loopback = "interface Loopback1\n ip address 192.0.2.1 255.255.255.0\n ip ospf network point-to-point\n"
    wide = " network 192.0.2.0 0.0.0.255 area 0\n auto-cost reference-bandwidth 100000\n"
    found = report(tmp_path, program, (A_OSPF.replace("router ospf", loopback + "router ospf") + wide, B_OSPF))
    told = skeleton(found.folder, found.refused)
    assert '"Loopback1"' in told and 'Vlan1" ' not in told.partition("Loopback1")[2].splitlines()[0]
    decision = 'cost "Loopback1" 1 because "by its type"\n'
    texts = (A_OSPF.replace("router ospf", loopback + "router ospf") + wide, B_OSPF)
    assert not refused(report(tmp_path, program, texts, decision))


def test_what_is_suggested_counts_no_member_that_is_shut(tmp_path: Path, program: Program) -> None:
    members = "".join(
        f"interface GigabitEthernet1/{number}\n channel-group 1 mode active\n{more}"
        for number, more in ((1, ""), (2, ""), (3, " shutdown\n"))
    )
    text = A_OSPF.replace("interface Vlan1\n", members + "interface Port-channel1\n")
    found = report(tmp_path, program, (text, B_OSPF))
    assert 'bandwidth at r0.cfg "Port-channel1" 2000000' in skeleton(found.folder, found.refused)
