"""What devices do beside the words of a line: where the profile cannot say it, the line is refused, and never written
as something else."""
from __future__ import annotations

from pathlib import Path

import pytest

from bonsainet.importing.report import Report
from bonsainet.importing.tests.test_refusals import A, A_BGP, A_OSPF, B, B_BGP, B_OSPF, refused, report
from bonsainet.importing.tool import import_folder
from bonsainet.ask.program import Program
from bonsainet.configs.text import text_of

FRR = "frr version 8.4.4\nfrr defaults datacenter\n"
SECOND = " ip address 10.9.0.1 255.255.255.0 secondary\n"


def prefixes(program: Program, found: Report) -> set[str]:
    """All prefixes that the text of a report originates."""
    assert not found.folder.log.refusals, found.text
    return {prefix for one in program.classes(text_of(found.folder.routers)) for prefix in one.prefixes}


def of_frr(tmp_path: Path, program: Program, **files: str) -> Report:
    """The report on one folder of FRR's files."""
    for name, text in files.items():
        (tmp_path / f"{name}.conf").write_text(text)
    return import_folder(str(tmp_path), program)


@pytest.mark.parametrize(
    "interface, process, is_announced",
    [
        ("", " network 0.0.0.0 255.255.255.255 area 0\n", True),
        (" ip ospf 1 area 0\n", "", True),
        (" ip ospf 1 area 0 secondaries none\n", "", False),
        ("", " network 10.1.0.1 0.0.0.0 area 0\n", False),
    ],
)
def test_a_secondary_address_is_in_the_area_by_its_own_line(
    interface: str, process: str, is_announced: bool, tmp_path: Path, program: Program
) -> None:
    text = A + SECOND + interface + "router ospf 1\n network 172.16.0.0 0.0.0.3 area 0\n" + process
    assert ("10.9.0.0/24" in prefixes(program, report(tmp_path, program, (text, B_OSPF)))) is is_announced


def test_a_secondary_address_alone_does_not_start_ospf(tmp_path: Path, program: Program) -> None:
    text = A + SECOND + "router ospf 1\n network 172.16.0.0 0.0.0.3 area 0\n network 10.9.0.0 0.0.0.255 area 0\n"
    assert refused(report(tmp_path, program, (text, B_OSPF))) == {"secondary"}


def test_a_map_by_interface_takes_its_secondary_address(tmp_path: Path, program: Program) -> None:
    text = (
        A + SECOND + "router bgp 65001\n redistribute connected route-map LAN\n neighbor 172.16.0.2 remote-as 65002\n"
    )
    text += "route-map LAN permit 10\n match interface Vlan1\n"
    assert prefixes(program, report(tmp_path, program, (text, B_BGP))) == {"10.1.0.0/24", "10.9.0.0/24", "10.2.0.0/24"}


def test_an_interface_below_a_shut_one_of_a_vrf_is_down(tmp_path: Path, program: Program) -> None:
    shut = "interface GigabitEthernet0/5\n vrf forwarding RED\n shutdown\ninterface GigabitEthernet0/5.1\n ip address 10.9.0.1 255.255.255.0\n"
    found = report(tmp_path, program, (A_OSPF + shut, B_OSPF))
    assert "10.9.0.0/24" not in prefixes(program, found)


def test_a_map_of_next_hops_is_no_timer(tmp_path: Path, program: Program) -> None:
    text = A_BGP + " bgp nexthop route-map M\nroute-map M deny 10\n"
    assert refused(report(tmp_path, program, (text, B_BGP))) == {"program"}
    assert not refused(report(tmp_path, program, (A_BGP + " bgp nexthop trigger delay 5\n", B_BGP)))


def test_redistribution_stays_where_its_source_is_out_of_sight(tmp_path: Path, program: Program) -> None:
    text = (
        A_BGP
        + " redistribute static\n redistribute ospf 1\nip route 10.8.0.0 255.255.0.0 10.1.0.9\nrouter ospf 1\n network 10.1.0.0 0.0.0.255 area 0\n"
    )
    dropped = 'drop "ip route *" because "asked so"\ndrop "router ospf 1" because "asked so"\n'
    found = report(tmp_path, program, (text, B_BGP), dropped)
    assert [one.text for one in found.folder.log.refusals] == ["redistribute static", "redistribute ospf 1"]
    assert not refused(report(tmp_path, program, (A_BGP + " redistribute static\n redistribute ospf 1\n", B_BGP)))


@pytest.mark.parametrize(
    "daemon, protocol", [("isisd", "isis"), ("ripd", "rip"), ("fabricd", "openfabric"), ("nhrpd", "nhrp")]
)
def test_redistribution_from_a_daemon_whose_file_is_not_read(
    daemon: str, protocol: str, tmp_path: Path, program: Program
) -> None:
    process = f"router bgp 65001\n no bgp ebgp-requires-policy\n redistribute {protocol}\n"
    interface = "hostname a\ninterface eth0\n ip address 10.1.0.1/24\n"
    found = of_frr(tmp_path, program, zebra=interface, bgpd=process, **{daemon: "! a daemon\n"})
    assert [one.text for one in found.folder.log.refusals] == [f"redistribute {protocol}"]
    assert f"./{daemon}.conf was not read: its daemon carries no IPv4 routes of BGP or OSPF" in found.folder.log.remarks
    (tmp_path / f"{daemon}.conf").unlink()
    assert bool(refused(import_folder(str(tmp_path), program))) is (protocol == "nhrp")


def test_ospfv3_that_carries_ipv4_is_refused(tmp_path: Path, program: Program) -> None:
    text = (
        A_OSPF
        + "router ospfv3 1\n address-family {0} unicast\n exit-address-family\ninterface Vlan7\n ip address 10.7.0.1 255.255.255.0\n ospfv3 1 {0} area 0\n"
    )
    found = report(tmp_path, program, (text.format("ipv4"), B_OSPF))
    assert [one.text for one in found.folder.log.refusals] == ["router ospfv3 1", "ospfv3 1 ipv4 area 0"]
    assert not refused(report(tmp_path, program, (text.format("ipv6"), B_OSPF)))


def test_point_to_multipoint_without_neighbours(tmp_path: Path, program: Program) -> None:
    text = A_OSPF.replace("10.1.0.1 255.255.255.0\n", "10.1.0.1 255.255.255.0\n ip ospf network point-to-multipoint\n")
    assert refused(report(tmp_path, program, (text, B_OSPF))) == {"ospf-network-type"}


def test_a_link_without_a_subnet(tmp_path: Path, program: Program) -> None:
    text = "interface eth0\n ip address 10.0.0.1/32\n ip ospf network point-to-point\n ip ospf area 0\n ip ospf cost 5\nexit\nrouter ospf\nexit\n"
    assert refused(of_frr(tmp_path, program, frr=FRR + "hostname a\n" + text)) == {"mask-mismatch"}


@pytest.mark.parametrize(
    "lines, is_refused",
    [
        ((" passive-interface default", " no passive-interface GigabitEthernet0/0"), False),
        ((" no passive-interface GigabitEthernet0/0", " passive-interface default"), True),
        ((" passive-interface GigabitEthernet0/0", " no passive-interface GigabitEthernet0/0"), True),
        ((" passive-interface GigabitEthernet0/0", " passive-interface default"), False),
    ],
)
def test_the_order_of_passive_lines(lines: tuple[str, str], is_refused: bool, tmp_path: Path, program: Program) -> None:
    found = report(tmp_path, program, (A_OSPF + "\n".join([*lines, ""]), B_OSPF))
    assert refused(found) == ({"passive-order"} if is_refused else set())


def test_numbers_of_frr_lists_decide_their_order(tmp_path: Path, program: Program) -> None:
    lists = "ip prefix-list P seq 7 permit 9.0.0.0/8\nip prefix-list P deny 10.1.0.0/24\nip prefix-list P seq 11 permit any\n"
    lists += "access-list A seq 20 permit any\naccess-list A seq 10 deny 10.1.0.0/24\nroute-map M permit 10\n match ip address A\nexit\n"
    process = "router bgp 65001\n neighbor 172.16.0.2 remote-as 65002\n neighbor 172.16.0.2 prefix-list P in\n neighbor 172.16.0.2 route-map M out\n"
    interfaces = (
        "hostname a\ninterface eth0\n ip address 172.16.0.1/30\nexit\ninterface eth1\n ip address 10.1.0.1/24\nexit\n"
    )
    found = of_frr(tmp_path, program, frr=FRR + interfaces + lists + process + " network 10.1.0.0/24\n")
    text = text_of(found.folder.routers)
    assert "ip prefix-list P seq 10 deny 10.1.0.0/24\n" in text
    assert (
        "ip prefix-list ACCESS-A seq 5 deny 10.1.0.0/24 le 32\nip prefix-list ACCESS-A seq 10 permit 0.0.0.0/0 le 32\n"
        in text
    )


def test_a_black_hole_of_frr_originates(tmp_path: Path, program: Program) -> None:
    text = FRR + "hostname a\nip route 10.7.0.0/16 blackhole\nrouter bgp 65001\n network 10.7.0.0/16\n"
    assert prefixes(program, of_frr(tmp_path, program, frr=text)) == {"10.7.0.0/16"}


def test_extended_communities_of_a_member_leave_the_standard_ones_of_its_group(
    tmp_path: Path, program: Program
) -> None:
    group = " neighbor G peer-group\n neighbor G send-community\n neighbor 172.16.0.2 peer-group G\n neighbor 172.16.0.2 send-community extended\n"
    text = text_of(report(tmp_path, program, (A_BGP + group, B_BGP)).folder.routers)
    assert " neighbor 172.16.0.2 send-community\n" in text and " neighbor 172.16.0.2 send-community extended\n" in text


def test_a_dropped_family_goes_with_its_lines(tmp_path: Path, program: Program) -> None:
    family = " address-family vpnv4\n  neighbor 172.16.0.2 activate\n  neighbor 172.16.0.2 route-map M in\n exit-address-family\nroute-map M deny 10\n"
    text = text_of(
        report(
            tmp_path, program, (A_BGP + family, B_BGP), 'drop! "address-family vpnv4" because "no VPN"\n'
        ).folder.routers
    )
    assert "route-map M in" not in text and "! assumed: address-family vpnv4" in text


def test_a_table_of_an_interface_is_protected(tmp_path: Path, program: Program) -> None:
    text = A_BGP + "vrf definition RED\ninterface Vlan9\n vrf forwarding RED\n ip address 10.9.0.1 255.255.255.0\n"
    assert refused(report(tmp_path, program, (text, B_BGP), 'drop "vrf *" because "no"\n')) == {"protected"}
    assert not refused(report(tmp_path, program, (text, B_BGP), 'drop "vrf definition *" because "no"\n'))


@pytest.mark.parametrize(
    "text",
    [
        A_OSPF.replace("255.255.255.252\n", "255.255.255.252\n bandwidth \u00b2\n"),
        A_OSPF + " auto-cost reference-bandwidth \u00b2\n",
        A_BGP.replace("bgp 65001", "bgp \u00b2"),
        A_BGP + " neighbor 172.16.0.2 maximum-prefix \u00b2\n",
        A_BGP + "ip prefix-list P seq \u00b2 permit 10.0.0.0/8\n",
        A_BGP + "ip community-list \u00b2 permit 1:1\n",
    ],
)
def test_digits_outside_ascii_are_refused(text: str, tmp_path: Path, program: Program) -> None:
    assert refused(report(tmp_path, program, (text, B))) == {"characters"}
