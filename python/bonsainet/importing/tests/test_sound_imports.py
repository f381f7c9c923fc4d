"""Imports that write routes otherwise: what each writes, and what it refuses because devices can do something else."""
from __future__ import annotations

from pathlib import Path

import pytest

from bonsainet.ask.program import Program
from bonsainet.cli.command_line import Refused
from bonsainet.configs.text import text_of
from bonsainet.importing.report import Report
from bonsainet.importing.rules.options import Options
from bonsainet.importing.tests.test_refusals import A_BGP, A_OSPF, B_BGP, B_OSPF, refused, report
from bonsainet.importing.tool import import_folder

SENDS = A_BGP + " neighbor 172.16.0.2 send-community\n"
MAPPED = SENDS.replace("255.255.255.0\n neighbor", "255.255.255.0 route-map ORIG\n neighbor", 1)
ORIG = "route-map ORIG permit 10\n set community 65000:1 65000:2\n set local-preference 300\n"
IN = " neighbor 172.16.0.2 route-map IN in\n"
OUT = " neighbor 172.16.0.2 route-map OUT out\n"
AREA_1 = "hostname c\ninterface GigabitEthernet0/0\n ip address 172.16.1.2 255.255.255.252\ninterface Vlan1\n ip address 10.3.0.1 255.255.255.0\nrouter ospf 1\n network 0.0.0.0 255.255.255.255 area 1\n redistribute static\nip route 10.9.0.0 255.255.0.0 Null0\n"
BORDER = "interface GigabitEthernet0/1\n ip address 172.16.1.1 255.255.255.252\n"


def label(found: Report, program: Program, router: str, prefix: str) -> str:
    """The label of a router for a prefix at rest."""
    assert not refused(found), found.text
    text = text_of(found.folder.routers)
    one = next(one for one in program.classes(text) if prefix in one.prefixes)
    told = program.done("run", "F", str(one.number), "S", texts={"F": text, "S": "*\n" * 9})
    return next(line for line in told.splitlines() if line.startswith(f"{router} ")).partition(" ")[2]


def test_communities_from_the_start_are_set_where_a_route_leaves(tmp_path: Path, program: Program) -> None:
    found = report(tmp_path, program, (MAPPED + ORIG, B_BGP))
    assert label(found, program, "b", "10.1.0.0/24") == "bgp 100 path 65001 comms 65000:1 65000:2"
    assert label(found, program, "a", "10.1.0.0/24") == "bgp 100 path comms"
    assert any("shows none of them (r0.cfg:7)" in told for told in found.folder.log.remarks)


@pytest.mark.parametrize(
    "out, told",
    [
        ("route-map OUT deny 10\n match community 1\nroute-map OUT permit 20\n", "none"),
        ("route-map OUT permit 10\n match community 1\n set comm-list 1 delete\n", "bgp 100 path 65001 comms 65000:2"),
        ("route-map OUT permit 0\n set community none\n", "bgp 100 path 65001 comms"),
        (
            "route-map OUT permit 1\n match community 1\n set as-path prepend 65001\n",
            "bgp 100 path 65001*2 comms 65000:1 65000:2",
        ),
    ],
)
def test_an_out_map_sees_communities_from_the_start(out: str, told: str, tmp_path: Path, program: Program) -> None:
    lists = "ip community-list 1 permit 65000:1\n"
    found = report(tmp_path, program, (MAPPED + OUT + ORIG + lists + out, B_BGP))
    assert label(found, program, "b", "10.1.0.0/24") == told


def test_a_map_that_is_in_and_out_gets_a_copy(tmp_path: Path, program: Program) -> None:
    both = " neighbor 172.16.0.2 route-map BOTH in\n neighbor 172.16.0.2 route-map BOTH out\n"
    maps = "route-map BOTH permit 10\n set community no-export additive\n"
    found = report(tmp_path, program, (SENDS + both + maps, B_BGP))
    assert label(found, program, "b", "10.1.0.0/24") == "bgp 100 path 65001 comms 65534:65281"
    assert label(found, program, "a", "10.2.0.0/24") == "bgp 100 path 65002 comms 65534:65281"


@pytest.mark.parametrize("word", ["no-export", "no-advertise", "local-AS", "65535:65281", "4294967041"])
def test_what_is_not_exported_stays_with_who_holds_it(word: str, tmp_path: Path, program: Program) -> None:
    middle = B_BGP.replace("router bgp", BORDER + "router bgp") + " neighbor 172.16.1.2 remote-as 65003\n"
    last = AREA_1.partition("router ospf")[0] + "router bgp 65003\n neighbor 172.16.1.1 remote-as 65002\n"
    first = SENDS + OUT + f"route-map OUT permit 10\n set community {word}\n"
    found = report(tmp_path, program, (first, middle, last))
    assert label(found, program, "b", "10.1.0.0/24").startswith("bgp 100 path 65001 comms 65534:6528")
    assert label(found, program, "c", "10.1.0.0/24") == "none"
    assert label(found, program, "c", "10.2.0.0/24") == "bgp 100 path 65002 comms"


def test_a_prefix_that_is_not_exported_from_the_start(tmp_path: Path, program: Program) -> None:
    found = report(tmp_path, program, (MAPPED + ORIG.replace("65000:2", "no-export"), B_BGP))
    assert label(found, program, "b", "10.1.0.0/24") == "none"


@pytest.mark.parametrize(
    "lines, name",
    [
        (MAPPED + ORIG + " set weight 5\n", "network-map"),
        (MAPPED + ORIG + " continue 20\n", "network-map"),
        (MAPPED + ORIG + " set community internet\n", "network-map"),
        (MAPPED + ORIG + " set as-path prepend 65001\n", "network-map"),
        (MAPPED + OUT + ORIG + "route-map OUT permit 10\n match metric 5\n", "origin-communities"),
        (A_BGP + " neighbor 172.16.0.2 weight 40000\n", "weight"),
        (A_BGP + IN + " neighbor 172.16.0.2 weight 5\n", "weight"),
        (A_BGP + " neighbor 172.16.0.2 filter-list 1 in\nip as-path access-list 1 permit _65004_\n", "as-path"),
        (A_BGP + " neighbor 172.16.0.2 filter-list 1 in\nip as-path access-list 1 permit _(65002\n", "as-path"),
        (A_BGP + " neighbor 172.16.0.2 filter-list 1 in\n", "program"),
        (
            A_BGP + IN + "ip community-list expanded L permit .*\nroute-map IN permit 10\n match community L\n",
            "program",
        ),
        (
            A_BGP
            + IN
            + "ip community-list expanded L permit 1:1\nroute-map IN permit 10\n match community L exact-match\n",
            "program",
        ),
    ],
)
def test_what_can_say_something_else_is_refused(lines: str, name: str, tmp_path: Path, program: Program) -> None:
    third = AREA_1.partition("router ospf")[0] + "router bgp 65003\n network 10.3.0.0 mask 255.255.255.0\n"
    fourth = "hostname d\ninterface GigabitEthernet0/0\n ip address 172.16.2.2 255.255.255.252\nrouter bgp 65004\n"
    middle = B_BGP.replace("router bgp", BORDER + "router bgp")
    assert name in refused(report(tmp_path, program, (lines, middle, third, fourth)))


@pytest.mark.parametrize(
    "list_lines, way, prefix, told",
    [
        ("permit ^$", "out", "10.1.0.0/24", "bgp 100 path 65001 comms"),
        ("deny ^$", "out", "10.1.0.0/24", "none"),
        ("permit .*", "out", "10.1.0.0/24", "bgp 100 path 65001 comms"),
        ("permit _65009_", "out", "10.1.0.0/24", "none"),
    ],
)
def test_as_path_lists(list_lines: str, way: str, prefix: str, told: str, tmp_path: Path, program: Program) -> None:
    lines = f" neighbor 172.16.0.2 filter-list 1 {way}\nip as-path access-list 1 {list_lines}\n"
    assert label(report(tmp_path, program, (A_BGP + lines, B_BGP)), program, "b", prefix) == told


def test_an_as_path_list_beside_a_prefix_list(tmp_path: Path, program: Program) -> None:
    lines = (
        OUT
        + "ip as-path access-list 1 permit ^$\nip prefix-list P seq 5 deny 10.1.0.0/24\nip prefix-list P seq 10 permit 0.0.0.0/0 le 32\n"
    )
    lines += "route-map OUT permit 10\n match as-path 1\n match ip address prefix-list P\n"
    assert label(report(tmp_path, program, (A_BGP + lines, B_BGP)), program, "b", "10.1.0.0/24") == "none"


def test_weights_come_before_preferences(tmp_path: Path, program: Program) -> None:
    lines = IN + "ip prefix-list P seq 5 permit 10.2.0.0/24\nroute-map IN permit 10\n match ip address prefix-list P\n"
    lines += " set local-preference 50\n set weight 10\nroute-map IN permit 20\n"
    found = report(tmp_path, program, (A_BGP + lines, B_BGP))
    assert label(found, program, "a", "10.2.0.0/24") == "bgp 101 path 65002 comms"
    told = "100 for weight 0, preference 100, 101 for weight 10, preference 50"
    assert f"a: its preferences stand for weights too: {told}" in found.folder.log.remarks


def test_one_weight_for_all_has_no_bearing(tmp_path: Path, program: Program) -> None:
    lines = IN + " neighbor 172.16.0.2 weight 10\nroute-map IN permit 10\n set local-preference 50\n"
    found = report(tmp_path, program, (A_BGP + lines, B_BGP))
    assert label(found, program, "a", "10.2.0.0/24") == "bgp 50 path 65002 comms"


def test_expanded_lists_name_the_communities_of_the_folder(tmp_path: Path, program: Program) -> None:
    first = MAPPED + ORIG
    second = B_BGP + " neighbor 172.16.0.1 route-map IN in\nip community-list expanded L permit 65000:[2-9]\n"
    second += "route-map IN permit 10\n match community L\n set comm-list L delete\n"
    found = report(tmp_path, program, (first, second))
    assert label(found, program, "b", "10.1.0.0/24") == "bgp 100 path 65001 comms 65000:1"


def test_an_address_that_nobody_uses(tmp_path: Path, program: Program) -> None:
    idle = "interface Vlan9\n ip address 192.0.2.1 255.255.255.0\n"
    texts = tuple(text.replace("router bgp", idle + "router bgp") for text in (A_BGP, B_BGP))
    # (without a line both routers would take this address for their identifier)
    assert refused(report(tmp_path, program, texts)) == {"router-id"}
    texts = (texts[0] + " bgp router-id 10.1.0.1\n", texts[1] + " bgp router-id 10.2.0.1\n")
    assert not refused(report(tmp_path, program, texts))
    used = (texts[0], texts[1] + " neighbor 192.0.2.9 remote-as 65009\n")
    assert refused(report(tmp_path, program, used)) == {"program"}


def area(tmp_path: Path, program: Program, texts: tuple[str, ...], number: int = 0) -> Report:
    """The report on one area of a folder."""
    return report(tmp_path, program, texts, options=Options(area=number))


def test_one_area_of_two(tmp_path: Path, program: Program) -> None:
    middle = B_OSPF.replace("router ospf", BORDER + "router ospf").replace(
        "network 0.0.0.0 255.255.255.255 area 0",
        "network 172.16.1.1 0.0.0.0 area 1\n network 172.16.0.2 0.0.0.0 area 0",
    )
    lines = " area 1 stub no-summary\n area 1 range 10.3.0.0 255.255.0.0\n default-information originate always\n"
    found = area(tmp_path, program, (A_OSPF, middle + lines, AREA_1))
    assert label(found, program, "b", "10.1.0.0/24") == "cost 2"
    assert [router.name for router in found.folder.routers] == ["a", "b"]
    assert {prefix for one in program.classes(text_of(found.folder.routers)) for prefix in one.prefixes} == {
        "10.1.0.0/24",
        "172.16.0.0/30",
    }
    assert "Warned (1)" in found.text and "left out: r1.cfg:13, c" in found.text
    assert [router.name for router in area(tmp_path, program, (A_OSPF, middle, AREA_1), 1).folder.routers] == ["b", "c"]


@pytest.mark.parametrize(
    "middle, told",
    [
        (" network 0.0.0.0 255.255.255.255 area 0\n network 172.16.1.1 0.0.0.0 area 1\n", "cover its address"),
        (" network 172.16.0.2 0.0.0.0 area 0\n network 172.16.1.1 0.0.0.0 area 0\n", "is in another area too"),
        (" network 10.2.0.1 0.0.0.0 area 0\n network 172.16.1.1 0.0.0.0 area 1\n", "no link of the area joins it"),
        (
            " network 172.16.0.2 0.0.0.0 area 0\n network 172.16.1.1 0.0.0.0 area 1\n area 1 virtual-link 9.9.9.9\n",
            "a virtual link is a link of the backbone",
        ),
    ],
)
def test_areas_that_cannot_be_parted(middle: str, told: str, tmp_path: Path, program: Program) -> None:
    text = B_OSPF.replace("router ospf", BORDER + "router ospf").replace(
        " network 0.0.0.0 255.255.255.255 area 0\n", middle
    )
    found = area(tmp_path, program, (A_OSPF, text, AREA_1))
    assert refused(found) == {"area"} and told in found.text


def test_an_area_that_is_not_there(tmp_path: Path, program: Program) -> None:
    with pytest.raises(Refused, match="--area 7: no interface of the folder is in this area"):
        area(tmp_path, program, (A_OSPF, B_OSPF), 7)
    with pytest.raises(Refused, match="--area x: not the number of an area"):
        Options.of(False, [], area="x")
    assert Options.of(False, [], area="0.0.0.5").area == 5


def test_a_static_route_to_a_subnet_that_nobody_announces(tmp_path: Path, program: Program) -> None:
    idle = "interface Loopback9\n ip address 192.0.2.9 255.255.255.255\n"
    found = report(
        tmp_path,
        program,
        (A_BGP + "ip route 192.0.2.9 255.255.255.255 172.16.0.2\n", B_BGP.replace("router bgp", idle + "router bgp")),
    )
    assert not refused(found)


def test_a_line_that_frr_does_not_know(tmp_path: Path, program: Program) -> None:
    for name in "ab":
        text = f"frr version 8.4.4\nhostname {name}\ninterface lo\n ip address 10.0.0.{ord(name)}/32\n ip ospf cost 1\n"
        text += f"interface eth0\n ip address 172.16.0.{ord(name) - 96}/30\n ip ospf cost 3\nrouter ospf\n passive interface lo\n network 0.0.0.0/0 area 0\n"
        (tmp_path / f"{name}.conf").write_text(text)
    found = import_folder(str(tmp_path), program)
    assert not refused(found) and any(one.rule == "frr-unknown" for one in found.changes)
