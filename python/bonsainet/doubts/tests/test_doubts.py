"""Each sort of doubt stands where its rule says, with its reason, and a network as it is meant has none."""
from __future__ import annotations

import json

import pytest

from bonsainet.doubts.links import doubts_of_links
from bonsainet.doubts.policies import doubts_of_policies
from bonsainet.doubts.suggested import doubts_of_folder
from bonsainet.importing.read import read_folder
from bonsainet.configs.network import read_network
from bonsainet.ask.program import Program
from bonsainet.tests.asking import bytes_of, tool

BGP = "hostname {0}\ninterface Serial0/0\n ip address 10.0.0.{1} 255.255.255.252\n{3}router bgp {1}\n neighbor 10.0.0.{2} remote-as {2}\n{4}end\n"
OSPF = "hostname {0}\ninterface Serial0/0\n ip address 10.0.0.{1} 255.255.255.252\n{2}router ospf 1\n network 10.0.0.0 0.0.255.255 area 0\n{3}end\n"


def found(text: str, work) -> list[tuple[str, str, int, str]]:
    """Sort, router, line and reason of each doubt of an accepted text."""
    assert Program().refusal(text) is None
    return [(one.sort, one.router, one.place.line, one.told) for one in work(read_network(text, "F"))]


def bgp(interfaces: str = "", lines: str = "", far: str = BGP.format("b", 2, 1, "", "")) -> str:
    return BGP.format("a", 1, 2, interfaces, lines) + far


def ospf(interfaces: str = "", lines: str = "", far: str = OSPF.format("b", 2, "", "")) -> str:
    return OSPF.format("a", 1, interfaces, lines) + far


@pytest.mark.parametrize("name", ["campus.cfg", "fabric.cfg", "two-routers.cfg"])
def test_examples_have_none(name: str) -> None:
    network = read_network(bytes_of(name).decode(), name)
    assert [*doubts_of_links(network), *doubts_of_policies(network)] == []


@pytest.mark.parametrize(
    "interface, told",
    [
        ("", "no interface has the subnet 10.1.0.0/16; a static route to Null0 originates nothing here"),
        (" ip address 10.1.0.1 255.255.0.0\n shutdown\n", "Vlan1 has the subnet 10.1.0.0/16 and is shut down"),
        (
            " ip address 10.1.2.1 255.255.255.0\n",
            "no interface has exactly the subnet 10.1.0.0/16: that of Vlan1 is 10.1.2.0/24",
        ),
    ],
)
def test_a_network_line_that_originates_nothing(interface: str, told: str) -> None:
    text = bgp(f"interface Vlan1\n{interface}" if interface else "", " network 10.1.0.0 mask 255.255.0.0\n")
    line = text.split("\n").index(" network 10.1.0.0 mask 255.255.0.0") + 1
    assert found(text, doubts_of_links) == [("originates-nothing", "a", line, told)]


def test_an_area_line_that_covers_nothing() -> None:
    assert found(ospf(lines=" network 192.0.2.0 0.0.0.255 area 0\n"), doubts_of_links) == [
        ("originates-nothing", "a", 6, "no interface has an address that it covers")
    ]
    text = ospf(
        "interface Vlan1\n ip address 192.0.2.1 255.255.255.0\n shutdown\n", " network 192.0.2.0 0.0.0.255 area 0\n"
    )
    assert found(text, doubts_of_links)[0][3] == "of the interfaces that it covers none is up: Vlan1 is shut down"


def test_a_neighbour_in_no_session() -> None:
    text = bgp(lines=" neighbor 203.0.113.1 remote-as 64500\n")
    assert found(text, doubts_of_links) == [("no-session", "a", 6, "no router of the input has this address")]


def test_a_router_without_links() -> None:
    assert found(bgp(far="hostname b\nend\n"), doubts_of_links) == [
        ("no-session", "a", 5, "no router of the input has this address"),
        ("no-link", "a", 1, "none of its neighbours is part of a session"),
        ("no-link", "b", 7, "it has no BGP process"),
    ]


@pytest.mark.parametrize(
    "far, told",
    [
        ("hostname b\nend\n", "no other router is in 10.0.0.0/30; where hosts alone are there, make it passive"),
        (OSPF.format("b", 2, "", " passive-interface Serial0/0\n"), "Serial0/0 of b is passive"),
        (
            OSPF.format("b", 2, "", "").replace("10.0.0.0 0.0.255.255", "10.9.0.0 0.0.255.255"),
            "Serial0/0 of b is not in the area",
        ),
        (OSPF.format("b", 2, " shutdown\n", ""), "Serial0/0 of b is in 10.0.0.0/30 and shut down"),
        (
            OSPF.format("b", 2, "", "").replace("255.255.255.252", "255.255.255.248"),
            "Serial0/0 of b has 10.0.0.0/29, another mask than 10.0.0.0/30",
        ),
        ("hostname b\ninterface Serial0/0\n ip address 10.0.0.2 255.255.255.252\nend\n", "b has no OSPF process"),
    ],
)
def test_an_interface_without_a_neighbour(far: str, told: str) -> None:
    assert ("no-neighbour", "a", 3, f"Serial0/0: {told}") in found(ospf(far=far), doubts_of_links)


def test_lists_and_maps_that_nothing_uses() -> None:
    lines = (
        "ip prefix-list ALONE seq 5 permit 10.0.0.0/8\nip prefix-list USED seq 5 permit 10.0.0.0/8\nip community-list 10 permit 1:1\n"
        "ip community-list standard GONE permit 1:1\nroute-map IDLE permit 10\n match community 10\nroute-map IN permit 10\n set comm-list GONE delete\n"
    )
    assert found(
        bgp(lines=f" neighbor 10.0.0.2 route-map IN in\n neighbor 10.0.0.2 prefix-list USED out\n{lines}"),
        doubts_of_policies,
    ) == [
        ("unused", "a", 12, "no neighbour names the route map IDLE"),
        ("unused", "a", 8, "nothing names the prefix list ALONE"),
        ("unused", "a", 10, "only maps that no neighbour names name the community list 10"),
    ]


@pytest.mark.parametrize(
    "lines, is_reached",
    [
        ("route-map IN deny 10\nroute-map IN permit 20\n", False),
        (
            "route-map IN permit 10\n match ip address prefix-list P Q\nroute-map IN permit 20\n match ip address prefix-list P\n match community C\n",
            False,
        ),
        (
            "route-map IN permit 10\n match ip address prefix-list P\nroute-map IN permit 20\n match ip address prefix-list P Q\n",
            True,
        ),
        ("route-map IN permit 10\n match community C\nroute-map IN permit 20\n match community C exact-match\n", True),
        ("route-map IN permit 20\nroute-map IN permit 10\n match community C\n", True),
        ("route-map IN permit 10\n match ip address prefix-list P\nip prefix-list P seq 10 deny 10.1.2.0/24\n", False),
        ("route-map IN permit 10\n match ip address prefix-list P\nip prefix-list P seq 1 deny 10.1.0.0/16\n", True),
        ("route-map IN permit 10\n match community C\nip community-list standard C deny 1:1 2:2\n", False),
        ("route-map IN permit 10\n match community C\nip community-list standard C deny 2:2\n", True),
    ],
)
def test_an_entry_that_nothing_reaches(lines: str, is_reached: bool) -> None:
    lists = "ip prefix-list P seq 5 permit 10.1.0.0/16 le 24\nip prefix-list Q seq 5 permit 10.2.0.0/16\nip community-list standard C permit 1:1\n"
    sorts = [
        sort
        for sort, _, _, _ in found(bgp(lines=f" neighbor 10.0.0.2 route-map IN in\n{lists}{lines}"), doubts_of_policies)
        if sort != "unused"
    ]
    assert sorts == ([] if is_reached else ["not-reached"])


def test_links_that_a_folder_suggests(tmp_path) -> None:
    near, far = BGP.format("a", 1, 2, "", ""), BGP.format("b", 2, 1, "", "")
    (tmp_path / "a.txt").write_text(near)
    (tmp_path / "b.txt").write_text(far)
    folder = read_folder(str(tmp_path))

    def told(text: str) -> list[tuple[str, str, int, str]]:
        return found(text, lambda network: doubts_of_folder(network, folder))

    both = "Serial0/0 of a and Serial0/0 of b are in 10.0.0.0/30"
    assert told(near + far) == []
    assert told(near + far.replace(" neighbor 10.0.0.1 remote-as 1\n", "")) == [
        ("suggested-link", "a", 3, f"{both}: the text has no session between a and b")
    ]
    assert told(near) == [
        ("suggested-link", "a", 3, f"{both}: Serial0/0 of b belongs to a router that the text has not")
    ]
    assert told(near + far.replace(" ip address 10.0.0.2 255.255.255.252\n", "")) == [
        ("suggested-link", "a", 3, f"{both}: Serial0/0 of b is not up in the text")
    ]
    (tmp_path / "b.txt").write_text(far.replace(" ip address", " vrf forwarding MGMT\n ip address"))
    folder = read_folder(str(tmp_path))
    assert told(near) == [("suggested-link", "a", 3, f"{both}: Serial0/0 of b is in the VRF MGMT")]


def test_the_command() -> None:
    ran = tool("bonsai-doubts", "-", "--json", raw=bgp(lines=" neighbor 203.0.113.1 remote-as 64500\n").encode())
    assert (ran.returncode, ran.stderr) == (0, b"")
    assert json.loads(ran.stdout)["doubts"] == [
        {
            "sort": "no-session",
            "routers": ["a"],
            "file": "standard input",
            "line": 6,
            "text": "neighbor 203.0.113.1 remote-as 64500",
            "told": "no router of the input has this address",
        }
    ]


def test_a_text_that_is_refused() -> None:
    ran = tool("bonsai-doubts", "-", raw=b"hostname a\nmpls ip\nend\n")
    assert (ran.returncode, ran.stdout) == (1, b"")
    assert (
        ran.stderr
        == b"bonsai-doubts: standard input: refused: line 2: Unsupported; tools/bonsai-refusals lists all refusals\n"
    )
