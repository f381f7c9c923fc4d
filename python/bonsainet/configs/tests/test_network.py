"""What a text means to the tools is what the program says of it: links, origins with costs, unmatched neighbours."""
from pathlib import Path

import pytest

from bonsainet.configs.network import Network, is_active, read_network
from bonsainet.ask.program import TOP, classes_of, sizes_of
from bonsainet.configs.profile import community, community_text

EXAMPLES = TOP / "examples" / "inputs"
ANSWERS = TOP / "examples" / "answers"
COUNTS = {
    "two-routers": 1,
    "ospf-star": 2,
    "two-lone-routers": 18,
    "full-mesh": 1225,
    "fabric": 8,
    "many-communities": 4,
    "two-sites-running-config": 2,
}


def network_of(name: str) -> Network:
    return read_network((EXAMPLES / name).read_text(), name)


@pytest.mark.parametrize("name, answer", [("campus.cfg", "campus-summary"), ("fat-tree-4.cfg", "trial-4")])
def test_links_are_those_that_the_program_counts(name: str, answer: str) -> None:
    network = network_of(name)
    for size in sizes_of((ANSWERS / f"{answer}.out").read_text()):
        assert (size.routers, size.links) == (len(network.devices), len(network.links))


@pytest.mark.parametrize("name, count", COUNTS.items())
def test_links_are_as_many_as_the_program_told(name: str, count: int) -> None:
    assert len(network_of(f"{name}.cfg").links) == count


@pytest.mark.parametrize("name", ["campus", "two-routers", "edge-and-provider"])
def test_origins_and_costs_are_those_of_the_classes(name: str) -> None:
    told = classes_of((ANSWERS / f"{name}-classes.out").read_text())
    wanted = {(router, prefix, cost) for found in told for prefix in found.prefixes for router, cost in found.origins}
    assert {(origin.device, str(origin.prefix), origin.cost) for origin in network_of(f"{name}.cfg").origins} == wanted


def test_unmatched_neighbours() -> None:
    found = network_of("edge-and-provider.cfg").unmatched
    assert [(device.name, str(neighbor.address)) for device, neighbor in found] == [("border", "192.0.2.77")]


def test_lines_of_both_ends_are_at_hand() -> None:
    link = network_of("edge-and-provider.cfg").links[0]
    assert link.low.neighbor and link.high.neighbor
    assert (link.low.neighbor.map_in, link.high.neighbor.list_in) == ("FROM-PROVIDER", "CUSTOMER-64510")
    assert str(link.low.neighbor.line.place) == "edge-and-provider.cfg:23"


def test_a_comment_at_the_margin_closes_no_stanza() -> None:
    network = read_network("hostname a\ninterface Vlan1\n!\n ip address 10.0.0.1 255.255.255.0\n  shutdown\nend\n")
    interface = network.devices[0].interfaces[0]
    assert (str(interface.address), interface.is_up) == ("10.0.0.1/24", False)


def test_a_wildcard_with_holes_and_passive_default() -> None:
    text = (
        "hostname a\ninterface Serial0/0\n ip address 10.1.7.1 255.255.255.0\ninterface Serial0/1\n ip address 10.2.7.1 255.255.255.0\n"
        "router ospf 1\n passive-interface default\n no passive-interface Serial0/0\n network 10.0.7.0 0.255.0.255 area 0.0.0.1\nend\n"
    )
    network = read_network(text)
    device = network.devices[0]
    assert network.area == 1
    assert [(str(origin.prefix), origin.cost) for origin in network.origins] == [
        ("10.1.7.0/24", 64),
        ("10.2.7.0/24", 64),
    ]
    assert [is_active(device, interface) for interface in device.interfaces] == [True, False]


def test_members_are_kept() -> None:
    network = read_network("hostname a\n! member a\n! member b\n! member\n!\nend\n")
    assert network.devices[0].members == ["a", "b"]


@pytest.mark.parametrize("word, value", [("65000:1", 65000 << 16 | 1), ("65537", 65537)])
def test_communities(word: str, value: int) -> None:
    assert community(word) == value
    assert community(community_text(value)) == value


def test_each_example_is_read() -> None:
    for path in sorted(Path(EXAMPLES).glob("*.cfg")):
        read_network(path.read_text(), path.name)
