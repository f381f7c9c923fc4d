"""The parts of a lab that need no root: plans, wires, labels from FRR's words, ranks, and the table."""
import pytest
from hypothesis import given
from hypothesis import strategies as st

from bonsainet.exporting import frr
from bonsainet.nets.fat_tree import fat_tree_text
from bonsainet.lab.held import accepted, label_of, labels_of
from bonsainet.lab.namespaces import hardware_address, link_commands, port_commands
from bonsainet.lab.plan import Plan, daemon_files, plan_of
from bonsainet.lab.rest import NoRest, adjacencies_missing
from bonsainet.lab.ties import ranks_of
from bonsainet.lab.tools import STATUS_NOT_STABLE
from bonsainet.ask.labels import BgpLabel, OspfLabel, read_solution, solution_text
from bonsainet.configs.network import Network, read_network
from bonsainet.ask.program import TOP

NUMBER = st.integers(1, 4294967295)
COMMUNITIES = st.lists(st.integers(1, 4294901759), unique=True, max_size=4).map(lambda values: tuple(sorted(values)))
BGP_LABELS = st.builds(
    BgpLabel, st.integers(0, 4294967295), st.lists(st.sampled_from([1, 2, 65001]), max_size=40).map(tuple), COMMUNITIES
)
LABELS = st.none() | BGP_LABELS | st.builds(OspfLabel, NUMBER)


def example(name: str) -> Network:
    return read_network((TOP / "examples" / "inputs" / name).read_text(), name)


def plan(name: str) -> Plan:
    network = example(name)
    return plan_of(network, frr.export(network, with_lab_timers=True), ["10.0.0.0/24"])


def test_the_fat_tree_is_the_example() -> None:
    assert fat_tree_text(4) == (TOP / "examples" / "inputs" / "fat-tree-4.cfg").read_text()


@given(st.dictionaries(st.sampled_from(["a", "b", "core-1"]), LABELS))
def test_labels_are_read_back(labels: dict) -> None:
    assert read_solution(solution_text(labels)) == labels


def test_long_paths_are_written_as_runs() -> None:
    label = BgpLabel(100, (7,) * 13 + (8,), (65537,))
    assert solution_text({"a": label, "b": None}) == "a bgp 100 path 7*11 7*2 8 comms 1:1\nb none\n"


def test_a_plan_is_carried_as_text() -> None:
    made = plan("campus.cfg")
    assert Plan.of_text(made.text()) == made


def test_wires_of_two_ends_are_pairs_and_of_more_are_bridges() -> None:
    commands = link_commands(plan("ospf-wire.cfg"))
    assert "link add name b0 type bridge\n" in commands
    assert commands.count("master b0") == 5
    assert "type veth peer name Loopback0 netns r4\n" in commands
    assert "dev Gi0-0 nud permanent" not in port_commands(plan("ospf-wire.cfg"))["r0"]
    pairs = link_commands(plan("two-routers.cfg"))
    assert pairs.count("type veth peer") == 1 + pairs.count("link set p") and "bridge" not in pairs


def test_peers_are_the_other_ends_of_links() -> None:
    peers = {router.name: router.peers for router in plan("ospf-wire.cfg").routers}
    assert peers["one"] == ["10.0.0.2", "10.0.0.3", "10.0.0.4", "10.0.0.5"]


def test_each_daemon_reads_its_own_lines() -> None:
    network = example("campus.cfg")
    text = frr.export(network).files["access2.conf"]
    files = daemon_files(text, "ospf")
    assert " ip address 10.10.1.1/24" in files["zebra"] and "ospf" not in files["zebra"]
    assert "router ospf" in files["ospfd"] and "ip address" not in files["ospfd"]
    for line in text.splitlines():
        assert line == "end" or line in (files["zebra"] + files["ospfd"]).splitlines()


def test_a_router_without_a_process_runs_zebra_alone() -> None:
    network = read_network(
        "hostname a\ninterface Vlan1\n ip address 10.0.0.1 255.255.255.0\nrouter bgp 1\nend\nhostname b\nend\n"
    )
    routers = plan_of(network, frr.export(network), []).routers
    assert [router.daemons for router in routers] == [["zebra", "bgpd"], ["zebra"]]


ROUTE = {
    "valid": True,
    "aspath": {"segments": [{"type": "as-sequence", "list": [65002, 65001]}]},
    "community": {"list": ["2:2", "1:1"]},
}


def test_labels_from_the_words_of_bgpd() -> None:
    network = read_network("hostname a\nrouter bgp 1\n bgp default local-preference 150\nend\n")
    device = network.devices[0]
    best = {**ROUTE, "locPrf": 7, "bestpath": {"overall": True}}
    assert label_of(network, device, [ROUTE, best]) == BgpLabel(7, (65002, 65001), (65537, 131074))
    assert accepted(device, [ROUTE, {**ROUTE, "valid": False}]) == [BgpLabel(150, (65002, 65001), (65537, 131074))]
    assert label_of(network, device, [ROUTE]) is None
    assert labels_of(network, {}, "10.0.0.0/24") == {"a": None}


def test_labels_from_the_words_of_ospfd() -> None:
    network = example("ospf-star.cfg")
    assert labels_of(network, {"a": {"1.1.1.1/32": 1}, "b": {"1.1.1.1/32": None}}, "1.1.1.1/32") == {
        "a": OspfLabel(1),
        "b": None,
        "c": None,
    }


def test_ranks_follow_communities_and_then_lone_numbers() -> None:
    by_lone, without, marked = BgpLabel(100, (2, 1), ()), BgpLabel(100, (3, 1), ()), BgpLabel(100, (3, 1), (65537,))
    assert ranks_of({marked, by_lone, without, BgpLabel(100, (), ())}, frozenset({2})) == [
        [without],
        [by_lone],
        [marked],
    ]


def test_a_wire_waits_for_its_designated_router() -> None:
    router = next(router for router in plan("ospf-wire.cfg").routers if router.name == "one")
    states = [("Gi0-0", address, "2-Way/DROther") for address in router.peers]
    assert adjacencies_missing(router, states) == "one: no designated router at Gi0-0"
    assert adjacencies_missing(router, [*states[:3], ("Gi0-0", router.peers[3], "Full/DR")]) is None
    assert adjacencies_missing(router, states[:3]) == "one: no session with 10.0.0.5 (1 lacking)"


def test_a_session_that_the_network_does_not_have_ends_the_lab() -> None:
    router = next(router for router in plan("ospf-wire.cfg").routers if router.name == "one")
    states = [("Gi0-0", address, "Full/DR") for address in [*router.peers, "10.0.0.9"]]
    with pytest.raises(NoRest, match="one: a session with 10.0.0.9 that the network does not have"):
        adjacencies_missing(router, states)


CABLE = (
    "hostname a\ninterface Vlan1\n ip address 10.0.0.1 255.255.255.0\ninterface Serial0/0\n ip address 10.0.1.0 255.255.255.254\nrouter ospf 1\n passive-interface Vlan1\n"
    " network 0.0.0.0 255.255.255.255 area 0\nend\n"
    "hostname b\ninterface Vlan1\n ip address 10.0.0.2 255.255.255.0\ninterface Serial0/0\n ip address 10.0.1.1 255.255.255.254\n shutdown\nrouter ospf 1\n passive-interface Vlan1\n"
    " network 0.0.0.0 255.255.255.255 area 0\nend\n"
)


def test_subnets_without_a_link_are_wired_so_that_a_lacking_line_shows() -> None:
    network = read_network(CABLE)
    assert network.links == []
    exported = frr.export(network, with_lab_timers=True)
    made = plan_of(network, exported, [])
    assert made.wires == [
        [("r0", "Loopback1", "10.0.0.1"), ("r1", "Loopback1", "10.0.0.2")],
        [("r0", "Se0-0", "10.0.1.0"), ("r1", "Se0-0", "10.0.1.1")],
    ]
    assert made.bridges == [False, True] and [router.stubs for router in made.routers] == [[], []]
    assert "link add name b1 type bridge\n" in link_commands(made) and "nud permanent" in port_commands(made)["r0"]
    assert exported.files["a.conf"].count(" ip ospf hello-interval 1\n") == 2


def test_the_other_end_of_a_pair_is_named() -> None:
    made = plan("two-routers.cfg")
    (space, port, _), (_, _, far) = made.wires[0]
    assert (
        f"neigh replace {far} lladdr {hardware_address(0, 1)} dev {port} nud permanent\n" in port_commands(made)[space]
    )
    assert hardware_address(70000, 1) == "02:00:01:11:70:01"


def test_the_manual_has_the_status_of_what_is_not_stable() -> None:
    told = f".B {STATUS_NOT_STABLE}\nThe routers came to rest in labels that are not stable"
    assert told in (TOP / "docs" / "man" / "bonsai-lab.1").read_text()
    assert f"`bonsai-lab` also {STATUS_NOT_STABLE}, " in (TOP / "docs" / "use" / "COMMANDS.md").read_text()
