"""What a loss takes down, which prefixes routers withdraw with it, and what a rest is among the solutions that are left. No
lab is run."""
import dataclasses

import pytest

from bonsainet.ask.labels import BgpLabel, read_solution
from bonsainet.ask.native import native
from bonsainet.ask.program import TOP, Program
from bonsainet.asking.reports import Tie
from bonsainet.cli.command_line import Refused
from bonsainet.configs.network import Network, read_network
from bonsainet.exporting import frr
from bonsainet.lab import after, tools
from bonsainet.lab.down import Down, ends_down, withdrawn
from bonsainet.lab.plan import Loss, Plan, plan_of
from bonsainet.lab.rest import NoRest, StillChanges, Watch

INPUTS = TOP / "examples" / "inputs"


def network(name: str) -> Network:
    return read_network((INPUTS / name).read_text(), name)


def plan(name: str, *words: str) -> Plan:
    made = network(name)
    return plan_of(made, frr.export(made, with_lab_timers=True), [], [Down.of(word) for word in words])


def test_words_name_routers_and_pairs() -> None:
    down = Down.of("a,b:c,d")
    assert down.routers == {"a", "d"} and down.pairs == {frozenset("bc")} and down.word == "a,b:c,d"


def test_a_router_loses_all_its_ports_and_its_neighbours_lose_it() -> None:
    made = plan("fat-tree-4.cfg", "core0")
    (loss,) = made.losses
    space = next(router.space for router in made.routers if router.name == "core0")
    own = {(near, port) for wire in made.wires for near, port, _ in wire if near == space}
    assert own and own <= set(loss.ports) and {near for near, _ in loss.ports} == {space}
    assert loss.routers == ["core0"] and loss.peers["core0"] == []
    before = {router.name: router.peers for router in made.routers}
    assert {name for name in before if before[name] != loss.peers[name]} == {
        "core0",
        *(f"agg{pod}-0" for pod in range(4)),
    }


def test_a_pair_loses_all_its_links() -> None:
    made = plan("asking/failing-parallel.cfg", "a:b")
    wires = [wire for wire in made.wires if {near for near, _, _ in wire} == {"r0", "r1"}]
    assert len(wires) == 2
    assert set(made.losses[0].ports) == {(near, port) for wire in wires for near, port, _ in wire}
    assert made.losses[0].routers == []


def test_a_router_and_a_link_of_it_are_taken_down_once() -> None:
    made = plan("fat-tree-4.cfg", "core0,core0:agg0-0", "core0")
    assert made.losses[0].ports == made.losses[1].ports


def test_a_port_that_is_shut_is_not_taken_down() -> None:
    text = (
        (INPUTS / "two-routers.cfg")
        .read_text()
        .replace("router bgp", "interface Vlan9\n ip address 9.9.9.9 255.0.0.0\n shutdown\nrouter bgp", 1)
    )
    made = read_network(text)
    assert "Vlan9" not in {end.interface.name for end in ends_down(made, Down.of(made.devices[0].name))}


def test_a_link_in_a_subnet_of_more_interfaces_is_refused() -> None:
    with pytest.raises(Refused, match="one:two: 5 interfaces are in 10.0.0.0/28"):
        ends_down(network("ospf-wire.cfg"), Down.of("one:two"))
    assert [end.interface.name for end in ends_down(network("ospf-wire.cfg"), Down.of("one"))] == [
        "GigabitEthernet0/0",
        "Vlan5",
    ]


def test_a_wire_of_two_is_withdrawn_by_who_is_left_and_a_bridge_is_not() -> None:
    assert withdrawn(network("ospf-wire.cfg"), Down.of("one")) == {"10.5.0.0/24"}
    assert withdrawn(network("ospf-wire.cfg"), Down.of("one,two")) == set()
    assert withdrawn(network("campus.cfg"), Down.of("core1:core2")) == {"10.0.0.0/30"}


def test_losses_are_carried_as_text() -> None:
    made = plan("campus.cfg", "core1", "core1:core2")
    assert Plan.of_text(made.text()) == made and all(
        isinstance(port, tuple) for loss in made.losses for port in loss.ports
    )


def test_the_lab_that_is_left() -> None:
    made = plan("fat-tree-4.cfg", "core0,agg0-0:edge0-0")
    left = made.after(made.losses[0])
    assert len(left.routers) == 19 and left.losses == []
    assert {router.name: len(router.peers) for router in left.routers if "0-0" in router.name} == {
        "agg0-0": 2,
        "edge0-0": 1,
    }


class Summary:
    """A router whose summary is given, one after another."""

    def __init__(self, *peers: list[str], waiting: int = 0) -> None:
        self.left = list(peers)
        self.waiting = waiting

    def json(self, _command: str) -> dict:
        standing = self.left.pop(0) if len(self.left) > 1 else self.left[0]
        peer = {"state": "Established", "inq": 0, "outq": self.waiting}
        return {"peers": {name: peer for name in standing}, "tableVersion": 1}


def one_router(*peers: str) -> Plan:
    made = plan("ring-with-maps.cfg")
    made.routers = [dataclasses.replace(made.routers[0], peers=list(peers))]
    return made


def test_a_session_that_was_lost_may_stand_for_a_while() -> None:
    made = one_router()
    told = {made.routers[0].name: Summary(["10.0.0.2"], ["10.0.0.2"], [])}
    with pytest.raises(NoRest, match="that the network does not have"):
        Watch(made, dict(told)).wait(1e12, 0.1, [])  # type: ignore[arg-type]
    told = {made.routers[0].name: Summary(["10.0.0.2"], ["10.0.0.2"], [])}
    assert Watch(made, told, may_linger=True).wait(1e12, 0.1, []) > 0  # type: ignore[arg-type]


def test_a_session_that_stays_where_it_should_be_lost_is_named() -> None:
    made = one_router()
    with pytest.raises(NoRest, match="a session with 10.0.0.2") as why:
        Watch(made, {made.routers[0].name: Summary(["10.0.0.2"])}, may_linger=True).wait(0, 0.1, [])  # type: ignore
    assert not isinstance(why.value, StillChanges)


def test_waiting_messages_are_no_rest_and_no_missing_session() -> None:
    made = one_router("10.0.0.2")
    told = Summary(["10.0.0.2"], waiting=1)
    with pytest.raises(StillChanges):
        Watch(made, {made.routers[0].name: told}).wait(0, 0.1, [])  # type: ignore


def test_a_loss_has_the_neighbours_of_each_router_that_is_left() -> None:
    loss = Loss("a", ["a"], [], {"a": [], "b": []})
    made = plan("two-routers.cfg")
    names = [router.name for router in made.routers]
    assert [
        router.name
        for router in made.after(
            dataclasses.replace(loss, routers=names[:1], peers={name: [] for name in names})
        ).routers
    ] == names[1:]


def test_neighbours_are_shut_behind_their_first_lines() -> None:
    text = "hostname a\nrouter bgp 1\n neighbor 10.0.0.2 remote-as 2\n neighbor 10.0.1.2 remote-as 3\nend\n"
    assert after.with_shutdown(text, [3, 3, 4]).splitlines()[2:6] == [
        " neighbor 10.0.0.2 remote-as 2",
        " neighbor 10.0.0.2 shutdown",
        " neighbor 10.0.1.2 remote-as 3",
        " neighbor 10.0.1.2 shutdown",
    ]


@pytest.fixture(scope="module")
def ask() -> Program:
    try:
        return Program(str(native(Program(name="bonsai-ask"))))
    except (Refused, OSError) as fault:
        pytest.skip(str(fault))


def said(program: Program, ask: Program, name: str, word: str) -> after.Expected:
    made = network(name)
    of_class = program.classes((INPUTS / name).read_text())[0]
    return after.expected(program, ask, (INPUTS / name).read_text(), made, of_class, Down.of(word))


def test_solutions_without_something(program: Program, ask: Program) -> None:
    found = said(program, ask, "asking/disagree.cfg", "x")
    assert len(found.solutions) == 1 and found.tie is None
    labels = dict(found.solutions[0])
    assert labels["x"] is None and found.place_of(labels) == 1
    assert found.place_of({**labels, "y": None}) is None


def test_a_rest_has_the_keys_of_a_solution_and_lone_routers_are_taken_anew(program: Program, ask: Program) -> None:
    made, text = network("asking/disagree.cfg"), (INPUTS / "asking/disagree.cfg").read_text()
    lone = after.lone_without(program, text, made, program.classes(text)[0].prefixes[0], Down.of("nobody"))
    assert lone == {made.by_name["x"].own_bgp.number, made.by_name["y"].own_bgp.number}
    assert said(program, ask, "asking/disagree.cfg", "x").lone == frozenset()


def test_a_tie_is_reported(program: Program, ask: Program) -> None:
    found = said(program, ask, "asking/tags-tied.cfg", "far")
    assert found.tie == Tie("leaf", "communities") and len(found.solutions) == 1
    assert said(program, ask, "asking/tags-tied.cfg", "spine1").tie is None


def test_another_path_of_the_same_keys_is_the_same_solution() -> None:
    one = after.Expected((read_solution("a bgp 100 path 2 1 comms\n"),), None, frozenset({2}))
    assert one.place_of({"a": BgpLabel(100, (2, 1), ())}) == 1
    assert one.place_of({"a": BgpLabel(100, (3, 1), ())}) is None
    assert dataclasses.replace(one, lone=frozenset()).place_of({"a": BgpLabel(100, (3, 1), ())}) == 1


def test_ties_of_the_model_are_for_networks_with_nothing_down(capsys: pytest.CaptureFixture[str]) -> None:
    with pytest.raises(SystemExit) as ended:
        tools.lab([str(INPUTS / "two-routers.cfg"), "1", "--without", "a", "--ties", "model"])
    assert ended.value.code == 2 and "give no --ties with it" in capsys.readouterr().err
