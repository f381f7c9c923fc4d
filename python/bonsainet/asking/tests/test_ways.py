"""Ways over forwarding, by hand and against a search of all chains."""
from __future__ import annotations

from collections.abc import Iterator

from hypothesis import given, settings
from hypothesis import strategies as st

from bonsainet.ask.program import TOP
from bonsainet.asking.ways import Nexts, carriers_of, chain_line, interfaces_of, longest_way, way_lines, way_to
from bonsainet.configs.network import read_network

SQUARE: Nexts = {"a": ("b", "c"), "b": ("d",), "c": ("d",), "d": (), "e": None}


@st.composite
def forwarding(draw: st.DrawFn) -> Nexts:
    """Forwarding without a way back, as stable labels have it."""
    count = draw(st.integers(1, 6))
    return {str(one): tuple(str(to) for to in range(one) if draw(st.booleans())) for one in range(count)}


def chains(nexts: Nexts, start: str) -> Iterator[list[str]]:
    """All chains that begin at a router."""
    yield [start]
    for further in nexts[start] or ():
        yield from ([start, *rest] for rest in chains(nexts, further))


@settings(max_examples=40)
@given(forwarding(), st.sets(st.sampled_from("012345")), st.sets(st.sampled_from("012345")))
def test_a_way_is_found_where_there_is_one(nexts: Nexts, ends: set[str], avoided: set[str]) -> None:
    start = str(len(nexts) - 1)
    right = [chain for chain in chains(nexts, start) if chain[-1] in ends and not avoided & set(chain)]
    found = way_to(nexts, start, ends, avoided)
    assert (found is None) == (not right)
    assert found is None or found in right and len(found) == min(map(len, right))


@settings(max_examples=40)
@given(forwarding())
def test_the_longest_way(nexts: Nexts) -> None:
    start = str(len(nexts) - 1)
    found = longest_way(nexts, start)
    every = list(chains(nexts, start))
    assert found in every and len(found) == max(map(len, every))


def test_lines() -> None:
    over = {("a", "b"): "e1 > e2", ("a", "c"): "e3 > e4 and e5 > e6"}
    assert way_lines(SQUARE, "a", over) == [
        "  a to b (e1 > e2), c (e3 > e4 and e5 > e6)",
        "  b to d",
        "  c to d",
        "  d here",
    ]
    assert way_lines(SQUARE, "e", over) == ["  e none"]
    assert chain_line(["a", "b", "d"], over) == "  a to b (e1 > e2) to d"


def test_interfaces() -> None:
    text = (
        "hostname a\ninterface Ethernet1\n ip address 10.0.0.1 255.255.255.252\nrouter ospf 1\n"
        " network 10.0.0.0 0.255.255.255 area 0\nend\n"
        "hostname b\ninterface Ethernet2\n ip address 10.0.0.2 255.255.255.252\nrouter ospf 1\n"
        " network 10.0.0.0 0.255.255.255 area 0\nend\n"
    )
    assert interfaces_of(read_network(text)) == {
        ("a", "b"): ["Ethernet1 > Ethernet2"],
        ("b", "a"): ["Ethernet2 > Ethernet1"],
    }


OSPF = "router ospf 1\n network 10.0.0.0 0.255.255.255 area 0\nend\n"


def three_links(name: str, end: int, costs: tuple[int, int, int]) -> str:
    """A router of OSPF at one end of three links, with its costs."""
    links = (
        f"interface Ethernet{at}\n ip address 10.0.{at}.{end} 255.255.255.252\n ip ospf cost {cost}\n"
        for at, cost in enumerate(costs)
    )
    return f"hostname {name}\n{''.join(links)}{OSPF}"


def test_of_several_links_those_of_least_cost_carry() -> None:
    network = read_network(three_links("a", 1, (5, 9, 5)) + three_links("b", 2, (7, 1, 7)))
    assert carriers_of(network) == {
        ("a", "b"): "Ethernet0 > Ethernet0 and Ethernet2 > Ethernet2",
        ("b", "a"): "Ethernet1 > Ethernet1",
    }


def test_of_several_sessions_one_or_more_carry() -> None:
    text = (TOP / "examples/inputs/asking/failing-parallel.cfg").read_text()
    first, second = (f"GigabitEthernet0/{at} > GigabitEthernet0/{at}" for at in (0, 1))
    carriers = carriers_of(read_network(text))
    assert carriers["b", "a"] == f"one or more of {first}, {second}"
    assert carriers["c", "b"] == "GigabitEthernet0/0 > GigabitEthernet0/2"
