"""Two states of a class, router by router, by whatever way they are compared."""
from __future__ import annotations

import pytest
from hypothesis import given
from hypothesis import strategies as st

from bonsainet.library import Network
from bonsainet.library.comparing import Comparison
from bonsainet.library.errors import ProgramFailed
from bonsainet.library.pairs import Pair
from bonsainet.library.routes import Near, Routes, routes_of
from bonsainet.library.states import State
from bonsainet.library.written import Written

NAMES = ("a", "b", "c", "d")
ROUTER = "hostname {0}\ninterface GigabitEthernet0/{1}\n ip address 172.16.0.{2} 255.255.255.0\nrouter ospf 1\n network 172.16.0.0 0.0.0.255 area 0\nend\n"
# (the second and the third differ in the numbers on their paths alone)
LABELS = (
    "none",
    "bgp 100 path 1 2 comms",
    "bgp 100 path 3*2 comms",
    "bgp 100 path 3 comms 1:1",
    "bgp 90 path 1 2 comms",
)
Solution = dict[str, tuple[str, str]]


@st.composite
def networks(draw: st.DrawFn) -> tuple[list[str], str]:
    """Some routers in some order, all on one wire, each with one of two interfaces; and their text."""
    names = draw(st.permutations(NAMES))[: draw(st.integers(1, 4))]
    ports = [draw(st.sampled_from([0, 0, 0, 1])) for _ in names]
    return names, "".join(ROUTER.format(name, port, NAMES.index(name) + 1) for name, port in zip(names, ports))


@st.composite
def solutions(draw: st.DrawFn, names: list[str]) -> list[Solution]:
    """Some solutions: what each router holds."""
    found = []
    for _ in range(draw(st.sampled_from([1, 1, 2, 3]))):
        labels = {name: draw(st.sampled_from(LABELS)) for name in names}
        hops = {
            name: draw(st.sampled_from(["here", *(f"to {other}" for other in names if other != name)]))
            for name in names
        }
        found.append({name: (label, hops[name] if label != "none" else "none") for name, label in labels.items()})
    return found


def state(found: list[Solution]) -> State:
    """Solutions as the program writes them."""
    labels, hops = (
        _written(["\n".join(f"{name} {held[at]}" for name, held in one.items()) for one in found]) for at in (0, 1)
    )
    return State(labels, hops)


def _written(texts: list[str]) -> Written:
    """What is read of several texts is kept line by line."""
    whole = [text.encode() for text in texts]
    return Written(tuple(whole) if len(whole) == 1 else tuple(tuple(text.split(b"\n")) for text in whole))


def routes(name: str, found: list[Solution], near: Near) -> Routes:
    """What a router may hold, none where it is not in the network."""
    held = (one.get(name, ("none", "none")) for one in found)
    return routes_of(name, [(label.encode(), hops.encode()) for label, hops in held], near)


@given(st.data())
def test_the_routers_that_differ(data: st.DataObject) -> None:
    sides = [data.draw(networks()) for _ in range(2)]
    if data.draw(st.booleans()):
        sides[1] = sides[0]
    found = [data.draw(solutions(names)) for names, _ in sides]
    both = Pair(*(Network(text) for _, text in sides))
    comparison = Comparison.of(both)
    every = list(dict.fromkeys(name for names, _ in sides for name in names))
    near = [side.near for side in comparison.sides]
    whole = {name: tuple(routes(name, found[at], near[at]) for at in (0, 1)) for name in every}
    told = list(comparison.differing(*map(state, found)))
    assert [name for name, *_ in told] == [name for name in every if name in {one for one, *_ in told}]
    assert all(tuple(held) == whole[name] for name, *held in told)
    assert {name for name, old, new in told if old != new} == {name for name, (old, new) in whole.items() if old != new}


def test_a_path_of_the_same_length_is_no_other_route() -> None:
    text = ROUTER.format("a", 0, 1)
    comparison = Comparison.of(Pair(Network(text), Network(text)))
    states = [state([{"a": (label, "here")}]) for label in LABELS[1:]]
    assert [len(list(comparison.differing(states[0], one))) for one in states] == [0, 0, 1, 1]


@pytest.mark.parametrize("count", [1, 2])
def test_a_router_that_the_program_leaves_out(count: int) -> None:
    text = ROUTER.format("a", 0, 1) + ROUTER.format("b", 0, 2)
    comparison = Comparison.of(Pair(Network(text), Network(text)))
    whole, part = (state([dict.fromkeys(names, ("none", "none"))] * count) for names in ("ab", "a"))
    with pytest.raises(ProgramFailed):
        list(comparison.differing(whole, part))
