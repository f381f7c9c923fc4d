"""Route maps whose diagrams grow with the product of their matched lists."""
from __future__ import annotations

import random

import pytest

from bonsainet.configs.network import read_network
from bonsainet.doubts.diagrams import doubts_of_diagrams

LINES = 32
TEXT = """hostname a
interface GigabitEthernet0/0
 ip address 10.0.0.0 255.255.255.254
router bgp 1
 neighbor 10.0.0.1 remote-as 2
 neighbor 10.0.0.1 route-map {used} in
{lists}route-map M permit 10
 match community {names}
end
"""


def text(lists: list[list[tuple[str, int]]], used: str = "M") -> str:
    """A router whose map matches lists of these lines."""
    lines = "".join(
        f"ip community-list standard L{number} {act} 1:{value}\n"
        for number, listed in enumerate(lists)
        for act, value in listed
    )
    names = " ".join(f"L{number}" for number in range(len(lists)))
    return TEXT.format(lists=lines, names=names, used=used)


def in_turn(values: list[int]) -> list[tuple[str, int]]:
    """A line for each community, of which every second one permits."""
    return [(("permit", "deny")[at % 2], value) for at, value in enumerate(values)]


def own(count: int) -> list[list[int]]:
    """Communities for so many lists, mixed in number."""
    values = list(range(1, count * LINES + 1))
    random.Random(1).shuffle(values)
    return [values[at::count] for at in range(count)]


def found(lists: list[list[tuple[str, int]]], used: str = "M") -> list[str]:
    """What is doubted of a map of these lists."""
    return [one.told for one in doubts_of_diagrams(read_network(text(lists, used)))]


def test_five_lists_of_communities_of_their_own() -> None:
    (told,) = found([in_turn(values) for values in own(5)])
    assert told.startswith("route map M: its diagram grows with the product of 5 matched lists, 33,554,432,")
    assert all(f"L{number} (line {7 + LINES * number}, 32)" in told for number in range(5))


@pytest.mark.parametrize(
    "lists",
    [
        [in_turn(values) for values in own(3)],
        [
            in_turn(sorted(value for values in own(5) for value in values)[at * LINES : (at + 1) * LINES])
            for at in range(5)
        ],
        [in_turn(list(range(1, LINES + 1)))] * 5,
        [[("permit", value) for value in values] for values in own(5)],
        [
            [("deny", value) for value in values[:16]] + [("permit", value) for value in values[16:]]
            for values in own(5)
        ],
    ],
    ids=["three lists", "together in number", "the same communities", "permits alone", "one turn"],
)
def test_what_ends(lists: list[list[tuple[str, int]]]) -> None:
    assert not found(lists)


def test_a_map_that_no_neighbour_names() -> None:
    assert not found([in_turn(values) for values in own(5)], "OTHER")
