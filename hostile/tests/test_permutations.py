"""The same network in another order, under other names or numbers: what stays, and what changes."""
from __future__ import annotations

import random

import pytest

from hostile import permutations
from hostile.judge import answers, problem
from hostile.makers import networks

NAMES = ["a", "b", "c"]
TEXT = "".join(
    f"hostname {name}\ninterface Vlan1\n ip address 10.{number}.0.1 255.255.255.0\n shutdown\nrouter bgp {65000 + number}\n neighbor 10.9.0.{number} remote-as 65001\n"
    f" neighbor 10.9.0.{number} send-community\nip community-list standard C permit 1:1\nip community-list standard C deny 2:2\nend\n"
    for number, name in enumerate(NAMES, 1)
).encode()


def heads(text: bytes, head: str) -> list[str]:
    return [line.split(" ", 1)[1] for line in text.decode().splitlines() if line.startswith(head)]


@pytest.mark.parametrize("seed", range(5))
@pytest.mark.parametrize("way", [permutations.reordered, permutations.moved])
def test_no_line_is_lost(way, seed: int) -> None:
    assert sorted(way(random.Random(seed), TEXT).splitlines()) == sorted(TEXT.splitlines())


def test_routers_change_places() -> None:
    assert {tuple(heads(permutations.reordered(random.Random(seed), TEXT), "hostname")) for seed in range(20)} > {
        tuple(NAMES)
    }


@pytest.mark.parametrize("seed", range(5))
def test_what_must_stay_in_order_does(seed: int) -> None:
    """The lines of a community list, and `remote-as` before the other lines of its neighbour."""
    text = permutations.moved(random.Random(seed), TEXT)
    assert heads(text, "ip community-list") == heads(TEXT, "ip community-list")
    lines = [line.split() for line in text.decode().splitlines() if line.startswith(" neighbor")]
    assert [words[2] for words in lines] == ["remote-as", "send-community"] * len(NAMES)


def test_names_are_changed_one_for_one() -> None:
    text, change = permutations.renamed(random.Random(1), TEXT)
    assert heads(text, "hostname") == [change[name] for name in NAMES] and len(set(change.values())) == len(NAMES)


def test_numbers_are_exchanged_wherever_they_stand() -> None:
    text = permutations.renumbered(random.Random(1), TEXT)
    numbers = [line.split()[2] for line in text.decode().splitlines() if line.startswith("router bgp")]
    peers = {line.split()[3] for line in text.decode().splitlines() if "remote-as" in line}
    assert sorted(numbers) == ["65001", "65002", "65003"] and peers == {numbers[0]}


@pytest.mark.parametrize("seed", range(25))
def test_policies_written_otherwise_do_the_same(seed: int) -> None:
    """The second reader finds the same classes and the same acts."""
    text = networks.text(random.Random(seed)).encode()
    whole, other = answers.read(text), answers.read(permutations.rewritten(random.Random(seed), text))
    if isinstance(whole, answers.Expected) or answers.has_many_communities(whole):
        return
    assert not isinstance(other, answers.Expected) and answers.classes(other) == answers.classes(whole)
    for one, two in zip(whole.classes, other.classes):
        assert problem.problem(whole, one).edges == problem.problem(other, two).edges


def test_what_is_written_otherwise() -> None:
    """Names, the order of words, an entry in two parts, lines that never decide."""
    text = b"\n".join(
        [
            b"hostname a",
            b"router bgp 1",
            b" neighbor 10.0.0.1 remote-as 2",
            b" neighbor 10.0.0.1 route-map M in",
            b"ip community-list standard A permit 1:1 1:2",
            b"ip community-list standard B permit 1:3",
            b"route-map M permit 10",
            b" match community A B",
            b"end",
            b"",
        ]
    )
    found = b"".join(permutations.rewritten(random.Random(seed), text) for seed in range(9))
    assert (
        b"route-map M-" in found
        and b" permit 1:2 1:1\n" in found
        and b" permit 11\n" in found
        and b" deny 65535\n" in found
        and b" deny 1:3\n" in found
    )
