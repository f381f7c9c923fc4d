"""Canonical lists, as the second reader judges them."""
from __future__ import annotations

import pytest

from hostile.judge import answers, canonical, problem
from hostile.tests.texts import network, pair, router, text


def refusals(net: problem.Network) -> list[str]:
    return canonical.refusals(problem.problem(net, net.classes[0]))


OUT = (" neighbor 172.16.0.0 route-map M out",)
LIST = "ip community-list standard L permit 1:1"


@pytest.mark.parametrize(
    ("lines", "looks"),
    [
        (("route-map M permit 10", " match community L exact-match"), True),
        (("route-map M permit 10", " match community L"), False),
        (
            (
                "route-map M permit 10",
                " match community L exact-match",
                " set as-path prepend 65002",
                "route-map M permit 20",
            ),
            True,
        ),
        (
            (
                "route-map M permit 10",
                " match community L exact-match",
                " set community none",
                "route-map M permit 20",
                " set community none",
            ),
            False,
        ),
        (
            (
                "route-map M permit 10",
                " match community L exact-match",
                " set community 1:1",
                "route-map M permit 20",
                " set community none",
            ),
            True,
        ),
        (("route-map M permit 10", " set community 1:1 additive"), False),
        (("route-map M permit 10", " match community L exact-match", "route-map M permit 20"), False),
    ],
)
def test_an_edge_without_canonical_lists(lines: tuple[str, ...], looks: bool) -> None:
    """Acceptance, preference, count and the communities that are named: whether they depend on others that are
    carried."""
    assert refusals(pair(right=OUT, more=(LIST, *lines))) == (["refused: NoCanon a b"] if looks else [])


def test_communities_that_are_not_sent_are_not_seen() -> None:
    """Without `send-community` the importer's list sees none."""
    maps = (LIST, "route-map I permit 10", " match community L exact-match")
    inward = (" neighbor 172.16.0.1 route-map I in",)
    assert refusals(pair(left=inward, lists=maps)) == ["refused: NoCanon a b"]
    assert refusals(pair(left=inward, lists=maps, sends=False)) == []


def chain(first: tuple[str, ...], second: tuple[str, ...]) -> list[list[str]]:
    """Routers a, b and c in a line; c originates. b and a import by a map of these lines each, with a community list A
    that permits 1:1."""

    def port(name: str, own: str) -> list[str]:
        return [f"interface {name}", f" ip address {own}"]

    def peer(far: str, number: int, *more: str) -> list[str]:
        return [
            f" neighbor {far} remote-as {number}",
            f" neighbor {far} send-community",
            *(f" neighbor {far} {one}" for one in more),
        ]

    maps = lambda lines: ["ip community-list standard A permit 1:1", *(f"{line}" for line in lines)]  # noqa: E731
    a = router(
        "a",
        *port("Serial0", "172.16.0.0 255.255.255.254"),
        "router bgp 65001",
        *peer("172.16.0.1", 65002, "route-map I in"),
        *maps(first),
    )
    b = router(
        "b",
        *port("Serial0", "172.16.0.1 255.255.255.254"),
        *port("Serial1", "172.16.0.2 255.255.255.254"),
        "router bgp 65002",
        *peer("172.16.0.0", 65001),
        *peer("172.16.0.3", 65003, "route-map I in"),
        *maps(second),
    )
    c = router(
        "c",
        *port("Serial1", "172.16.0.3 255.255.255.254"),
        *port("Vlan1", "10.0.0.1 255.255.255.0"),
        "router bgp 65003",
        " network 10.0.0.0 mask 255.255.255.0",
        *peer("172.16.0.2", 65002),
    )
    return [[*lines[:1], f"! member {lines[0].split()[1]}", *lines[1:]] for lines in (a, b, c)]


ADDS = ("route-map I permit 10", " set community 1:1 additive")
ADDS_OTHERWISE = ("route-map I permit 10", " match community A", "route-map I permit 20", " set community 1:1 additive")


def test_edges_that_do_the_same_have_the_same_lines() -> None:
    """What is written is known by what is done: by names alone it may differ."""
    alike, other = chain(ADDS, ADDS), chain(ADDS, ADDS_OTHERWISE)
    whole = network(*alike)
    assert canonical.canon_fault(whole, 1, text(*(line for lines in alike for line in lines))) is None
    renamed = text(*(line for lines in alike for line in lines)).replace(b"standard A", b"standard B")
    assert canonical.canon_fault(whole, 1, renamed) is None
    told = canonical.canon_fault(network(*other), 1, text(*(line for lines in other for line in lines)))
    assert told is not None and "the lines by which" in told


def test_what_is_no_compressed_network_is_no_canonical_one() -> None:
    """The reason is that of `compress`."""
    alike = chain(ADDS, ADDS)
    made = text(*(line for lines in alike for line in lines)).replace(b"! member b\n", b"")
    whole = network(*alike)
    assert (
        canonical.canon_fault(whole, 1, made)
        == answers.compress_fault(whole, 1, made)
        == "its members are not the groups"
    )
