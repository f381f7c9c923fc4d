"""Links, classes, originators, acts and lone routers: "What the lines mean" in docs/use/LINES.md, RFC 4271 section 9.1, RFC
2328."""
from __future__ import annotations

import pytest

from hostile.judge import groups, problem
from hostile.tests.texts import network, pair, router, speaker

A, B = 65000 << 16 | 1, 65000 << 16 | 2
NONE: frozenset[int] = frozenset()
LISTS = ("ip community-list standard A permit 65000:1", "ip community-list standard AB permit 65000:1 65000:2")
AREA = ("router ospf 1", " network 0.0.0.0 255.255.255.255 area 0")


def act(net: problem.Network, carried: frozenset[int]) -> object:
    """What router a makes of a route of b with these communities: preference, communities, how often b's number is
    prepended; or None."""
    whole = problem.problem(net, net.classes[0])
    edges = [edge for edge in whole.edges if (edge.importer, edge.exporter) == (0, 1)]
    return edges[0].act[whole.sets.index(carried)] if edges else None


def test_a_plain_session() -> None:
    """All passes, with the importer's default preference; the originator imports nothing."""
    net = pair(lists=LISTS)
    whole = problem.problem(net, net.classes[0])
    assert [(edge.importer, edge.exporter, edge.link) for edge in whole.edges] == [(0, 1, 0)]
    assert act(net, frozenset({A})) == (100, frozenset({A}), 0) and (whole.initial, whole.lone, whole.numbers) == (
        {1: 100},
        set(),
        [65001, 65002],
    )
    assert len(whole.sets) == 8 and whole.unnamed not in (A, B)


def test_communities_go_only_where_they_are_sent() -> None:
    """Without `send-community` on the exporter's side all go, also those that its map sets."""
    out = ((" neighbor 172.16.0.0 route-map OUT out",), ("route-map OUT permit 10", " set community 65000:1"))
    assert act(pair(lists=LISTS, right=out[0], more=out[1]), frozenset({B})) == (100, frozenset({A}), 0)
    assert act(pair(lists=LISTS, right=out[0], more=out[1], sends=False), frozenset({B})) == (100, NONE, 0)
    assert act(pair(left=(" neighbor 172.16.0.1 send-community",), lists=LISTS, sends=False), frozenset({B})) == (
        100,
        NONE,
        0,
    )


@pytest.mark.parametrize(
    ("lines", "carried", "expected"),
    [
        (("match community A",), {A}, True),
        (("match community A",), {A, B}, True),
        (("match community A",), {B}, False),
        (("match community A",), set(), False),
        (("match community A exact-match",), {A}, True),
        (("match community A exact-match",), {A, B}, False),
        (("match community A exact-match",), set(), False),
        (("match community AB exact-match",), {A, B}, True),
        (("match community AB exact-match",), {A}, False),
        (("match community AB",), {A}, False),
        (("match community DENY",), {A}, False),
        (("match community DENY",), {B}, True),
        (("match community DENY",), {A, B}, False),
        (("match community DENY exact-match",), {A, B}, False),
        (("match community A AB exact-match",), {A, B}, True),
        (("match community AB A exact-match",), {A}, True),
        (("match ip address prefix-list YES",), set(), True),
        (("match ip address prefix-list NO",), set(), False),
        (("match ip address prefix-list NO YES",), set(), True),
        (("match ip address prefix-list NO", "match community A"), {A}, False),
        (("match ip address prefix-list YES", "match community A"), {A}, True),
        ((), {A, B}, True),
    ],
)
def test_an_entry_holds_where_all_its_matches_do(lines: tuple[str, ...], carried: set[int], expected: bool) -> None:
    """A match line holds if one of its lists permits; the end of a map drops the route."""
    lists = (
        *LISTS,
        "ip community-list standard DENY deny 65000:1",
        "ip community-list standard DENY permit 65000:2",
        "ip prefix-list YES seq 5 permit 10.0.0.0/24",
        "ip prefix-list NO seq 5 deny 10.0.0.0/24",
    )
    net = pair(
        left=(" neighbor 172.16.0.1 route-map IN in",),
        lists=(*lists, "route-map IN permit 10", *(f" {line}" for line in lines)),
    )
    assert (act(net, frozenset(carried)) is not None) == expected


@pytest.mark.parametrize(
    ("lines", "carried", "after"),
    [
        (("set community 65000:1",), {B}, {A}),
        (("set community 65000:1 additive",), {B}, {A, B}),
        (("set community none",), {A, B}, set()),
        (("set comm-list D delete",), {A, B}, {B}),
        (("set comm-list D delete", "set community 65000:1 additive"), {A, B}, {A, B}),
        (("set community 65000:1", "set comm-list D delete"), {B}, {A}),
        (("set comm-list TWICE delete",), {A, B}, {A, B}),
        (("set comm-list D delete", "set community none"), {A, B}, set()),
    ],
)
def test_sets_of_an_entry(lines: tuple[str, ...], carried: set[int], after: set[int]) -> None:
    """First each community goes for which the list permits the set of it alone; then `set community`."""
    lists = (
        "ip community-list standard A permit 65000:1",
        "ip community-list standard D permit 65000:1",
        "ip community-list standard E permit 65000:2",
        "ip community-list standard TWICE deny 65000:1",
        "ip community-list standard TWICE permit 65000:1",
    )
    net = pair(
        left=(" neighbor 172.16.0.1 route-map IN in",),
        lists=(*lists, "route-map IN permit 10", *(f" {line}" for line in lines)),
    )
    assert act(net, frozenset(carried)) == (100, frozenset(after), 0)


def test_the_first_entry_by_number_decides() -> None:
    """Whatever the order of lines; `deny` drops the route."""
    lists = (
        *LISTS,
        "route-map IN permit 20",
        " set local-preference 20",
        "route-map IN deny 10",
        " match community A",
        "route-map IN permit 30",
        " set local-preference 30",
    )
    net = pair(left=(" neighbor 172.16.0.1 route-map IN in",), lists=lists)
    assert act(net, frozenset({A})) is None and act(net, frozenset({B})) == (20, frozenset({B}), 0)


def test_preferences() -> None:
    """The importer's map, else its default; what the exporter's map sets is not sent; numbers are prepended by the
    exporter's map."""
    left = (
        (" neighbor 172.16.0.1 route-map IN in",),
        (*LISTS, "route-map IN permit 10", " match community A", " set local-preference 0", "route-map IN permit 20"),
    )
    right = (
        (" neighbor 172.16.0.0 route-map OUT out",),
        ("route-map OUT permit 10", " set local-preference 7", " set as-path prepend 65002 65002"),
    )
    net = pair(left=left[0], lists=left[1], right=right[0], more=right[1])
    assert act(net, frozenset({A})) == (0, frozenset({A}), 2) and act(net, frozenset({B})) == (100, frozenset({B}), 2)
    assert problem.problem(net, net.classes[0]).lone == {0}
    net = pair(left=(" bgp default local-preference 9", *left[0]), lists=left[1])
    assert act(net, frozenset({A})) == (0, frozenset({A}), 0) and act(net, frozenset({B})) == (9, frozenset({B}), 0)


@pytest.mark.parametrize("side", ["in", "out"])
def test_prefix_lists_of_neighbours(side: str) -> None:
    """Both must permit; where nothing passes there is no edge."""
    left = (" neighbor 172.16.0.1 prefix-list P in",) if side == "in" else ()
    right = (" neighbor 172.16.0.0 prefix-list P out",) if side == "out" else ()
    for line, passes in (
        ("seq 5 permit 10.0.0.0/24", True),
        ("seq 5 permit 10.0.0.0/25", False),
        ("seq 5 permit 10.0.0.0/8 le 24", True),
        ("seq 5 permit 10.0.0.0/8 le 23", False),
        ("seq 5 permit 10.0.0.0/8 ge 24", True),
        ("seq 5 permit 10.0.0.0/8 ge 25", False),
        ("seq 5 permit 10.0.0.0/24 le 30", True),
        ("seq 5 permit 0.0.0.0/0", False),
    ):
        net = pair(left=left, right=right, lists=(f"ip prefix-list P {line}",), more=(f"ip prefix-list P {line}",))
        assert (act(net, NONE) is not None) == passes, line


def test_lone_routers() -> None:
    """Several preferences can apply: over one edge or over two; an edge that takes nothing does not count."""

    def mesh(*maps: str) -> problem.Problem:
        lines = [f" neighbor 172.16.{other}.1 remote-as 6500{other}" for other in (2, 3)] + [
            f" neighbor 172.16.{other}.1 route-map {name} in" for other, name in zip((2, 3), maps)
        ]
        a = speaker(
            "a",
            65001,
            *lines,
            ports={"Serial2": "172.16.2.0 255.255.255.254", "Serial3": "172.16.3.0 255.255.255.254"},
            lists=(
                "route-map X permit 10",
                " set local-preference 200",
                "route-map Y permit 10",
                "route-map Z deny 10",
            ),
        )
        others = [
            speaker(
                name,
                65000 + n,
                " network 10.0.0.0 mask 255.255.255.0",
                f" neighbor 172.16.{n}.0 remote-as 65001",
                ports={"Serial0": f"172.16.{n}.1 255.255.255.254", "Vlan1": f"10.0.0.{n} 255.255.255.0"},
            )
            for name, n in (("b", 2), ("c", 3))
        ]
        net = network(a, *others)
        return problem.problem(net, net.classes[0])

    assert (
        mesh("X", "X").lone == set()
        and mesh("X", "Y").lone == {0}
        and mesh("X", "Z").lone == set()
        and mesh("Y", "Y").lone == set()
    )
    assert groups.groups(mesh("X", "Y")) == [[0], [1, 2]]


def session(
    left: str = " neighbor 172.16.0.1 remote-as 65002",
    right: str = " neighbor 172.16.0.0 remote-as 65001",
    near: str = "172.16.0.0 255.255.255.252",
    far: str = "172.16.0.1 255.255.255.252",
    more: tuple[str, ...] = (),
) -> problem.Network:
    """Two routers and the lines of a session."""
    a = speaker("a", 65001, left, *more, ports={"Serial0": near})
    return network(a, speaker("b", 65002, right, ports={"Serial0": far}))


def test_a_session() -> None:
    """Two lines that name each other's addresses and numbers, on up interfaces of one subnet, neither shut down."""
    assert [link[:2] for link in session().links] == [(0, 1)] and session().unmatched == []
    for other in (
        session(left=" neighbor 172.16.0.1 remote-as 65003"),
        session(right=" neighbor 172.16.0.0 remote-as 65003"),
        session(left=" neighbor 172.16.0.2 remote-as 65002"),
        session(right=" neighbor 172.16.0.3 remote-as 65001"),
        session(near="172.16.0.0 255.255.255.254"),
        session(more=(" neighbor 172.16.0.1 shutdown",)),
        session(far="172.16.0.9 255.255.255.252"),
    ):
        assert other.links == [] and [name for name, _ in other.unmatched] == ["a", "b"]


def test_a_session_needs_up_interfaces() -> None:
    """A shut interface has no address."""
    a = router(
        "a",
        "interface Serial0",
        " ip address 172.16.0.0 255.255.255.254",
        " shutdown",
        "router bgp 65001",
        " neighbor 172.16.0.1 remote-as 65002",
    )
    assert (
        network(
            a,
            speaker(
                "b", 65002, " neighbor 172.16.0.0 remote-as 65001", ports={"Serial0": "172.16.0.1 255.255.255.254"}
            ),
        ).links
        == []
    )


def test_a_router_has_no_session_with_itself() -> None:
    """Also where it names its own other interface."""
    a = speaker(
        "a",
        65001,
        " neighbor 172.16.0.1 remote-as 65002",
        " neighbor 172.17.0.1 remote-as 65002",
        ports={"Serial0": "172.16.0.0 255.255.255.254", "Serial1": "172.17.0.0 255.255.255.254"},
    )
    assert network(a).links == [] and network(a).unmatched == [
        ("a", 172 << 24 | 16 << 16 | 1),
        ("a", 172 << 24 | 17 << 16 | 1),
    ]


def test_links_go_by_their_lines() -> None:
    """The lesser line first, in the order of the two lines."""
    a = speaker(
        "a",
        65001,
        " neighbor 172.16.1.1 remote-as 65002",
        " neighbor 172.16.0.1 remote-as 65002",
        ports={"Serial0": "172.16.0.0 255.255.255.254", "Serial1": "172.16.1.0 255.255.255.254"},
    )
    b = speaker(
        "b",
        65002,
        " neighbor 172.16.0.0 remote-as 65001",
        " neighbor 172.16.1.0 remote-as 65001",
        ports={"Serial0": "172.16.0.1 255.255.255.254", "Serial1": "172.16.1.1 255.255.255.254"},
    )
    links = network(a, b).links
    assert [(link[0], link[1], link[2].address & 0xFFFF, link[3].address & 0xFFFF) for link in links] == [
        (0, 1, 0x101, 0x100),
        (0, 1, 1, 0),
    ]


def ospf(name: str, *ports: tuple[str, str], more: tuple[str, ...] = AREA) -> list[str]:
    """An OSPF router with interfaces of name and address with mask, and further lines behind a `;`."""
    lines = []
    for port, value in ports:
        first, *rest = value.split(";")
        lines += [f"interface {port}", f" ip address {first}", *(f" {line}" for line in rest)]
    return router(name, *lines, *more)


def test_adjacencies() -> None:
    """Two active interfaces of two routers in one subnet; three on one wire are three links."""
    net = network(
        *(
            ospf(name, ("Vlan1", f"10.0.0.{place} 255.255.255.0"), ("Vlan2", f"10.1.{place}.1 255.255.255.0"))
            for place, name in enumerate("abc", 1)
        )
    )
    assert [link[:2] for link in net.links] == [(0, 1), (0, 2), (1, 2)]
    two = network(ospf("a", ("Vlan1", "10.0.0.1 255.255.255.0")), ospf("b", ("Vlan1", "10.0.0.2 255.255.255.128")))
    assert two.links == []
    passive = (*AREA, " passive-interface Vlan1")
    assert (
        network(
            ospf("a", ("Vlan1", "10.0.0.1 255.255.255.0"), more=passive), ospf("b", ("Vlan1", "10.0.0.2 255.255.255.0"))
        ).links
        == []
    )
    default = (*AREA, " passive-interface default", " passive-interface Vlan1", " no passive-interface Vlan1")
    assert (
        len(
            network(
                ospf("a", ("Vlan1", "10.0.0.1 255.255.255.0"), more=default),
                ospf("b", ("Vlan1", "10.0.0.2 255.255.255.0")),
            ).links
        )
        == 1
    )
    both = (*AREA, " passive-interface Vlan1", " no passive-interface Vlan1")
    assert (
        network(
            ospf("a", ("Vlan1", "10.0.0.1 255.255.255.0"), more=both), ospf("b", ("Vlan1", "10.0.0.2 255.255.255.0"))
        ).links
        == []
    )


def test_the_area() -> None:
    """A `network` line must agree wherever the wildcard has 0, whatever its own bits elsewhere."""
    for line, inside in (
        ("10.0.0.0 0.0.0.255", True),
        ("10.0.0.77 0.0.0.255", True),
        ("10.0.1.0 0.0.0.255", False),
        ("10.9.0.1 0.255.0.0", True),
        ("10.0.0.1 0.0.0.0", True),
        ("10.0.0.2 0.0.0.0", False),
    ):
        net = network(ospf("a", ("Vlan1", "10.0.0.1 255.255.255.0"), more=("router ospf 1", f" network {line} area 0")))
        assert len(net.classes) == inside, line


def test_costs() -> None:
    """The importer's own interface decides: its line, else its type. Originators have the cost of their interface,
    passive or not."""
    ports = [
        ("Serial0", "64"),
        ("Ethernet0", "10"),
        ("FastEthernet0", "1"),
        ("GigabitEthernet0", "1"),
        ("TenGigabitEthernet0", "1"),
        ("Vlan1", "1"),
        ("Serial0", "7;ip ospf cost 7"),
        ("Tunnel1", "9;ip ospf cost 9"),
    ]
    for name, told in ports:
        cost, _, line = told.partition(";")
        value = "10.0.0.1 255.255.255.252" + (f";{line}" if line else "")
        net = network(
            ospf("a", (name, value)),
            ospf("b", ("Vlan1", "10.0.0.2 255.255.255.252;ip ospf cost 3"), ("Vlan2", "10.9.0.1 255.255.255.0")),
        )
        whole = problem.problem(net, net.classes[1])
        assert [(edge.importer, edge.exporter, edge.act) for edge in whole.edges] == [
            (0, 1, int(cost)),
            (1, 0, 3),
        ] and whole.initial == {1: 1}
        assert net.classes[0].origins == {0: int(cost), 1: 3}
    assert network(
        ospf("a", ("Loopback0", "10.0.0.1 255.255.255.255"), more=(*AREA, " passive-interface Loopback0"))
    ).classes[0].origins == {0: 1}


def test_classes_of_bgp() -> None:
    """A `network` line and an up interface whose subnet is exactly that prefix, with the default preference."""
    for line, port, one in (
        (" network 10.0.0.0 mask 255.255.255.0", "10.0.0.9 255.255.255.0", True),
        (" network 10.0.0.0 mask 255.255.255.0", "10.0.0.1 255.255.255.128", False),
        (" network 10.0.0.0", "10.9.9.9 255.0.0.0", True),
        (" network 10.0.0.0", "10.0.0.1 255.255.255.0", False),
        (" bgp log-neighbor-changes", "10.0.0.1 255.255.255.0", False),
    ):
        net = network(speaker("a", 1, " bgp default local-preference 7", line, ports={"Vlan1": port}))
        assert [found.origins for found in net.classes] == ([{0: 7}] if one else [])


def test_prefixes_of_one_class() -> None:
    """The same originators with the same initial routes, and every prefix list of every router treats them alike; the
    least prefix numbers a class."""

    def classes(*lists: str) -> list[list[tuple[int, int]]]:
        ports = {"Vlan1": "10.0.0.1 255.255.255.0", "Vlan2": "10.0.1.1 255.255.255.0", "Vlan3": "9.0.0.1 255.255.255.0"}
        nets = (
            " network 10.0.0.0 mask 255.255.255.0",
            " network 10.0.1.0 mask 255.255.255.0",
            " network 9.0.0.0 mask 255.255.255.0",
        )
        return [found.prefixes for found in network(speaker("a", 1, *nets, ports=ports), router("b", *lists)).classes]

    first, second, third = (9 << 24, 24), (10 << 24, 24), (10 << 24 | 256, 24)
    assert classes() == [[first, second, third]]
    assert classes("ip prefix-list UNUSED seq 5 permit 10.0.1.0/24") == [[first, second], [third]]
    assert classes("ip prefix-list UNUSED seq 5 deny 10.0.1.0/24") == [[first, second, third]]
    assert classes("ip prefix-list UNUSED seq 5 permit 10.0.0.0/8 le 32") == [[first], [second, third]]


def test_classes_of_ospf() -> None:
    """Other costs are other classes, and so are other originators."""
    net = network(
        ospf(
            "a",
            ("Vlan1", "10.0.0.1 255.255.255.0"),
            ("Vlan2", "10.0.1.1 255.255.255.0;ip ospf cost 2"),
            ("Vlan3", "10.0.2.1 255.255.255.0"),
        )
    )
    assert [(len(found.prefixes), found.origins) for found in net.classes] == [(2, {0: 1}), (1, {0: 2})]


def test_no_protocol() -> None:
    """Routers of no process: no links, no classes."""
    net = network(router("a", "interface Vlan1", " ip address 10.0.0.1 255.255.255.0"))
    assert (net.protocol, net.links, net.classes) == ("none", [], [])
