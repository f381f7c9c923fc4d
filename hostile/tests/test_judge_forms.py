"""The forms of known lines, as docs/use/LINES.md has them: what a line gives, and which lines fit no form."""
from __future__ import annotations

import pytest

from hostile.tests.texts import bgp_of, one, ospf_of, refusal, router, text

LONG = "x" * 63
A, B = 65000 << 16 | 1, 65000 << 16 | 2


def at(word: str) -> int:
    """An address as a number."""
    first, second, third, fourth = map(int, word.split("."))
    return first << 24 | second << 16 | third << 8 | fourth


def told(scope: str, line: str, before: tuple[str, ...] = ()) -> tuple[int, str]:
    """The refusal of a line in its scope: how many lines behind the last one before it, and the kind."""
    lines = [scope, *before] if scope else list(before)
    place, kind = refusal(text(*router("a", *lines, line)))
    return place - len(lines) - 2, kind


@pytest.mark.parametrize(
    ("options", "bounds"),
    [
        ("", (24, 24)),
        (" ge 24", (24, 32)),
        (" ge 25", (25, 32)),
        (" ge 32", (32, 32)),
        (" le 24", (24, 24)),
        (" le 32", (24, 32)),
        (" ge 25 le 30", (25, 30)),
        (" ge 26 le 26", (26, 26)),
    ],
)
def test_a_prefix_list(options: str, bounds: tuple[int, int]) -> None:
    """`P/L` alone, with `ge`, with `le`, and with both; bits behind the length count as 0."""
    lists = one(f"ip prefix-list P seq 4294967295 deny 10.0.0.255/24{options}").prefix_lists
    assert lists == {"P": {4294967295: (False, (10 << 24, 24), *bounds)}}


@pytest.mark.parametrize(
    "rest",
    [
        "P seq 0 permit 10.0.0.0/8",
        "P seq 01 permit 10.0.0.0/8",
        "P permit 10.0.0.0/8",
        "P seq 5 allow 10.0.0.0/8",
        "P seq 5 permit 10.0.0.0",
        "P seq 5 permit 10.0.0.0/33",
        "P seq 5 permit 10.0.0/8",
        "P seq 5 permit 10.0.0.0/8 ge 7",
        "P seq 5 permit 10.0.0.0/8 le 7",
        "P seq 5 permit 10.0.0.0/8 ge 33",
        "P seq 5 permit 10.0.0.0/8 ge 9 le 8",
        "P seq 5 permit 10.0.0.0/8 le 9 ge 8",
        "P seq 5 permit 10.0.0.0/8 ge",
        "P seq 5 permit 10.0.0.0/8 ge 9 le",
        "P seq 5 permit 10.0.0.0/8 eq 9",
        f"{LONG}x seq 5 permit 10.0.0.0/8",
        "P seq 4294967296 permit 10.0.0.0/8",
        "P seq 5 permit 10.0.0.0/08",
        "",
    ],
)
def test_no_prefix_list(rest: str) -> None:
    """Words off the form."""
    assert told("", f"ip prefix-list {rest}") == (0, "BadForm")


def test_prefix_list_entries() -> None:
    """By number, which stands once in its list."""
    lines = (
        "ip prefix-list P seq 5 permit 10.0.0.0/8",
        f"ip prefix-list {LONG} seq 5 permit 0.0.0.0/0",
        "ip prefix-list P seq 4 deny 10.0.0.0/8",
    )
    assert sorted(one(*lines).prefix_lists["P"]) == [4, 5]
    assert told("", "ip prefix-list P seq 5 deny 1.0.0.0/8", lines) == (0, "Repeated")


def test_community_lists() -> None:
    """By number or name, which is one name; lines may be repeated."""
    lists = one(
        "ip community-list 7 permit 65000:1",
        "ip community-list standard 7 deny 65000:2 4259840001",
        "ip community-list 7 permit 65000:1",
    ).community_lists
    assert [(permits, set(named)) for permits, named, _ in lists["7"]] == [(True, {A}), (False, {A, B}), (True, {A})]


@pytest.mark.parametrize(
    ("rest", "kind"),
    [
        ("0 permit 1:1", "BadForm"),
        ("99 permit", "BadForm"),
        ("07 permit 1:1", "BadForm"),
        ("X permit 1:1", "BadForm"),
        ("standard X", "BadForm"),
        ("standard X allow 1:1", "BadForm"),
        ("standard X permit 1:1 65537", "BadForm"),
        ("standard X permit 1:65536", "BadForm"),
        ("standard X permit 65536:1", "BadForm"),
        ("standard X permit 4294967296", "BadForm"),
        ("standard X permit 01:1", "BadForm"),
        ("standard X permit 1:1:1", "BadForm"),
        (f"standard {LONG}x permit 1:1", "BadForm"),
        (f"standard X permit {' '.join(map(str, range(1, 34)))}", "BadForm"),
        ("standard X permit gshut gshut", "BadForm"),
        ("standard X permit 65535:1 4294901761", "BadForm"),
        ("standard X permit no-export x", "BadForm"),
        ("standard X permit 0:0", "WellKnown"),
        ("standard X permit 4294901760", "WellKnown"),
        ("standard X permit 65535:65535", "WellKnown"),
        ("standard X permit internet", "WellKnown"),
        ("standard X permit 1:1 no-export", "WellKnown"),
        ("standard X permit no-advertise", "WellKnown"),
        ("standard X permit local-AS", "WellKnown"),
        ("7 permit gshut", "WellKnown"),
        ("standard X permit 0", "BadForm"),
    ],
)
def test_no_community_list(rest: str, kind: str) -> None:
    """Off the form, or but for a well-known community: each of value 0 or from 4294901760 up. The number 0 is no
    community."""
    assert told("", f"ip community-list {rest}") == (0, kind)


def test_bounds_of_communities() -> None:
    """1, 65534:65535 and 32 of them fit."""
    lists = one(
        "ip community-list standard X permit 1 65534:65535 0:2",
        f"ip community-list 1 permit {' '.join(map(str, range(1, 33)))}",
        f"ip community-list standard {LONG} deny 4294901759",
    ).community_lists
    assert lists["X"][0][1] == {1, 2, 4294901759} and len(lists["1"][0][1]) == 32 and lists[LONG][0][1] == {4294901759}


def entry(*lines: str, numbers: str = "9"):
    """The one entry of a map, with the lists that its lines name."""
    lists = [f"ip prefix-list {name} seq 5 permit 0.0.0.0/0" for name in ("P", "Q")] + [
        f"ip community-list standard {name} permit 1:1" for name in ("X", "Y", "exact-match")
    ]
    return one("route-map M permit 10", *lines, *lists, f"router bgp {numbers}").maps["M"][10]


def test_matches() -> None:
    """Lists by name; a last word `exact-match` is always the mark."""
    assert entry(" match ip address prefix-list P Q").prefix_lists == ["P", "Q"]
    assert (entry(" match community X Y").community_lists, entry(" match community X Y").exact) == (["X", "Y"], False)
    assert (entry(" match community X exact-match").community_lists, entry(" match community X exact-match").exact) == (
        ["X"],
        True,
    )
    assert entry(" match community X exact-match exact-match").community_lists == ["X", "exact-match"]
    assert entry(" match community exact-match X").exact is False


def test_sets() -> None:
    """Preference, communities, deletion, prepended numbers."""
    assert (
        entry(" set local-preference 0").preference == 0
        and entry(" set local-preference 4294967295").preference == 4294967295
    )
    assert entry(" set community 1:1 2").change == ("replace", frozenset({65537, 2})) and entry(
        " set community none"
    ).change == ("replace", frozenset())
    assert entry(" set community 1:1 additive").change == ("add", frozenset({65537}))
    assert entry(" set comm-list X delete").deletes == "X"
    assert (
        entry(" set as-path prepend 9 9").prepends == [9, 9]
        and len(entry(f" set as-path prepend{' 9' * 10}").prepends) == 10
    )


@pytest.mark.parametrize(
    ("line", "kind"),
    [
        (" match community", "BadForm"),
        (" match community exact-match", "BadForm"),
        (" match community A A", "BadForm"),
        (f" match community {' '.join(f'L{n}' for n in range(33))}", "BadForm"),
        (f" match community {LONG}x", "BadForm"),
        (" match ip address prefix-list A A", "BadForm"),
        (" match ip address prefix-list", "BadForm"),
        (" set local-preference 4294967296", "BadForm"),
        (" set local-preference", "BadForm"),
        (" set community", "BadForm"),
        (" set community additive", "BadForm"),
        (" set community none additive", "BadForm"),
        (" set community 1:1 none", "BadForm"),
        (" set community additive 1:1", "BadForm"),
        (" set community internet", "WellKnown"),
        (" set community 0:0 additive", "WellKnown"),
        (" set comm-list X", "BadForm"),
        (" set comm-list X Y delete", "BadForm"),
        (" set as-path prepend", "BadForm"),
        (" set as-path prepend 0", "BadForm"),
        (f" set as-path prepend{' 9' * 11}", "BadForm"),
        (" set as-path prepend x", "BadForm"),
    ],
)
def test_no_line_of_an_entry(line: str, kind: str) -> None:
    """Off the forms of a route map."""
    assert told("route-map M permit 10", line) == (0, kind)


@pytest.mark.parametrize(
    ("first", "again"),
    [
        (" match community A", " match community B"),
        (" match ip address prefix-list A", " match ip address prefix-list B"),
        (" set local-preference 1", " set local-preference 1"),
        (" set community none", " set community 1:1 additive"),
        (" set comm-list A delete", " set comm-list A delete"),
        (" set as-path prepend 1", " set as-path prepend 1"),
    ],
)
def test_each_line_of_an_entry_once(first: str, again: str) -> None:
    """The second is Repeated."""
    assert told("route-map M permit 10", again, (first,)) == (0, "Repeated")


@pytest.mark.parametrize(
    "head", ["M permit", "M allow 10", "M permit 65536", "M permit 010", f"{LONG}x permit 10", "M", "", "M permit 10 x"]
)
def test_no_head_of_an_entry(head: str) -> None:
    """Off the form `route-map NAME ACT 0-65535`."""
    assert told("", f"route-map {head}") == (0, "BadForm")


def test_an_entry_once() -> None:
    """By its number, whatever its act."""
    assert told("", "route-map M deny 10", ("route-map M permit 10",)) == (0, "Repeated")
    assert sorted(one("route-map M deny 65535", "route-map M permit 0", "route-map N permit 0").maps["M"]) == [0, 65535]


@pytest.mark.parametrize(
    ("line", "network"),
    [
        ("10.0.0.0", ("10.0.0.0", 8)),
        ("127.0.0.0", ("127.0.0.0", 8)),
        ("128.0.0.0", ("128.0.0.0", 16)),
        ("191.255.0.0", ("191.255.0.0", 16)),
        ("192.0.0.0", ("192.0.0.0", 24)),
        ("223.255.255.0", ("223.255.255.0", 24)),
        ("10.0.0.0 mask 255.255.255.255", ("10.0.0.0", 32)),
        ("224.0.0.0 mask 240.0.0.0", ("224.0.0.0", 4)),
        ("0.0.0.0 mask 128.0.0.0", ("0.0.0.0", 1)),
    ],
)
def test_a_network_of_bgp(line: str, network: tuple[str, int]) -> None:
    """With a mask, or with the length that the first number gives."""
    assert bgp_of("router bgp 1", f" network {line}").networks == [(at(network[0]), network[1])]


@pytest.mark.parametrize(
    "line",
    [
        "10.1.0.0",
        "0.0.0.0",
        "224.0.0.0",
        "128.1.1.0",
        "192.0.0.1",
        "10.0.0.1 mask 255.255.255.0",
        "10.0.0.0 mask 255.0.255.0",
        "10.0.0.0 mask 0.0.0.0",
        "10.0.0.0 mask",
        "10.0.0.0 255.0.0.0",
        "",
        "x",
    ],
)
def test_no_network_of_bgp(line: str) -> None:
    """Bits outside the mask, no class, no mask."""
    assert told("router bgp 1", f" network {line}") == (0, "BadForm")


def test_neighbours() -> None:
    """Numbers, marks, lists and maps in and out."""
    lines = [
        " neighbor 1.2.3.4 remote-as 4294967295",
        " neighbor 1.2.3.4 shutdown",
        " neighbor 1.2.3.4 send-community both",
        " neighbor 1.2.3.4 send-community",
        " neighbor 1.2.3.4 prefix-list P in",
        " neighbor 1.2.3.4 prefix-list P out",
        " neighbor 1.2.3.4 route-map M in",
        " neighbor 1.2.3.4 route-map M out",
        " neighbor 5.6.7.8 remote-as 1",
    ]
    found = bgp_of("router bgp 9", *lines, "ip prefix-list P seq 5 permit 0.0.0.0/0", "route-map M permit 10").neighbors
    whole, bare = found[at("1.2.3.4")], found[at("5.6.7.8")]
    assert (whole.number, whole.shut, whole.sends, whole.lists, whole.maps) == (
        4294967295,
        True,
        True,
        {"in": "P", "out": "P"},
        {"in": "M", "out": "M"},
    )
    assert (bare.number, bare.shut, bare.sends, bare.lists, bare.maps) == (1, False, False, {}, {})


@pytest.mark.parametrize(
    ("line", "kind"),
    [
        ("1.2.3.4 remote-as 0", "BadForm"),
        ("1.2.3.4 remote-as 4294967296", "BadForm"),
        ("1.2.3.4 remote-as", "BadForm"),
        ("1.2.3 remote-as 2", "BadForm"),
        ("1.2.3.256 remote-as 2", "BadForm"),
        ("1.2.3.04 remote-as 2", "BadForm"),
        ("1.2.3.4 remote-as 2", "Repeated"),
        ("1.2.3.4 shutdown now", "BadForm"),
        ("1.2.3.4 send-community all", "BadForm"),
        ("1.2.3.4 route-map M", "BadForm"),
        ("1.2.3.4 route-map M both", "BadForm"),
        (f"1.2.3.4 route-map {LONG}x in", "BadForm"),
        ("1.2.3.4 prefix-list P", "BadForm"),
        ("1.2.3.4 route-map N in", "Repeated"),
        ("1.2.3.4 prefix-list Q in", "Repeated"),
        ("9.9.9.9 shutdown", "Misplaced"),
        ("9.9.9.9 route-map M in", "Misplaced"),
        ("9.9.9.9 prefix-list M out", "Misplaced"),
        ("9.9.9.9 send-community standard", "Misplaced"),
        ("9.9.9.9 route-map M", "BadForm"),
    ],
)
def test_no_neighbour(line: str, kind: str) -> None:
    """Off the form first, then before `remote-as`, then given again."""
    before = (" neighbor 1.2.3.4 remote-as 2", " neighbor 1.2.3.4 route-map M in", " neighbor 1.2.3.4 prefix-list P in")
    assert told("router bgp 1", f" neighbor {line}", before) == (0, kind)


def test_a_bgp_process() -> None:
    """Its default preference, once, and its networks, each once."""
    assert bgp_of("router bgp 1", " bgp default local-preference 0").preference == 0
    assert told("router bgp 1", " bgp default local-preference 1", (" bgp default local-preference 1",)) == (
        0,
        "Repeated",
    )
    assert told("router bgp 1", " network 10.0.0.0 mask 255.0.0.0", (" network 10.0.0.0",)) == (0, "Repeated")
    assert bgp_of("router bgp 1", " network 10.0.0.0", " network 10.0.0.0 mask 255.255.0.0").networks == [
        (10 << 24, 8),
        (10 << 24, 16),
    ]
    assert (
        told("", "router bgp 2", ("router bgp 1",)) == (0, "Repeated")
        and told("", "router bgp 0") == (0, "BadForm")
        and told("", "router bgp 1 2") == (0, "BadForm")
    )


def test_an_ospf_process() -> None:
    """Areas by value; passive names."""
    found = ospf_of(
        "router ospf 65535",
        " network 10.0.0.7 0.0.255.255 area 0.0.0.7",
        " network 0.0.0.0 255.255.255.255 area 7",
        " passive-interface Vlan1",
        " passive-interface Vlan1",
        " no passive-interface Vlan2",
        " passive-interface default",
    )
    assert [network[:3] for network in found.networks] == [(10 << 24 | 7, 65535, 7), (0, 0xFFFFFFFF, 7)]
    assert (found.passive, found.active, found.default_passive) == ({"Vlan1"}, {"Vlan2"}, True)


@pytest.mark.parametrize(
    "line",
    [
        "network 10.0.0.0 0.0.0.255 area",
        "network 10.0.0.0 0.0.0.255",
        "network 10.0.0.0 area 0",
        "network 10.0.0.0 0.0.0.256 area 0",
        "network 10.0.0.0 0.0.0.255 area x",
        "network 10.0.0.0 0.0.0.255 area 4294967296",
        "network 10.0.0.0 0.0.0.255 area 00",
        "passive-interface",
        "passive-interface Vlan",
        "passive-interface 1x",
        "no passive-interface Vlan1 Vlan2",
    ],
)
def test_no_line_of_ospf(line: str) -> None:
    """Off the forms of an OSPF process."""
    assert told("router ospf 1", f" {line}") == (0, "BadForm")
    assert told("", "router ospf 0") == (0, "BadForm") and told("", "router ospf 65536") == (0, "BadForm")


@pytest.mark.parametrize(
    "mask", [("128.0.0.0", 1), ("255.255.255.255", 32), ("255.255.255.254", 31), ("255.254.0.0", 15)]
)
def test_an_interface(mask: tuple[str, int]) -> None:
    """Address and mask, cost, shutdown, which may be repeated."""
    port = one(
        "interface Ethernet0/0.1:2-3",
        f" ip address 255.255.255.255 {mask[0]}",
        " ip ospf cost 65535",
        " shutdown",
        " shutdown",
    ).interfaces["Ethernet0/0.1:2-3"]
    assert (port.address, port.length, port.cost, port.shut, port.up, port.type) == (
        0xFFFFFFFF,
        mask[1],
        65535,
        True,
        False,
        "Ethernet",
    )


@pytest.mark.parametrize(
    ("line", "kind"),
    [
        ("ip address 10.0.0.1 0.0.0.0", "BadForm"),
        ("ip address 10.0.0.1 255.0.255.0", "BadForm"),
        ("ip address 10.0.0.1", "BadForm"),
        ("ip address 10.0.0.1/24", "BadForm"),
        ("ip ospf cost 0", "BadForm"),
        ("ip ospf cost 65536", "BadForm"),
        ("ip ospf cost 07", "BadForm"),
        ("ip ospf cost 1", "Repeated"),
        ("ip address 10.0.0.1 255.0.0.0", "Repeated"),
        ("shutdown x", "BadForm"),
    ],
)
def test_no_line_of_an_interface(line: str, kind: str) -> None:
    """Off its forms, or given again."""
    assert told("interface Vlan1", f" {line}", (" ip address 10.0.0.1 255.0.0.0", " ip ospf cost 1")) == (0, kind)


@pytest.mark.parametrize(
    ("line", "kind"),
    [
        ("hostname -a", "BadForm"),
        ("hostname a b", "BadForm"),
        (f"hostname {'a' * 64}", "BadForm"),
        ("hostname a/b", "BadForm"),
        ("hostname b", "Repeated"),
        ("hostname a", "Repeated"),
        ("interface Vlan", "BadForm"),
        ("interface 1Vlan", "BadForm"),
        (f"interface V{'1' * 63}", "BadForm"),
        ("interface Vlan_1", "BadForm"),
        ("interface Vlan 1", "BadForm"),
        ("interface Vlan1", "Repeated"),
    ],
)
def test_no_line_at_the_top(line: str, kind: str) -> None:
    """Names off their form, and given again."""
    assert told("", line, ("interface Vlan1",)) == (0, kind)


def test_names() -> None:
    """63 letters, digits and signs."""
    name = "0" + "aZ9-_." * 10 + "ab"
    assert len(name) == 63 and refusal(text(f"hostname {name}")) == (1, "NoEnd")
    assert list(one(f"interface V{'1' * 62}").interfaces) == [f"V{'1' * 62}"]
