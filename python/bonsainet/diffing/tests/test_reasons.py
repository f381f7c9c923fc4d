"""Why routing may change: links, origins and numbers, edits of policies by the acts that they change, groups."""
from __future__ import annotations

import bonsainet
from bonsainet.ask.program import TOP
from bonsainet.configs.text import Line, Place
from bonsainet.diffing.reason_words import line_words, reason_lines
from bonsainet.diffing.reasons import reasons_of
from bonsainet.library.pairs import Pair

INPUTS = TOP / "examples" / "inputs"
CAMPUS = (INPUTS / "campus.cfg").read_text()
DISAGREE = (INPUTS / "asking" / "disagree.cfg").read_text()
FABRIC = (INPUTS / "fabric.cfg").read_text()


def said(old: str, new: str) -> list[str]:
    """The lines of the reasons."""
    before, after = bonsainet.Network.from_text(old, "old"), bonsainet.Network.from_text(new, "new")
    return list(reason_lines(reasons_of(Pair(before, after))))


def test_nothing() -> None:
    assert said(CAMPUS, CAMPUS) == []


def test_a_word_that_says_nothing() -> None:
    assert said(CAMPUS, CAMPUS.replace(" ip ospf cost 5\n", " ip ospf cost 5\n description a word\n")) == []


def test_a_link_that_is_shut() -> None:
    found = said(CAMPUS, CAMPUS.replace(" ip ospf cost 5\n", " shutdown\n", 1))
    assert found[:3] == [
        "links, origins and numbers that differ",
        "  adjacency dist2 GigabitEthernet2/1 - access1 GigabitEthernet0/2 (10.0.1.8/30) is gone: "
        "dist2 GigabitEthernet2/1 is shut (new:82)",
        "    + new:82: shutdown",
    ]
    assert "  10.0.0.0/30, 10.255.0.3/32, 10.255.0.4/32: 4 groups, 4 links -> 5 groups, 5 links" in found
    assert "    groups before: access1 access2" in found and "    groups after: access1 | access2" in found


def test_a_session_that_is_shut() -> None:
    other = DISAGREE.replace(" neighbor 172.16.0.5 send", " neighbor 172.16.0.5 shutdown\n neighbor 172.16.0.5 send")
    assert said(DISAGREE, other)[1:3] == [
        "  session x GigabitEthernet0/1 - y GigabitEthernet0/1 (172.16.0.4/31) is gone: at x, the neighbour is shut down here",
        "    + new:24: neighbor 172.16.0.5 shutdown",
    ]


def test_costs_and_origins() -> None:
    found = said(CAMPUS, CAMPUS.replace(" ip ospf cost 5\n", " ip ospf cost 7\n", 1))
    assert found == [
        "links, origins and numbers that differ",
        "  cost of dist2 GigabitEthernet2/1 towards access1: 5 -> 7",
        "    - old:82: ip ospf cost 5",
        "    + new:82: ip ospf cost 7",
        "  dist2 originates 10.0.1.8/30: cost 5 -> 7",
        "    - old:82: ip ospf cost 5",
        "    + new:82: ip ospf cost 7",
        *found[7:],
    ]


def test_a_route_map_whose_edit_changes_nothing() -> None:
    found = said(
        DISAGREE, DISAGREE.replace(" set local-preference 200\n", " set local-preference 200\nroute-map P deny 20\n", 1)
    )
    assert found == [
        "policies that differ",
        "  x: route-map P entry 20: no change, no session does anything else to routes",
        "    + new:28: route-map P deny 20",
    ]


def test_a_route_map_whose_edit_changes_an_act() -> None:
    found = said(DISAGREE, DISAGREE.replace(" set local-preference 200\n", " set local-preference 90\n", 1))
    assert found == [
        "policies that differ",
        "  x: route-map P entry 10: changes routes of sessions",
        "    - old:27: set local-preference 200",
        "    + new:27: set local-preference 90",
        "    what x takes from y: preference 200 -> preference 90 (10.0.0.0/24)",
    ]


def test_a_list_with_another_name() -> None:
    assert "DRAINED" in FABRIC
    found = said(FABRIC, FABRIC.replace("DRAINED", "EMPTIED"))
    assert found[0] == "policies that differ"
    assert all(
        line.startswith("    ") or "no change, no session does anything else to routes" in line for line in found[1:]
    )


def test_a_policy_that_nothing_uses() -> None:
    found = said(
        DISAGREE, DISAGREE.replace("route-map P permit 10\n", "route-map Q deny 10\nroute-map P permit 10\n", 1)
    )
    assert found[1] == "  x: route-map Q entry 10: no change, no session has a use for it"


def test_numbers() -> None:
    other = DISAGREE.replace("65003", "65033").replace(
        "router bgp 65001\n", "router bgp 65001\n bgp default local-preference 50\n"
    )
    found = said(DISAGREE, other)
    assert "  y: AS number 65003 -> 65033" in found and "  d: default preference 100 by default -> 50" in found


def test_a_session_that_the_compressed_network_does_not_show() -> None:
    """Leaf4 takes routes from the other spine as before, so its group and all compressed networks stay as they are."""
    named = " neighbor 10.255.0.7 send-community\n"
    other = FABRIC.replace(named, f"{named} neighbor 10.255.0.7 route-map DRAIN out\n", 1)
    found = said(
        FABRIC, other.replace("end\n", "route-map DRAIN permit 10\n set community 65000:99 additive\nend\n", 1)
    )
    assert found == [
        "policies that differ",
        "  spine1: route-map DRAIN entry 10: changes routes of sessions",
        "    + new:26: route-map DRAIN permit 10",
        "    + new:27: set community 65000:99 additive",
        "    what leaf4 takes from spine1: with 65000:99: denied; else as it is -> lets nothing pass (10.1.0.0/24, 10.2.0.0/24)",
        "  spine1: neighbor 10.255.0.7 route-map out: changes routes of sessions",
        "    + new:25: neighbor 10.255.0.7 route-map DRAIN out",
        "    what leaf4 takes from spine1: with 65000:99: denied; else as it is -> lets nothing pass (10.1.0.0/24, 10.2.0.0/24)",
    ]


def test_a_longer_path() -> None:
    text = FABRIC.replace(
        " set community 65000:1 additive\n", " set community 65000:1 additive\n set as-path prepend 65201\n", 1
    )
    found = said(FABRIC, text)
    assert any(
        line.startswith("    what spine1 takes from leaf1: adds 65000:1 -> out 1 more on the path, then adds 65000:1")
        for line in found
    )


def test_prefixes_that_hold_each_other() -> None:
    """Interfaces of a router may not overlap, and the prefixes for which sessions are asked do."""
    inner = "interface Vlan11\n ip address 10.1.0.129 255.255.255.128\n"
    wide = FABRIC.replace("hostname leaf3\n", f"hostname leaf3\n{inner}", 1)
    at = wide.index("router bgp 65203\n")
    wide = wide[:at] + wide[at:].replace(
        "router bgp 65203\n", "router bgp 65203\n network 10.1.0.128 mask 255.255.255.128\n", 1
    )
    found = said(wide, wide.replace(" set community 65000:1 additive\n", " set community 65000:2 additive\n", 1))
    assert any("(10.1.0.0/24, 10.1.0.128/25, 10.2.0.0/24)" in line for line in found)


def test_names_of_files_do_nothing_to_a_terminal() -> None:
    assert line_words(Line(" shutdown", Place("\x1b[31mr.cfg", 3))) == "\\x1b[31mr.cfg:3: shutdown"
