"""Edits of sessions and policies over BGP, with their known answers."""
from __future__ import annotations

from bonsainet.diffing.tests.mutations import (
    DISAGREE,
    DISAGREE_SINGLE,
    FABRIC,
    GADGET,
    GADGET_AT_REST,
    Mutation,
    before_end,
    below,
    everywhere,
    replaced,
    without,
)

MUTATIONS = [
    Mutation(
        "a session that is shut",
        FABRIC,
        (below("spine1", " neighbor 10.255.0.1 send-community", " neighbor 10.255.0.1 shutdown"),),
        (
            "10.1.0.0/24",
            "  changed leaf2, leaf3, leaf4: to spine1 (Ethernet1) and spine2 (Ethernet2) -> spine2 (Ethernet2)",
            "  changed spine1: length 1 -> 3, to leaf1 (Ethernet1) -> leaf2 (Ethernet2) and leaf3 (Ethernet3) and leaf4 (Ethernet4)",
            "10.2.0.0/24",
            "  changed leaf1: to spine1 (Ethernet1) and spine2 (Ethernet2) -> spine2 (Ethernet2)",
            "2 prefixes change, 0 stay as they are",
        ),
        (),
    ),
    Mutation(
        "an entry of another number",
        FABRIC,
        (replaced("leaf1", "route-map DRAINED permit 20", "route-map DRAINED permit 30"),),
        ("0 prefixes change, 2 stay as they are",),
        (
            "leaf1: route-map DRAINED entry 20: no change, no session does anything else to routes",
            "leaf1: route-map DRAINED entry 30: no change, no session does anything else to routes",
        ),
    ),
    Mutation(
        "a list of another name",
        FABRIC,
        (
            everywhere("leaf1", "DRAINED permit 65000:99", "EMPTIED permit 65000:99"),
            replaced("leaf1", " match community DRAINED", " match community EMPTIED"),
        ),
        ("0 prefixes change, 2 stay as they are",),
        (
            "leaf1: route-map DRAINED entry 10: no change, no session does anything else to routes",
            "leaf1: community-list DRAINED: no change, no session does anything else to routes",
            "leaf1: community-list EMPTIED: no change, no session does anything else to routes",
        ),
    ),
    Mutation(
        "a map of another name",
        FABRIC,
        (everywhere("leaf1", "route-map MARK", "route-map COLOUR"),),
        ("0 prefixes change, 2 stay as they are",),
        (
            "leaf1: route-map MARK entry 10: no change, no session does anything else to routes",
            "leaf1: neighbor 10.255.0.0 route-map out: no change, no session does anything else to routes",
            "leaf1: neighbor 10.255.1.0 route-map out: no change, no session does anything else to routes",
            "leaf1: route-map COLOUR entry 10: no change, no session does anything else to routes",
        ),
    ),
    Mutation(
        "another community",
        FABRIC,
        (replaced("leaf1", " set community 65000:1 additive", " set community 65000:2 additive"),),
        (
            "10.1.0.0/24",
            "  changed leaf2, leaf3, leaf4, spine1, spine2: communities 65000:1 -> 65000:2",
            "1 prefix changes, 1 stay as they are",
        ),
        ("leaf1: route-map MARK entry 10: changes routes of sessions",),
    ),
    Mutation(
        "a preference",
        FABRIC,
        (below("leaf4", "route-map CLEAN permit 10", " set local-preference 200"),),
        ("10.1.0.0/24 10.2.0.0/24", "  changed leaf4: preference 100 -> 200", "2 prefixes change, 0 stay as they are"),
        ("leaf4: route-map CLEAN entry 10: changes routes of sessions",),
    ),
    Mutation(
        "a preference for one neighbour",
        FABRIC,
        (
            replaced(
                "leaf1", " neighbor 10.255.0.0 route-map DRAINED in", " neighbor 10.255.0.0 route-map PREFERRED in"
            ),
            before_end("leaf1", "route-map PREFERRED permit 10", " set local-preference 200"),
        ),
        (
            "10.2.0.0/24",
            "  changed leaf1: preference 100 -> 200, to spine1 (Ethernet1) and spine2 (Ethernet2) -> spine1 (Ethernet1)",
            "1 prefix changes, 1 stay as they are",
        ),
        (
            "leaf1: neighbor 10.255.0.0 route-map in: changes routes of sessions",
            "leaf1: route-map PREFERRED entry 10: changes routes of sessions",
        ),
    ),
    Mutation(
        "a longer path",
        FABRIC,
        (
            replaced("leaf1", " neighbor 10.255.0.0 route-map MARK out", " neighbor 10.255.0.0 route-map LONGER out"),
            before_end(
                "leaf1", "route-map LONGER permit 10", " set community 65000:1 additive", " set as-path prepend 65201"
            ),
        ),
        (
            "10.1.0.0/24",
            "  changed leaf2, leaf3, leaf4: to spine1 (Ethernet1) and spine2 (Ethernet2) -> spine2 (Ethernet2)",
            "  changed spine1: length 1 -> 2",
            "1 prefix changes, 1 stay as they are",
        ),
        (
            "leaf1: neighbor 10.255.0.0 route-map out: changes routes of sessions",
            "leaf1: route-map LONGER entry 10: changes routes of sessions",
        ),
    ),
    Mutation(
        "communities that are not sent",
        FABRIC,
        (replaced("spine1", " neighbor 10.255.0.3 send-community\n", ""),),
        (
            "10.1.0.0/24",
            "  tied after: leaf2 has tied routes that differ in their communities",
            "  changed leaf2: communities 65000:1 -> none, to spine1 (Ethernet1) and spine2 (Ethernet2) -> spine1 (Ethernet1)",
            "1 prefix changes, 1 stay as they are",
        ),
        ("spine1: neighbor 10.255.0.3 send-community: changes routes of sessions",),
    ),
    Mutation(
        "a spine that is drained",
        FABRIC,
        (
            below("spine1", " neighbor 10.255.0.7 send-community", " neighbor 10.255.0.7 route-map DRAIN out"),
            before_end("spine1", "route-map DRAIN permit 10", " set community 65000:99 additive"),
        ),
        (
            "10.1.0.0/24 10.2.0.0/24",
            "  changed leaf4: to spine1 (Ethernet1) and spine2 (Ethernet2) -> spine2 (Ethernet2)",
            "2 prefixes change, 0 stay as they are",
        ),
        (
            "spine1: route-map DRAIN entry 10: changes routes of sessions",
            "spine1: neighbor 10.255.0.7 route-map out: changes routes of sessions",
        ),
    ),
    Mutation(
        "a prefix list that denies",
        FABRIC,
        (
            below("spine1", " neighbor 10.255.0.7 send-community", " neighbor 10.255.0.7 prefix-list NOT-ONE out"),
            before_end(
                "spine1",
                "ip prefix-list NOT-ONE seq 5 deny 10.1.0.0/24",
                "ip prefix-list NOT-ONE seq 10 permit 0.0.0.0/0 le 32",
            ),
        ),
        (
            "10.1.0.0/24",
            "  changed leaf4: to spine1 (Ethernet1) and spine2 (Ethernet2) -> spine2 (Ethernet2)",
            "1 prefix changes, 1 stay as they are",
        ),
        (
            "spine1: prefix-list NOT-ONE: changes routes of sessions",
            "spine1: neighbor 10.255.0.7 prefix-list out: changes routes of sessions",
        ),
    ),
    Mutation(
        "a prefix list that permits all",
        FABRIC,
        (
            below("spine1", " neighbor 10.255.0.7 send-community", " neighbor 10.255.0.7 prefix-list ALL out"),
            before_end("spine1", "ip prefix-list ALL seq 5 permit 0.0.0.0/0 le 32"),
        ),
        ("0 prefixes change, 2 stay as they are",),
        (
            "spine1: prefix-list ALL: no change, no session does anything else to routes",
            "spine1: neighbor 10.255.0.7 prefix-list out: no change, no session does anything else to routes",
        ),
    ),
    Mutation(
        "a prefix list that nothing uses",
        FABRIC,
        (before_end("spine1", "ip prefix-list ALL seq 5 permit 0.0.0.0/0 le 32"),),
        ("0 prefixes change, 2 stay as they are",),
        ("spine1: prefix-list ALL: no change, no session has a use for it",),
    ),
    Mutation(
        "a leaf that is gone",
        FABRIC,
        (without("leaf4"),),
        (
            "routers that are gone: leaf4",
            "10.1.0.0/24 10.2.0.0/24",
            "  lost leaf4: preference 100 length 2 communities 65000:1 to spine1 (Ethernet1) and spine2 (Ethernet2)",
            "2 prefixes change, 0 stay as they are",
        ),
        (),
    ),
    Mutation(
        "another AS number",
        FABRIC,
        (
            replaced("leaf2", "router bgp 65202", "router bgp 65212"),
            replaced("spine1", "remote-as 65202", "remote-as 65212"),
            replaced("spine2", "remote-as 65202", "remote-as 65212"),
        ),
        ("0 prefixes change, 2 stay as they are",),
        (),
    ),
    Mutation(
        "another AS number on one end",
        FABRIC,
        (replaced("leaf2", "router bgp 65202", "router bgp 65212"),),
        (
            "10.1.0.0/24",
            "  lost leaf2: preference 100 length 2 communities 65000:1 to spine1 (Ethernet1) and spine2 (Ethernet2)",
            "10.2.0.0/24",
            "  lost leaf1, leaf3, leaf4: preference 100 length 2 communities 65000:1 to spine1 (Ethernet1) and spine2 (Ethernet2)",
            "  lost spine1, spine2: preference 100 length 1 communities 65000:1 to leaf2 (Ethernet2)",
            "2 prefixes change, 0 stay as they are",
        ),
        (),
    ),
    Mutation(
        "a prefix that is not announced",
        FABRIC,
        (replaced("leaf2", " network 10.2.0.0 mask 255.255.255.0\n", ""),),
        (
            "prefixes that are gone: 10.2.0.0/24",
            "10.2.0.0/24",
            "  lost leaf1, leaf3, leaf4: preference 100 length 2 communities 65000:1 to spine1 (Ethernet1) and spine2 (Ethernet2)",
            "  lost leaf2: preference 100 length 0 here",
            "  lost spine1, spine2: preference 100 length 1 communities 65000:1 to leaf2 (Ethernet2)",
            "1 prefix changes, 1 stay as they are",
        ),
        (),
    ),
    Mutation(
        "a prefix that two leaves announce",
        FABRIC,
        (
            below(
                "leaf2", " ip address 10.2.0.1 255.255.255.0", "interface Vlan11", " ip address 10.1.0.2 255.255.255.0"
            ),
            below("leaf2", " network 10.2.0.0 mask 255.255.255.0", " network 10.1.0.0 mask 255.255.255.0"),
        ),
        (
            "10.1.0.0/24",
            "  changed leaf2: length 2 -> 0, communities 65000:1 -> none, to spine1 (Ethernet1) and spine2 (Ethernet2) -> itself",
            "  changed spine1, spine2: to leaf1 (Ethernet1) -> leaf1 (Ethernet1) and leaf2 (Ethernet2)",
            "1 prefix changes, 1 stay as they are",
        ),
        (),
    ),
    Mutation(
        "a tie that is made",
        FABRIC,
        (replaced("leaf1", " neighbor 10.255.0.0 route-map MARK out\n", ""),),
        (
            "10.1.0.0/24",
            "  tied after: leaf2 has tied routes that differ in their communities",
            "  changed leaf2, leaf3, leaf4: communities 65000:1 -> none, to spine1 (Ethernet1) and spine2 (Ethernet2) -> spine1 (Ethernet1)",
            "  changed spine1: communities 65000:1 -> none",
            "1 prefix changes, 1 stay as they are",
        ),
        ("leaf1: neighbor 10.255.0.0 route-map out: changes routes of sessions",),
    ),
    Mutation(
        "a deny entry behind one that permits all",
        FABRIC,
        (below("leaf1", " set community 65000:1 additive", "route-map MARK deny 20"),),
        ("0 prefixes change, 2 stay as they are",),
        ("leaf1: route-map MARK entry 20: no change, no session does anything else to routes",),
    ),
    Mutation(
        "a second solution that goes",
        DISAGREE,
        (replaced("x", " set local-preference 200", " set local-preference 90"),),
        (
            "10.0.0.0/24",
            "  stable solutions: 2 before, 1 after",
            "  changed x: preference 100 length 1 to d (GigabitEthernet0/0) or preference 200 length 2 to y (GigabitEthernet0/1) -> preference 100 length 1 to d (GigabitEthernet0/0)",
            "    in all solutions before: a route",
            "  changed y: preference 100 length 1 to d (GigabitEthernet0/0) or preference 200 length 2 to x (GigabitEthernet0/1) -> preference 200 length 2 to x (GigabitEthernet0/1)",
            "    in all solutions before: a route",
            "1 prefix changes, 0 stay as they are",
        ),
        ("x: route-map P entry 10: changes routes of sessions",),
    ),
    Mutation(
        "a solution that is the only one",
        DISAGREE,
        (
            replaced(
                "x",
                " neighbor 172.16.0.5 send-community",
                " neighbor 172.16.0.5 send-community\n neighbor 172.16.0.5 shutdown",
            ),
        ),
        (
            "10.0.0.0/24",
            "  stable solutions: 2 before, 1 after",
            "  changed x: preference 100 length 1 to d (GigabitEthernet0/0) or preference 200 length 2 to y (GigabitEthernet0/1) -> preference 100 length 1 to d (GigabitEthernet0/0)",
            "    in all solutions before: a route",
            "  changed y: preference 100 length 1 to d (GigabitEthernet0/0) or preference 200 length 2 to x (GigabitEthernet0/1) -> preference 100 length 1 to d (GigabitEthernet0/0)",
            "    in all solutions before: a route",
            "1 prefix changes, 0 stay as they are",
        ),
        (),
    ),
    Mutation(
        "a preference of two solutions",
        DISAGREE,
        (replaced("x", " set local-preference 200", " set local-preference 300"),),
        (
            "10.0.0.0/24",
            "  stable solutions: 2 before, 2 after",
            "  changed x: preference 100 length 1 to d (GigabitEthernet0/0) or preference 200 length 2 to y (GigabitEthernet0/1) -> preference 100 length 1 to d (GigabitEthernet0/0) or preference 300 length 2 to y (GigabitEthernet0/1)",
            "    in all solutions before: a route",
            "    in all solutions after: a route",
            "1 prefix changes, 0 stay as they are",
        ),
        ("x: route-map P entry 10: changes routes of sessions",),
    ),
    Mutation(
        "a second solution that is made",
        DISAGREE_SINGLE,
        (replaced("x", " set local-preference 90", " set local-preference 200"),),
        (
            "10.0.0.0/24",
            "  stable solutions: 1 before, 2 after",
            "  changed x: preference 100 length 1 to d (GigabitEthernet0/0) -> preference 100 length 1 to d (GigabitEthernet0/0) or preference 200 length 2 to y (GigabitEthernet0/1)",
            "    in all solutions after: a route",
            "  changed y: preference 200 length 2 to x (GigabitEthernet0/1) -> preference 100 length 1 to d (GigabitEthernet0/0) or preference 200 length 2 to x (GigabitEthernet0/1)",
            "    in all solutions after: a route",
            "1 prefix changes, 0 stay as they are",
        ),
        ("x: route-map P entry 10: changes routes of sessions",),
    ),
    Mutation(
        "preferences that find no rest",
        GADGET_AT_REST,
        (below("x", " match community ONE", " set local-preference 200"),),
        (
            "10.0.0.0/24",
            "  stable solutions: 1 before, 0 after",
            "  after there is no stable solution, so no routes are compared",
            "1 prefix changes, 0 stay as they are",
        ),
        ("x: route-map LIKES entry 10: changes routes of sessions",),
    ),
    Mutation(
        "a preference that brings rest",
        GADGET,
        (replaced("x", " set local-preference 200\n", ""),),
        (
            "10.0.0.0/24",
            "  stable solutions: 0 before, 1 after",
            "  before there is no stable solution, so no routes are compared",
            "1 prefix changes, 0 stay as they are",
        ),
        ("x: route-map LIKES entry 10: changes routes of sessions",),
    ),
]
