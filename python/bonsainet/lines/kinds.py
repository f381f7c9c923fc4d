"""The kinds of refusals: where each stands, an example, and what to do.

The names and their order are those of `crates/cfg_ast/src/refusal.rt`; a test compares them, and the program refuses
each example.
"""
from __future__ import annotations

import dataclasses


@dataclasses.dataclass(frozen=True)
class Kind:
    """A kind: the line that it stands at, such a line, and the remedy. `example` is the line as the page shows it."""

    name: str
    stands: str
    example: str
    remedy: str


KINDS = (
    Kind(
        "NotAscii",
        "a line with a byte that is neither a tab nor printable ASCII",
        " description café",
        "write the text in ASCII; `tools/bonsai-import` does so in lines that are for people",
    ),
    Kind(
        "LineTooLong",
        "a line of more than 1,024 bytes",
        " description xxx..",
        "shorten it; parts of a long list go into several entries",
    ),
    Kind("TooManyLines", "line 1,000,001", "!", "leave out comments and ignored stanzas"),
    Kind(
        "UnknownLine",
        "a line whose head is in no table of this page",
        " bfd interval 300 min_rx 300 multiplier 3",
        "see [the most frequent ones](#unknown-lines)",
    ),
    Kind(
        "Unsupported",
        "a line that begins with a refused head",
        "ip route 0.0.0.0 0.0.0.0 10.0.0.2",
        "see [the refused heads](#what-to-do-with-a-refused-line)",
    ),
    Kind(
        "BadForm",
        "a line that begins with a known head and does not fit its form",
        " ip address dhcp",
        "compare the line with [its form](#known-lines). `tools/bonsai-import` writes those of FRR so, and cuts VRFs; what else has no such form is outside the profile",
    ),
    Kind(
        "WellKnown",
        "a line that fits its form except for a well-known community",
        " set community no-export",
        "Bonsai does not model what such a community does: write it with lists and maps on the sessions where it acts. `tools/bonsai-import` does so for `no-export`, `no-advertise` and `local-AS`",
    ),
    Kind(
        "Misplaced",
        "an indented line without an open stanza, or a `neighbor` line before that neighbour's `remote-as`",
        " neighbor 10.0.0.2 send-community",
        "put the line into its stanza, behind `remote-as`; unfold peer groups",
    ),
    Kind(
        "Repeated",
        "the second line that gives one value",
        " ip address 10.0.1.1 255.255.255.0",
        "if it is a `hostname` line, or such a line above it is `Repeated` too, look first whether `end` is before that `hostname`: without it two routers are read as one. Put `end` there, and delete nothing. Elsewhere keep the line that the device keeps: mostly the last. Two files of one router are one router",
    ),
    Kind("NoHostname", "the `end` of a router without a `hostname` line", "end", "name the router"),
    Kind(
        "NoEnd",
        "the last line with words, where it is not `end`",
        "interface Serial0/0",
        "end each router with `end`; a text that was cut off lacks its last lines",
    ),
    Kind(
        "SharedName",
        "a `hostname` line with the name of an earlier router",
        "hostname a",
        "take out the second copy of the router, or rename it",
    ),
    Kind(
        "SharedAs",
        "a `router bgp` line with the number of an earlier router",
        "router bgp 65001",
        "`tools/bonsai-import --own-as` gives each router a number of its own, and says what that shows. Do not delete the process: the router's routes go with it",
    ),
    Kind(
        "InternalPeer",
        "a `remote-as` line with the router's own number",
        " neighbor 10.0.0.2 remote-as 65001",
        "internal BGP is outside the method: ask about the external part alone",
    ),
    Kind(
        "MixedProtocols",
        "a `router` line of another protocol than the first `router` line",
        "router ospf 1",
        "split the network into its OSPF and its BGP part, and ask about each",
    ),
    Kind(
        "OtherArea",
        "an OSPF `network` line with another area than the first such line",
        " network 10.0.0.0 0.0.0.3 area 1",
        "ask about each area by itself: its routers, with the interfaces of that area. `tools/bonsai-import --area N` keeps one",
    ),
    Kind(
        "UndefinedMap",
        "a line that names a route map which the router does not define",
        " neighbor 10.0.0.2 route-map IN in",
        "define the map as your device takes it: FRR denies all, and IOS differs by version. `tools/bonsai-import` takes a decision",
    ),
    Kind(
        "UndefinedList",
        "a line that names a prefix list or community list which the router does not define",
        " neighbor 10.0.0.2 prefix-list NETS in",
        "define the list as your device takes it. A filter of a neighbour permits all in IOS and denies all in FRR; a match holds for every route in IOS and for none in FRR",
    ),
    Kind(
        "DeleteListForm",
        "a line with several communities in a list that a `set comm-list` line of the router names",
        "ip community-list standard OLD permit 65001:1 65001:2",
        "one community a line; a route loses each one that the list permits by itself",
    ),
    Kind(
        "SharedAddress",
        "an `ip address` line of an up interface with the address of an earlier up interface",
        " ip address 10.0.0.1 255.255.255.0",
        "take out the second copy of the router, or cut an interface of another VRF whole",
    ),
    Kind(
        "OverlappingInterfaces",
        "an `ip address` line of an up interface whose subnet overlaps that of an earlier up interface of the router",
        " ip address 10.0.0.5 255.255.255.252",
        "correct the mask, shut the idle one, or cut an interface of another VRF whole",
    ),
    Kind(
        "LoopbackMask",
        "the `ip address` line of an up loopback in the OSPF area whose mask is not /32",
        " ip address 10.1.0.1 255.255.255.0",
        "OSPF announces a loopback as /32: give it that mask. With `ip ospf network point-to-point` it announces the subnet: name it `Vlan`",
    ),
    Kind(
        "NoCost",
        "the `ip address` line of an up interface in the area without `ip ospf cost`, whose type has no [default cost](#default-costs)",
        " ip address 10.0.0.1 255.255.255.252",
        "give `ip ospf cost` as `show ip ospf interface` prints it. Do not guess 1: other costs are other groups",
    ),
    Kind("TooManyRouters", "the `hostname` line of router 4,097", "hostname r4096", "ask about a part of the network"),
    Kind(
        "TooManyCommunities",
        "the line with community 1,025",
        "ip community-list standard MANY permit 1:1025",
        "leave out lists that nothing uses: `tools/bonsai-doubts` names them",
    ),
    Kind(
        "TooManyNeighbors",
        "`remote-as` line 131,073",
        " neighbor 10.2.0.1 remote-as 2",
        "ask about a part of the network",
    ),
    Kind(
        "TooManyLinks",
        "the `ip address` line at which the pairs of adjacent OSPF interfaces exceed 1,048,576",
        " ip address 10.0.5.169 255.255.0.0",
        "make interfaces passive that have no neighbour, or ask about a part of the network",
    ),
    Kind(
        "PrependForm",
        "a `set as-path prepend` line with a number that is not the router's own",
        " set as-path prepend 65009",
        "prepend the router's own number: numbers of others change where loops are seen, and are outside the method",
    ),
    Kind(
        "PrependIn",
        "a `neighbor .. route-map M in` line where an entry of M prepends",
        " neighbor 10.0.0.2 route-map LONGER in",
        "prepend in the out map of the other end, with its number",
    ),
)
BY_NAME = {kind.name: kind for kind in KINDS}
