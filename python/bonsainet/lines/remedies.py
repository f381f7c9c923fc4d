"""What to do with a line whose head is refused or in no table.

The refused heads are those of `crates/cfg_ast/specs/text/Heads.antt`; a test compares them. Scopes have the names of
docs/use/LINES.md. `IMPORT` marks what `tools/bonsai-import` does by a rule of docs/use/IMPORT.md, where the rule's condition
holds.
"""
from __future__ import annotations

import dataclasses

IMPORT = "`tools/bonsai-import` does so"
ELSE = "it can change routes: take it out only where the destinations asked about do not depend on it"
OTHERWISE = f"I{ELSE[1:]}"


@dataclasses.dataclass(frozen=True)
class Remedy:
    """What to do with lines of some heads in a scope."""

    scope: str
    heads: tuple[str, ...]
    told: str


def _of(scope: str, heads: str, told: str) -> Remedy:
    return Remedy(scope, tuple(head.strip() for head in heads.split("|")), told)


REFUSED = (
    _of(
        "top",
        "ip route",
        f"a static route is no route of BGP or OSPF. It may go where nothing redistributes it and no router announces its prefix. {IMPORT}. A `network` line that leans on a route to `Null0` needs an interface with that subnet",
    ),
    _of("top", "ip vrf | vrf", f"cut the VRF whole: its interfaces, its processes and families. {IMPORT}"),
    _of(
        "top",
        "ip as-path",
        f"write it as a prefix list where each path of a prefix, or none, has what it asks for. {IMPORT}; else: {ELSE}",
    ),
    _of(
        "top",
        "ip community-list expanded | ip community-list 100-500",
        f"write the communities of the network in which it is found as a standard list. {IMPORT}; expressions over several communities are outside the profile",
    ),
    _of("top", "ip extcommunity-list", f"extended communities are outside the profile. {OTHERWISE}"),
    _of("top", "ip policy-list", "write its match and set lines into the entries that name it"),
    _of("top", "ip default-network", f"it makes a default route. {OTHERWISE}"),
    _of("top", "no ip routing", "the device is no router: take its text out of the input"),
    _of(
        "top",
        "router",
        f"another protocol than BGP and OSPF. Where nothing redistributes it into them, its stanza may go; else: {ELSE}",
    ),
    _of(
        "top",
        "ipv6",
        "take it out: IPv6 has no bearing on IPv4 routes. A neighbour with an IPv6 address that carries IPv4 routes is outside the profile",
    ),
    _of("top", "banner", f"take out the banner up to its delimiter. {IMPORT}"),
    _of(
        "top",
        "mpls",
        f"labels follow the routes and make none; the line may go where no VPN or traffic engineering hangs on it. {IMPORT}",
    ),
    _of(
        "interface",
        "ip ospf",
        f"write `ip ospf N area A` as a `network ADDRESS 0.0.0.0 area A` line of the process. A type of network may go where both ends agree on it and no prefix changes. {IMPORT}. Point-to-multipoint and `prefix-suppression` take prefixes away: the interface is outside the profile",
    ),
    _of(
        "interface",
        "ip unnumbered",
        "give the link a subnet of its own, which nothing else announces, and say so; else the link is outside the profile",
    ),
    _of(
        "interface",
        "ip vrf | vrf",
        "cut the interface whole. Do not delete the line alone: the interface joins the global table",
    ),
    _of(
        "interface",
        "ip policy",
        "packets that a policy forwards are not modelled: it may go, and the answer is about routes alone",
    ),
    _of("interface", "ipv6", f"take it out: it has no bearing on IPv4 routes. {IMPORT}"),
    _of("interface", "bandwidth", f"write the cost that follows as `ip ospf cost`, then take it out. {IMPORT}"),
    _of(
        "router bgp",
        "bgp | no bgp",
        f"each such line changes which routes are chosen or carried, or only timers and logs. `tools/bonsai-import` knows the bearing of many. Instead of `bgp listen range` write a `neighbor` line for each neighbour that it lets in: without them there are no sessions here. Else: {ELSE}",
    ),
    _of(
        "router bgp",
        "neighbor",
        f"unfold peer groups and templates, and write a filter by access list as a prefix list. {IMPORT}. `update-source`, `ebgp-multihop`, `allowas-in`, `remove-private-as` and reflectors are outside the profile; weights are preferences where nothing originates with more weight",
    ),
    _of("router bgp", "aggregate-address", f"it adds a route, and with `summary-only` takes others. {OTHERWISE}"),
    _of(
        "router bgp",
        "redistribute",
        f"write `redistribute connected` as a `network` line for each connected subnet that its map permits. {IMPORT}. Do not delete it: the prefixes vanish. Other sources are outside the profile",
    ),
    _of("router bgp", "maximum-paths", f"a router may hold any of the best routes here: it may go. {IMPORT}"),
    _of(
        "router bgp",
        "distance",
        "the table of the device compares protocols by it: it may go where no other protocol has the prefix",
    ),
    _of(
        "router bgp",
        "address-family",
        f"lift the lines of `ipv4 unicast` into the process, for activated neighbours alone, and cut other families whole. {IMPORT}",
    ),
    _of("router bgp", "default-information", f"it adds a default route. {OTHERWISE}"),
    _of(
        "router bgp",
        "default-metric",
        "it gives a MED to redistributed routes. MEDs are outside the profile: it may go where nothing is redistributed",
    ),
    _of("router bgp", "synchronization", "it holds routes of internal BGP back: it may go where there is none"),
    _of(
        "router bgp",
        "auto-summary",
        f"it shortens redistributed prefixes to their classes: it may go where nothing is redistributed and each `network` line has its mask; else: {ELSE}",
    ),
    _of(
        "router bgp",
        "table-map",
        "it changes the table of the device alone, or filters it: it may go where it filters nothing",
    ),
    _of("router bgp", "distribute-list", "write it as a prefix list of each neighbour"),
    _of(
        "router ospf",
        "auto-cost",
        f"write the cost of each interface as `ip ospf cost`: the reference bandwidth over that of the interface, at least 1. {IMPORT}. Do not delete it alone: the costs change",
    ),
    _of("router ospf", "redistribute", f"external routes are outside the profile. {OTHERWISE}"),
    _of("router ospf", "default-information", f"it adds a default route. {OTHERWISE}"),
    _of(
        "router ospf",
        "default-metric",
        "it gives a cost to redistributed routes: it may go where nothing is redistributed",
    ),
    _of(
        "router ospf",
        "distance",
        "the table of the device compares protocols by it: it may go where no other protocol has the prefix",
    ),
    _of(
        "router ospf",
        "area",
        f"write the authentication of an area as `ip ospf authentication` of its interfaces, and ask bonsai-doubts whether both ends have it. {IMPORT}. Of several areas `tools/bonsai-import --area N` keeps one. Ranges and virtual links are outside the profile. {OTHERWISE}",
    ),
    _of(
        "router ospf",
        "max-metric",
        "the router is no transit: write cost 65535 on each interface with a neighbour, or ask without the router. The prefix of a point-to-point link keeps its cost on devices: ask about other prefixes",
    ),
    _of("router ospf", "distribute-list", f"it filters the table of the device. {OTHERWISE}"),
    _of("router ospf", "maximum-paths", f"a router may hold any of the best routes here: it may go. {IMPORT}"),
    _of("router ospf", "summary-address", f"it summarizes external routes, which are outside the profile. {OTHERWISE}"),
    _of(
        "router ospf",
        "neighbor",
        "it names a neighbour on a wire without broadcast: it may go where both ends are adjacent anyway",
    ),
    _of(
        "route-map",
        "match",
        f"write `match ip address` of an access list, and `match as-path` where paths are decided, as a prefix list. {IMPORT}. Do not delete it: its entry then holds for every route. Other matches are outside the profile: cut the entry by decision",
    ),
    _of(
        "route-map",
        "set",
        f"write weights as preferences. {IMPORT}. MEDs, next hops and origins are outside the profile. Where they choose between routes of this network, the answer is another one",
    ),
    _of("route-map", "continue", "write the entries out: one for each way through the map"),
)

UNKNOWN = (
    _of(
        "top",
        "log | debug | frr version | frr defaults | ip nht",
        "FRR writes it; its defaults are others than those of IOS. `tools/bonsai-import` knows them and leaves the line out",
    ),
    _of(
        "top",
        "netconf-yang | call-home | flow | key | memory | no platform | ip tacacs | ip device | subscriber | switch | system",
        "management makes no route: it may go",
    ),
    _of(
        "top",
        "event",
        "an applet that enters `configure` can shut interfaces and change routes: `tools/bonsai-import` refuses it, and leaves the others out",
    ),
    _of(
        "top",
        "track | ip sla | udld | bfd-template",
        "it says when a route is lost, and not which routes are held at rest: it may go where no static route or map depends on it",
    ),
    _of("top", "ip multicast-routing | ip pim | ip msdp", "multicast trees follow the routes and make none: it may go"),
    _of("top", "ip default-gateway", "it is for the device's own packets: it may go"),
    _of("interface", "bfd | carrier-delay | dampening | udld", "it says when a link is lost: it may go"),
    _of("interface", "ip pim | ip igmp", "multicast makes no route: it may go"),
    _of(
        "interface",
        "standby | vrrp | glbp",
        "a gateway address serves hosts, and no protocol announces it here: it may go",
    ),
    _of(
        "interface",
        "ip verify | no fair-queue | authentication | pae | ip dhcp | no ipv6 | mpls",
        "it makes no IPv4 route: it may go",
    ),
    _of("interface", "tunnel", "a tunnel is a link like others: it may go where the interface keeps its address"),
    _of("router bgp", "exit-address-family", f"lift the family into the process. {IMPORT}"),
    _of("router bgp", "template | exit-peer-session | exit-peer-policy | inherit", f"unfold the template. {IMPORT}"),
    _of("router bgp", "advertise-all-vni", "it belongs to a family other than IPv4: cut the family whole"),
    _of(
        "router ospf",
        "mpls ldp sync | mpls ldp-sync",
        "the cost of a link whose other end runs no LDP stays at its maximum (RFC 5443): it may go where both ends run LDP",
    ),
    _of("router ospf", "nsf | bfd | ispf | mpls ldp", "timers, restarts and labels make no route: it may go"),
)
OTHER = f"compare it with the vendor's reference. Where it makes no route, take it out by a decision of `tools/bonsai-import`, which keeps the reason; else: {ELSE}"
