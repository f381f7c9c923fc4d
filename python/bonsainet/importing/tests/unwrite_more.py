"""Further ways back from the profile to what devices print."""
from __future__ import annotations

import re

from bonsainet.importing.tests.unwrite import as_frr, bgp, body_text, line, ospf, peers, stanza
from bonsainet.configs.text import Router


def unchecked(router: Router) -> None:
    """FRR's `network` lines without an interface, where no route is asked for."""
    part = bgp(router)
    if not any(one.words[0] == "network" for one in part.body):
        as_frr(router)
        return
    as_frr(router)
    router.stanzas = [other for other in router.stanzas if not other.head.text.startswith("interface Vlan")]
    bgp(router).body.insert(0, line(" no bgp network import-check"))


def mapped(router: Router) -> None:
    """`network` lines with a map that lets them through, and one with a map that denies."""
    body_text(bgp(router), lambda text: f"{text} route-map ALL" if text.startswith("network") else text)
    bgp(router).body.insert(0, line(" network 10.77.0.0 mask 255.255.255.0 route-map NONE"))
    router.stanzas += [
        stanza("interface Vlan77", f"ip address 10.77.0.{int(router.name[1:]) + 1} 255.255.255.0"),
        stanza("route-map ALL permit 10"),
        stanza("route-map NONE deny 10"),
    ]


def shut(router: Router) -> None:
    """Subinterfaces and bundles below what is shut, and secondary addresses without bearing."""
    bgp(router).body.insert(0, line(" network 10.88.0.0 mask 255.255.255.0"))
    bgp(router).body.insert(0, line(" network 10.89.0.0 mask 255.255.255.0"))
    router.stanzas += [
        stanza("interface GigabitEthernet9/1", "shutdown"),
        stanza("interface GigabitEthernet9/1.5", "encapsulation dot1Q 5", "ip address 10.88.0.1 255.255.255.0"),
        stanza(
            "interface Port-channel3",
            "ip address 10.89.0.1 255.255.255.0",
            "ip address 10.90.0.1 255.255.255.0 secondary",
        ),
        stanza("interface GigabitEthernet9/2", "channel-group 3 mode active", "shutdown"),
        stanza(
            "interface GigabitEthernet9/3",
            "shutdown",
            "ip address 10.91.0.1 255.255.255.0",
            "ip address 10.91.1.1 255.255.255.0 secondary",
        ),
    ]
    for other in router.with_head("interface", "Vlan1"):
        address = next(one.words[2] for one in other.body if one.words[:2] == ["ip", "address"])
        other.body.append(line(f" ip address {address.rpartition('.')[0]}.200 255.255.255.0 secondary"))


def words(router: Router) -> None:
    """What a process and its neighbours say twice, by default, or for people."""
    part = bgp(router)
    body_text(part, lambda text: re.sub(r"^(neighbor \S+ shutdown)$", r"\1 message out of order", text))
    for peer in peers(part):
        if any(one.words[:3] == ["neighbor", peer, "send-community"] for one in part.body):
            part.body = [one for one in part.body if one.words[:3] != ["neighbor", peer, "send-community"]]
            part.body += [line(f" neighbor {peer} send-community all"), line(f" neighbor {peer} send-community all")]
        part.body += [
            line(f" neighbor {peer} {text}")
            for text in ("next-hop-self all", "send-community large", "passive")[
                : 2 if peer < "172.16.0.2" or peer.endswith("1") else 3
            ]
        ]
        part.body.append(line(f" no neighbor {peer} ebgp-multihop"))
    part.body += [
        line(f" {text}")
        for text in (
            "no bgp dampening",
            "bgp suppress-duplicates",
            "rd vpn export 1:1",
            "rt vpn export 1:1",
            "export vpn",
            "bgp deterministic-med",
        )
    ]
    router.stanzas += [
        stanza("no ip prefix-list sequence-number"),
        stanza("ip as-path access-list 777 permit .*"),
        stanza("route-map UNUSED permit 10", "match as-path 777", "set weight 5"),
        stanza("mls qos"),
        stanza("interface Null0", "no ip unreachables", "mls qos trust dscp"),
    ]
    for other in router.with_head("interface"):
        other.body.insert(0, line(" description " + "long " * 300))


def nameless(router: Router) -> None:
    """A router whose name is that of its file alone."""
    router.stanzas = [other for other in router.stanzas if not other.starts("hostname")]


def frr_loopbacks(router: Router) -> None:
    """FRR's loopback without a cost, passive interfaces by their own line, and one process in two files."""
    as_frr(router)
    for other in router.with_head("interface"):
        if other.head.words[1].startswith("Loopback"):
            other.head = line("interface lo")
            other.body = [one for one in other.body if "cost" not in one.text]
    part = ospf(router)
    passive = [one.words[1] for one in part.body if one.words[0] == "passive-interface"]
    part.body = [one for one in part.body if one.words[0] != "passive-interface"]
    for other in router.with_head("interface"):
        if other.head.words[1] in passive:
            other.body.append(line(" ip ospf passive"))
    router.stanzas += [
        stanza("ip forwarding"),
        stanza("router ospf", f"ospf router-id 192.0.2.{int(router.name[1:]) + 1}"),
    ]


def point_to_point_words(router: Router) -> None:
    """The words behind the name of a point-to-point interface, and what speaks of external routes."""
    for other in router.with_head("interface"):
        if "Ethernet" in other.head.text:
            other.head = line(f"{other.head.text} point-to-point")
    ospf(router).body += [line(" summary-address 10.0.0.0 255.0.0.0"), line(" default-metric 20")]


def loopbacks_by_bandwidth(router: Router) -> None:
    """Vlans of cost 1 as loopbacks of type point-to-point under a reference of 1,000 Mbit/s."""
    for other in router.with_head("interface"):
        name = other.head.words[1]
        cost = next((int(one.words[3]) for one in other.body if one.words[:3] == ["ip", "ospf", "cost"]), 1)
        other.body = [one for one in other.body if one.words[:3] != ["ip", "ospf", "cost"]]
        if name.startswith("Vlan") and cost == 1:
            other.head = line(f"interface Loopback{name[4:]}")
            other.body.append(line(" ip ospf network point-to-point"))
            _as_loopback(router, name)
        elif not name.startswith("Loopback"):
            other.body.append(line(f" bandwidth {1_000_000 // cost}"))
    ospf(router).body.append(line(" auto-cost reference-bandwidth 1000"))


def _as_loopback(router: Router, name: str) -> None:
    """The OSPF lines of a Vlan, for the loopback of its number."""
    old, new = f"passive-interface {name}", f"passive-interface Loopback{name[4:]}"
    body_text(ospf(router), lambda text: text.replace(old, new))


def frr_dummies(router: Router) -> None:
    """FRR's interfaces that are named as loopbacks and are none: they are announced with their masks."""
    as_frr(router)
    for other in router.with_head("interface"):
        name = other.head.words[1]
        if name.startswith("Vlan"):
            other.head = line(f"interface Loopback{name[4:]}")
            _as_loopback(router, name)


def static_routes(router: Router) -> None:
    """Static routes to prefixes that no router announces: the default route, a larger prefix, one inside of another."""
    router.stanzas += [
        stanza("ip route 0.0.0.0 0.0.0.0 192.0.2.1"),
        stanza("ip route 10.0.0.0 255.0.0.0 Null0"),
        stanza("ip route 10.0.0.128 255.255.255.128 192.0.2.1 250 name part"),
    ]


def router_ids(router: Router) -> None:
    """FRR's identifier of a router, and dampening."""
    as_frr(router)
    router.stanzas.insert(1, stanza(f"ip router-id 192.0.2.{int(router.name[1:]) + 1}"))
    for part in router.with_head("router", "bgp"):
        part.body.append(line(" bgp dampening 15 750 2000 60"))


def idle_addresses(router: Router) -> None:
    """An address that all routers have and none uses; it is the lowest, so it identifies no router."""
    router.stanzas.insert(1, stanza("interface Vlan200", "ip address 9.0.2.1 255.255.255.0"))


def other_areas(router: Router) -> None:
    """An area beside the one of the text, and routes from outside."""
    part = ospf(router)
    number = int(router.name[1:]) + 1
    router.stanzas.insert(
        1, stanza("interface Vlan201", f"ip address 10.200.{number}.1 255.255.255.0", "ip ospf cost 2")
    )
    part.body += [
        line(f" network 10.200.{number}.1 0.0.0.0 area 0.0.0.5"),
        line(" area 5 stub no-summary"),
        line(" area 0 range 10.0.0.0 255.0.0.0"),
        line(" redistribute static subnets"),
        line(" default-information originate always"),
    ]
