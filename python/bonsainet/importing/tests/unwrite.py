"""Texts of the profile, written as devices write them: for each rule the way back."""
from __future__ import annotations

import re
from collections.abc import Callable
from ipaddress import IPv4Interface

from bonsainet.configs.text import Line, Place, Router, Stanza, read_text

Unwrite = Callable[[Router], None]
PLACE = Place("made", 0)


def line(text: str) -> Line:
    """A line that a test makes."""
    return Line(text, PLACE)


def stanza(head: str, *body: str) -> Stanza:
    """A stanza that a test makes."""
    return Stanza(line(head), [line(f" {text}") for text in body])


def text_with(text: str, unwrite: Unwrite) -> list[tuple[str, str]]:
    """The routers of a text, each written otherwise, with their names."""
    found = []
    for router in read_text(text, "net.cfg"):
        unwrite(router)
        lines = [inside.text for part in router.stanzas for inside in part.lines]
        found.append((router.name, "\n".join([*lines, "end", ""])))
    return found


def bgp(router: Router) -> Stanza:
    """The BGP process, which the router has."""
    return next(router.with_head("router", "bgp"))


def ospf(router: Router) -> Stanza:
    """The OSPF process, which the router has."""
    return next(router.with_head("router", "ospf"))


def body_text(part: Stanza, change: Callable[[str], str | list[str]]) -> None:
    """Writes each line of a body otherwise."""
    changed: list[Line] = []
    for inside in part.body:
        told = change(inside.text.strip())
        changed += [line(f" {text}") for text in ([told] if isinstance(told, str) else told)]
    part.body = changed


def peers(part: Stanza) -> list[str]:
    """The neighbours of a process."""
    return [inside.words[1] for inside in part.body if inside.words[2:3] == ["remote-as"]]


def families(router: Router) -> None:
    """Policies in an address family, with activation."""
    part = bgp(router)
    inside = [
        one
        for one in part.body
        if one.words[0] == "network" or (one.words[0] == "neighbor" and one.words[2] not in ("remote-as", "shutdown"))
    ]
    kept = [one for one in part.body if all(one is not other for other in inside)]
    active = [line(f"  neighbor {peer} activate") for peer in peers(part)]
    family = [
        line(" address-family ipv4 unicast"),
        *active,
        *[line(f" {one.text}") for one in inside],
        line(" exit-address-family"),
    ]
    other = [line(" address-family vpnv4"), line("  neighbor 192.0.2.77 activate"), line(" exit-address-family")]
    part.body = [
        line(" no bgp default ipv4-unicast"),
        line(" neighbor 192.0.2.77 remote-as 64999"),
        *kept,
        *family,
        *other,
    ]


def groups(router: Router) -> None:
    """A peer group with what all neighbours have, and own lines for the rest."""
    part = bgp(router)
    names = peers(part)
    if len(names) < 2:
        return
    settings = {
        peer: [
            " ".join(one.words[2:])
            for one in part.body
            if one.words[:2] == ["neighbor", peer] and one.words[2] != "remote-as"
        ]
        for peer in names
    }
    shared = [text for text in settings[names[0]] if all(text in settings[peer] for peer in names)]
    kept = [one for one in part.body if not (one.words[0] == "neighbor" and " ".join(one.words[2:]) in shared)]
    part.body = [line(" neighbor G peer-group"), *[line(f" neighbor G {text}") for text in shared], *kept]
    part.body += [line(f" neighbor {peer} peer-group G") for peer in names]


def templates(router: Router) -> None:
    """A peer policy for each neighbour."""
    part = bgp(router)
    made: list[Line] = []
    for number, peer in enumerate(peers(part)):
        own = [
            one
            for one in part.body
            if one.words[:2] == ["neighbor", peer] and one.words[2] in ("route-map", "prefix-list", "send-community")
        ]
        part.body = [one for one in part.body if all(one is not other for other in own)]
        made += [
            line(f" template peer-policy T{number}"),
            *[line("  " + " ".join(one.words[2:])) for one in own],
            line(" exit-peer-policy"),
        ]
        made += [line(f" template peer-session T{number}"), line("  timers 10 30"), line(" exit-peer-session")]
        part.body += [
            line(f" neighbor {peer} inherit peer-policy T{number}"),
            line(f" neighbor {peer} inherit peer-session T{number}"),
        ]
    part.body = made + part.body


def redistributed(router: Router) -> None:
    """Connected subnets of a process through a route map."""
    part = bgp(router)
    own = [one.words[1] for one in part.body if one.words[0] == "network"]
    part.body = [one for one in part.body if one.words[0] != "network"] + [
        line(" redistribute connected route-map CONNECTED")
    ]
    router.stanzas += [
        stanza(f"ip prefix-list CONNECTED seq {5 * at} permit {prefix}/24") for at, prefix in enumerate(own, 1)
    ]
    router.stanzas += [
        stanza("ip prefix-list CONNECTED seq 999 deny 0.0.0.0/0 le 32"),
        stanza("route-map CONNECTED permit 10", "match ip address prefix-list CONNECTED"),
    ]


def null_routes(router: Router) -> None:
    """Prefixes that null routes make."""
    own = {one.words[1] for one in bgp(router).body if one.words[0] == "network"}
    router.stanzas = [
        part for part in router.stanzas if not part.starts("interface") or not part.head.words[1].startswith("Vlan")
    ]
    router.stanzas += [stanza(f"ip route {prefix} 255.255.255.0 Null0 name own") for prefix in sorted(own)]


def access_lists(router: Router) -> None:
    """Prefix lists of exact prefixes as access lists: in distribute lists and in matches."""
    number = {"P1": "11", "P2": "named-12"}
    for part in router.stanzas:
        words = part.head.words
        if words[:2] == ["ip", "prefix-list"]:
            prefix, _, length = words[6].partition("/")
            source = "any" if length == "0" else f"{prefix} 0.0.0.255"
            text = f"access-list 11 {words[5]} {source}" if words[2] == "P1" else f"{words[5]} {source}"
            part.head = line(text if words[2] == "P1" else "ip access-list standard named-12")
            part.body = [] if words[2] == "P1" else [line(f" {text}")]
        else:
            body_text(
                part,
                lambda text: re.sub(
                    r"^(neighbor \S+) prefix-list (P\d) (in|out)$",
                    lambda found: f"{found[1]} distribute-list {number[found[2]]} {found[3]}",
                    text,
                ),
            )
            body_text(
                part,
                lambda text: re.sub(r"P\d", lambda found: number[found[0]], text.replace(" prefix-list", ""))
                if text.startswith("match ip address")
                else text,
            )


def numberless(router: Router) -> None:
    """Prefix lists without numbers, community lists with them, and expanded ones."""
    router.stanzas.sort(key=lambda part: int(part.head.words[4]) if part.starts("ip", "prefix-list") else 0)
    count = 0
    for part in router.stanzas:
        text = part.head.text
        if part.starts("ip", "prefix-list"):
            part.head = line(re.sub(r" seq \d+", "", text))
        elif part.starts("ip", "community-list", "standard", "C2"):
            count += 5
            part.head = line(re.sub(r"standard C2 (permit|deny)", rf"standard C2 seq {count} \1", text))
        elif part.starts("ip", "community-list", "standard", "C3"):
            part.head = line(re.sub(r"standard C3 permit (\S+)", r"expanded C3 permit _\1_", text))


def sessions(router: Router) -> None:
    """What sessions on one subnet say without bearing."""
    part = bgp(router)
    own = {
        IPv4Interface("/".join(address.words[2:4])): other.head.words[1]
        for other in router.with_head("interface")
        for address in other.body
        if address.words[:2] == ["ip", "address"]
    }
    for peer in peers(part):
        name = next(name for address, name in own.items() if IPv4Interface(peer).ip in address.network)
        part.body += [
            line(f" neighbor {peer} {text}")
            for text in (
                f"update-source {name}",
                "ebgp-multihop 2",
                "maximum-prefix 100",
                "bfd",
                "capability orf prefix-list both",
                "capability extended-nexthop",
                "timers 3 9",
            )
        ]
    part.body += [
        line(f" {text}")
        for text in (
            "maximum-paths 8",
            "bgp bestpath compare-routerid",
            "bgp dampening",
            "bgp always-compare-med",
            "distance bgp 20 200 200",
            "neighbor 198.51.100.9 remote-as internal",
        )
    ]
    part.body += [
        line(f" neighbor 198.51.100.8 remote-as {part.head.words[2]}"),
        line(" neighbor 198.51.100.8 update-source Loopback0"),
    ]


def numbers_with_points(router: Router) -> None:
    """AS numbers with a point."""
    part = bgp(router)
    part.head = line(f"router bgp 0.{part.head.words[2]}")
    body_text(part, lambda text: re.sub(r"remote-as (\d+)$", r"remote-as 0.\1", text))


def apart(router: Router) -> None:
    """VRFs, IPv6, management and banners beside the routes."""
    router.stanzas += [
        stanza("vrf definition MGMT", "address-family ipv4", "exit-address-family"),
        stanza("interface GigabitEthernet9/9", "vrf forwarding MGMT", "ip address 10.0.0.1 255.255.0.0"),
        stanza("ip route vrf MGMT 0.0.0.0 0.0.0.0 10.0.0.9"),
        stanza("ipv6 unicast-routing"),
        stanza("banner motd #"),
        stanza("interface Vlan1 is yours #"),
        stanza("netconf-yang"),
        stanza("ip multicast-routing"),
        stanza("flow monitor M", "record netflow"),
    ]
    for part in router.with_head("interface"):
        part.body += [
            line(f" {text}")
            for text in (
                "ip pim sparse-mode",
                "bfd interval 50 min_rx 50 multiplier 3",
                "ipv6 address 2001:db8::1/64",
                "standby 1 ip 192.0.2.99",
                "service-policy output Q",
            )
        ]


def metrics(router: Router) -> None:
    """Attributes that the profile has not, where nothing asks for them."""
    for part in router.with_head("route-map"):
        part.body += [
            line(f" {text}")
            for text in ("set metric 77", "set large-community 1:2:3", "set tag 5", "set extcommunity rt 1:1")
        ]


def as_frr(router: Router) -> None:
    """A configuration as FRR writes it."""
    for part in list(router.stanzas):
        text = part.head.text
        part.head = line(text.replace("ip community-list", "bgp community-list"))
        if part.starts("interface"):
            body_text(
                part,
                lambda one: re.sub(
                    r"ip address (\S+) (\S+)",
                    lambda found: f"ip address {IPv4Interface(f'{found[1]}/{found[2]}').with_prefixlen}",
                    one,
                ),
            )
        if part.starts("router", "ospf"):
            part.head = line("router ospf")
            body_text(part, lambda one: re.sub(r"network (\S+) 0\.0\.0\.0 area", r"network \1/32 area", one))
        if part.starts("route-map"):
            part.body.sort(key=lambda one: one.words[:2] == ["set", "community"])
            part.body = _single_lists(part)
        if part.starts("router", "bgp"):
            _frr_process(part)
    router.stanzas.insert(0, stanza("frr version 8.4.4"))


def _single_lists(part: Stanza) -> list[Line]:
    return [line(f" {one.text.strip().replace('P1 P2', 'P1').replace('10 C2', '10')}") for one in part.body]


def _frr_process(part: Stanza) -> None:
    loud = {one.words[1] for one in part.body if one.words[2:3] == ["send-community"]}
    part.body = [one for one in part.body if one.words[2:3] != ["send-community"]]
    body_text(
        part,
        lambda one: re.sub(
            r"network (\S+) mask 255.255.255.0", r"network \1/24", re.sub(r"remote-as \d+$", "remote-as external", one)
        ),
    )
    part.body += [line(f" no neighbor {peer} send-community") for peer in peers(part) if peer not in loud]
    part.body.insert(0, line(" no bgp ebgp-requires-policy"))


def one_list(text: str) -> str:
    """A text in which each match names one list, as FRR has it."""
    return text.replace("P1 P2", "P1").replace("10 C2", "10")


def interface_areas(router: Router) -> None:
    """Areas on interfaces."""
    part = ospf(router)
    covered = {one.words[1] for one in part.body if one.words[0] == "network"}
    part.body = [one for one in part.body if one.words[0] != "network"]
    for other in router.with_head("interface"):
        if any(one.words[:2] == ["ip", "address"] and one.words[2] in covered for one in other.body):
            other.body.append(line(" ip ospf 1 area 0"))


def point_to_point(router: Router) -> None:
    """Links of type point-to-point on both ends."""
    for other in router.with_head("interface"):
        if "Ethernet" in other.head.text:
            other.body.append(line(" ip ospf network point-to-point"))


def by_bandwidth(router: Router) -> None:
    """Costs that follow from a reference of 10,000 Mbit/s and the bandwidth."""
    ospf(router).body.append(line(" auto-cost reference-bandwidth 10000"))
    for other in router.with_head("interface"):
        given = next((int(one.words[3]) for one in other.body if one.words[:3] == ["ip", "ospf", "cost"]), 1)
        other.body = [one for one in other.body if one.words[:3] != ["ip", "ospf", "cost"]]
        if other.head.words[1].startswith("Loopback"):
            continue
        other.body.append(line(f" bandwidth {10_000_000 // given}"))


def loopbacks(router: Router) -> None:
    """Vlans as loopbacks of type point-to-point, and host loopbacks with a wider mask."""
    for other in router.with_head("interface"):
        name = other.head.words[1]
        if name.startswith("Loopback"):
            body_text(other, lambda one: one.replace("255.255.255.255", "255.255.255.192"))
        if name.startswith("Vlan"):
            other.head = line(f"interface Loopback{name[4:]}")
            other.body.append(line(" ip ospf network point-to-point"))
    body_text(ospf(router), lambda one: one.replace("passive-interface Vlan", "passive-interface Loopback"))


def secondaries(router: Router) -> None:
    """The second Vlan as a secondary address of the first, where both have one cost."""
    found = {part.head.words[1]: part for part in router.with_head("interface")}
    one, two = found.get("Vlan1"), found.get("Vlan2")
    if one and two and [text.text for text in one.body[1:]] == [text.text for text in two.body[1:]]:
        one.body.append(line(f"{two.body[0].text} secondary"))
        router.stanzas.remove(two)
        for part in router.with_head("router", "ospf"):
            part.body = [inside for inside in part.body if inside.words[-1] != "Vlan2"]


def ospf_words(router: Router) -> None:
    """Lines of a process without bearing in one area."""
    ospf(router).body += [
        line(f" {text}")
        for text in (
            "area 0 range 10.0.0.0 255.0.0.0",
            "maximum-paths 8",
            "mpls ldp sync",
            "nsf",
            "distance 110",
            "area 0 authentication message-digest",
            "redistribute connected subnets",
            "redistribute static",
        )
    ]
    subnets = [
        IPv4Interface("/".join(one.words[2:4]))
        for part in router.with_head("interface")
        for one in part.body
        if one.words[:2] == ["ip", "address"]
    ]
    if subnets:
        router.stanzas.append(stanza(f"ip route {subnets[0].network.network_address} {subnets[0].netmask} 192.0.2.1"))
