"""Random texts of the profile, small enough that the program answers at once."""
from __future__ import annotations

from hypothesis import strategies as st

COMMUNITIES = ("65000:1", "65000:2", "65000:3")
KINDS = ("GigabitEthernet0/", "TenGigabitEthernet0/", "FastEthernet0/")


@st.composite
def links(draw: st.DrawFn, count: int) -> list[tuple[int, int]]:
    """Links that join all routers, and some more."""
    found = [(draw(st.integers(0, number - 1)), number) for number in range(1, count)]
    more = draw(st.lists(st.tuples(st.integers(0, count - 1), st.integers(0, count - 1)), max_size=3))
    return found + [
        (min(pair), max(pair)) for pair in more if pair[0] != pair[1] and (min(pair), max(pair)) not in found
    ]


@st.composite
def lists_and_maps(draw: st.DrawFn, number: int) -> list[str]:
    """Prefix lists, community lists and route maps of a router with an AS number."""
    lines = []
    for name in ("P1", "P2"):
        for place, prefix in enumerate(draw(st.lists(st.integers(0, 5), min_size=1, max_size=3, unique=True)), 1):
            lines.append(
                f"ip prefix-list {name} seq {5 * place} {draw(st.sampled_from(['permit', 'permit', 'deny']))} 10.{prefix}.0.0/24"
            )
    lines.append(f"ip prefix-list P1 seq 50 {draw(st.sampled_from(['permit', 'deny']))} 0.0.0.0/0 le 32")
    for name in ("10", "standard C2"):
        for community in draw(st.lists(st.sampled_from(COMMUNITIES), min_size=1, max_size=2, unique=True)):
            lines.append(f"ip community-list {name} {draw(st.sampled_from(['permit', 'permit', 'deny']))} {community}")
    for name in ("IN", "OUT"):
        for place in range(1, draw(st.integers(1, 3)) + 1):
            lines.append(
                f"route-map {name} {draw(st.sampled_from(['permit', 'permit', 'permit', 'deny']))} {10 * place}"
            )
            if draw(st.booleans()):
                lines.append(f" match ip address prefix-list {draw(st.sampled_from(['P1', 'P2', 'P1 P2']))}")
            if draw(st.booleans()):
                lines.append(f" match community {draw(st.sampled_from(['10', 'C2', '10 C2']))}")
            if name == "IN" and draw(st.booleans()):
                lines.append(f" set local-preference {draw(st.sampled_from([50, 100, 200]))}")
            if draw(st.booleans()):
                lines.append(
                    f" set community {draw(st.sampled_from(COMMUNITIES))}{draw(st.sampled_from(['', ' additive']))}"
                )
            if draw(st.integers(0, 3)) == 0:
                lines.append(" set comm-list C3 delete")
            if name == "OUT" and draw(st.integers(0, 3)) == 0:
                lines.append(f" set as-path prepend {number} {number}")
        lines.append(f"route-map {name} permit 90")
    lines += [f"ip community-list standard C3 permit {community}" for community in COMMUNITIES[:2]]
    return lines


@st.composite
def bgp_texts(draw: st.DrawFn, chain: bool = False) -> str:
    """A network of BGP routers; as a chain, of three or four."""
    count = draw(st.integers(3 if chain else 2, 4))
    joined = [(number - 1, number) for number in range(1, count)] if chain else draw(links(count))
    texts = []
    for router in range(count):
        number = 65001 + router
        lines = [f"hostname r{router}"]
        own = draw(st.lists(st.integers(0, 5), max_size=2, unique=True)) or ([0] if router == 0 else [])
        for place, prefix in enumerate(own, 1):
            lines += [f"interface Vlan{place}", f" ip address 10.{prefix}.0.{router + 1} 255.255.255.0"]
        process = [f" network 10.{prefix}.0.0 mask 255.255.255.0" for prefix in own]
        if draw(st.integers(0, 4)) == 0:
            process.insert(0, f" bgp default local-preference {draw(st.sampled_from([90, 120]))}")
        for at, (low, high) in enumerate(joined):
            if router not in (low, high):
                continue
            side, other = (1, high) if router == low else (2, low)
            peer = f"172.16.{at}.{3 - side}"
            lines += [f"interface GigabitEthernet0/{at}", f" ip address 172.16.{at}.{side} 255.255.255.252"]
            process.append(f" neighbor {peer} remote-as {65001 + other}")
            if draw(st.integers(0, 9)) == 0:
                process.append(f" neighbor {peer} shutdown")
            if draw(st.integers(0, 3)):
                process.append(f" neighbor {peer} send-community")
            process += draw(policies(peer))
        lines += [f"router bgp {number}", *process]
        lines += draw(lists_and_maps(number))
        texts.append("\n".join([*lines, "end", ""]))
    return "".join(texts)


@st.composite
def policies(draw: st.DrawFn, peer: str) -> list[str]:
    """What a neighbour filters and maps."""
    lines = []
    for way in ("in", "out"):
        if draw(st.integers(0, 3)) == 0:
            lines.append(f" neighbor {peer} prefix-list {draw(st.sampled_from(['P1', 'P2']))} {way}")
        if draw(st.booleans()):
            lines.append(f" neighbor {peer} route-map {'IN' if way == 'in' else 'OUT'} {way}")
    return lines


@st.composite
def ospf_texts(draw: st.DrawFn) -> str:
    """A network of OSPF routers in one area."""
    count = draw(st.integers(2, 5))
    joined = draw(links(count))
    texts = []
    for router in range(count):
        lines = [f"hostname r{router}"]
        networks, passive = [], []
        for at, (low, high) in enumerate(joined):
            if router in (low, high):
                name = f"{draw(st.sampled_from(KINDS))}{at}"
                address = f"172.16.{at}.{1 if router == low else 2}"
                lines += [f"interface {name}", f" ip address {address} 255.255.255.252"]
                if draw(st.booleans()):
                    lines.append(f" ip ospf cost {draw(st.sampled_from([1, 2, 5, 10, 100]))}")
                networks.append(address)
        for place in range(draw(st.integers(0, 2))):
            lines += [
                f"interface Vlan{place + 1}",
                f" ip address 10.{router}.{place}.1 255.255.255.0",
                f" ip ospf cost {draw(st.sampled_from([1, 7]))}",
            ]
            networks.append(f"10.{router}.{place}.1")
            passive.append(f"Vlan{place + 1}")
        if draw(st.booleans()):
            lines += ["interface Loopback0", f" ip address 10.255.0.{router + 1} 255.255.255.255"]
            networks.append(f"10.255.0.{router + 1}")
        lines += [
            "router ospf 1",
            *(f" passive-interface {name}" for name in passive),
            *(f" network {address} 0.0.0.0 area 0" for address in networks),
        ]
        texts.append("\n".join([*lines, "end", ""]))
    return "".join(texts)
