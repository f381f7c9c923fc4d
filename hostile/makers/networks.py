"""Random networks of both protocols, small and crooked: most texts are read without refusal."""
from __future__ import annotations

import random

from hostile.makers import forms, policies
from hostile.makers.shapes import MOST, Shape, mask, own_address, ports, shape

TYPES = ["Serial", "Ethernet", "GigabitEthernet", "FastEthernet", "TenGigabitEthernet", "Vlan9"]


def text(chance: random.Random, most: int = MOST) -> str:
    """A network of either protocol."""
    write = chance.choice([bgp, bgp, bgp, ospf])
    return forms.commented(chance, write(chance, shape(chance, most)), 0.15)


def _start(one: Shape, place: int) -> list[str]:
    lines = [f"hostname r{place}"]
    for number, (prefix, length) in enumerate(one.origins.get(place, []), 1):
        lines += [f"interface Vlan{number}", f" ip address {own_address(prefix, length, place)} {mask(length)}"]
    return lines


def ospf(chance: random.Random, one: Shape) -> str:
    """A network of one area, with costs given and by type, passive interfaces and shared subnets."""
    lines: list[str] = []
    area = chance.choice(["0", "0.0.0.7", "4294967295"])
    shared = chance.sample(range(one.count), chance.randint(0, min(3, one.count)))
    plain = chance.random() < 0.5
    kind = chance.choice(TYPES)
    for place in range(one.count):
        lines += _start(one, place)
        if place in one.origins and chance.random() < 0.5:
            lines.append(f" ip ospf cost {chance.choice([1, 10, 65535])}")
        for number, _, own, _ in ports(one, place):
            lines += [
                f"interface {kind if plain else chance.choice(TYPES)}0/{number}",
                f" ip address {own} 255.255.255.254",
            ]
            lines += (
                [f" ip ospf cost {chance.choice([1, 1, 5, 10, 64, 65535])}"]
                if chance.random() < (0.1 if plain else 0.5)
                else []
            )
            lines += [" shutdown"] if chance.random() < 0.05 else []
        if place in shared:
            lines += ["interface Vlan77", f" ip address 10.77.0.{place + 1} 255.255.0.0"]
        if chance.random() < 0.2:
            lines += ["interface Loopback0", f" ip address 10.254.0.{place + 1} 255.255.255.255"]
        if chance.random() < 0.95:
            lines.append(f"router ospf {place + 1}")
            lines += [f" passive-interface Vlan{chance.choice([1, 2, 77])}"] if chance.random() < 0.3 else []
            lines += [" passive-interface default", f" no passive-interface {kind}0/0"] if chance.random() < 0.1 else []
            lines.append(
                f" network {chance.choice(['0.0.0.0 255.255.255.255', '0.0.0.0 255.255.255.255', '10.0.0.0 0.255.255.255', '10.0.0.0 0.1.0.255'])} area {area}"
            )
            lines += (
                [
                    f" network {chance.choice(['172.16.0.0 0.15.255.255', '172.16.0.0 0.0.255.251', '172.16.0.0 255.0.255.255'])} area {area}"
                ]
                if chance.random() < 0.9
                else []
            )
        lines.append("end")
    return "".join(f"{line}\n" for line in lines)


def bgp(chance: random.Random, one: Shape) -> str:
    """A BGP network: maps, lists, exact matches, prepending, lone routers, directions that let nothing through.

    Half of the networks have one policy that all routers share, some with a twist: so acts are equal, or nearly so."""
    wild = chance.choice([0.2, 0.5, 0.9, 1.0])
    named = policies.communities(chance)
    shared = policies.Policy.made(chance, named) if chance.random() < 0.6 else None
    default = chance.choice([0, 50, 150, 101, 4294967295])
    lines: list[str] = []
    for place in range(one.count):
        lines += _start(one, place)
        ends = ports(one, place)
        for number, _, own, _ in ends:
            lines += [f"interface Serial0/{number}", f" ip address {own} 255.255.255.254"]
            lines += [" shutdown"] if chance.random() < 0.02 else []
        lines.append(f"router bgp {65001 + place}")
        if chance.random() < wild / 3:
            lines.append(f" bgp default local-preference {default}")
        lines += [f" network {prefix} mask {mask(length)}" for prefix, length in one.origins.get(place, [])]
        policy = shared or policies.Policy.made(chance, named)
        if shared and chance.random() < 0.25:
            policy = policy.twisted(chance)
        for _, other, _, far in ends:
            lines += _neighbor(chance, policy, str(far), 65001 + other, wild)
        if chance.random() < 0.1:
            lines.append(f" neighbor 203.0.113.{place} remote-as 7")
        lines += [line.replace("OWN", str(65001 + place)) for line in policy.lines] + ["end"]
    return "".join(f"{line}\n" for line in lines)


def _neighbor(chance: random.Random, policy: policies.Policy, far: str, number: int, wild: float) -> list[str]:
    lines = [f" neighbor {far} remote-as {number if chance.random() < 0.98 else 9}"]
    lines += [f" neighbor {far} shutdown"] if chance.random() < 0.02 else []
    lines += (
        [f" neighbor {far} send-community{chance.choice(['', ' both', ' standard'])}"] if chance.random() < 0.85 else []
    )
    for direction in ("in", "out"):
        lines += [f" neighbor {far} prefix-list {policy.prefix_list} {direction}"] if chance.random() < wild / 4 else []
        lines += (
            [f" neighbor {far} route-map {chance.choice(policy.maps[direction])} {direction}"]
            if chance.random() < wild
            else []
        )
    return lines
