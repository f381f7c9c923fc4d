"""Texts whose lines all fit, and whose network is at fault as a whole: a few lines changed where they mean
something."""
from __future__ import annotations

import random
import re

EDITS: list[tuple[str, list[str]]] = [
    (r"hostname r\d+", ["hostname r0", "hostname r1"]),
    (r"router bgp \d+", ["router bgp 65001", "router bgp 65002", "router ospf 9"]),
    (r"router ospf \d+", ["router bgp 65001"]),
    (r"remote-as \d+", ["remote-as 65001", "remote-as 65002", "remote-as 65003"]),
    (r"area \S+", ["area 3", "area 0.0.0.3"]),
    (r"route-map \w+ in", ["route-map NONE in", "route-map OUT in"]),
    (r"route-map \w+ out", ["route-map none out", "route-map IN out"]),
    (
        r"neighbor (\S+) send-community.*",
        [r"neighbor \1 prefix-list NONE in", r"neighbor \1 route-map OUT in", r"neighbor \1 route-map NONE out"],
    ),
    (r"match community .*", ["match community NONE", "match community A NONE exact-match"]),
    (r"prefix-list P$", ["prefix-list NONE"]),
    (r"list standard D permit \S+", ["list standard D permit 5:5 6:6"]),
    (r"comm-list D", ["comm-list A", "comm-list 7", "comm-list NONE"]),
    (
        r"ip address \S+ \S+",
        [
            "ip address 172.16.0.0 255.255.255.254",
            "ip address 172.16.0.1 255.255.0.0",
            "ip address 10.0.0.77 255.0.0.0",
            "ip address 0.0.0.0 128.0.0.0",
        ],
    ),
    (
        r"interface (Serial|Ethernet|GigabitEthernet)",
        ["interface Tunnel", "interface Loopback", "interface Port-channel", "interface loopback"],
    ),
    (r"interface Vlan", ["interface Loopback", "interface Tunnel"]),
    (r"prepend \d+", ["prepend 7", "prepend 65001", "prepend 4294967295"]),
]


COMPILED = {pattern: re.compile(pattern) for pattern, _ in EDITS}


def changed(chance: random.Random, text: str) -> bytes:
    """One to three edits, each at one of the lines that it fits."""
    lines = text.splitlines()
    for _ in range(chance.choice([1, 1, 2, 3])):
        fitting = [
            (place, edit) for edit in EDITS for place, line in enumerate(lines) if COMPILED[edit[0]].search(line)
        ]
        kinds = sorted({edit[0] for _, edit in fitting})
        if not kinds:
            break
        kind = chance.choice(kinds)
        place, (pattern, others) = chance.choice([one for one in fitting if one[1][0] == kind])
        lines[place] = re.sub(pattern, chance.choice(others), lines[place])
    return ("\n".join(lines) + "\n").encode()
