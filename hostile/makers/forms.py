"""Lines of each known form, whose words stand at the bounds of what they may be, and sometimes one step beyond."""
from __future__ import annotations

import random
import re

LONG = "x" * 63
COMMUNITIES = (
    ["65000:1", "7", "1", "0:1", "65534:65535", "4294901759"],
    [
        "0:0",
        "65535:0",
        "65535:0",
        "65535:65535",
        "4294901760",
        "4294901760",
        "gshut",
        "no-export",
        "local-AS",
        "internet",
        "no-advertise",
        "0",
        "1:65536",
        "65536:1",
        "01:1",
        "1:1:1",
        "4294967296",
    ],
)
SLOTS: dict[str, tuple[list[str], list[str]]] = {
    "name": (["r0", "r1", "0", "a-b_c.D", "n" * 63], ["-a", "a/b", "n" * 64, "", "a b"]),
    "port": (
        ["Vlan1", "Vlan77", "Serial0/0", "Loopback0", "Tunnel1", "a0:/.-", "e" * 62 + "1"],
        ["Vlan", "1a", "e" * 63 + "1", "Vlan_1", "Vlan 1"],
    ),
    "as": (["65001", "65002", "1", "4294967295"], ["0", "065001", "4294967296", "x", "-1"]),
    "process": (["1", "65535"], ["0", "65536", "01", "x"]),
    "list": (["P", "A", "7", "D", "NONE", LONG], [LONG + "x", ""]),
    "map": (["IN", "OUT", "IN2", "OUT2", "NONE", LONG], [LONG + "x", ""]),
    "seq": (["1", "5", "10", "4294967295"], ["0", "05", "4294967296", "x", ""]),
    "entry": (["0", "10", "90", "65535"], ["65536", "010", "x", ""]),
    "act": (["permit", "deny"], ["allow", "Permit", ""]),
    "prefix": (
        ["10.0.0.0/8", "10.0.0.0/24", "0.0.0.0/0", "10.0.1.77/24", "10.9.0.0/32"],
        ["10.0.0.0", "10.0.0.0/33", "10.0.0/8", "10.0.0.256/8", "10.0.0.0/08", "/8"],
    ),
    "bounds": (
        ["", "ge 24", "ge 32", "le 32", "le 24", "ge 24 le 24", "ge 25 le 32"],
        [
            "ge 7",
            "ge 33",
            "le 7",
            "le 33",
            "ge 25 le 24",
            "ge 30 le 25",
            "le 24 ge 24",
            "ge",
            "ge 24 le",
            "eq 24",
            "ge 24 24",
        ],
    ),
    "number": (["1", "99", "7"], ["0", "07", "x"]),
    "communities": (
        ["65000:1", "65000:1 65000:2", "65534:65535", "1 2 3", " ".join(map(str, range(1, 33)))],
        ["", "1:1 65537", " ".join(map(str, range(1, 34))), *COMMUNITIES[1], *(f"1:1 {one}" for one in COMMUNITIES[1])],
    ),
    "address": (
        ["172.16.0.0", "172.16.0.1", "10.0.0.1", "0.0.0.0", "255.255.255.255", "203.0.113.0"],
        ["10.0.0.256", "10.0.0", "10.0.0.01", "10.0.0.1.1", "x", "10.0.0.1/24"],
    ),
    "mask": (
        ["255.255.255.255", "255.255.255.254", "255.255.255.0", "128.0.0.0"],
        ["0.0.0.0", "255.0.255.0", "0.0.0.255", "24", "255.255.255.256", ""],
    ),
    "net": (
        [
            "10.0.0.0",
            "128.0.0.0",
            "191.255.0.0",
            "192.0.0.0",
            "223.255.255.0",
            "127.0.0.0",
            "10.0.0.0 mask 255.255.255.0",
            "0.0.0.0 mask 128.0.0.0",
            "10.0.1.0 mask 255.255.255.255",
        ],
        [
            "0.0.0.0",
            "224.0.0.0",
            "10.1.0.0",
            "128.0.1.0",
            "192.0.0.1",
            "10.0.0.1 mask 255.255.255.0",
            "10.0.0.0 mask",
            "10.0.0.0 mask 0.0.0.0",
            "10.0.0.0 255.0.0.0",
            "10.0.0.0 mask 255.0.0.0 x",
        ],
    ),
    "wild": (["0.0.0.0", "0.0.0.255", "255.255.255.255", "0.255.0.255"], ["0.0.0.256", "0.0.0", ""]),
    "area": (["0", "0.0.0.7", "7", "4294967295", "255.255.255.255"], ["00", "4294967296", "x", "", "0.0.0.256"]),
    "cost": (["1", "64", "65535"], ["0", "65536", "01", ""]),
    "preference": (["0", "100", "200", "4294967295"], ["00", "4294967296", "x", ""]),
    "way": (["in", "out"], ["both", "", "In"]),
    "send": (["", "standard", "both"], ["all", "standard both", "Both"]),
    "lists": (
        [
            "A",
            "A B",
            "7",
            "exact-match",
            "A exact-match",
            "A B exact-match",
            "exact-match exact-match",
            LONG,
            " ".join(f"L{n}" for n in range(32)),
        ],
        ["", "A A", "A A exact-match", LONG + "x", " ".join(f"L{n}" for n in range(33))],
    ),
    "nets": (["P", "P NONE", LONG], ["", "P P", LONG + "x"]),
    "change": (
        ["none", "65000:1", "65000:1 additive", "65000:1 65000:2", "1 additive"],
        [
            "",
            "additive",
            "none additive",
            "65000:1 none",
            "additive 65000:1",
            "1:1 65537",
            *COMMUNITIES[1],
            *(f"{one} additive" for one in COMMUNITIES[1]),
        ],
    ),
    "delete": (["D delete", "A delete", "7 delete", "NONE delete"], ["D", "D delete x", "delete", ""]),
    "prepend": (
        ["65001", "65001 65001", "65002", "4294967295", " ".join(["65001"] * 10), "65001 65002"],
        ["", "0", " ".join(["65001"] * 11), "x", "65001 0"],
    ),
}
FORMS = [
    "hostname {name}",
    "interface {port}",
    "router bgp {as}",
    "router ospf {process}",
    "ip prefix-list {list} seq {seq} {act} {prefix} {bounds}",
    "ip prefix-list {list} seq {seq} {act} {prefix} {bounds}",
    "ip community-list {number} {act} {communities}",
    "ip community-list standard {list} {act} {communities}",
    "ip community-list standard {list} {act} {communities}",
    "route-map {map} {act} {entry}",
    "end",
    " ip address {address} {mask}",
    " ip ospf cost {cost}",
    " shutdown",
    " bgp default local-preference {preference}",
    " network {net}",
    " neighbor {address} remote-as {as}",
    " neighbor {address} shutdown",
    " neighbor {address} send-community {send}",
    " neighbor {address} prefix-list {list} {way}",
    " neighbor {address} route-map {map} {way}",
    " network {address} {wild} area {area}",
    " passive-interface {port}",
    " no passive-interface {port}",
    " match ip address prefix-list {nets}",
    " match community {lists}",
    " set local-preference {preference}",
    " set community {change}",
    " set community {change}",
    " set comm-list {delete}",
    " set as-path prepend {prepend}",
]


DEFINED = [
    *(f"ip prefix-list {name} seq 7 permit 0.0.0.0/0 le 32" for name in ("P", "7", LONG)),
    *(f"ip community-list standard {name} permit 65000:3" for name in ("A", "B", "7", "D", "exact-match", LONG)),
    *(f"route-map {name} permit 20" for name in ("IN", "IN2", "OUT", "OUT2", LONG)),
]


def line(chance: random.Random, off: float = 0.33) -> str:
    """A line of some form; in some a word is off its form."""
    form = chance.choice(FORMS)
    slots = re.findall(r"\{(\w+)\}", form)
    wrong = chance.choice(slots) if slots and chance.random() < off else None

    def word(found: re.Match[str]) -> str:
        good, bad = SLOTS[found[1]]
        return chance.choice(bad if found[1] == wrong else good)

    made = re.sub(r"\{(\w+)\}", word, form)
    if chance.random() < 0.05:
        made = made.replace(" ", chance.choice(["\t", "  ", " \t"]))
    return made.rstrip() + chance.choice(["", "", "", "", " ", "\t", "\r", " x"] if chance.random() < 0.3 else [""])


def scope_of(line: str) -> str:
    """A top line that opens a stanza where an indented line is known; empty for a line at the top."""
    words = line.split()
    if line[:1] not in (" ", "\t") or not words:
        return ""
    if words[0] in ("match", "set"):
        return "route-map M permit 10"
    if words[0] in ("passive-interface", "no") or " area" in line:
        return "router ospf 1"
    return "router bgp 65001" if words[0] in ("bgp", "network", "neighbor") else "interface Vlan1"


def alone(chance: random.Random) -> bytes:
    """A router with one or two lines of forms in their stanzas, behind what they need, and with the lists and maps that
    they may name."""
    lines = ["hostname r0"] if chance.random() < 0.97 else []
    for _ in range(chance.choice([1, 1, 1, 2])):
        made = line(chance, 0.45)
        lines += [scope_of(made)] if scope_of(made) and scope_of(made) not in lines else []
        words = made.split()
        if words[:1] == ["neighbor"] and len(words) > 2 and words[2] != "remote-as" and chance.random() < 0.9:
            lines.append(f" neighbor {words[1]} remote-as 65002")
        lines.append(made)
    lines += [one for one in DEFINED if chance.random() < 0.95]
    return commented(chance, "".join(f"{one}\n" for one in [*lines, "end"]), 0.2).encode()


def commented(chance: random.Random, text: str, often: float) -> str:
    """Sometimes with comments and empty lines between its lines, which close no stanza."""
    if chance.random() >= often:
        return text
    lines = text.splitlines()
    for _ in range(chance.randint(1, 4)):
        lines.insert(
            chance.randint(0, len(lines) - 1), chance.choice(["!", "! x", " !", "", " ", "!!", "! member", "!end"])
        )
    return "".join(f"{line}\n" for line in lines)
