"""Texts with faults: lines planted at a place, words and lines changed, bytes."""
from __future__ import annotations

import functools
import random
from pathlib import Path

from hostile.makers import forms

EXAMPLES = Path(__file__).resolve().parents[2] / "examples"

PLANTS = (
    """\
hostname r0|hostname|hostname -x|hostname r1|interface Vlan1|interface Vlan|interface Tunnel0| ip address 10.0.0.1 255.255.255.0
 ip address 10.0.0.1 255.0.255.0| ip address 172.16.0.0 255.255.255.254| ip address 10.0.0.9 255.255.0.0| ip address 10.0.0.256 255.0.0.0
 ip ospf cost 0| ip ospf cost 65535| ip ospf cost 01| ip ospf priority 3| ip ospf network point-to-point| shutdown| shutdown now| ip unnumbered Vlan1
router bgp 65001|router bgp 0|router bgp 65009|router ospf 1|router ospf 65536|router rip|router eigrp 3|ip route 0.0.0.0 0.0.0.0 Null0|ipv6 unicast-routing
 network 10.0.0.0 mask 255.255.255.0| network 10.0.0.0| network 10.0.0.1| network 224.0.0.0| network 0.0.0.0 255.255.255.255 area 1| network 10.0.0.0 0.0.0.255 area 0
 neighbor 172.16.0.0 remote-as 65001| neighbor 172.16.0.1 remote-as 65002| neighbor 172.16.0.1 send-community| neighbor 172.16.0.1 send-community extended
 neighbor 172.16.0.1 send-community foo| neighbor 172.16.0.1 route-map NONE in| neighbor 172.16.0.1 route-map OUT in| neighbor 172.16.0.1 route-map IN in
 neighbor 172.16.0.1 prefix-list NONE out| neighbor 172.16.0.1 shutdown| neighbor 9.9.9.9 shutdown| neighbor foo remote-as 1| neighbor 172.16.0.1 weight 3| neighbor X activate
 bgp default local-preference 7| bgp default local-preference 4294967296| bgp router-id 1.1.1.1| bgp always-compare-med| passive-interface default| passive-interface Vlan1
 no passive-interface default| passive-interface nothing|ip prefix-list P seq 5 permit 10.0.0.0/8|ip prefix-list P seq 6 permit 10.0.0.0/8 ge 7|ip prefix-list Q permit 1.0.0.0/8
ip prefix-list Q seq 0 deny 0.0.0.0/0|ip prefix-list Q seq 1 deny 0.0.0.0/0 ge 8 le 7|ip prefix-list Q description all of it|ip community-list 7 permit no-export
ip community-list 100 permit 1:1|ip community-list 99 permit 0:0|ip community-list 0 permit 1:1|ip community-list standard X permit 0|ip community-list standard X permit 1:1 65537
ip community-list standard D permit 1:1 2:2|ip community-list standard X deny 65535:1|ip community-list standard X permit gshut 70000:1|ip community-list expanded X permit .*
route-map IN permit 10|route-map IN permit 65536|route-map Z permit 0|route-map Z| match community NONE| match community exact-match| match community A exact-match| match community A A
 match ip address prefix-list P| match ip address prefix-list NONE| match ip address 7| match as-path 3| set community none| set community 1:1 none| set community additive
 set community internet| set comm-list A delete| set comm-list NONE delete| set comm-list D| set local-preference 5| set local-preference x| set as-path prepend 65001
 set as-path prepend 9| set as-path prepend| set as-path prepend 65001 65001 65001 65001 65001 65001 65001 65001 65001 65001 65001| set metric 5| continue 20
end|end all|!| !|version 15.2|line con 0| login|banner motd ^C|frobnicate| frobnicate|service timestamps|\t|no ip routing|ip cef|exit|interface Loopback0""".replace(
        "\\t", "\t"
    )
    .replace("\n", "|")
    .split("|")
)


def planted(chance: random.Random, text: str) -> bytes:
    """One to three lines put in, taken out, doubled, or moved."""
    lines = text.splitlines()
    for _ in range(chance.choice([1, 1, 1, 2, 3])):
        place = chance.randint(0, len(lines))
        how = chance.random()
        if how < 0.7 or not lines:
            line = forms.line(chance) if chance.random() < 0.6 else chance.choice(PLANTS)
            likely = _places(lines, line)
            lines.insert(chance.choice(likely) if likely and chance.random() < 0.85 else place, line)
        elif how < 0.8:
            del lines[min(place, len(lines) - 1)]
        elif how < 0.9:
            lines.insert(place, chance.choice(lines))
        else:
            lines[min(place, len(lines) - 1)] = _word_changed(chance, chance.choice(lines), lines)
    return ("\n".join(lines) + chance.choice(["\n", "\n", ""])).encode()


def _places(lines: list[str], line: str) -> list[int]:
    """Where a line can stand without being at fault for its place: behind the lines of a stanza that has such lines, or
    at the top."""
    if line[:1] not in (" ", "\t"):
        return [at for at, other in enumerate(lines) if not other.startswith(" ")]
    first = line.split()[0] if line.split() else ""
    stanzas = {
        "ip": "interface",
        "shutdown": "interface",
        "neighbor": "router bgp",
        "bgp": "router bgp",
        "match": "route-map",
        "set": "route-map",
        "continue": "route-map",
        "passive-interface": "router ospf",
        "no": "router ospf",
        "network": "router ospf" if " area " in line else "router bgp",
    }
    wanted, found, inside = stanzas.get(first, ""), [], False
    for at, other in enumerate(lines, 1):
        inside = other.startswith(wanted) if not other.startswith(" ") else inside
        found += [at] if inside else []
    return found


def _word_changed(chance: random.Random, line: str, lines: list[str]) -> str:
    words = line.split(" ")
    other = chance.choice(lines).split(" ")
    words[chance.randrange(len(words))] = chance.choice(
        [*other, "0", "4294967296", "1:1", "x" * 64, "255.255.255.255", "", "default", "none"]
    )
    return " ".join(words)


def bytes_changed(chance: random.Random, text: bytes) -> bytes:
    """Bytes turned, put in or taken out."""
    found = bytearray(text)
    for _ in range(chance.randint(1, 4)):
        place = chance.randint(0, len(found))
        how = chance.randrange(4)
        if how == 0 and place < len(found):
            del found[place : place + chance.randint(1, 40)]
        elif how == 1 and place < len(found):
            found[place] = chance.choice(b"\n\r\t !09:./-\x00\x7f\xc3")
        elif how == 2:
            found[place:place] = chance.choice(
                [b"\n", b"\r\n", b"\r", b"\t", b" ", b"\x00", b"!", b" " * 1025, b"9" * 11]
            )
        else:
            found = found.replace(b"\n", b"\r\n", chance.randint(1, 5))
    return bytes(found)


@functools.cache
def examples() -> list[bytes]:
    """The texts of the examples, and each configuration of their folders, that are not large."""
    files = [
        *(EXAMPLES / "inputs").glob("*.cfg"),
        *(file for file in (EXAMPLES / "folders").rglob("*") if file.is_file()),
    ]
    return [text for text in (file.read_bytes() for file in sorted(files)) if len(text) < 40_000]
