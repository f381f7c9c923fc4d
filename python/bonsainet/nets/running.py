"""Texts of the profile as the running configurations of devices: a file for each router, with what devices add to it.

Ports have descriptions, neighbours a peer group and a family, and each file has the lines of management that every
device of a network repeats.
"""
from __future__ import annotations

from collections.abc import Iterator
from pathlib import Path

from bonsainet.configs.text import Router, Stanza, read_text

HEAD = """Building configuration...

Current configuration : 9216 bytes
!
version 15.2
no service pad
service timestamps debug datetime msec
service timestamps log datetime msec
service password-encryption
!"""
MANAGEMENT = """!
boot-start-marker
boot-end-marker
!
enable secret 5 $1$mERr$hx5rVt7rPNoS4wqbXKX7m0
aaa new-model
aaa authentication login default local
clock timezone UTC 0 0
no ip domain-lookup
ip domain-name example.net
ip cef
no ipv6 cef
spanning-tree mode rapid-pvst
!"""
END = """!
ip forward-protocol nd
no ip http server
no ip http secure-server
ip ssh version 2
logging host 198.51.100.7
snmp-server community public RO
ntp server 198.51.100.9
!
control-plane
!
line con 0
 logging synchronous
line vty 0 4
 exec-timeout 15 0
 transport input ssh
!
end
"""
MAPS = """!
ip prefix-list OWN seq 5 permit 10.0.0.0/8 le 24
ip prefix-list OWN seq 10 deny 0.0.0.0/0 le 32
!
route-map TO-PEERS permit 10
 match ip address prefix-list OWN
!"""
IDLE = """interface FastEthernet1/0/{}
 switchport access vlan 1
 switchport mode access
 spanning-tree portfast
!"""


def write_running(text: str, folder: Path, idle_ports: int = 0) -> int:
    """Writes a file `NAME.cfg` for each router of a text, and gives how many lines that were. Each router also has so many
    ports that carry no route."""
    count = 0
    for router in read_text(text, "text"):
        lines = running(router, idle_ports)
        (folder / f"{router.name}.cfg").write_text(lines, encoding="ascii")
        count += lines.count("\n")
    return count


def running(router: Router, idle_ports: int = 0) -> str:
    """The running configuration of a router."""
    parts = [HEAD, f"hostname {router.name}", MANAGEMENT]
    for number, stanza in enumerate(router.with_head("interface")):
        parts += _interface(stanza, number)
    parts += (IDLE.format(number) for number in range(1, idle_ports + 1))
    for stanza in router.with_head("router"):
        parts += _bgp(stanza) if stanza.starts("router", "bgp") else stanza_lines(stanza)
    parts += [MAPS] if any(router.with_head("router", "bgp")) else []
    return "\n".join([*parts, END])


def stanza_lines(stanza: Stanza) -> list[str]:
    """The lines of a stanza as they are written."""
    return [line.text for line in stanza.lines]


def _interface(stanza: Stanza, number: int) -> Iterator[str]:
    yield stanza.head.text
    yield f" description port {number} of {stanza.head.words[1]}"
    yield from (line.text for line in stanza.body)
    yield " no ip redirects"
    yield " load-interval 30"
    yield "!"


def _bgp(stanza: Stanza) -> Iterator[str]:
    """The process: neighbours outside the family, their settings inside it."""
    peers = {line.words[1]: line for line in stanza.body if line.words[2:3] == ["remote-as"]}
    yield stanza.head.text
    yield " bgp log-neighbor-changes"
    yield " no bgp default ipv4-unicast"
    yield " neighbor PEERS peer-group"
    yield " neighbor PEERS timers 3 9"
    for peer, line in peers.items():
        yield line.text
        yield f" neighbor {peer} peer-group PEERS"
        yield f" neighbor {peer} description router {line.words[3]}"
    yield " !"
    yield " address-family ipv4"
    yield from (f"  {' '.join(line.words)}" for line in stanza.body if line.words[0] == "network")
    yield "  neighbor PEERS send-community"
    yield "  neighbor PEERS route-map TO-PEERS out"
    yield from (f"  neighbor {peer} activate" for peer in peers)
    yield " exit-address-family"
