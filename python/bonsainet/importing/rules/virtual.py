"""VRFs and IPv6: tables apart from the global IPv4 table, cut whole."""
from __future__ import annotations

import re
from collections.abc import Callable

from bonsainet.importing.folder import Folder, Source, has
from bonsainet.importing.rewriting import cut_lines
from bonsainet.importing.rule import rule
from bonsainet.importing.rules.options import Options
from bonsainet.configs.text import Line, Stanza

VRF = rule(
    "vrf",
    "a VRF is a table of its own: its interfaces, processes and routes are none of the global table",
    "RFC 4364; Cisco IOS, `vrf forwarding`",
)
IPV6 = rule("ipv6", "IPv6 routes are no IPv4 routes", "RFC 4760, RFC 5340")
LEAK = "vrf-leak"
WITH_VRFS = {"exit-vrf", "interface", "ip", "ipv6", "router", "vrf"}
IN_VRF = (["vrf", "forwarding"], ["ip", "vrf", "forwarding"], ["vrf", "member"])


def cut_vrfs(folder: Folder, _options: Options) -> None:
    """Cuts all VRFs other than the global table, with their interfaces, processes and routes."""
    for router in folder.routers:
        for stanza in _cut_stanzas(router, _is_of_vrf):
            folder.log.cut(stanza.lines, VRF)
            _refuse_leaks(folder, stanza)
        for process in router.with_head("router", "bgp"):
            _refuse_imports(folder, process)
            _cut_families(folder, process)


def _cut_stanzas(router: Source, is_cut: Callable[[Stanza], bool]) -> list[Stanza]:
    """Leaves out the stanzas of which `is_cut` holds, and gives them."""
    gone = [stanza for stanza in router.stanzas if is_cut(stanza)]
    if gone:
        ids = set(map(id, gone))
        router.stanzas = [stanza for stanza in router.stanzas if id(stanza) not in ids]
    return gone


def _is_of_vrf(stanza: Stanza) -> bool:
    words = stanza.head.words
    if not words or words[0] not in WITH_VRFS:
        return False
    if words[:1] == ["interface"]:
        return "vrf" in words[2:] or any(has(stanza, *head) for head in IN_VRF)
    if words[:1] == ["router"]:
        return "vrf" in words[2:]
    if words[:2] in (["ip", "route"], ["ip", "mroute"], ["ipv6", "route"]):
        return words[2:3] == ["vrf"] or ("/" in "".join(words[2:3]) and "vrf" in words[3:])
    return words[:1] in (["vrf"], ["exit-vrf"]) or words[:2] == ["ip", "vrf"]


def _refuse_leaks(folder: Folder, stanza: Stanza) -> None:
    for line in stanza.by_word.get("export", ()):
        if line.words[1:2] in (["ipv4"], ["map"]) and "ipv4" in line.words:
            folder.log.refuse(line, LEAK, "routes of the VRF go into the global table here")
    if stanza.starts("ip", "route") and stanza.head.words[-1] == "global":
        return
    if stanza.starts("router") and has(stanza, "redistribute", "vrf"):
        folder.log.refuse(stanza.head, LEAK, "routes go from one table into another here")


def _refuse_imports(folder: Folder, process: Stanza) -> None:
    for line in process.by_word.get("import", ()):
        if line.words[1:2] in (["vrf"], ["vpn"]):
            folder.log.refuse(line, LEAK, "routes of a VRF or VPN go into the global table here")


def _cut_families(folder: Folder, process: Stanza) -> None:
    """Cuts the families of VRFs inside a process."""
    inside = False

    def is_cut(line: Line) -> bool:
        nonlocal inside
        if line.words[:1] == ["address-family"]:
            inside = "vrf" in line.words
            return inside
        if line.words[:1] == ["exit-address-family"] and inside:
            inside = False
            return True
        return inside

    if any("vrf" in line.words for line in process.by_word.get("address-family", ())):
        cut_lines(process, folder.log, VRF, is_cut)


def cut_ipv6(folder: Folder, _options: Options) -> None:
    """Cuts lines and processes of IPv6."""
    for router in folder.routers:
        for stanza in _cut_stanzas(router, lambda it: _is_ipv6(it) and not folder.takes("top", it.head.text)):
            folder.log.cut(stanza.lines, IPV6)
        for stanza in router.interfaces:
            cut_lines(stanza, folder.log, IPV6, _is_ipv6_line, ("ipv6", "no", "ospfv3"))
        _cut_entries(folder, router)


def _is_ipv6(stanza: Stanza) -> bool:
    """Whether a stanza speaks of IPv6 alone. OSPFv3 carries IPv4 routes too where it has the family (RFC 5838)."""
    words = stanza.head.words
    if not words or words[0] not in ("ipv6", "no", "router"):
        return False
    if words[:2] == ["router", "ospfv3"]:
        return not has(stanza, "address-family", "ipv4")
    return words[:1] == ["ipv6"] or words[:2] in (["no", "ipv6"], ["router", "ospf6"], ["router", "ripng"])


def _is_ipv6_line(line: Line) -> bool:
    words = line.words
    return words[0] == "ipv6" or words[:2] == ["no", "ipv6"] or (words[0] == "ospfv3" and "ipv4" not in words)


def _cut_entries(folder: Folder, router: Source) -> None:
    """Cuts lines of IPv6 in route maps that set something for IPv6 routes alone."""
    for stanza in router.with_head("route-map"):
        cut_lines(
            stanza,
            folder.log,
            IPV6,
            lambda line: bool(re.match(r"set ipv6 next-hop\b", " ".join(line.words))),
            ("set",),
        )
