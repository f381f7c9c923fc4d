"""Address families of a BGP process: the lines of IPv4 unicast are lifted, the other families are cut."""
from __future__ import annotations

import functools
from collections.abc import Iterable

from bonsainet.importing.folder import Dialect, Folder, Source, an_address, has
from bonsainet.importing.rewriting import begins, cut_lines, first_words
from bonsainet.importing.rule import rule
from bonsainet.importing.rules.options import Options
from bonsainet.configs.text import Line, Stanza

LIFTED = rule(
    "family-lifted",
    "lines of the IPv4 unicast family count as lines of the process",
    "RFC 4760; Cisco IOS BGP, `address-family ipv4`",
)
OTHER = rule(
    "other-families",
    "routes of other families are no IPv4 unicast routes of the global table",
    "RFC 4760; Cisco IOS BGP, `address-family`",
)
VPN_EXPORT = rule(
    "vpn-export",
    "what is exported from the global table to a VPN changes nothing in the global table",
    "RFC 4364; FRR user guide, BGP, VPN",
)
ACTIVATION = rule(
    "activation",
    "only activated neighbours carry IPv4 unicast routes; the others are left out",
    "Cisco IOS BGP, `neighbor activate`, `no bgp default ipv4-unicast`",
)
LABELED = "labeled-unicast"
IPV6_PEER = "ipv6-peer"
EXPORTS = (
    "rd vpn export",
    "rt vpn export",
    "label vpn export",
    "export vpn",
    "nexthop vpn export",
    "route-map vpn export",
    "sid vpn export",
    "rt vpn both",
)


def lift(folder: Folder, _options: Options) -> None:
    """Lifts the lines of the family IPv4 unicast into the process, and cuts the other families."""
    for router in folder.routers:
        for process in router.with_head("router", "bgp"):
            _lift(folder, router, process)


def _lift(folder: Folder, router: Source, process: Stanza) -> None:
    own: list[Line] = []
    lifted: list[Line] = []
    family: Line | None = None
    if "address-family" not in process.by_word and "exit-address-family" not in process.by_word:
        _cut_exports(folder, process)
        return
    for line in process.body:
        if line.words[:1] == ["address-family"]:
            family = line
            _refuse_labeled(folder, line)
            folder.log.by(line, LIFTED if is_ipv4(line) else OTHER)
        elif line.words[:1] == ["exit-address-family"]:
            folder.log.by(line, LIFTED if family and is_ipv4(family) else OTHER)
            family = None
        elif family and router.dialect is Dialect.IOS and not line.is_blank and _depth(line) <= _depth(family):
            family = None
            own.append(line)
        elif family is None:
            own.append(line)
        elif is_ipv4(family):
            lifted.append(line)
        else:
            folder.log.cut([line], OTHER)
    process.body = own + lifted
    _cut_exports(folder, process)


def _cut_exports(folder: Folder, process: Stanza) -> None:
    """Cuts what is exported to VPNs, where nothing comes from them."""
    if not has(process, "import", "vpn") and not has(process, "import", "vrf"):
        cut_lines(process, folder.log, VPN_EXPORT, lambda line: begins(line, EXPORTS), first_words(EXPORTS))


def _depth(line: Line) -> int:
    return len(line.text) - len(line.text.lstrip())


def is_ipv4(line: Line) -> bool:
    """Whether an `address-family` line opens IPv4 unicast of the global table."""
    words = line.words[1:]
    return words[:1] == ["ipv4"] and (len(words) == 1 or (len(words) == 2 and "unicast".startswith(words[1])))


def _refuse_labeled(folder: Folder, line: Line) -> None:
    if line.words[1:3] == ["ipv4", "labeled-unicast"]:
        folder.log.refuse(
            line,
            LABELED,
            "labelled IPv4 unicast routes stand in the same table as the others, and the profile has no labels",
        )


def activate(folder: Folder, _options: Options) -> None:
    """Leaves out neighbours that are not activated in IPv4 unicast, and IPv6 neighbours that carry nothing there."""
    for router in folder.routers:
        process = router.process("bgp")
        if not process:
            continue
        by_default = not has(process, "no", "bgp", "default", "ipv4-unicast")
        lines = process.by_word.get("neighbor", [])
        peers = dict.fromkeys(line.words[1] for line in lines if len(line.words) > 2)
        given = _named(lines, 1) if not by_default else set(peers)
        inactive = set(peers) - given
        if negated := [line for line in process.by_word.get("no", ()) if line.words[1:2] == ["neighbor"]]:
            inactive |= set(peers) & _named(negated, 2)
        for peer in peers:
            if peer not in inactive and not an_address(peer):
                line = next(line for line in lines if line.words[1:2] == [peer])
                folder.log.refuse(
                    line,
                    IPV6_PEER,
                    "a neighbour without an IPv4 address can carry IPv4 routes here, and the profile has no such sessions",
                )
        heads = ("neighbor", "no", "bgp") if inactive else ("no", "bgp")
        cut_lines(process, folder.log, ACTIVATION, functools.partial(_goes, inactive=inactive), heads)


def _named(lines: Iterable[Line], place: int) -> set[str]:
    """The neighbours, at this place of their words, that lines activate, or no longer."""
    return {line.words[place] for line in lines if line.words[place + 1 : place + 2] == ["activate"]}


def _goes(line: Line, inactive: set[str]) -> bool:
    words = line.words
    if words[0] == "neighbor":
        return words[1] in inactive
    if words[:2] == ["no", "neighbor"]:
        return words[3:4] == ["activate"] or words[2] in inactive
    return words[:4] == ["no", "bgp", "default", "ipv4-unicast"] or words[:3] == ["bgp", "default", "ipv4-unicast"]
