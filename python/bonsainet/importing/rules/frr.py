"""FRR's syntax and defaults, written in the words of the profile."""
from __future__ import annotations

import functools
import re
from collections.abc import Iterator

from bonsainet.importing.folder import Dialect, Folder, Source, a_prefix, has, name_of
from bonsainet.importing.rewriting import rewrite
from bonsainet.importing.rule import Rule, rule
from bonsainet.importing.rules.options import Options
from bonsainet.configs.text import Line, Place, Stanza

SYNTAX = rule(
    "frr-syntax", "FRR writes the same with a prefix length, or with other words", "FRR user guide, zebra, BGP and OSPF"
)
LOOPBACK = rule(
    "frr-names",
    "the name of an interface says nothing about routes; the profile wants a digit, and `Loopback` for a loopback",
    "FRR user guide, zebra",
)
COMMUNITIES = rule(
    "frr-communities",
    "FRR sends communities to each neighbour unless a line says otherwise",
    "FRR user guide, BGP, `neighbor PEER send-community`",
)
POLICY = rule(
    "frr-requires-policy",
    "without a policy FRR takes and gives no routes over external sessions, unless a line says otherwise",
    "RFC 8212; FRR user guide, `bgp ebgp-requires-policy`",
)
UNKNOWN = rule(
    "frr-unknown",
    "FRR does not know this line, logs it and goes on; `passive-interface` is the word",
    "FRR user guide, OSPF, `passive-interface`; FRR 8.4.4, lib/command.c",
)
NO_POLICY = "NO-POLICY"


def routers(folder: Folder) -> Iterator[Source]:
    """The routers that FRR's defaults hold for."""
    return (router for router in folder.routers if router.dialect is Dialect.FRR)


def heads(folder: Folder, _options: Options) -> None:
    """Writes FRR's top lines as the profile does."""
    for router in routers(folder):
        for stanza in router.stanzas:
            text = _head(" ".join(stanza.head.words))
            if text != " ".join(stanza.head.words):
                folder.log.by(stanza.head, SYNTAX)
                stanza.head = stanza.head.with_text(text)


def _head(text: str) -> str:
    text = re.sub(r"^int ", "interface ", text)
    text = re.sub(r"^bgp (community-list|as-path|large-community-list|extcommunity-list) ", r"ip \1 ", text)
    text = re.sub(r"^(ip prefix-list .* (?:permit|deny)) any$", r"\1 0.0.0.0/0 le 32", text)
    text = re.sub(r"^router ospf$", "router ospf 1", text)
    return re.sub(r"^(ip prefix-list .*) le (\d+) ge (\d+)$", r"\1 ge \3 le \2", text)


def bodies(folder: Folder, _options: Options) -> None:
    """Writes the lines inside FRR's stanzas as the profile does."""
    for router in routers(folder):
        for stanza in router.stanzas:
            if stanza.starts("interface"):
                seen: list[str] = []
                rewrite(stanza, folder.log, functools.partial(_in_interface, seen=seen))
            elif stanza.starts("router", "bgp"):
                rewrite(stanza, folder.log, _in_bgp)
            elif stanza.starts("router", "ospf"):
                rewrite(stanza, folder.log, _in_ospf)


def _in_interface(line: Line, seen: list[str]) -> tuple[Rule, list[str]] | None:
    words = line.words
    if words[0] == "ip" and words[1:2] in (["addr"], ["address"]) and len(words) == 3 and (found := a_prefix(words[2])):
        address = words[2].split("/")[0]
        if words[2] in seen:
            return SYNTAX, []
        seen.append(words[2])
        return SYNTAX, [f"ip address {address} {found.netmask}" + (" secondary" if len(seen) > 1 else "")]
    if words == ["no", "shut"]:
        return SYNTAX, ["no shutdown"]
    return (SYNTAX, ["shutdown"]) if words == ["shut"] else None


def _in_bgp(line: Line) -> tuple[Rule, list[str]] | None:
    words = line.words
    if words[0] == "network" and len(words) in (2, 4) and (found := a_prefix(words[1])):
        return SYNTAX, [" ".join([f"network {found.network_address} mask {found.netmask}", *words[2:]])]
    return None


def _in_ospf(line: Line) -> tuple[Rule, list[str]] | None:
    words = line.words
    if words[0] == "network" and len(words) == 4 and words[2] == "area" and (found := a_prefix(words[1])):
        return SYNTAX, [f"network {found.network_address} {found.hostmask} area {words[3]}"]
    if words[:2] == ["passive", "interface"]:
        return UNKNOWN, []
    if words[:2] == ["ospf", "router-id"]:
        return SYNTAX, [" ".join(words[1:])]
    return None


def names(folder: Folder, _options: Options) -> None:
    """Gives interfaces whose names the profile does not take a name with a digit."""
    for router in folder.routers:
        taken = {name_of(stanza) for stanza in router.interfaces}
        fresh: dict[str, str] = {}
        for stanza in router.interfaces:
            name = name_of(stanza)
            if not re.search(r"\d", name) and name and len(stanza.head.words) == 2:
                fresh[name] = free_name("Loopback" if name == "lo" else re.sub(r"[^A-Za-z/.:-]", "-", name), taken)
                taken.add(fresh[name])
                router.loopback = fresh[name] if name == "lo" else router.loopback
                folder.log.by(stanza.head, LOOPBACK)
                stanza.head = stanza.head.with_text(f"interface {fresh[name]}")
        if fresh:
            _rename(folder, router, fresh)


def free_name(kind: str, taken: set[str]) -> str:
    """The first name of a type that is not taken."""
    return next(name for number in range(10**6) if (name := f"{kind}{number}") not in taken)


def _rename(folder: Folder, router: Source, fresh: dict[str, str]) -> None:
    def renamed(line: Line) -> tuple[Rule, list[str]] | None:
        words = line.words
        at = 1 if words[0] == "passive-interface" else 2
        if (
            words[:2] == ["no", "passive-interface"]
            or words[0] == "passive-interface"
            or words[:2] == ["match", "interface"]
        ):
            if words[at : at + 1] and words[at] in fresh:
                return LOOPBACK, [" ".join([*words[:at], fresh[words[at]], *words[at + 1 :]])]
        if words[0] == "neighbor" and words[2:3] == ["update-source"] and words[-1] in fresh:
            return LOOPBACK, [" ".join([*words[:3], fresh[words[-1]]])]
        return None

    for stanza in router.stanzas:
        if stanza.starts("router") or stanza.starts("route-map"):
            rewrite(stanza, folder.log, renamed)


def communities(folder: Folder, _options: Options) -> None:
    """Adds `send-community` to each neighbour that FRR sends communities to."""
    for router in routers(folder):
        if process := router.process("bgp"):
            silent = {
                line.words[2]
                for line in process.body
                if line.words[:2] == ["no", "neighbor"]
                and line.words[3:4] == ["send-community"]
                and line.words[4:] in ([], ["both"], ["all"], ["standard"])
            }

            def decide(line: Line, silent: set[str] = silent) -> tuple[Rule, list[str]] | None:
                words = line.words
                if words[0] == "neighbor" and words[2:3] == ["remote-as"] and words[1] not in silent:
                    return COMMUNITIES, [" ".join(words), f"neighbor {words[1]} send-community"]
                if words[:2] == ["no", "neighbor"] and words[3:4] == ["send-community"]:
                    return COMMUNITIES, []
                if words[0] == "neighbor" and words[2:3] == ["send-community"]:
                    return COMMUNITIES, []
                return None

            rewrite(process, folder.log, decide)


def requires_policy(folder: Folder, _options: Options) -> None:
    """Gives neighbours without a policy a list that permits nothing, where FRR asks for one."""
    for router in routers(folder):
        process = router.process("bgp")
        if not process:
            continue
        wanted = asks_policy(router, process)
        missing = [
            (line, way)
            for line in process.body
            if line.words[:1] == ["neighbor"] and line.words[2:3] == ["remote-as"]
            for way in ("in", "out")
            if wanted and not _has_policy(process, line.words[1], way)
        ]
        rewrite(
            process,
            folder.log,
            lambda line: (POLICY, []) if line.words[-2:] == ["bgp", "ebgp-requires-policy"] else None,
        )
        for line, way in missing:
            folder.log.by(line, POLICY)
            at = process.body.index(line)
            process.body.insert(at + 1, line.with_text(f" neighbor {line.words[1]} prefix-list {NO_POLICY} {way}"))
        if missing:
            router.stanzas.append(
                Stanza(Line(f"ip prefix-list {NO_POLICY} seq 5 deny 0.0.0.0/0 le 32", Place(router.file, 0)))
            )


def asks_policy(router: Source, process: Stanza) -> bool:
    """Whether a router of FRR takes routes over external sessions only with a policy: by default from version 7.4
    on."""
    if has(process, "no", "bgp", "ebgp-requires-policy"):
        return False
    return has(process, "bgp", "ebgp-requires-policy") or by_default_since_7_4(router)


def by_default_since_7_4(router: Source) -> bool:
    """Whether the router has the defaults of version 7.4 or later, and not those of the profile `datacenter`."""
    if any(router.with_head("frr", "defaults", "datacenter")):
        return False
    for stanza in router.stanzas:
        words = stanza.head.words
        if words[:2] == ["frr", "version"] and (found := re.match(r"(\d+)\.(\d+)", words[-1])):
            return (int(found[1]), int(found[2])) >= (7, 4)
    return True


def _has_policy(process: Stanza, peer: str, way: str) -> bool:
    kinds = ("route-map", "prefix-list", "filter-list", "distribute-list")
    return any(
        line.words[:2] == ["neighbor", peer] and line.words[2:3] and line.words[2] in kinds and line.words[-1] == way
        for line in process.body
    )
