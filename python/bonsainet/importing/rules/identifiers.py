"""Identifiers of routers: of OSPF processes, and of the ends of BGP sessions."""
from __future__ import annotations

from ipaddress import IPv4Address

from bonsainet.importing.folder import Dialect, Folder, Source, address_of, an_address, first, interface_address
from bonsainet.importing.rule import rule
from bonsainet.importing.rules.neighbors import Ends
from bonsainet.importing.rules.options import Options
from bonsainet.configs.text import Line, Stanza

IDENTIFIER = rule(
    "frr-router-id",
    "an identifier names a router to its neighbours, and no other router of the folder has this one",
    "FRR user guide, zebra, `ip router-id`; RFC 2328 section C.1, RFC 6286",
)
REFUSED = "router-id"


def derive(folder: Folder, _options: Options) -> None:
    """Notes the address that is a router's identifier where no line gives one: the highest of its loopbacks, or of all
    interfaces."""
    for router in folder.routers:
        found = [(router.is_loopback(stanza), ip) for stanza in router.interfaces for ip in _addresses(router, stanza)]
        router.highest = max(found, default=(False, None))[1]


def _addresses(router: Source, stanza: Stanza) -> list[IPv4Address]:
    """The addresses of an up interface that an identifier is taken from. FRR takes secondary ones too."""
    primary = address_of(stanza)
    if primary is None:
        return []
    more = [line.words for line in stanza.body if line.words[-1:] == ["secondary"] and len(line.words) == 5]
    others = [interface_address(words[2], words[3]) for words in more if router.dialect is Dialect.FRR]
    return [primary.ip, *(other.ip for other in others if other)]


def of_ospf(folder: Folder, _options: Options) -> None:
    """Refuses one identifier of two OSPF routers: their link states would replace each other. Cuts FRR's `ip
    router-id`, which gives the identifier of each process that has none."""
    seen: dict[IPv4Address, Source] = {}
    for router in folder.routers:
        common = [stanza for stanza in router.with_head("ip", "router-id") if router.dialect is Dialect.FRR]
        for process in list(router.with_head("router", "ospf")) or common:
            identifier, line = _identifier(router, process, "router-id")
            other = seen.setdefault(identifier, router) if identifier else router
            if other is not router:
                folder.log.refuse(
                    line,
                    REFUSED,
                    f"{other.name} has this identifier too, and then the two are one router to all others",
                )
        for stanza in common:
            folder.log.cut(stanza.lines, IDENTIFIER)
            router.stanzas = [found for found in router.stanzas if found is not stanza]


def _identifier(router: Source, process: Stanza, *head: str) -> tuple[IPv4Address | None, Line]:
    """The identifier of a process, none where nothing gives one, and the line that gives it, the head of the process
    where none does."""
    common = next(router.with_head("ip", "router-id"), None) if router.dialect is Dialect.FRR else None
    line = first(process, *head) or (common.head if common else None)
    if line is None:
        return router.highest, process.head
    return an_address(line.words[-1]), line


def of_bgp(folder: Folder, _options: Options) -> None:
    """Refuses one identifier at both ends of a session, where one of them is an IOS device: it takes the other end's
    for its own, and closes the session."""
    processes = [(router, process) for router in folder.routers if (process := router.process("bgp"))]
    given = {id(router): _identifier(router, process, "bgp", "router-id") for router, process in processes}
    if len({found for found, _ in given.values()}) == len(given):
        return
    ends = Ends(folder)
    for peer in ends.all:
        back = ends.session(peer)
        if back is not None and peer.router.dialect is Dialect.IOS:
            _judge(folder, back.router, *given[id(peer.router)], given[id(back.router)][0])


def _judge(folder: Folder, other: Source, mine: IPv4Address | None, line: Line, theirs: IPv4Address | None) -> None:
    """Refuses the line that gives a router the identifier of another one."""
    if mine is not None and mine == theirs:
        folder.log.refuse(
            line,
            REFUSED,
            f"{other.name} has the BGP identifier {mine} too, and IOS closes a session with its own identifier",
        )
