"""What the process says for all its interfaces and both ends of an OSPF link must have alike: authentication and the
check of the TTL."""
from __future__ import annotations

from collections.abc import Iterator

from bonsainet.importing.folder import Folder, Source, address_of, first, has, indented, name_of
from bonsainet.importing.rewriting import begins, cut_lines, first_words
from bonsainet.importing.rule import rule
from bonsainet.importing.rules.options import Options
from bonsainet.importing.rules.ospf import Active, active_wires, area_value, covers, is_passive
from bonsainet.configs.text import Line, Stanza

AUTHENTICATION = rule(
    "area-authentication",
    "the authentication of an area is that of each of its interfaces without a line of its own; bonsai-doubts compares the two ends of a link",
    "RFC 2328 appendix D; Cisco IOS OSPF, `area authentication`; FRR user guide, OSPF",
)
TTL = rule(
    "ospf-ttl-security",
    "all ends of a link check the TTL of packets, and so send them with the TTL that passes",
    "RFC 5082; Cisco IOS OSPF, `ip ospf ttl-security`, `ttl-security all-interfaces`",
)
REFUSED = "ttl-security"
TYPES: tuple[list[str], ...] = ([], ["message-digest"])
HEADS = (("ip", "ospf", "ttl-security"), ("ttl-security",))
TTL_LINES = tuple(" ".join(head) for head in HEADS)


def area_authentication(folder: Folder, _options: Options) -> None:
    """Writes the authentication of an area as that of its interfaces that can have neighbours."""
    for router in folder.routers:
        for process in router.with_head("router", "ospf"):
            for line in [line for line in process.body if _is_area_authentication(line)]:
                folder.log.by(line, AUTHENTICATION)
                process.body = [found for found in process.body if found is not line]
                for stanza in _of_area(router, process, line.words[1]):
                    stanza.body.append(indented(line, " ".join(["ip ospf authentication", *line.words[3:]])))


def _is_area_authentication(line: Line) -> bool:
    words = line.words
    return words[:1] == ["area"] and words[2:3] == ["authentication"] and words[3:] in TYPES


def _of_area(router: Source, process: Stanza, area: str) -> list[Stanza]:
    """The interfaces of an area that can have neighbours and say nothing of authentication."""
    networks = [line for line in process.body if line.words[:1] == ["network"] and len(line.words) > 4]
    own = [line for line in networks if area_value(line.words[4]) == area_value(area)]
    return [
        stanza
        for stanza in router.interfaces
        if (address := address_of(stanza))
        and any(covers(line, address) for line in own)
        and not is_passive(router, name_of(stanza))
        and not router.is_loopback(stanza)
        and not has(stanza, "ip", "ospf", "authentication")
    ]


def ttl_security(folder: Folder, _options: Options) -> None:
    """Refuses the check of the TTL where not all ends of a link have it, and cuts it elsewhere."""
    if not any(has(stanza, *head) for stanza in _of_ospf(folder.routers) for head in HEADS):
        return
    for subnet, wire in active_wires(folder).items():
        lines = [_checks(end) for end in wire]
        without = sorted({end.router.name for end, line in zip(wire, lines) if line is None})
        for line in lines if len({id(end.router) for end in wire}) > 1 and without else ():
            if line:
                told = f"{', '.join(without)} in {subnet} does not check the TTL, so its packets are dropped and there is no adjacency"
                folder.log.refuse(line, REFUSED, told)
    refused = {found.place for found in folder.log.refusals if found.name == REFUSED}
    for stanza in list(_of_ospf(folder.routers)):
        cut_lines(
            stanza,
            folder.log,
            TTL,
            lambda line: line.place not in refused and begins(line, TTL_LINES),
            first_words(TTL_LINES),
        )


def _of_ospf(routers: list[Source]) -> Iterator[Stanza]:
    """The interfaces and the processes of OSPF."""
    for router in routers:
        yield from router.interfaces
        yield from router.with_head("router", "ospf")


def _checks(end: Active) -> Line | None:
    """The line by which an end checks the TTL, its own before that of the process, or none."""
    own = first(end.stanza, "ip", "ospf", "ttl-security")
    if own:
        return None if own.words[3:4] == ["disable"] else own
    processes = end.router.with_head("router", "ospf")
    return next((line for process in processes if (line := first(process, "ttl-security"))), None)
