"""Interfaces of VLANs on a switch: down where the VLAN is shut, or where no port that is up can carry it."""
from __future__ import annotations

import re
from collections.abc import Iterator

from bonsainet.importing.folder import Folder, Source, first, has, indented, name_of, words_are
from bonsainet.importing.rule import rule
from bonsainet.importing.rules.options import Options
from bonsainet.configs.text import Line, Stanza

VLAN_SHUT = rule(
    "vlan-shut",
    "the interface of a VLAN is down on a switch that has the VLAN shut or suspended, or of whose ports none that is up carries it",
    "Cisco IOS LAN Switching, `vlan`, `switchport`; Cisco IOS Interface, `autostate`",
)
REFUSED = "vlan-shut"
DEFAULT = 1
ALL = frozenset(range(1, 4095))
RESERVED = frozenset({DEFAULT, *range(1002, 1006)})
CHOSEN_ELSEWHERE = frozenset({"authentication", "access-session", "dot1x", "mab", "service"})
"""The first words of lines by which a server, or a service instance, can give a port a VLAN that its other lines do not have."""
PORT = re.compile(r"([A-Za-z]*Ethernet|[A-Za-z]+Gig[A-Za-z]*|Port-channel)\d[\d/]*")


def below_vlans(folder: Folder, _options: Options) -> None:
    """Shuts the interfaces of VLANs that are down."""
    for router in folder.routers:
        named = [(stanza, number) for stanza in router.interfaces if (number := _number(stanza)) is not None]
        if not named:
            continue
        _tell_of_missing(folder, router, named)
        shut = {number: line for stanza in router.with_head("vlan") for number, line in _shut_by(stanza)}
        ports = list(_ports(router))
        for stanza, number in named:
            if has(stanza, "shutdown"):
                continue
            always = first(stanza, "no", "autostate")
            if number in shut and always:
                told = f"the VLAN is shut ({shut[number].place}), and whether the interface is down with this line is not documented"
                folder.log.refuse(always, REFUSED, told)
            elif number in shut or (ports and not always and all(number not in carried for carried in ports)):
                folder.log.cut([stanza.head, *filter(None, [shut.get(number)])], VLAN_SHUT)
                stanza.body.append(indented(stanza.head, "shutdown"))


def _tell_of_missing(folder: Folder, router: Source, named: list[tuple[Stanza, int]]) -> None:
    """Tells of an interface whose VLAN a switch does not have, where its lines name all of them."""
    made = [_numbers("".join(stanza.head.words[1:])) or frozenset() for stanza in router.with_head("vlan")]
    has_all = any(stanza.head.words[2:] in (["transparent"], ["off"]) for stanza in router.with_head("vtp", "mode"))
    known = RESERVED.union(*made)
    for stanza, number in named if has_all and known > RESERVED else ():
        if number not in known and not has(stanza, "shutdown"):
            folder.log.remarks.append(
                f"{stanza.head.place}: no line `vlan {number}` makes this VLAN on a switch that keeps its VLANs in its lines; without it the interface is down on the device, and here it is up"
            )


def _number(stanza: Stanza) -> int | None:
    """The number of the VLAN whose interface this is, or none."""
    found = re.fullmatch(r"Vlan(\d+)", name_of(stanza))
    return int(found[1]) if found else None


def _shut_by(stanza: Stanza) -> Iterator[tuple[int, Line]]:
    """The VLANs of a stanza that a line of it shuts or suspends, each with that line."""
    line = next((line for line in stanza.body if line.words in (["shutdown"], ["state", "suspend"])), None)
    numbers = _numbers("".join(stanza.head.words[1:])) if line else None
    for number in numbers or ():
        if line:
            yield number, line


def _numbers(text: str) -> frozenset[int] | None:
    """The numbers of a list as `1,5-7`, or none where it is no such list."""
    found: set[int] = set()
    for part in text.split(","):
        ends = re.fullmatch(r"(\d{1,4})(?:-(\d{1,4}))?", part)
        if not ends:
            return None
        found |= set(range(int(ends[1]), int(ends[2] or ends[1]) + 1))
    return frozenset(found)


def _ports(router: Source) -> Iterator[frozenset[int]]:
    """The VLANs that each port which is up can carry, where the router is a switch. A member of a bundle carries those of
    its bundle."""
    if not any(has(stanza, "switchport") for stanza in router.interfaces):
        return
    for stanza in router.interfaces:
        if not has(stanza, "shutdown") and not has(stanza, "channel-group") and _is_port(stanza):
            yield _carried(stanza)


def _is_port(stanza: Stanza) -> bool:
    """Whether an interface may be a port of a switch, and is none with an address."""
    if has(stanza, "switchport"):
        return not has(stanza, "no", "switchport")
    is_routed = has(stanza, "no", "switchport") or has(stanza, "ip", "address") or has(stanza, "no", "ip", "address")
    return PORT.fullmatch(name_of(stanza)) is not None and not is_routed


def _carried(stanza: Stanza) -> frozenset[int]:
    """The VLANs that a port can carry: all of them where its lines leave that open."""
    if any(line.words[0] in CHOSEN_ELSEWHERE for line in stanza.body if line.words):
        return ALL
    mode = first(stanza, "switchport", "mode")
    if mode and mode.words[2:] == ["access"]:
        given = [first(stanza, "switchport", "access", "vlan"), first(stanza, "switchport", "voice", "vlan")]
        words = [line.words[3] for line in given if line and len(line.words) > 3]
        numbers = {int(word) for word in words if word.isdecimal()}
        is_open = given[0] is not None and not given[0].words[-1].isdecimal()
        return ALL if is_open else frozenset(numbers if given[0] else numbers | {DEFAULT})
    return _trunked(stanza) if mode and mode.words[2:] == ["trunk"] else ALL


def _trunked(stanza: Stanza) -> frozenset[int]:
    """The VLANs that a trunk carries."""
    found = ALL
    for line in stanza.body:
        if words_are(line, "switchport", "trunk", "allowed", "vlan"):
            found = _allowed(found, line.words[4:])
    return found


def _allowed(before: frozenset[int], words: list[str]) -> frozenset[int]:
    """The VLANs of a trunk behind a line: those that it names, adds, removes or leaves out."""
    if words == ["none"]:
        return frozenset()
    numbers = _numbers("".join(word for word in words if not word.isalpha()))
    if numbers is None:
        return ALL
    change = {"add": before | numbers, "remove": before - numbers, "except": ALL - numbers}
    return change.get(words[0], numbers)
