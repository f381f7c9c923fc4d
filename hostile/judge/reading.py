"""A text read line by line: faults of lines, then the first of form, then those of the whole."""
from __future__ import annotations

import dataclasses
import re

from hostile.judge import heads, meaning, policy_forms, router_forms, words
from hostile.judge.network import Bgp, Entry, Interface, Ospf, Refused, Router
from hostile.judge.router_forms import once

MOST_LINES = 1_000_000
MOST_LINE = 1024
NOT_ASCII = re.compile(rb"[^\t\x20-\x7e]")


def lines_of(text: bytes) -> list[bytes]:
    """The lines of a text without their ends; one carriage return before the end is no part of a line."""
    pieces = text.split(b"\n")
    if pieces[-1] == b"":
        pieces.pop()
    return [piece[:-1] if piece.endswith(b"\r") else piece for piece in pieces]


def line_faults(lines: list[bytes]) -> None:
    """Refuses the first line with a fault of bytes, length or number."""
    for place, line in enumerate(lines, 1):
        if NOT_ASCII.search(line):
            raise Refused(place, "NotAscii")
        if len(line) > MOST_LINE:
            raise Refused(place, "LineTooLong")
        if place > MOST_LINES:
            raise Refused(place, "TooManyLines")


def split(line: bytes) -> list[str]:
    """The words of a line, separated by blanks or tabs."""
    return [word for word in line.decode("latin-1").replace("\t", " ").split(" ") if word]


@dataclasses.dataclass
class State:
    """What is open while lines are read in order."""

    routers: list[Router] = dataclasses.field(default_factory=list)
    router: Router = dataclasses.field(default_factory=Router)
    scope: str | None = None
    port: Interface | None = None
    entry: Entry | None = None


def read(text: bytes) -> list[Router]:
    """The routers of a text, or Refused."""
    lines = lines_of(text)
    line_faults(lines)
    state, last, ended = State(), 0, True
    for place, line in enumerate(lines, 1):
        found = split(line)
        if not found or found[0].startswith("!"):
            if len(found) == 3 and found[:2] == ["!", "member"]:
                state.router.notes.append(found[2])
            continue
        indented = line[:1] in (b" ", b"\t")
        last, ended = place, not indented and found[0] == "end"
        _take(state, found, place, indented)
    if not ended:
        raise Refused(last, "NoEnd")
    meaning.judge(state.routers)
    return state.routers


def _take(state: State, found: list[str], line: int, indented: bool) -> None:
    if indented and state.scope is None:
        raise Refused(line, "Misplaced")
    if indented and state.scope == "ignored":
        return
    scope = state.scope if indented and state.scope else "top"
    kind = heads.what(scope, found)
    if kind is None:
        raise Refused(line, "UnknownLine")
    if kind == "refused":
        raise Refused(line, "Unsupported")
    if not indented:
        state.scope = "ignored" if kind == "ignored" else None
    if kind == "ignored":
        return
    if scope == "top":
        _top(state, found, line)
    elif scope == "interface" and state.port:
        router_forms.interface_line(state.port, found, line)
    elif scope == "bgp" and state.router.bgp:
        router_forms.bgp_line(state.router, state.router.bgp, found, line)
    elif scope == "ospf" and state.router.ospf:
        router_forms.ospf_line(state.router.ospf, found, line)
    elif scope == "entry" and state.entry:
        policy_forms.entry_line(state.router, state.entry, found, line)
    else:
        raise AssertionError(f"nothing of the scope {scope} is open")


def _top(state: State, found: list[str], line: int) -> None:
    router, bad = state.router, Refused(line, "BadForm")
    match found:
        case ["hostname", name] if words.router_name(name):
            once(not router.name, line)
            router.name, router.line = name, line
        case ["interface", name] if words.interface_name(name):
            once(name not in router.interfaces, line)
            state.port = router.interfaces[name] = Interface(name)
            state.scope = "interface"
        case ["router", "bgp", word] if (number := words.number(word, 1)) is not None:
            once(router.bgp is None, line)
            router.bgp, state.scope = Bgp(number, line), "bgp"
        case ["router", "ospf", word] if words.number(word, 1, 65535) is not None:
            once(router.ospf is None, line)
            router.ospf, state.scope = Ospf(line), "ospf"
        case ["ip", "prefix-list", *rest]:
            policy_forms.prefix_list(router, rest, line)
        case ["ip", "community-list", *rest]:
            policy_forms.community_list(router, rest, line)
        case ["route-map", name, ("permit" | "deny") as act, word] if words.list_name(name) and (
            seq := words.number(word, 0, 65535)
        ) is not None:
            entries = router.maps.setdefault(name, {})
            once(seq not in entries, line)
            state.entry = entries[seq] = Entry(act == "permit")
            state.scope = "entry"
        case ["end"]:
            if not router.name:
                raise Refused(line, "NoHostname")
            state.routers.append(router)
            state.router = Router()
        case _:
            raise bad
