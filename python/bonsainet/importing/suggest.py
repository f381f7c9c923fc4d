"""A skeleton of decisions: for each refused line one that a person can complete, with what the refusal says.

All lines are comments, so nothing is decided before somebody takes out a `#` and gives the reason.
"""
from __future__ import annotations

import re
from collections.abc import Iterator

from bonsainet.cli.command_line import printable
from bonsainet.importing.decisions import GUARDED, PROTECTED
from bonsainet.importing.folder import Folder, Source, first, has, kind_of, name_of
from bonsainet.importing.names import SAME
from bonsainet.importing.rule import Refusal
from bonsainet.importing.rules.costs import KBITS, NO_COST
from bonsainet.importing.rules.neighbors import INTERNAL, MASKS, MULTIHOP
from bonsainet.importing.rules.own_as import SHARED
from bonsainet.importing.rules.undefined import UNDEFINED
from bonsainet.configs.text import Place, Stanza

HEAD = """# Decisions for bonsai-import --decisions. Each is about a refused line, and none counts yet: take out the # before
# the last line of each, complete it and give the reason. What is dropped is gone from the network that is asked about.
"""
OTHER_AREA = "OtherArea"
SESSIONS = (INTERNAL, MASKS, MULTIHOP, "ipv6-peer")
WHOLE = (["match"], ["ip", "address"], ["vrf"], ["ip", "vrf"])
REASON = 'because ""'


def skeleton(folder: Folder, refused: list[Refusal]) -> str:
    """The skeleton for some refusals, as the report has them."""
    parts = [HEAD]
    gone: set[Place] = set()
    for found in refused:
        place = f"{found.place}" if found.place.line else found.place.file
        router, stanza = _around(folder, found)
        told = list(_decisions(folder, found, router, stanza))
        if router and stanza and _is_dropped_whole(found, stanza):
            gone.add(stanza.head.place)
            told += _of_emptied_map(folder, router, stanza, gone)
        lines = [f"{place}: {found.text}", f"  {found.reason}", *told]
        parts.append("\n" + "".join(f"# {printable(line)}\n" for line in lines))
    return "".join(parts)


def _decisions(folder: Folder, found: Refusal, router: Source | None, stanza: Stanza | None) -> Iterator[str]:
    """What a person can decide of a refused line."""
    at = f"at {_quoted(found.place.file)}"
    words = found.text.split()
    if found.name == SHARED:
        yield "  run with --own-as, or leave the router's file out by --skip"
    elif found.name == SAME:
        yield f"  run with --skip {_quoted(found.place.file)}"
    elif found.kind == OTHER_AREA:
        yield "  run with --area N, which keeps one area of several"
    elif found.name == NO_COST and router and stanza:
        yield from _of_cost(folder, router, stanza, found, at)
    elif found.name == UNDEFINED:
        yield f"undefined {at} {_quoted(found.reason.partition(' ')[0], True)} permit|deny {REASON}"
    elif found.name in SESSIONS and words[:1] == ["neighbor"]:
        yield f"drop {at} {_quoted(f'neighbor {words[1]} *', True)} {REASON}"
    elif stanza and _is_dropped_whole(found, stanza):
        yield f"drop {at} {_quoted(' '.join(stanza.head.words), True)} {REASON}"
    else:
        yield f"{'drop!' if found.name == GUARDED else 'drop'} {at} {_quoted(' '.join(words), True)} {REASON}"


def _is_dropped_whole(found: Refusal, stanza: Stanza) -> bool:
    """Whether the stanza of a refused line can be dropped, and the line by itself cannot."""
    words = found.text.split()
    return stanza.head.place != found.place and (
        found.name == PROTECTED or any(words[: len(head)] == head for head in WHOLE)
    )


def _of_emptied_map(folder: Folder, router: Source, stanza: Stanza, gone: set[Place]) -> Iterator[str]:
    """What the name of a map means of which no entry is left."""
    head, name = stanza.head.words[:2]
    process = router.process("bgp")
    if head != "route-map" or not process or all([head, name] != line.words[2:4] for line in process.body):
        return
    entries = {place for place in folder.raw if place.file == stanza.head.place.file and _opens(folder, place, name)}
    if entries <= gone:
        yield "  no entry of the map is left then, so its name takes a decision too: deny is what such a map does"
        yield f"undefined at {_quoted(stanza.head.place.file)} {_quoted(name, True)} deny|permit {REASON}"


def _opens(folder: Folder, place: Place, name: str) -> bool:
    return folder.raw[place].split()[:2] == ["route-map", name]


def _of_cost(folder: Folder, router: Source, stanza: Stanza, found: Refusal, at: str) -> Iterator[str]:
    name = _name_read(folder, stanza)
    values = re.search(r"the cost of a loopback is (\d+) or 1", found.reason)
    if values:
        yield f"cost {at} {_quoted(name, True)} {values[1]}|1 {REASON}"
        return
    members = _members(router, name)
    if members:
        yield f"  its {len(members)} members have {sum(members)} kbit/s together"
    yield f"bandwidth {at} {_quoted(name, True)} {sum(members) if members else 'KBITS'} {REASON}"


def _name_read(folder: Folder, stanza: Stanza) -> str:
    """The name that a decision knows an interface by: the one that it was read with, where the profile takes that."""
    words = folder.raw.get(stanza.head.place, "").split()
    is_read = words[:1] == ["interface"] and len(words) > 1 and re.search(r"\d", words[1])
    return words[1] if is_read else name_of(stanza)


def _members(router: Source, name: str) -> list[int]:
    """The bandwidths of the members of a bundle that are not shut, by their types; none where one does not tell."""
    number = re.fullmatch(r"Port-channel(\d+)", name)
    found = []
    for stanza in router.interfaces if number else ():
        line = first(stanza, "channel-group")
        if line and number and line.words[1:2] == [number[1]] and not has(stanza, "shutdown"):
            if kind_of(name_of(stanza)) not in KBITS or first(stanza, "speed"):
                return []
            found.append(KBITS[kind_of(name_of(stanza))])
    return found


def _around(folder: Folder, found: Refusal) -> tuple[Source | None, Stanza | None]:
    """The router and the stanza that have a refused line, where one does."""
    for router in folder.routers:
        for stanza in router.stanzas:
            if any(line.place == found.place for line in stanza.lines):
                return router, stanza
    return None, None


def _quoted(text: str, always: bool = False) -> str:
    """A word of a decision, in quotes where it needs them."""
    if not always and re.fullmatch(r"[\w./:@+-]+", text, re.ASCII):
        return text
    return '"' + text.replace("\\", "\\\\").replace('"', '\\"') + '"'
