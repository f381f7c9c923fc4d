"""What leaves a router: the out maps of its neighbours, and entries in front of them."""
from __future__ import annotations

from collections import defaultdict
from collections.abc import Callable

from bonsainet.importing.folder import Folder, Source
from bonsainet.importing.rule import Rule
from bonsainet.importing.rules.outcomes import entries_of
from bonsainet.configs.text import Line, Stanza

LAST = 65_535
Entry = tuple[str, list[str]]
EntriesFor = Callable[[str | None], list[Entry]]


def peers(process: Stanza) -> dict[str, Line]:
    """The neighbours of a process with their `remote-as` lines."""
    return {
        line.words[1]: line
        for line in process.body
        if line.words[:1] == ["neighbor"] and line.words[2:3] == ["remote-as"]
    }


def map_of(process: Stanza, peer: str, way: str) -> str | None:
    """The name of the map that a neighbour has in a direction, or none."""
    return next(
        (
            line.words[3]
            for line in process.body
            if line.words[:3] == ["neighbor", peer, "route-map"] and line.words[4:] == [way]
        ),
        None,
    )


def sends(process: Stanza, peer: str) -> bool:
    """Whether standard communities are sent to a neighbour."""
    return any(
        line.words[:3] == ["neighbor", peer, "send-community"] and line.words[3:] in ([], ["both"], ["standard"])
        for line in process.body
    )


def put_in_front(
    folder: Folder, router: Source, process: Stanza, rule: Rule, names: list[str], entries_for: EntriesFor
) -> bool:
    """Puts entries, each `permit` or `deny` with its lines, in front of the out maps of some neighbours; a neighbour
    without a map gets one that then permits. Gives whether there was room for all."""
    by_map: dict[str | None, list[str]] = defaultdict(list)
    for peer in names:
        by_map[map_of(process, peer, "out")].append(peer)
    for name, those in by_map.items():
        entries = entries_for(name)
        if entries and name is None:
            _give_map(folder, router, process, rule, those, entries)
        elif entries and name is not None and not _insert(folder, router, process, rule, name, those, entries):
            return False
    return True


def _give_map(
    folder: Folder, router: Source, process: Stanza, rule: Rule, names: list[str], entries: list[Entry]
) -> None:
    name = fresh_name(router, rule.name.upper())
    found = peers(process)
    for peer in names:
        folder.log.by(found[peer], rule)
        process.body.append(found[peer].with_text(f" neighbor {peer} route-map {name} out"))
    line = found[names[0]]
    router.stanzas += _made(line, name, 10, 10, [*entries, ("permit", [])])


def _insert(
    folder: Folder, router: Source, process: Stanza, rule: Rule, name: str, names: list[str], entries: list[Entry]
) -> bool:
    old = entries_of(router, name)
    lines = [
        line
        for line in process.body
        if line.words[:1] == ["neighbor"] and line.words[2:] == ["route-map", name, "out"] and line.words[1] in names
    ]
    if not old or int(old[-1].head.words[3]) + len(entries) > LAST:
        return False
    if any(line.words[2:4] == ["route-map", name] and line not in lines for line in process.body):
        name, old = copied(folder, router, process, rule, lines, old)
    least = int(old[0].head.words[3])
    if least < len(entries):
        for stanza in old:
            folder.log.by(stanza.head, rule)
            words = stanza.head.words
            stanza.head = stanza.head.with_text(" ".join([*words[:3], str(int(words[3]) + len(entries))]))
        least += len(entries)
    folder.log.by(lines[0], rule)
    at = router.stanzas.index(old[0])
    router.stanzas[at:at] = _made(lines[0], name, least - len(entries), 1, entries)
    return True


def copied(
    folder: Folder, router: Source, process: Stanza, rule: Rule, lines: list[Line], old: list[Stanza]
) -> tuple[str, list[Stanza]]:
    """A copy of a map for some of the lines that name it, since the others go on with the map unchanged."""
    name = fresh_name(router, f"{old[0].head.words[1]}-{lines[0].words[-1].upper()}"[:50])
    made = []
    for stanza in old:
        folder.log.by(stanza.head, rule)
        for line in stanza.body:
            folder.log.by(line, rule)
        words = stanza.head.words
        made.append(Stanza(stanza.head.with_text(" ".join([words[0], name, *words[2:]])), list(stanza.body)))
    for line in lines:
        folder.log.by(line, rule)
        at = next(place for place, one in enumerate(process.body) if one is line)
        process.body[at] = line.with_text(f" neighbor {line.words[1]} route-map {name} {line.words[-1]}")
    last = router.stanzas.index(old[-1])
    router.stanzas[last + 1 : last + 1] = made
    return name, made


def _made(line: Line, name: str, first: int, step: int, entries: list[Entry]) -> list[Stanza]:
    return [
        Stanza(
            line.with_text(f"route-map {name} {act} {first + step * at}"), [line.with_text(f" {text}") for text in body]
        )
        for at, (act, body) in enumerate(entries)
    ]


def fresh_name(router: Source, stem: str) -> str:
    """A name for a list or map that no word of the router is."""
    used = {word for line in router.lines for word in line.words}
    return next(name for number in range(10**6) if (name := f"{stem}-{number}" if number else stem) not in used)
