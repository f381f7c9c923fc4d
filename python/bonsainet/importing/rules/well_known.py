"""The communities `no-export`, `no-advertise` and `local-AS`: a made-up community stands for each, and what carries it is
denied wherever it would leave."""
from __future__ import annotations

from bonsainet.importing.folder import Folder
from bonsainet.importing.rewriting import rewrite
from bonsainet.importing.rule import Rule, rule
from bonsainet.importing.rules import outgoing
from bonsainet.importing.rules.communities import LOCAL_AS, NO_ADVERTISE, NO_EXPORT, spelled
from bonsainet.importing.rules.options import Options
from bonsainet.configs.text import Line, Stanza

HELD = rule(
    "no-export",
    "each session of the folder is external, so a router gives none a route that carries this community: a made-up community stands for it, and each out map denies it first",
    "RFC 1997; Cisco IOS BGP, `set community`; FRR user guide, BGP communities",
)
REFUSED = "no-export"
HIGHEST = 65_534
LOW = {NO_EXPORT: 65_281, NO_ADVERTISE: 65_282, LOCAL_AS: 65_283}


def rename(folder: Folder, _options: Options) -> None:
    """Writes a made-up community for each of the three, in what sets communities and in lists of them."""
    made = made_up(folder)
    for router in folder.routers:
        for stanza in list(router.with_head("ip", "community-list")):
            text = _renamed(stanza.head, made) if "expanded" not in stanza.head.words else None
            if text:
                folder.log.by(stanza.head, HELD)
                stanza.head = stanza.head.with_text(text)
        for stanza in router.with_head("route-map"):
            rewrite(stanza, folder.log, lambda line: _set(folder, line, made), ("set",))


def made_up(folder: Folder) -> dict[str, str]:
    """The community that stands for each of the three: the first upper half that no community of the folder has."""
    used = {
        word.partition(":")[0]
        for router in folder.routers
        for stanza in router.stanzas
        for line in (stanza.head, *stanza.by_word.get("set", ()), *stanza.by_word.get("ip", ()))
        if line.words[:2] in (["set", "community"], ["ip", "community-list"])
        for word in map(spelled, line.words[2:])
        if word
    }
    high = next(high for high in range(HIGHEST, 0, -1) if str(high) not in used)
    return {name: f"{high}:{low}" for name, low in LOW.items()}


def _renamed(line: Line, made: dict[str, str]) -> str | None:
    """A line with made-up communities, or none where it names none of the three."""
    words = [made.get(spelled(word) or "", word) for word in line.words]
    return " ".join(words) if words != line.words else None


def _set(folder: Folder, line: Line, made: dict[str, str]) -> tuple[Rule, list[str]] | None:
    text = _renamed(line, made) if line.words[:2] == ["set", "community"] else None
    if text is None:
        return None
    folder.held.update({name: made[name] for name in map(spelled, line.words) if name in made})
    return HELD, [text]


def _always(entries: list[outgoing.Entry]) -> outgoing.EntriesFor:
    return lambda _name: entries


def hold_back(folder: Folder, _options: Options) -> None:
    """Denies what carries one of the made-up communities in front of all out maps, where something sets it."""
    for router in folder.routers if folder.held else ():
        process = router.process("bgp")
        found = outgoing.peers(process) if process else {}
        if process is None or not found:
            continue
        line = next(iter(found.values()))
        name = outgoing.fresh_name(router, "NO-EXPORT")
        entries: list[outgoing.Entry] = [("deny", [f"match community {name}"])]
        if not outgoing.put_in_front(folder, router, process, HELD, list(found), _always(entries)):
            folder.log.refuse(line, REFUSED, "a map of a neighbour is not defined, or leaves no room for an entry")
        folder.log.by(line, HELD)
        router.stanzas += [
            Stanza(line.with_text(f"ip community-list standard {name} permit {word}"))
            for word in sorted(folder.held.values())
        ]
    if folder.held:
        told = ", ".join(f"{word} for {name}" for name, word in sorted(folder.held.items()))
        folder.log.remarks.append(f"made-up communities stand for well-known ones: {told}")
