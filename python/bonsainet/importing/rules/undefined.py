"""Lists and maps that are named and not defined: a person decides what they mean, with the vendor's default shown."""
from __future__ import annotations

from collections.abc import Iterator

from bonsainet.importing.decisions import note
from bonsainet.importing.folder import Dialect, Folder, Source
from bonsainet.importing.rule import rule
from bonsainet.importing.rules.options import Options
from bonsainet.configs.text import Line, Stanza

DECIDED = rule("undefined-decided", "a person decided what this name means", "the decisions file")
UNDEFINED = "undefined"
DEFAULTS = {
    Dialect.FRR: "FRR denies all by a map or a filter that is not defined, and an undefined list matches nothing",
    Dialect.IOS: "IOS permits all by a filter list that is not defined, and a match of an undefined list holds for every route; of a map it depends on the version",
}
OF_NEIGHBOR = {"distribute-list": "access", "route-map": "map", "prefix-list": "prefix"}
HEADS = {"map": ("route-map",), "prefix": ("ip", "prefix-list"), "community": ("ip", "community-list")}


def define(folder: Folder, _options: Options) -> None:
    """Defines what a decision gives a meaning, and refuses other names without a definition."""
    for router in folder.routers:
        defined: set[tuple[str, str]] = set()
        for kind, name, line in list(_named(router)):
            if (kind, name) in defined:
                continue
            if _is_defined(router, kind, name):
                defined.add((kind, name))
            else:
                _define(folder, router, kind, name, line)


def _named(router: Source) -> Iterator[tuple[str, str, Line]]:
    """The names of lists and maps that neighbours and entries have, each with its kind and its line."""
    for stanza in router.stanzas:
        words = stanza.head.words
        if words[:1] == ["route-map"]:
            for line in stanza.body:
                yield from ((kind, name, line) for kind, name in _named_in_entry(line.words))
        elif words[:2] == ["router", "bgp"]:
            for line in stanza.by_word.get("neighbor", ()):
                words = line.words
                if len(words) == 5 and words[2] in OF_NEIGHBOR:
                    yield OF_NEIGHBOR[words[2]], words[3], line


def _named_in_entry(words: list[str]) -> Iterator[tuple[str, str]]:
    if words[:4] == ["match", "ip", "address", "prefix-list"]:
        yield from (("prefix", name) for name in words[4:])
    elif words[:3] == ["match", "ip", "address"] and words[3:4] != ["prefix-len"]:
        yield from (("access", name) for name in words[3:])
    elif words[:2] == ["match", "community"]:
        names = words[2:-1] if words[-1] == "exact-match" else words[2:]
        yield from (("community", name) for name in names)
    elif words[:2] == ["set", "comm-list"]:
        yield "community", words[2]


def _is_defined(router: Source, kind: str, name: str) -> bool:
    if kind == "access":
        return any(
            stanza.head.words[:1] == ["access-list"] or stanza.head.words[:2] == ["ip", "access-list"]
            for stanza in router.stanzas
            if name in stanza.head.words
        )
    for stanza in router.with_head(*HEADS[kind]):
        words = stanza.head.words[len(HEADS[kind]) :]
        words = words[1:] if words[:1] in (["standard"], ["expanded"]) else words
        if words[:1] == [name] and words[1:2] != ["description"]:
            return True
    return False


def _define(folder: Folder, router: Source, kind: str, name: str, line: Line) -> None:
    decided = folder.own_decisions.find("undefined", line, name)
    if not decided or kind == "access" or (kind == "community" and decided.value == "permit"):
        more = "; a community list cannot permit all in the profile" if decided and kind == "community" else ""
        folder.log.refuse(
            line,
            UNDEFINED,
            f'{name} is not defined on this router. {DEFAULTS[router.dialect]}: decide `undefined "{name}" permit|deny`{more}',
        )
        return
    text = {
        "map": f"route-map {name} {decided.value} 10",
        "prefix": f"ip prefix-list {name} seq 5 {decided.value} 0.0.0.0/0 le 32",
        "community": f"ip community-list standard {name} deny 1:1",
    }[kind]
    folder.log.by(line, DECIDED)
    folder.log.assume(line, decided.reason)
    router.stanzas += [Stanza(note(line, decided.reason, "")), Stanza(line.with_text(text))]
