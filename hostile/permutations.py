"""Texts of the same network: routers in another order, under other names or numbers, with their stanzas moved, or their
policies written otherwise."""
from __future__ import annotations

import random

from bonsainet.configs.text import Line, Router, Stanza, lines_of, read_text, routers_of, text_of


def _read(text: bytes) -> list[Router]:
    """The routers of a text without its comments, which close no stanza."""
    return routers_of(line for line in lines_of(text.decode("latin-1"), "F") if not line.is_blank)


def reordered(chance: random.Random, text: bytes) -> bytes:
    """The routers in another order."""
    routers = read_text(text.decode("latin-1"), "F")
    chance.shuffle(routers)
    return text_of(routers).encode("latin-1")


def _changed(text: bytes, change: dict[str, str], places: dict[tuple[str, ...], slice]) -> bytes:
    """The words of a text that stand at some places of lines with these heads, changed. The word * stands for any word
    of a head."""
    found = []
    for line in lines_of(text.decode("latin-1"), "F"):
        words = list(line.words)
        for head, place in places.items():
            if len(words) >= len(head) and all(part in ("*", word) for part, word in zip(head, words)):
                words[place] = [change.get(word, word) for word in words[place]]
                line = line.with_text((" " if line.is_indented else "") + " ".join(words))
        found.append(line.text)
    return "".join(f"{line}\n" for line in found).encode("latin-1")


def renamed(chance: random.Random, text: bytes) -> tuple[bytes, dict[str, str]]:
    """Other names of routers, of which the new one is found by the old one."""
    names = [router.name for router in _read(text)]
    new = [f"n{number}" for number in chance.sample(range(10 * len(names)), len(names))]
    change = dict(zip(names, new))
    return _changed(text, change, {("hostname", "*"): slice(1, None)}), change


def renumbered(chance: random.Random, text: bytes) -> bytes:
    """The AS numbers of routers exchanged among them."""
    numbers = sorted({stanza.head.words[2] for router in _read(text) for stanza in router.with_head("router", "bgp")})
    change = dict(zip(numbers, chance.sample(numbers, len(numbers))))
    places = {
        ("router", "bgp", "*"): slice(2, None),
        ("neighbor", "*", "remote-as", "*"): slice(3, None),
        ("set", "as-path", "prepend"): slice(3, None),
    }
    return _changed(text, change, places)


def moved(chance: random.Random, text: bytes) -> bytes:
    """The stanzas of each router in another order; lines of community lists keep theirs, as the first that holds
    decides."""
    routers = _read(text)
    for router in routers:
        ordered = iter([stanza for stanza in router.stanzas if _is_list(stanza)])
        chance.shuffle(router.stanzas)
        router.stanzas = [next(ordered) if _is_list(stanza) else stanza for stanza in router.stanzas]
        for stanza in router.stanzas:
            if stanza.starts("interface") or stanza.starts("router", "ospf") or stanza.starts("route-map"):
                chance.shuffle(stanza.body)
            elif stanza.starts("router", "bgp"):
                stanza.body = _moved_neighbors(chance, stanza.body)
    return text_of(routers).encode("latin-1")


def _is_list(stanza: Stanza) -> bool:
    return stanza.starts("ip", "community-list")


def _moved_neighbors(chance: random.Random, body: list[Line]) -> list[Line]:
    """The lines of a BGP process in another order, each `remote-as` line before the others of its neighbour."""
    first = [line for line in body if line.words[2:3] == ["remote-as"]]
    rest = [line for line in body if line.words[2:3] != ["remote-as"]]
    chance.shuffle(first)
    chance.shuffle(rest)
    return first + rest


def rewritten(chance: random.Random, text: bytes) -> bytes:
    """Policies that do the same, written otherwise: under other names, with words in another order, lines and entries
    that never decide, and entries split by their lists."""
    routers = _read(text)
    for router in routers:
        change = _other_names(chance, router)
        router.stanzas = [stanza for old in router.stanzas for stanza in _rewritten(chance, router, old, change)]
        router.stanzas += _unreached(chance, router)
    return text_of(routers).encode("latin-1")


def _other_names(chance: random.Random, router: Router) -> dict[tuple[str, str], str]:
    """New names of prefix lists, community lists and route maps by kind and old name. Those that are numbers or long
    stay."""
    places = {
        "prefix-list": (("ip", "prefix-list"), 2),
        "community-list": (("ip", "community-list", "standard"), 3),
        "route-map": (("route-map",), 1),
    }
    found: dict[tuple[str, str], str] = {}
    for kind, (head, place) in places.items():
        for stanza in router.with_head(*head):
            name = stanza.head.words[place]
            if name.isupper() and len(name) < 50:
                found[kind, name] = found.get((kind, name)) or f"{name}-{chance.randrange(1000)}"
    return found


def _rewritten(
    chance: random.Random, router: Router, stanza: Stanza, change: dict[tuple[str, str], str]
) -> list[Stanza]:
    """A stanza under the new names, its words in another order where that means nothing. An entry of two community
    lists is sometimes split in two."""
    lines = [
        line.with_text((" " if line.is_indented else "") + " ".join(_words(chance, line.words, change)))
        for line in stanza.lines
    ]
    made = Stanza(lines[0], lines[1:])
    matched = next((line for line in made.body if line.words[:2] == ["match", "community"]), None)
    if matched and stanza.starts("route-map") and chance.random() < 0.5:
        return _parted(router, stanza, made, matched)
    return [made]


def _words(chance: random.Random, words: list[str], change: dict[tuple[str, str], str]) -> list[str]:
    """The words of a line, each name of a list or a map by the new one, and words whose order means nothing in
    another."""

    def new(kind: str, names: list[str]) -> list[str]:
        return [change.get((kind, name), name) for name in names]

    def mixed(some: list[str]) -> list[str]:
        return chance.sample(some, len(some))

    head = words[:2]
    if head == ["ip", "prefix-list"]:
        return [*head, *new("prefix-list", words[2:3]), *words[3:]]
    if head == ["ip", "community-list"]:
        start = 5 if words[2] == "standard" else 4
        return [*head, *new("community-list", words[2 : start - 1]), words[start - 1], *mixed(words[start:])]
    if words[0] == "route-map":
        return ["route-map", *new("route-map", words[1:2]), *words[2:]]
    if words[0] == "neighbor" and words[2] in ("prefix-list", "route-map"):
        return [*words[:3], *new(words[2], words[3:4]), *words[4:]]
    if words[:4] == ["match", "ip", "address", "prefix-list"]:
        return [*words[:4], *mixed(new("prefix-list", words[4:]))]
    if head == ["match", "community"]:
        exact = words[-1:] if words[-1] == "exact-match" and len(words) > 3 else []
        return [*head, *mixed(new("community-list", words[2 : len(words) - len(exact)])), *exact]
    if head == ["set", "community"]:
        additive = words[-1:] if words[-1] == "additive" else []
        return [*head, *mixed(words[2 : len(words) - len(additive)]), *additive]
    if head == ["set", "comm-list"]:
        return [*head, *new("community-list", words[2:3]), *words[3:]]
    return words


def _parted(router: Router, old: Stanza, made: Stanza, matched: Line) -> list[Stanza]:
    """An entry that matches two or more community lists as two entries, the second of the number behind it, where no
    entry has that."""
    exact = matched.words[-1:] if matched.words[-1] == "exact-match" and len(matched.words) > 3 else []
    names = matched.words[2 : len(matched.words) - len(exact)]
    name, act, number = old.head.words[1:4]
    heads = [stanza.head.words for stanza in router.with_head("route-map", name)]
    behind = str(int(number) + 1)
    if (
        len(names) < 2
        or [words[3:] for words in heads].count([number]) != 1
        or [behind] in [words[3:] for words in heads]
        or int(behind) > 65_535
    ):
        return [made]

    def entry(number: str, some: list[str]) -> Stanza:
        body = [
            matched.with_text(" ".join([" match community", *some, *exact])) if line is matched else line
            for line in made.body
        ]
        return Stanza(made.head.with_text(f"route-map {made.head.words[1]} {act} {number}"), body)

    return [entry(number, names[:1]), entry(behind, names[1:])]


def _unreached(chance: random.Random, router: Router) -> list[Stanza]:
    """Lines of community lists that are there already, with another answer, and a last entry for maps that denies, as
    their end does."""
    found: dict[tuple[str, ...], Stanza] = {}
    maps: dict[str, list[Stanza]] = {}
    for stanza in router.stanzas:
        words = stanza.head.words
        if stanza.starts("ip", "community-list") and chance.random() < 0.3:
            place = 4 if words[2] == "standard" else 3
            turned = [*words[:place], "deny" if words[place] == "permit" else "permit", *words[place + 1 :]]
            found[tuple(turned)] = Stanza(stanza.head.with_text(" ".join(turned)))
        elif stanza.starts("route-map"):
            maps.setdefault(words[1], []).append(stanza)
    for name, entries in maps.items():
        if chance.random() < 0.5 and all(entry.head.words[3] != "65535" for entry in entries):
            found["route-map", name] = Stanza(entries[0].head.with_text(f"route-map {name} deny 65535"))
    return list(found.values())
