"""Lines that are cut short: they are refused, and set aside with those that were refused on reading, so that no rule
reads them."""
from __future__ import annotations

import functools

from bonsainet.importing.folder import Folder
from bonsainet.importing.rewriting import fits
from bonsainet.importing.rules.options import Options
from bonsainet.configs.text import Line, Stanza

CUT_SHORT = "cut-short"
TOP = {
    "access-list": 3,
    "interface": 2,
    "ip access-list": 4,
    "ip community-list": 4,
    "ip prefix-list": 4,
    "ip route": 4,
    "route-map": 4,
    "router": 2,
    "router bgp": 3,
}
INSIDE = {
    "address-family": 2,
    "area": 3,
    "auto-cost": 2,
    "bandwidth": 2,
    "channel-group": 2,
    "distance": 2,
    "distribute-list": 3,
    "export": 2,
    "import": 2,
    "inherit": 3,
    "ip address": 3,
    "ip ospf": 3,
    "ip ospf cost": 4,
    "match": 3,
    "neighbor": 3,
    "neighbor * distribute-list": 5,
    "neighbor * filter-list": 5,
    "neighbor * inherit": 5,
    "neighbor * prefix-list": 5,
    "neighbor * remote-as": 4,
    "neighbor * route-map": 5,
    "neighbor * update-source": 4,
    "network": 2,
    "no neighbor": 4,
    "no passive-interface": 3,
    "passive-interface": 2,
    "redistribute": 2,
    "set": 3,
    "template": 3,
}


def refuse_short(folder: Folder, _options: Options) -> None:
    """Refuses lines that have fewer words than their kind."""
    for router in folder.routers:
        short = [stanza.head for stanza in router.stanzas if _is_short(stanza.head, True)]
        short += [line for stanza in router.stanzas for line in _short_in(stanza)]
        for line in short:
            folder.log.refuse(line, CUT_SHORT, "the line has fewer words than a line of its kind")
        if not folder.log.refusals:
            continue
        refused = {found.place: found.name for found in folder.log.refusals}
        gone = {id(line) for line in router.lines if line.place in refused}
        for stanza in [stanza for stanza in router.stanzas if id(stanza.head) in gone]:
            for line in [line for line in stanza.body if not line.is_blank]:
                folder.log.refuse(line, refused[stanza.head.place], "the first line of its stanza is refused")
        router.stanzas = [stanza for stanza in router.stanzas if id(stanza.head) not in gone]
        for stanza in router.stanzas:
            stanza.body = [line for line in stanza.body if id(line) not in gone]


def _short_in(stanza: Stanza) -> list[Line]:
    """The lines of a body that have fewer words than their kind."""
    most = _most_words(False)
    return [
        line
        for line in stanza.body
        if (words := line.words) and len(words) < most.get(words[0], 0) and _is_short(line, False)
    ]


def _is_short(line: Line, is_top: bool) -> bool:
    words = line.words
    count = len(words)
    return (
        not line.is_blank
        and count < _most_words(is_top).get(words[0], 0)
        and _is_cut_short(
            is_top, count, (words[0], "*" if words[0] == "neighbor" else words[1] if count > 1 else "", *words[2:3])
        )
    )


@functools.cache
def _most_words(is_top: bool) -> dict[str, int]:
    """The first words of the kinds of lines, each with the most words of which a kind that begins so has not fewer."""
    return {word: max(least for _, least in kinds) for word, kinds in _by_first_word(is_top).items()}


@functools.lru_cache(maxsize=1 << 12)
def _is_cut_short(is_top: bool, count: int, words: tuple[str, ...]) -> bool:
    """Whether so many words are too few for a line that begins with these: no kind has a longer head."""
    return any(
        count < least and fits(list(words[:count]), head) for head, least in _by_first_word(is_top).get(words[0], ())
    )


@functools.cache
def _by_first_word(is_top: bool) -> dict[str, list[tuple[list[str], int]]]:
    """The kinds of lines by their first word, each with its least number of words."""
    found: dict[str, list[tuple[list[str], int]]] = {}
    for head, least in (TOP if is_top else INSIDE).items():
        found.setdefault(head.split()[0], []).append((head.split(), least))
    return found
