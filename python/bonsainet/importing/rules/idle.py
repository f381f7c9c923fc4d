"""Lines without bearing that the program does not know: they are cut, each with its subject's reason."""
from __future__ import annotations

import dataclasses
import functools
from collections import defaultdict
from collections.abc import Callable

from bonsainet.importing.folder import Folder
from bonsainet.importing.rewriting import fits, rewrite
from bonsainet.importing.rule import Rule
from bonsainet.importing.rules.idle_heads import SUBJECTS, TIMERS
from bonsainet.importing.rules.options import Options
from bonsainet.configs.text import Place, Stanza

SCOPES = {"interface": "interface", "route-map": "entry"}
PROTOCOLS = {"bgp": "bgp", "ospf": "ospf"}

# A session or adjacency that waits for BFD comes up with it alone.
STRICT = {"strict", "strict-mode"}


def scope_of(stanza: Stanza) -> str | None:
    """The scope of a stanza's body, or none for stanzas that the program does not open."""
    words = stanza.head.words
    if words[:1] == ["router"]:
        return PROTOCOLS.get(words[1]) if len(words) > 1 else None
    return SCOPES.get(words[0]) if words else None


@dataclasses.dataclass
class Near:
    """The heads that begin with a word, each with the place of its subject: those of one word, and by their second word the
    others, or by their third where any word may be second."""

    alone: list[tuple[int, list[str]]] = dataclasses.field(default_factory=list)
    by_second: dict[str, list[tuple[int, list[str]]]] = dataclasses.field(default_factory=lambda: defaultdict(list))
    by_third: dict[str, list[tuple[int, list[str]]]] = dataclasses.field(default_factory=lambda: defaultdict(list))


def subject_of(words: list[str], scope: str) -> Rule | None:
    """The rule of the first subject whose heads of a scope cover the words of a line, or none."""
    near = _heads_of(scope).get(words[0]) if words else None
    if not near:
        return None
    heads = near.alone
    if len(words) > 1 and words[1] in near.by_second:
        heads = heads + near.by_second[words[1]]
    if len(words) > 2 and words[2] in near.by_third:
        heads = heads + near.by_third[words[2]]
    found = [at for at, head in heads if fits(words, head)]
    return SUBJECTS[min(found)].rule if found else None


@functools.cache
def _heads_of(scope: str) -> dict[str, Near]:
    """The heads of a scope by their first word."""
    found: dict[str, Near] = defaultdict(Near)
    for at, subject in enumerate(SUBJECTS):
        for words in map(str.split, subject.heads(scope)):
            near = found[words[0]]
            if len(words) == 1:
                near.alone.append((at, words))
            elif words[1] == "*":
                near.by_third[words[2]].append((at, words))
            else:
                near.by_second[words[1]].append((at, words))
    return dict(found)


def cut_idle(folder: Folder, _options: Options) -> None:
    """Cuts lines without bearing, where the program does not ignore them by itself. What is refused stays."""
    refused = {found.place for found in folder.log.refusals}
    for router in folder.routers:
        kept = [stanza for stanza in router.stanzas if not _is_cut(folder, stanza, refused)]
        if len(kept) < len(router.stanzas):
            router.stanzas = kept


def _is_cut(folder: Folder, stanza: Stanza, refused: set[Place]) -> bool:
    scope = scope_of(stanza)
    if scope:
        _cut_inside(folder, stanza, scope)
        return False
    found = subject_of(stanza.head.words, "top")
    if stanza.head.is_blank or not found or stanza.head.place in refused or folder.takes("top", stanza.head.text):
        return False
    folder.log.cut(stanza.lines, found)
    return True


def _cut_inside(folder: Folder, stanza: Stanza, scope: str) -> None:
    """Cuts the lines of a body that have no bearing."""
    takes, heads = folder.takes, _heads_of(scope)
    cut = {
        id(line): found
        for line in stanza.body
        if line.words and line.words[0] in heads and (found := _cutting(takes, scope, line.text))
    }
    if cut:
        rewrite(stanza, folder.log, lambda line: (cut[id(line)], []) if id(line) in cut else None)


@functools.lru_cache(maxsize=1 << 16)
def _cutting(takes: Callable[[str, str], bool], scope: str, text: str) -> Rule | None:
    """The rule that cuts a line of this text, if one does. Configurations repeat their lines."""
    words = text.split()
    found = subject_of(words, scope)
    if not found or (found is TIMERS.rule and STRICT & set(words)) or takes(scope, text):
        return None
    return found
