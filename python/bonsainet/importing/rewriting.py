"""How rules change stanzas: by a function that says for each line what stands in its place."""
from __future__ import annotations

import functools
from collections.abc import Callable, Collection, Iterable

from bonsainet.importing.rule import Log, Rule
from bonsainet.configs.text import Line, Router, Stanza

Decision = tuple[Rule, list[str]] | None


def rewrite(stanza: Stanza, log: Log, decide: Callable[[Line], Decision], words: Collection[str] | None = None) -> None:
    """Rewrites the body: `decide` gives a rule and the texts that stand for the line, or none where it stays. Where first
    words are given it is asked about lines with one of these alone."""
    asked = stanza.body if words is None else _beginning(stanza, words)
    if not asked:
        return
    decided = [None if line.is_blank else decide(line) for line in asked]
    if not any(decided):
        return
    if len(asked) < len(stanza.body):
        by_line = {id(line): found for line, found in zip(asked, decided)}
        decided = [by_line.get(id(line)) for line in stanza.body]
    rewritten: list[Line] = []
    for line, found in zip(stanza.body, decided):
        if found is None:
            rewritten.append(line)
        else:
            rule, texts = found
            log.by(line, rule)
            rewritten += [line.with_text(f" {text}") for text in texts]
    stanza.body = rewritten


def _beginning(stanza: Stanza, words: Collection[str]) -> list[Line]:
    """The lines of the body that begin with one of some words, in their order."""
    by_word = stanza.by_word
    fewer, other = (words, by_word) if len(words) < len(by_word) else (by_word, words)
    near = [word for word in fewer if word in other]
    if len(near) > 1:
        return [line for line in stanza.body if line.words and line.words[0] in near]
    return by_word[near[0]] if near else []


def cut_lines(
    stanza: Stanza, log: Log, rule: Rule, is_cut: Callable[[Line], bool], words: Collection[str] | None = None
) -> None:
    """Leaves out the lines of a body of which `is_cut` holds; where first words are given, of those with one of these."""
    rewrite(stanza, log, lambda line: (rule, []) if is_cut(line) else None, words)


def any_begins(routers: Iterable[Router], heads: tuple[str, ...]) -> bool:
    """Whether a line inside a stanza of some router begins with the words of one of the heads, where `*` stands for any
    word."""
    words = _by_first_word(heads).keys()
    return any(
        begins(line, heads)
        for router in routers
        for stanza in router.stanzas
        if stanza.body
        for word in words
        for line in stanza.by_word.get(word, ())
    )


def first_words(heads: tuple[str, ...]) -> Collection[str]:
    """The first words of heads."""
    return _by_first_word(heads).keys()


def begins(line: Line, heads: tuple[str, ...]) -> bool:
    """Whether a line begins with the words of one of the heads, where `*` stands for any word."""
    words = line.words
    return bool(words) and any(fits(words, head) for head in _by_first_word(heads).get(words[0], ()))


@functools.lru_cache(maxsize=512)
def _by_first_word(heads: tuple[str, ...]) -> dict[str, list[list[str]]]:
    """The heads as words, by their first."""
    found: dict[str, list[list[str]]] = {}
    for head in heads:
        found.setdefault(head.split()[0], []).append(head.split())
    return found


def fits(words: list[str], head: list[str]) -> bool:
    """Whether words begin with those of a head, where `*` stands for any word."""
    if len(words) < len(head):
        return False
    for want, word in zip(head, words):
        if want != word and want != "*":
            return False
    return True
