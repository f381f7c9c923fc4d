"""Configurations as routers, stanzas and lines, each line with the file and the number that it came from.

This module knows how texts are laid out and nothing of what a line means. A text in the profile of Bonsai has the
configurations of all routers one after the other, each ended by a top line ``end``.
"""
from __future__ import annotations

import dataclasses
import functools
import re
from collections.abc import Callable, Iterable, Iterator
from itertools import count, repeat
from typing import Any, ClassVar, NamedTuple, TypeVar

Item = TypeVar("Item")
Found = TypeVar("Found")

INDENTS = (" ", "\t")
# What ends a router: a top line of this one word.
END = re.compile(r"^(?![ \t])[^\S\n]*end[^\S\n]*$", re.MULTILINE)


class Place(NamedTuple):
    """Where a line stands: a file's name, and a line number from 1."""

    file: str
    line: int

    def __str__(self) -> str:
        return f"{self.file}:{self.line}"


@functools.lru_cache(maxsize=1 << 17)
def _read(text: str) -> tuple[list[str], bool]:
    """The words of a line, and whether it has none or is a comment. Configurations repeat their lines, and lines of one
    text share the list."""
    words = text.split()
    return words, is_blank(words)


def is_blank(words: list[str]) -> bool:
    """Whether a line has no words or is a comment."""
    return not words or words[0][0] == "!"


# (a place without the check that it has a file and a line, for the many lines of a text)
_unchecked: Any = tuple.__new__


class Line:
    """One line without its end, and where it came from. A line that a tool wrote has the place of the line that caused
    it. Nobody changes a line, or the list of its words."""

    __slots__ = ("text", "place", "words", "is_blank")

    def __init__(self, text: str, place: Place) -> None:
        self.text = text
        self.place = place
        self.words, self.is_blank = _read(text)

    def __eq__(self, other: object) -> bool:
        return isinstance(other, Line) and self.text == other.text and self.place == other.place

    def __hash__(self) -> int:
        return hash((self.text, self.place))

    def __repr__(self) -> str:
        return f"Line({self.text!r}, {self.place!r})"

    def __reduce__(self) -> tuple[Any, ...]:
        return Line, (self.text, self.place)

    @property
    def is_indented(self) -> bool:
        """Whether the line belongs to the stanza above it."""
        return self.text[:1] in INDENTS

    def with_text(self, text: str) -> Line:
        """The same place with another text."""
        return Line(text, self.place)


class _Unread(Line):
    """A line whose words are split where somebody asks for them: of most lines nobody does, once they are read."""

    __slots__ = ()

    def __init__(self, text: str, place: Place) -> None:  # pylint: disable=super-init-not-called
        self.text = text
        self.place = place

    def __getattr__(self, name: str) -> Any:
        if name not in ("words", "is_blank"):
            raise AttributeError(name)
        self.words, self.is_blank = _read(self.text)
        return getattr(self, name)


class Kept(list[Item]):
    """A list that keeps what was found out about it until it changes."""

    # (none as long as nothing is known)
    facts: dict[object, Any] | None = None

    def __reduce__(self) -> tuple[Any, ...]:
        return Kept, (list(self),)


def _forgetting(name: str) -> Callable[..., Any]:
    change = getattr(list, name)

    @functools.wraps(change)
    def changed(self: Kept[Any], *given: Any, **named: Any) -> Any:
        if self.facts is not None:
            self.facts = None
        return change(self, *given, **named)

    return changed


for _name in ("append", "extend", "insert", "remove", "pop", "clear", "sort", "reverse"):
    setattr(Kept, _name, _forgetting(_name))
for _name in ("__setitem__", "__delitem__", "__iadd__", "__imul__"):
    setattr(Kept, _name, _forgetting(_name))


def _lines_by_word(lines: list[Line]) -> dict[str, list[Line]]:
    """The lines by their first word, comments and blank lines among them."""
    found: dict[str, list[Line]] = {}
    for line in lines:
        words = line.words
        found.setdefault(words[0] if words else "", []).append(line)
    return found


class Stanza:
    """A top line and the lines that belong to it."""

    __slots__ = ("head", "body")
    head: Line
    body: list[Line]
    # How often the first word of some head became another one.
    changes: ClassVar[int] = 0

    def __init__(self, head: Line, body: Iterable[Line] = ()) -> None:
        _set_head(self, head)
        _set_body(self, Kept(body))

    def __setattr__(self, name: str, value: Any) -> None:
        if name == "body":
            value = Kept(value)
        elif value.words[:1] != self.head.words[:1]:
            Stanza.changes += 1
        object.__setattr__(self, name, value)

    def __eq__(self, other: object) -> bool:
        return isinstance(other, Stanza) and self.head == other.head and self.body == other.body

    def __reduce__(self) -> tuple[Any, ...]:
        return Stanza, (self.head, list(self.body))

    def __repr__(self) -> str:
        return f"Stanza({self.head!r}, {self.body!r})"

    @property
    def lines(self) -> list[Line]:
        """The head and then the body."""
        return [self.head, *self.body]

    @property
    def by_word(self) -> dict[str, list[Line]]:
        """The lines of the body by their first word, in their order."""
        body: Any = self.body
        if not body:
            return {}
        found: dict[str, list[Line]] | None = body.facts and body.facts.get(_lines_by_word)
        return self.fact(_lines_by_word) if found is None else found

    def fact(self, find: Callable[[list[Line]], Found]) -> Found:
        """What a function says of the body: it is asked once while the body stays as it is."""
        body: Any = self.body
        facts = body.facts
        if facts is None:
            facts = body.facts = {}
        if find not in facts:
            facts[find] = find(body)
        found: Found = facts[find]
        return found

    def starts(self, *words: str) -> bool:
        """Whether the head begins with these words."""
        return self.head.words[: len(words)] == list(words)


# (what `__setattr__` sees to is not there yet where a stanza is made)
_set_head: Any = Stanza.__dict__["head"].__set__
_set_body: Any = Stanza.__dict__["body"].__set__


def _stanzas_by_word(stanzas: list[Stanza]) -> dict[str, list[Stanza]]:
    """The stanzas by the first word of their heads."""
    found: dict[str, list[Stanza]] = {}
    for stanza in stanzas:
        words = stanza.head.words
        found.setdefault(words[0] if words else "", []).append(stanza)
    return found


@dataclasses.dataclass
class Router:
    """The configuration of one router: its host name (empty where no line gives it) and its stanzas in order.

    Comments and blank lines stand as stanzas of their own at the top, and among the lines of a body inside one.
    """

    name: str
    stanzas: list[Stanza] = dataclasses.field(default_factory=list)

    def __setattr__(self, name: str, value: Any) -> None:
        object.__setattr__(self, name, Kept(value) if name == "stanzas" else value)

    @property
    def lines(self) -> Iterator[Line]:
        """All lines in order, without the line ``end``."""
        for stanza in self.stanzas:
            yield from stanza.lines

    def with_head(self, *words: str) -> Iterator[Stanza]:
        """The stanzas whose head begins with these words, in order."""
        found = self._by_word.get(words[0], ())
        if len(words) == 1 or not found:
            return iter(found)
        wanted, count = list(words), len(words)
        return (stanza for stanza in found if stanza.head.words[:count] == wanted)

    @property
    def _by_word(self) -> dict[str, list[Stanza]]:
        """The stanzas by the first word of their heads, in their order."""
        stanzas: Any = self.stanzas
        facts = stanzas.facts
        if facts is None or facts["changes"] != Stanza.changes:
            facts = stanzas.facts = {"changes": Stanza.changes, "by word": _stanzas_by_word(stanzas)}
        found: dict[str, list[Stanza]] = facts["by word"]
        return found


def lines_of(text: str, file: str, first: int = 1) -> list[Line]:
    """The lines of a text, of which the first has this number. A carriage return before the end of a line is no part of it."""
    return list(_lines(Line, text, file, first))


def unread_lines_of(text: str, file: str) -> Iterator[Line]:
    """The same, for who takes the words of each line from its text, once."""
    return _lines(_Unread, text, file, 1)


def _lines(kind: type[Line], text: str, file: str, first: int) -> Iterator[Line]:
    texts = text.removesuffix("\n").split("\n")
    if "\r" in text:
        texts = [line.removesuffix("\r") for line in texts]
    return map(kind, texts, map(_unchecked, repeat(Place), zip(repeat(file), count(first))))


def router_texts(text: str) -> Iterator[tuple[int, str]]:
    """The text of each router with its line ``end``, and the number of its first line. What is behind the last router comes
    too, be there a router in it or not."""
    begin, number = 0, 1
    for end in END.finditer(text):
        piece = text[begin : end.end() + 1]
        yield number, piece
        begin, number = begin + len(piece), number + piece.count("\n")
    if begin < len(text):
        yield number, text[begin:]


def routers_of(lines: Iterable[Line]) -> list[Router]:
    """The routers of lines in which each router ends with a top line ``end``; one at the end may lack it."""
    routers: list[Router] = []
    stanzas: list[Stanza] = []
    for line in lines:
        if line.words == ["end"] and not line.is_indented:
            routers.append(_router(stanzas))
            stanzas = []
        elif stanzas and line.is_indented:
            stanzas[-1].body.append(line)
        else:
            stanzas.append(Stanza(line))
    if any(not stanza.head.is_blank for stanza in stanzas):
        routers.append(_router(stanzas))
    return routers


def read_text(text: str, file: str) -> list[Router]:
    """The routers of a text in the profile of Bonsai."""
    return routers_of(lines_of(text, file))


def text_of(routers: Iterable[Router]) -> str:
    """The text of routers, each ended by ``end``."""
    return "".join(["\n".join([*[line.text for line in router.lines], "end\n"]) for router in routers])


def _router(stanzas: list[Stanza]) -> Router:
    names = [stanza.head.words[1] for stanza in stanzas if stanza.starts("hostname") and len(stanza.head.words) == 2]
    return Router(names[0] if names else "", stanzas)
