"""A folder of routers while the rules work on it: routers with their dialects, and what their interfaces say."""
from __future__ import annotations

import dataclasses
import enum
import functools
import re
from collections.abc import Callable, Iterator
from ipaddress import AddressValueError, IPv4Address, IPv4Interface, IPv4Network, NetmaskValueError
from typing import TYPE_CHECKING

from bonsainet.importing.rule import Log
from bonsainet.configs.text import Line, Place, Router, Stanza, text_of

if TYPE_CHECKING:
    from bonsainet.importing.decisions import Decisions


class Dialect(enum.Enum):
    """Whose defaults hold for a router."""

    IOS = "IOS"
    FRR = "FRR"


@dataclasses.dataclass
class Source(Router):
    """A router of the folder. `file` is the file, or the folder of files, that it was read from.

    `loopback` is the name that FRR's interface `lo` has in the text: on FRR no other interface is a loopback.
    `unread` are the protocols whose daemons' files stand beside and were not read. A stub is a router that `--stub`
    adds. `carried` are the communities with which it originates a prefix, and the line that says so. `preferences` are,
    for those of the text that stand for weights too, those of the device. `highest` is the address that is its
    identifier where no line gives one.
    """

    dialect: Dialect = Dialect.IOS
    file: str = ""
    loopback: str = ""
    unread: tuple[str, ...] = ()
    is_stub: bool = False
    carried: dict[IPv4Network, tuple[frozenset[str], Line]] = dataclasses.field(default_factory=dict)
    preferences: dict[int, int] = dataclasses.field(default_factory=dict)
    highest: IPv4Address | None = None

    def is_loopback(self, stanza: Stanza) -> bool:
        """Whether an interface is a loopback, by its type on IOS and by its old name on FRR."""
        name = name_of(stanza)
        if self.dialect is Dialect.IOS:
            return kind_of(name) == "Loopback"
        return bool(self.loopback) and name.partition(":")[0] == self.loopback

    @property
    def interfaces(self) -> Iterator[Stanza]:
        """The interface stanzas."""
        return self.with_head("interface")

    def process(self, protocol: str) -> Stanza | None:
        """The stanza `router bgp` or `router ospf`, or none."""
        return next(self.with_head("router", protocol), None)

    @property
    def number(self) -> int | None:
        """The AS number, or none without BGP."""
        process = self.process("bgp")
        return as_number(process.head.words[2]) if process and len(process.head.words) > 2 else None


SHUTDOWN = ["shutdown"]
# (by their addresses as numbers, which are compared at once)
Up = dict[int, tuple[Source, Stanza]]


@dataclasses.dataclass
class Folder:
    """All routers, the raw text of each line by its place, the log and the decisions.

    `takes` says whether the program takes a line in a scope as one that it ignores or knows. `held` are the well-known
    communities that a line sets, each with the one that stands for it. `accepted` is the text of the routers as the program
    took it.
    """

    routers: list[Source]
    raw: dict[Place, str]
    log: Log = dataclasses.field(default_factory=Log)
    decisions: Decisions | None = None
    takes: Callable[[str, str], bool] = lambda _scope, _text: False
    held: dict[str, str] = dataclasses.field(default_factory=dict)
    accepted: str | None = None

    @property
    def text(self) -> str:
        """The text of the routers."""
        return text_of(self.routers) if self.accepted is None else self.accepted

    @property
    def own_decisions(self) -> Decisions:
        """The decisions of a folder on which the rules work."""
        assert self.decisions
        return self.decisions

    @property
    def up(self) -> Up:
        """The up interfaces by their addresses."""
        return {
            numbers[0]: (router, stanza)
            for router in self.routers
            for stanza in router.interfaces
            if (numbers := numbers_of(stanza))
        }


def words_are(line: Line, *words: str) -> bool:
    """Whether a line begins with these words."""
    return line.words[: len(words)] == list(words)


def has(stanza: Stanza, *words: str) -> bool:
    """Whether a line of the body begins with these words."""
    return first(stanza, *words) is not None


def first(stanza: Stanza, *words: str) -> Line | None:
    """The first line of the body that begins with these words."""
    lines = stanza.by_word.get(words[0])
    if not lines or len(words) == 1:
        return lines[0] if lines else None
    wanted, count = list(words), len(words)
    for line in lines:
        if line.words[:count] == wanted:
            return line
    return None


def name_of(stanza: Stanza) -> str:
    """The name of an interface."""
    words = stanza.head.words
    return words[1] if len(words) > 1 else ""


@functools.lru_cache(maxsize=65536)
def kind_of(name: str) -> str:
    """The type of an interface: its name up to the first digit."""
    return re.split(r"\d", name, maxsplit=1)[0]


def address_given(stanza: Stanza) -> IPv4Interface | None:
    """The primary address of an interface, shut or not."""
    return stanza.fact(_address_in)


def address_of(stanza: Stanza) -> IPv4Interface | None:
    """The primary address of an up interface, else none."""
    return stanza.fact(_address_if_up)


def numbers_of(stanza: Stanza) -> tuple[int, int] | None:
    """The primary address of an up interface and its mask as numbers, else none."""
    return stanza.fact(_numbers_if_up)


def _numbers_if_up(body: list[Line]) -> tuple[int, int] | None:
    found = _address_if_up(body)
    return (int(found), int(found.netmask)) if found else None


def _address_if_up(body: list[Line]) -> IPv4Interface | None:
    return None if any(line.words == SHUTDOWN for line in body) else _address_in(body)


def _address_in(body: list[Line]) -> IPv4Interface | None:
    for line in body:
        words = line.words
        if len(words) == 4 and words[0] == "ip" and words[1] == "address":
            return interface_address(words[2], words[3])
    return None


def own_address_of(stanza: Stanza) -> IPv4Interface:
    """The primary address of an interface that is up."""
    found = address_of(stanza)
    assert found
    return found


@functools.lru_cache(maxsize=65536)
def interface_address(address: str, mask: str) -> IPv4Interface | None:
    """An address with a mask, or none where the words are none."""
    try:
        return IPv4Interface(f"{address}/{mask}")
    except (AddressValueError, NetmaskValueError, ValueError):
        return None


@functools.lru_cache(maxsize=65536)
def an_address(word: str) -> IPv4Address | None:
    """An address, or none where the word is none."""
    try:
        return IPv4Address(word)
    except AddressValueError:
        return None


def a_prefix(word: str) -> IPv4Network | None:
    """A prefix `P/L`, or none where the word is none."""
    try:
        return IPv4Network(word, strict=False) if "/" in word else None
    except ValueError:
        return None


def as_number(word: str) -> int | None:
    """An AS number, plain or as two numbers with a point between (RFC 5396), or none where the word is none."""
    high, point, low = word.partition(".")
    if not high.isdigit() or (point and not low.isdigit()):
        return None
    return int(high) << 16 | int(low) if point else int(high)


def network_of(line: Line) -> IPv4Network | None:
    """The prefix of a BGP line `network A [mask M]`, by the class of its address where no mask is given (RFC 791)."""
    words = line.words
    if len(words) >= 4 and words[2] == "mask":
        found = interface_address(words[1], words[3])
        return found.network if found else None
    if len(words) == 2 and (address := an_address(words[1])):
        first = int(address) >> 24
        return IPv4Network((address, 8 if first < 128 else 16 if first < 192 else 24), strict=False)
    return None


def indented(line: Line, text: str) -> Line:
    """A line of a body that stands for another line."""
    return line.with_text(f" {text}")
