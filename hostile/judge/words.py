"""Words of a configuration, as the table of words in docs/use/LINES.md has them. None is: not such a word."""
from __future__ import annotations

import functools
import re
from collections.abc import Iterable
from typing import TypeVar

Any = TypeVar("Any")

MOST = 4294967295
WELL_KNOWN_FROM = 4294901760
WELL_KNOWN_WORDS = {"internet", "no-export", "no-advertise", "local-AS", "gshut"}
WELL_KNOWN = -1
KEPT = 10_000
"""Of so many words it is kept what they are."""

Prefix = tuple[int, int]
"""An address and a length; the bits behind the length are 0."""


def all_given(values: Iterable[Any | None]) -> list[Any] | None:
    """The values, or None where one of them is missing."""
    found = list(values)
    given = [value for value in found if value is not None]
    return given if len(given) == len(found) else None


@functools.lru_cache(KEPT)
def number(word: str, least: int = 0, most: int = MOST) -> int | None:
    """A number from `least` to `most`."""
    if not re.fullmatch(r"0|[1-9][0-9]{0,9}", word):
        return None
    value = int(word)
    return value if least <= value <= most else None


@functools.lru_cache(KEPT)
def address(word: str) -> int | None:
    """Four numbers from 0 to 255, joined by points."""
    parts = all_given(number(part, 0, 255) for part in word.split("."))
    if parts is None or len(parts) != 4:
        return None
    return parts[0] << 24 | parts[1] << 16 | parts[2] << 8 | parts[3]


@functools.lru_cache(KEPT)
def mask(word: str) -> int | None:
    """The length, 1 to 32, of an address that is ones and then zeros."""
    value = address(word)
    lengths = [length for length in range(1, 33) if value == bits(length)]
    return lengths[0] if lengths else None


def bits(length: int) -> int:
    """The address of this many ones."""
    return (MOST << (32 - length)) & MOST


def cut(value: int, length: int) -> Prefix:
    """The prefix of an address."""
    return value & bits(length), length


def prefix(word: str) -> Prefix | None:
    """`P/L`."""
    base, slash, length = word.partition("/")
    value, size = address(base), number(length, 0, 32)
    return None if not slash or value is None or size is None else cut(value, size)


@functools.lru_cache(KEPT)
def community(word: str) -> int | None:
    """A community's value; WELL_KNOWN for one that is refused as such."""
    if word in WELL_KNOWN_WORDS:
        return WELL_KNOWN
    high, colon, low = word.partition(":")
    if not colon:
        value = number(word, 1)
    else:
        first, second = number(high, 0, 65535), number(low, 0, 65535)
        value = None if first is None or second is None else 65536 * first + second
    if value is None:
        return None
    return WELL_KNOWN if value == 0 or value >= WELL_KNOWN_FROM else value


def community_key(word: str) -> object:
    """What two words for one community have in common."""
    high, colon, low = word.partition(":")
    return word if word in WELL_KNOWN_WORDS else 65536 * int(high) + int(low) if colon else int(word)


@functools.lru_cache(KEPT)
def router_name(word: str) -> bool:
    """1 to 63 letters, digits, `-`, `_` and `.`, first a letter or digit."""
    return bool(re.fullmatch(r"[A-Za-z0-9][A-Za-z0-9_.-]{0,62}", word))


@functools.lru_cache(KEPT)
def interface_name(word: str) -> bool:
    """1 to 63 letters, digits, `/`, `.`, `:` and `-`, first a letter, with a digit."""
    return bool(re.fullmatch(r"[A-Za-z][A-Za-z0-9/.:-]{0,62}", word)) and any(sign.isdigit() for sign in word)


def list_name(word: str) -> bool:
    """Any word of 1 to 63 bytes."""
    return 1 <= len(word) <= 63


def dotted(value: int) -> str:
    """An address as text."""
    return ".".join(str(value >> shift & 255) for shift in (24, 16, 8, 0))
