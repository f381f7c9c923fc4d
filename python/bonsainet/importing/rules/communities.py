"""Communities as words: one spelling for each value, and what community lists answer for a set of them."""
from __future__ import annotations

from bonsainet.importing.folder import Source

# RFC 1997: values of 32 bits, of which the upper 16 are shown first.
NO_EXPORT, NO_ADVERTISE, LOCAL_AS = "no-export", "no-advertise", "local-AS"
RESERVED = {0xFFFFFF01: NO_EXPORT, 0xFFFFFF02: NO_ADVERTISE, 0xFFFFFF03: LOCAL_AS}
NAMES = {name.lower(): name for name in RESERVED.values()}
FIRST_WELL_KNOWN = 0xFFFF0000
LARGEST = 0xFFFFFFFF

Communities = frozenset[str]
NONE: Communities = frozenset()


def spelled(word: str) -> str | None:
    """A community as `A:B`, or by its name where RFC 1997 gives it one; none where the word is no community, or one
    whose meaning is not known here."""
    if word.lower() in NAMES:
        return NAMES[word.lower()]
    high, sign, low = word.partition(":")
    if not high.isdigit() or (sign and not low.isdigit()) or len(word) > 11:
        return None
    if sign and (int(high) > 0xFFFF or int(low) > 0xFFFF):
        return None
    value = int(high) << 16 | int(low) if sign else int(high)
    if value in RESERVED:
        return RESERVED[value]
    return f"{value >> 16}:{value & 0xFFFF}" if 0 < value < FIRST_WELL_KNOWN else None


def value_of(word: str) -> int:
    """The value of a community that is spelled `A:B`, by which the program orders them."""
    high, _, low = word.partition(":")
    return int(high) << 16 | int(low)


def set_by(words: list[str], before: Communities) -> Communities | None:
    """What the words behind `set community` make of some communities; none where one is not known."""
    if words == ["none"]:
        return NONE
    adds = words[-1:] == ["additive"]
    found = [spelled(word) for word in (words[:-1] if adds else words)]
    known = frozenset(word for word in found if word is not None)
    if not found or None in found:
        return None
    return before | known if adds else known


def list_name(words: list[str]) -> str:
    """The name of the community list of a top line."""
    return words[3] if words[2] in ("standard", "expanded") else words[2]


def list_permits(router: Source, name: str, held: Communities, exact: bool = False) -> bool | None:
    """The answer of a standard community list by its lines; none where it has another line, or is not
    defined."""
    is_defined = False
    for stanza in router.with_head("ip", "community-list"):
        words = stanza.head.words
        if len(words) < 5 or list_name(words) != name:
            continue
        rest = words[4:] if words[2] in ("standard", "expanded") else words[3:]
        named = [spelled(word) for word in rest[1:]]
        if words[2] == "expanded" or (words[2].isdigit() and int(words[2]) >= 100) or None in named or not named:
            return None
        is_defined = True
        if (held == frozenset(named)) if exact else held.issuperset(word for word in named if word):
            return rest[0] == "permit"
    return False if is_defined else None
