"""What prefix lists, access lists and match lines answer for one prefix, so that a rule can ask before it rewrites."""
from __future__ import annotations

import dataclasses
import re
from ipaddress import IPv4Network

from bonsainet.importing.folder import Dialect, Source, a_prefix, an_address
from bonsainet.configs.text import Line

ALL = 0xFFFFFFFF


@dataclasses.dataclass(frozen=True)
class Ace:
    """An entry of an access list as a filter of prefixes: the bits of the address, and of the mask where it speaks of
    them."""

    is_permit: bool
    address: int
    wildcard: int
    mask: tuple[int, int] | None
    line: Line
    least: int = 0
    most: int = 32

    def holds(self, prefix: IPv4Network) -> bool:
        """Whether the entry holds for a prefix."""
        if not self.least <= prefix.prefixlen <= self.most:
            return False
        if (int(prefix.network_address) ^ self.address) & ~self.wildcard & ALL:
            return False
        return self.mask is None or not (int(prefix.netmask) ^ self.mask[0]) & ~self.mask[1] & ALL

    @property
    def as_prefix(self) -> str | None:
        """The entry as the end of a prefix list line, where its wildcard is ones behind zeros and it speaks of no
        mask."""
        length = 32 - self.wildcard.bit_length()
        if self.mask is not None or self.wildcard != (1 << (32 - length)) - 1:
            return None
        base = IPv4Network((self.address & ~self.wildcard & ALL, length))
        return f"{base}" if self.most == length or length == 32 else f"{base} le {self.most}"


def access_list(router: Source, name: str) -> list[Ace] | None:
    """The entries of an access list; none where it is not defined, or has an entry that is no filter of prefixes."""
    found: list[tuple[int, Ace]] = []
    is_defined = False
    for stanza in router.stanzas:
        words = stanza.head.words
        lines: list[tuple[Line, list[str]]] = []
        if words[:2] == ["access-list", name]:
            lines = [(stanza.head, words[2:])]
        elif words[:2] == ["ip", "access-list"] and words[-1] == name and words[2:3] in (["standard"], ["extended"]):
            lines = [(line, line.words) for line in stanza.body if not line.is_blank]
        for line, rest in lines:
            is_defined = True
            number = max((number for number, _ in found), default=0) + 1
            if rest[:1] == ["seq"] and rest[1:2] and rest[1].isdigit():
                number, rest = int(rest[1]), rest[2:]
            elif rest[:1] and rest[0].isdigit():
                number, rest = int(rest[0]), rest[1:]
            if rest[:1] == ["remark"]:
                continue
            ace = _ace(line, rest, router.dialect is Dialect.FRR)
            if ace is None:
                return None
            found.append((number, ace))
    return [ace for _, ace in sorted(found, key=lambda numbered: numbered[0])] if is_defined else None


def is_defined_access_list(router: Source, name: str) -> bool:
    """Whether a router has an access list of a name."""
    return any(
        stanza.head.words[:2] == ["access-list", name]
        or (stanza.head.words[:2] == ["ip", "access-list"] and stanza.head.words[-1] == name)
        for stanza in router.stanzas
    )


def _ace(line: Line, words: list[str], is_frr: bool) -> Ace | None:
    if words[:1] not in (["permit"], ["deny"]):
        return None
    is_permit, rest = words[0] == "permit", [word for word in words[1:] if word != "log"]
    if is_frr and rest[:1] and (prefix := a_prefix(rest[0])):
        most = prefix.prefixlen if rest[1:] == ["exact-match"] else 32
        return Ace(is_permit, int(prefix.network_address), int(prefix.hostmask), None, line, prefix.prefixlen, most)
    if rest[:1] == ["ip"]:
        source = _bits(rest[1:])
        mask = _bits(rest[1 + source[2] :]) if source else None
        if source is None or mask is None or len(rest) != 1 + source[2] + mask[2]:
            return None
        return Ace(is_permit, source[0], source[1], mask[:2], line)
    source = _bits(rest)
    return Ace(is_permit, source[0], source[1], None, line) if source and source[2] == len(rest) else None


def _bits(words: list[str]) -> tuple[int, int, int] | None:
    """An address, a wildcard, and how many words they took."""
    if words[:1] == ["any"]:
        return 0, ALL, 1
    if words[:1] == ["host"] and words[1:2] and (address := an_address(words[1])):
        return int(address), 0, 2
    if words[:1] and (address := an_address(words[0])):
        wildcard = an_address(words[1]) if words[1:2] else None
        return (int(address), int(wildcard), 2) if wildcard is not None else (int(address), 0, 1)
    return None


def access_permits(aces: list[Ace], prefix: IPv4Network) -> bool:
    """The answer of an access list: its first entry that holds, and the end denies."""
    return next((ace.is_permit for ace in aces if ace.holds(prefix)), False)


@dataclasses.dataclass(frozen=True)
class Rung:
    """An entry of a prefix list."""

    sequence: int
    is_permit: bool
    prefix: IPv4Network
    least: int
    most: int

    def holds(self, prefix: IPv4Network) -> bool:
        """Whether the entry holds for a prefix."""
        return (
            self.least <= prefix.prefixlen <= self.most
            and (int(prefix.network_address) ^ int(self.prefix.network_address)) & int(self.prefix.netmask) == 0
        )


PREFIX_LINE = re.compile(r"ip prefix-list (\S+) seq (\d+) (permit|deny) (\S+/\d+)(?: ge (\d+))?(?: le (\d+))?")


def prefix_list(router: Source, name: str) -> list[Rung] | None:
    """The entries of a prefix list by number; none where it is not defined, or a line has another form."""
    found = []
    for stanza in router.with_head("ip", "prefix-list", name):
        if stanza.head.words[3:4] == ["description"]:
            continue
        match = PREFIX_LINE.fullmatch(" ".join(stanza.head.words))
        prefix = a_prefix(match[4]) if match else None
        if not match or not prefix:
            return None
        least = int(match[5]) if match[5] else prefix.prefixlen
        most = int(match[6]) if match[6] else 32 if match[5] else prefix.prefixlen
        found.append(Rung(int(match[2]), match[3] == "permit", prefix, least, most))
    return sorted(found, key=lambda rung: rung.sequence) or None


def prefix_permits(rungs: list[Rung], prefix: IPv4Network) -> bool:
    """The answer of a prefix list: its first entry that holds, and the end denies."""
    return next((rung.is_permit for rung in rungs if rung.holds(prefix)), False)


def match_holds(router: Source, words: list[str], prefix: IPv4Network, interface: str) -> bool | None:
    """Whether a match line of a route map holds for a prefix, and the interface of a connected one; none where it asks
    for something else, or names a list that is not known."""
    if words[:4] == ["match", "ip", "address", "prefix-list"]:
        lists = [prefix_list(router, name) for name in words[4:]]
        known = [found for found in lists if found is not None]
        return None if len(known) < len(lists) else any(prefix_permits(found, prefix) for found in known)
    if words[:3] == ["match", "ip", "address"]:
        access = [access_list(router, name) for name in words[3:]]
        defined = [found for found in access if found is not None]
        return None if len(defined) < len(access) else any(access_permits(found, prefix) for found in defined)
    if words[:2] != ["match", "interface"] or not interface:
        return None
    return interface in words[2:] or interface.partition(":")[0] in words[2:]
